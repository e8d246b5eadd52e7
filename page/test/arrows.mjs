// The arrows that a graph must have, said from the report alone.

/** The arrows that no longer way through the graph implies. */
export function reduction(trace) {
  const after = trace.map(patch => patch.after.map(one => one.patch));
  const all = after.map(() => new Set());
  after.forEach((mine, q) => mine.forEach(p => [p, ...all[p]].forEach(r => all[q].add(r))));
  return after.flatMap((mine, q) => mine.filter(p => !mine.some(r => all[r].has(p))).map(p => `${p} ${q}`)).sort();
}

/** What these arrows say, each of them `p q` where patch q waits for patch p. */
export function reasonsOf(trace, edges) {
  const title = id => `${id} ${trace[id].part}`;
  return edges.map(edge => edge.split(" ").map(Number)).map(([p, q]) => {
    const { why } = trace[q].after.find(one => one.patch === p);
    return `${title(q)} waits for ${title(p)}: ${why.join(", ")}`;
  }).sort();
}

/** The patches as they wait without these rules. */
export const traceWithout = (trace, rules) => trace.map(patch => ({ ...patch, after: patch.after
  .map(one => ({ ...one, why: one.why.filter(why => !rules.includes(why)) })).filter(one => one.why.length) }));

/** Whether every patch that one of the set waits for is in the set. */
export const isClosed = (trace, set) => set.every(id => trace[id].after.every(({ patch }) => set.includes(patch)));
