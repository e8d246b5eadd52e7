// What a person can choose to look at in a report: faults or failing sets, and the run without a crash. A choice has
// words, its patches with their block writes, and the rules and lines that its ordering is without.
import { MOST_CHOICES } from "./check.js";
import { shownOf } from "./promises.js";
import { bytesOf } from "./words.js";

/** The choices in their order, with a title; the run without a crash comes last. */
export function choicesOf(json, report) {
  const [title, all, choiceOf, asks] = json.faults ? ["Faults", json.faults, faultChoice, "faults"]
    : ["Failing sets", json.failing, setChoice, "sets"];
  const choices = all.slice(0, MOST_CHOICES).map(choiceOf);
  return { title, asks, listed: all.length, choices: [...choices, wholeRun(report)] };
}

const changesOf = replay => (replay ?? []).map(({ block, bytes }) => ({ block, bytes: bytesOf(bytes) }));
export const crashOf = one => ({ set: one.set, writes: one.writes, replay: changesOf(one.replay),
  shown: shownOf(one.faults ?? [one.fault], one.shows) });

export const faultChoice = one => ({ ...faultWords(one.fault), faults: [one.fault], ...crashOf(one) });

const setChoice = one =>
  ({ label: `set ${one.set.join(" ")}`, more: one.faults.join("; "), faults: one.faults, ...crashOf(one) });

/** `1 dangling entry: directory 0 entry 0 inode 1` in its three parts. */
function faultWords(text) {
  const [, number, name, where] = /^(\d+) ([^:]*): (.*)$/.exec(text) ?? [null, "", text, ""];
  return { label: name, number, more: where };
}

/** Every patch on disk, with no crash; each step of it is one that a crash can leave. */
export function wholeRun(report) {
  const all = report.trace.map(patch => patch.id);
  return { label: "No crash", more: "every patch on disk", faults: [], set: all, writes: runsOf(report, all),
    replay: null, isWhole: true };
}

/** Ascending ids cut into longest runs of one block. */
export function runsOf(report, ids) {
  const runs = [];
  for (const id of ids) {
    const { block } = report.trace[id];
    if (runs.at(-1)?.block === block) runs.at(-1).patches.push(id);
    else runs.push({ block, patches: [id] });
  }
  return runs;
}
