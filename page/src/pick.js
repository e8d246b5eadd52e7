// Patches that a person picks: are they closed, and which disk do they leave? The page finds both by itself, from the
// dependencies and the bytes that the report has.
import { isLine, nameOf } from "./about.js";
import { cleanWords } from "./clean.js";
import { runsOf } from "./choosing.js";
import { imageOf, replayChanges } from "./disk.js";
import { graphOf } from "./graph.js";
import { listOf } from "./words.js";

/** So many missing patches are named. */
const MOST_MISSING = 5;

/** The choice for picked patches, under the ordering without these rules and lines. */
export function pickedChoice(report, ids, without = []) {
  const set = [...new Set(ids)].sort((a, b) => a - b), graph = graphOf(report, without);
  const missing = graph.edges.filter(edge => set.includes(edge.to) && !set.includes(edge.from));
  const shared = { label: "Patches that you picked", set, without, isPicked: true, missing };
  if (missing.length) return { ...shared, more: "not closed", faults: [], writes: [], replay: null };
  const replay = replayChanges(report, imageOf(report, set));
  return { ...shared, more: "closed", ...knownFaults(report, set, without), writes: runsOf(report, set), replay };
}

/** The picked patches, and all that they wait for. */
export function closureOf(report, { set, without }) {
  const { before } = graphOf(report, without);
  return [...set, ...set.flatMap(id => [...before[id]])];
}

/** The choices that are on the same patches; each workload of a search has its own. */
const choicesOn = report =>
  report.choices.filter(choice => choice.set && (!choice.report || choice.report === report));

/** No rule changes what a set leaves. A line that waits does: what is promised behind it speaks of fewer sets. */
const isKnownWithout = (choice, without) =>
  !choice.without?.some(one => isLine(one) && !without.includes(one));

/** Whether the disk of a closed set has faults, as far as the report says. */
function knownFaults(report, set, without) {
  const same = choicesOn(report)
    .filter(choice => choice.set?.join() === set.join() && isKnownWithout(choice, without));
  const faults = [...new Set(same.flatMap(choice => choice.faults))];
  const shown = Object.assign({}, ...same.map(choice => choice.shown));
  if (faults.length && ["faults", "enough", "search"].includes(report.asks)) {
    return { faults, shown, verdict: "The report lists this set with what is said above; it can have other faults." };
  }
  if (faults.length) return { faults, shown, verdict: "The report lists this set among those that fail." };
  const clean = `After replay this disk ${cleanWords(report)}`;
  const areAllListed = report.asks === "sets" && report.listed === report.choices.length - 1;
  if (!without.length && (report.failing === 0 || areAllListed)) {
    return { faults, verdict: `${clean}, since the report does not list it as failing.` };
  }
  if (choicesOn(report).some(choice => choice.isEnough && without.every(one => choice.without.includes(one)))) {
    return { faults, verdict: `${clean}, since the report says that these ${report.about.many} are enough.` };
  }
  return { faults,
    verdict: "The page does not check disks, and the report does not say whether this one has faults." };
}

/** What the ordering is without, for a sentence. */
function underWords(report, without) {
  const rules = without.filter(one => !isLine(one)), lines = without.filter(isLine);
  const names = lines.map(line => nameOf(report, line)), wait = names.length === 1 ? "does not wait" : "do not wait";
  return (rules.length ? ` under the ordering without ${listOf(rules)}` : "")
    + (names.length ? ` if ${listOf(names)} ${wait}` : "");
}

/** What the page says of picked patches. */
export function pickedWords(report, { missing, without, verdict }) {
  const under = underWords(report, without);
  if (!missing.length) {
    return `Closed${under}: every patch that a picked one waits for is picked too, so a crash can leave this disk. `
      + `The page worked this out from the dependencies in the report, and replay from the journal. ${verdict}`;
  }
  const rest = missing.length - MOST_MISSING, title = id => `${id} ${report.trace[id].part}`;
  const waits = missing.slice(0, MOST_MISSING)
    .map(({ from, to, why }) => `${title(to)} waits for ${title(from)} (${why.join(", ")})`);
  const all = listOf(rest > 0 ? [...waits, `${rest} more`] : waits);
  return `Not closed${under}, so no crash can leave these patches on the disk: ${all}. `
    + "The page worked this out from the dependencies in the report.";
}
