// The report of a script as `crashmap --json --explain` prints it (also with `--decide` or `--enough`), brought into the
// one form that the page works on: the patches with their bytes, the script's operations, and what a person can choose
// to look at.
import { aboutOf } from "./about.js";
import { checkReport, isDecision, isOfEnough } from "./check.js";
import { choicesOf } from "./choosing.js";
import { JOURNAL_START, explainPatches } from "./disk.js";
import { enoughChoices } from "./enough.js";
import { bytesOf } from "./words.js";

/** Throws a `ReportError` where this is no report, or one that does not say what its patches are. `words` are those
    that the program was run with, where they are known. */
export function scriptReport(json, words) {
  checkReport(json);
  const base = json.base.map(bytesOf), [, blocks, journal] = base[0];
  const trace = json.trace.map((patch, id) =>
    ({ ...patch, id, bytes: bytesOf(patch.new), undo: bytesOf(patch.undo) }));
  const report = {
    ...orderingOf(json), closed: numberOf(json.closed), isDecision: isDecision(json), failing: failingOf(json),
    enough: json.enough, about: isOfEnough(json) ? aboutOf(json, words) : null, promises: json.promises ?? [],
    waits: json.waits ?? [], base, blocks, journal, root: JOURNAL_START + journal, trace,
  };
  Object.assign(report, operationsOf(trace));
  explainPatches(report);
  return Object.assign(report, isOfEnough(json) ? enoughChoices(json, report) : choicesOf(json, report));
}

/** The ordering, and what else the checker and the disk were asked for. */
export function orderingOf(json) {
  return { module: json.module, without: json.without ?? [], with: json.with ?? [], strict: json.strict ?? false,
    atomic: json.atomic ?? false, durable: json.durable ?? false, counted: json.counted,
    generations: json.generations ?? false, wholeBlocks: json.whole_blocks ?? false };
}

/** A number of closed sets, which a decision writes as a text since it can have 38 digits. */
function numberOf(closed) {
  const exact = BigInt(closed);
  return exact <= Number.MAX_SAFE_INTEGER ? Number(exact) : exact;
}

/** The number of failing sets; where it is not known, the number of faults that the report has. */
function failingOf(json) {
  if (isOfEnough(json)) return json.first === undefined ? 0 : 1;
  return isDecision(json) ? json.faults.length : json.failing.length;
}

/** The script's operations with their patches, and for each journal block the block that it is a copy of. */
function operationsOf(trace) {
  const operations = [], copyTarget = new Map();
  for (const patch of trace) {
    if (operations.at(-1)?.line !== patch.line) operations.push({ line: patch.line, text: patch.step, patches: [] });
    operations.at(-1).patches.push(patch);
    patch.operation = operations.length - 1;
  }
  for (const { patches } of operations) {
    const commit = patches.find(patch => patch.part === "Commit");
    const copies = patches.filter(patch => patch.part === "Copy");
    copies.forEach((copy, m) => copyTarget.set(copy.block, commit?.bytes[3 + m]));
  }
  return { operations, copyTarget };
}
