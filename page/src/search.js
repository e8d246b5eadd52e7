// The report of a search (`--search`, alone or with `--enough`): what it finds of a pool's workloads, and the crash of
// the first workload for each kind of fault, or for each group of rules of which one is needed. The report has no
// patches. `crashmap-page` adds the reports on these workloads, so that the page can show the crash.
import { RULES } from "./about.js";
import { MOST_CHOICES, checkFailing, checkGroup, checkOrdering, checkSet, isOfEnough } from "./check.js";
import { crashOf, wholeRun } from "./choosing.js";
import { cleanDisk } from "./clean.js";
import { enoughHead, foundWords } from "./enough.js";
import { ReportError, checkCount, checkList, checkObject, checkText, checkTexts } from "./form.js";
import { orderingOf, scriptReport } from "./report.js";
import { countOf, listOf } from "./words.js";

const MOST_OPERATIONS = 8;

/* --- the form --- */

function checkSearch(json) {
  checkOrdering(json);
  checkCount("search", json.search, 1, MOST_OPERATIONS);
  checkCount("pool", json.pool, 0);
  checkCount("workloads", json.workloads, 0);
  checkCount("failing", json.failing, 0, json.workloads);
  checkList("refused", json.refused);
  json.refused.forEach((one, k) => checkRefusal(`refused[${k}]`, one));
  if (!isOfEnough(json)) return checkFound("kinds", json, checkKind);
  checkList("enough", json.enough);
  json.enough.slice(0, MOST_CHOICES).forEach((rules, k) => checkTexts(`enough[${k}]`, rules));
  checkFound("needs", json, checkGroup);
}

function checkRefusal(place, one) {
  checkObject(place, one);
  checkCount(`${place}.count`, one.count, 1);
  checkCount(`${place}.number`, one.number, 1);
  checkText(`${place}.text`, one.text);
}

/** The list of what is found, each with the operations of a workload. */
function checkFound(name, json, check) {
  checkList(name, json[name]);
  json[name].slice(0, MOST_CHOICES).forEach((one, k) => {
    check(`${name}[${k}]`, one, json);
    checkTexts(`${name}[${k}].steps`, one.steps);
  });
}

function checkKind(place, one, json) {
  checkFailing(place, one, json);
  checkCount(`${place}.kind`, one.kind, 1);
  checkText(`${place}.name`, one.name);
  checkCount(`${place}.workloads`, one.workloads, 1, json.workloads);
}

/* --- the workloads --- */

const nameOf = steps => steps.join("\n");

/** The operations of a report and its lines that wait, in their order. */
function stepsOf({ operations, waits }) {
  const steps = [...operations, ...waits.map(({ line, step }) => ({ line, text: step }))];
  return steps.sort((one, other) => one.line - other.line).map(({ text }) => text);
}

/** The reports on workloads, by their operations; that on no operation has the disk before each workload. */
function reportsOf(workloads) {
  return new Map(workloads.map(({ steps, report }) => {
    const read = scriptReport(report), traced = stepsOf(read);
    if (nameOf(traced) === nameOf(steps)) return [nameOf(steps), read];
    throw new ReportError(`The report on the workload ${wordsOf(steps)} is on ${wordsOf(traced)}.`);
  }));
}

const wordsOf = steps => steps.join("; ") || "no operation";

/* --- what can be looked at --- */

/** The report in the form that the page works on. Each choice has a report of its own: that on its workload, or where
    none is given the search's, which has no trace. */
export function searchReport(json, workloads) {
  checkSearch(json);
  const reports = reportsOf(workloads), base = reports.get(nameOf([])), shared = sharedOf(json, base);
  for (const report of reports.values()) Object.assign(report, shared);
  const [place, found, choiceOf] = json.kinds ? ["kinds", json.kinds, kindChoice] : ["needs", json.needs, groupChoice];
  const shown = found.slice(0, MOST_CHOICES).map((one, k) => {
    const report = reports.get(nameOf(one.steps)) ?? shared;
    checkSet(`${place}[${k}]`, one, { trace: report.trace, base: report.base });
    return { ...choiceOf(one), ...crashOf(one), steps: one.steps, report };
  });
  const choices = [...ruleChoices(json), ...shown, baseChoice(base)];
  for (const report of [shared, ...reports.values()]) report.choices = choices;
  return base ?? shared;
}

/** What the reports on all workloads share, and the search's own. */
function sharedOf(json, base) {
  const { search: most, pool, workloads, failing, refused, enough } = json;
  const found = json.kinds ?? json.needs, title = json.kinds ? "Kinds of fault" : "Rules that all workloads need";
  const disk = base && { base: base.base, blocks: base.blocks, journal: base.journal, root: base.root };
  return { ...orderingOf(json), ...disk, asks: "search", about: RULES, title, enough,
    listed: found.length + (enough?.length ?? 0), search: { most, pool, workloads, failing, refused } };
}

const kindChoice = ({ kind, name, steps, workloads, faults }) => ({ number: String(kind), label: name,
  more: wordsOf(steps), count: workloads, units: ["workload", "workloads"], faults });

/** The sets of rules that are enough; they come without a crash. */
function ruleChoices({ enough = [] }) {
  return enough.slice(0, MOST_CHOICES).map(rules => ({ label: listOf(rules) || "no rule at all",
    part: enoughHead(rules, enough.length, RULES), faults: [], isEnough: true, off: true }));
}

function groupChoice({ rules, fault, steps }) {
  const without = rules.length === 1 ? "without it" : "without them";
  return { label: listOf(rules, "or"), more: `${wordsOf(steps)}, ${without}: ${fault}`, names: rules,
    without: rules, part: "One rule of each group is needed", faults: [fault] };
}

/** The disk before each workload. */
function baseChoice(base) {
  const words = { label: "No operation", more: "the disk before each workload", faults: [] };
  return base ? { ...wholeRun(base), ...words, report: base } : { ...words, off: true };
}

/* --- words --- */

const workloadsOf = ({ workloads, most }) =>
  `${countOf(workloads, "workload", "workloads")} of up to ${countOf(most, "operation", "operations")}`;

function failWords(search) {
  const { failing } = search;
  return `${failing.toLocaleString("en")} of ${workloadsOf(search)} ${failing === 1 ? "fails" : "fail"}`;
}

/** What is found, for the title of the window. */
export function searchTitle({ search, enough }) {
  if (!enough) return failWords(search);
  const passing = search.failing ? `${(search.workloads - search.failing).toLocaleString("en")} of ` : "";
  return `${foundWords({ enough, about: RULES })} for ${passing}${workloadsOf(search)}`;
}

/** How often operations were refused, and why. */
export const refusedWords = ({ refused }) =>
  refused.map(({ count, text }) => `${count.toLocaleString("en")} ${text}`).join(", ") || "none";

const LEFT_OUT = "A workload that fails is not made longer, so longer ones that begin with it were not tried.";

/** What holds of all workloads together, and what the search leaves out. */
export function searchVerdict(report) {
  const { search, enough } = report;
  if (!search.failing) {
    return `None of ${workloadsOf(search)} fails: after each crash, replay leaves ${cleanDisk(report)}.`;
  }
  const aside = enough ? " These fail under all rules, so they say nothing about the rules. Without --enough the "
    + "report shows them." : "";
  return `${failWords(search)}.${aside} ${LEFT_OUT}`;
}

/** Which crash of which workload a choice shows. */
export function searchSetWords({ names, count }) {
  if (names) return "; the first set with this fault";
  const which = "; the first failing set with such a fault";
  return count > 1 ? `${which}, of the first of ${count.toLocaleString("en")} workloads` : which;
}

/** What a group of rules prevents. */
export function searchNeedsWords({ names }) {
  const [these, them] = names.length === 1 ? [`This rule is needed: ${names[0]}.`, "it"]
    : [`One of these rules is needed: ${listOf(names, "or")}.`, "them"];
  return `${these} Without ${them} this crash is possible. The workload is the first that fails without ${them} and `
    + "does not fail under all rules.";
}
