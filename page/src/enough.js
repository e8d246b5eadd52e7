// What is enough (`--enough`) of the rules, or of the lines that wait: what can be looked at, and the words for it.
import { nameOf } from "./about.js";
import { MOST_CHOICES } from "./check.js";
import { crashOf, faultChoice, wholeRun } from "./choosing.js";
import { cleanDisk } from "./clean.js";
import { listOf } from "./words.js";

/** The sets that are enough, the groups of which one is needed, and the whole ordering. Where that is not enough, there
    are no sets and no groups, and a fault that it leaves. */
export function enoughChoices({ enough, needs, first }, report) {
  const { one, many, isNeeded, title, whole } = report.about;
  const sets = enough.slice(0, MOST_CHOICES).map(some => enoughChoice(some, report));
  const groups = needs.slice(0, MOST_CHOICES).map(group => groupChoice(group, report));
  const isAlone = choice => choice.names.length === 1;
  const alone = inPart(groups.filter(isAlone), `This ${one} ${isNeeded}`, `Each of these ${many} ${isNeeded}`);
  const others = inPart(groups.filter(choice => !isAlone(choice)), `One of these ${many} ${isNeeded}`,
    `One ${one} of each group ${isNeeded}`);
  const part = `${whole} ${first ? "not " : ""}enough`, fault = first ? [faultChoice(first)] : [];
  const rest = [...fault, wholeRun(report)].map(choice => ({ ...choice, part }));
  return { title, asks: "enough", listed: enough.length + needs.length + fault.length,
    choices: [...sets, ...alone, ...others, ...rest] };
}

/** The run without a crash, under these rules and no other, or where only these lines wait. */
function enoughChoice(some, report) {
  const { about } = report, names = some.map(one => nameOf(report, one));
  return { ...wholeRun(report), label: listOf(names) || about.noneAtAll, more: "", names, isEnough: true,
    part: enoughHead(some, report.enough.length, about),
    without: about.allIn(report).filter(one => !some.includes(one)) };
}

export function enoughHead(some, count, { one, many, none }) {
  if (count > 1) return `Each of these ${count} sets of ${many} is enough`;
  if (some.length === 0) return none;
  return some.length === 1 ? `This ${one} is enough` : `These ${many} are enough`;
}

/** The crash that comes without a group. */
function groupChoice(group, report) {
  const without = group.rules ?? group.syncs, names = without.map(one => nameOf(report, one));
  return { label: listOf(names, "or"), more: `without ${names.length === 1 ? "it" : "them"}: ${group.fault}`, names,
    without, faults: [group.fault], ...crashOf(group) };
}

const inPart = (choices, one, many) => choices.map(choice => ({ ...choice, part: choices.length === 1 ? one : many }));

/* --- words --- */

/** What is found, for the title of the window. */
export function foundWords({ enough, about: { many, none, notEnough } }) {
  if (!enough.length) return notEnough;
  if (!enough[0].length) return none.toLowerCase();
  return enough.length === 1 ? `1 set of ${many} is enough` : `${enough.length} sets of ${many} are enough`;
}

/** What a set is enough for, or what a group prevents. */
export const enoughWords = ({ names, isEnough }, report) =>
  isEnough ? setWords(names, report, cleanDisk(report)) : groupWords(names, report.about, cleanDisk(report));

function setWords(names, { about: { one, many, alone, withNone }, module }, clean) {
  const isOne = names.length === 1;
  if (!names.length) return withNone(clean, module);
  const smaller = isOne ? "" : "No smaller part of them is enough. ";
  return `${isOne ? `This ${one} is` : `These ${many} are`} enough: ${listOf(names)}. ${alone(isOne)}, replay leaves `
    + `${clean} after every crash. ${smaller}The graph has no arrow of another ${one}.`;
}

function groupWords(names, { one, many, isNeeded, withoutIt, withoutThem }, clean) {
  if (names.length === 1) return `This ${one} ${isNeeded}: ${names[0]}. ${withoutIt}`;
  return `One of these ${many} ${isNeeded}: ${listOf(names, "or")}. ${withoutThem}, replay leaves ${clean} after every `
    + "crash.";
}
