// What `--enough` is about: the rules of the ordering, or with `--syncs` the script's lines that wait. The words for
// each, and for a report that does not say which it is.
import { realLine } from "./real.js";

/** Rules, which go by their names. */
export const RULES = {
  one: "rule", many: "rules", title: "Rules that are enough", isNeeded: "is needed", none: "No rule is needed",
  noneAtAll: "no rule at all", needed: ["rule is needed", "rules are needed"],
  whole: "All rules together are", notEnough: "the rules are not enough",
  withNone: clean => `No rule is needed: without any rule, replay leaves ${clean} after every crash. `
    + "The graph has no arrow of a rule.",
  alone: isOne => `With ${isOne ? "it" : "them"} and no other rule`,
  withoutIt: "Without it this crash is possible, even with all other rules of the ordering.",
  withoutThem: "Without all of them this crash is possible. With any one of them and the rest of the ordering",
  allIn: report => [...new Set(report.trace.flatMap(patch => patch.after.flatMap(one => one.why)))]
    .filter(why => why.includes(":")),
};

/** For which file systems with a metadata journal an answer holds. */
const AT_ONCE = "That is so on a file system which allocates a block when it is written, as ext3 does. XFS and ext4 "
  + "allocate blocks later, and crashmap-judge asks about them too. ";

/** Lines that wait, which go by their numbers. */
const LINES = {
  one: "line", many: "lines", title: "Lines that have to wait", isNeeded: "has to wait", none: "No line has to wait",
  noneAtAll: "no line at all", needed: ["line has to wait", "lines have to wait"],
  whole: "All lines together are", notEnough: "the lines are not enough",
  withNone: (clean, module) => `No line has to wait: if none waits, replay leaves ${clean} after every crash. `
    + `${module === "meta" ? AT_ONCE : ""}The graph has no arrow of a line.`,
  alone: isOne => `If only ${isOne ? "it waits" : "they wait"}`,
  withoutIt: "Without it this crash is possible, even if all the other lines wait.",
  withoutThem: "If none of them waits, this crash is possible. If any one of them and all the other lines wait",
  allIn: report => report.waits.map(wait => wait.line),
};

/** A report names neither where nothing is needed, and where all together are not enough. */
const EITHER = {
  ...RULES, one: "rule or line", many: "rules or lines", title: "What is enough", none: "Nothing is needed",
  noneAtAll: "nothing at all", needed: ["needed", "needed"],
  whole: "The whole ordering is", notEnough: "the whole ordering is not enough",
  withNone: clean => `Nothing is needed: replay leaves ${clean} after every crash. The report does not say whether it `
    + "is about rules or about lines that wait, so the graph has every arrow.",
  allIn: () => [],
};

/** An ordering can be without rules, which are texts, and without lines, which are numbers. */
export const isLine = one => typeof one === "number";

/** Whether a report names lines. */
export const isOfLines = ({ enough, needs }) => isLine(enough[0]?.[0]) || needs[0]?.syncs !== undefined;

/** What a report is about. Where it names nothing, the words that the program was run with say it, if known. */
export function aboutOf(json, words) {
  if (isOfLines(json)) return LINES;
  if (json.enough[0]?.length || json.needs.length) return RULES;
  if (!words) return EITHER;
  const end = words.indexOf("--");
  return words.slice(0, end < 0 ? words.length : end).includes("--syncs") ? LINES : RULES;
}

/** The name of a rule as it is, or a line's number and its words. */
export function nameOf(report, one) {
  const wait = report.waits.find(({ line }) => line === one);
  return wait ? `line ${one} ${realLine(wait.step)}` : one;
}
