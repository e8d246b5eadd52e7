// The head: which script this is, what was run, the ordering, the disk, and the counts.
import { countedWords } from "./clean.js";
import { foundWords } from "./enough.js";
import { realNames } from "./real.js";
import { refusedWords, searchTitle } from "./search.js";
import { actions, byId, element, view } from "./view.js";
import { countOf, quoted, shortened } from "./words.js";

const MOST_LINES = 400, MOST_LETTERS = 200;
const MODULES = { async: "no ordering, as ext2", soft: "soft updates, as FFS",
  meta: "a metadata journal, as ext3 with data=ordered", full: "a full journal, as ext3 with data=journal" };

/** The script's name, or else the report's. */
export const nameNow = () => view.run?.script ?? view.run?.report ?? "a report";

function orderingWords({ module, without, with: added }) {
  return [module, ...without.map(rule => `without ${rule}`), ...added.map(rule => `with ${rule}`)].join(" ");
}

function diskWords({ blocks, journal, root }) {
  const part = journal ? `${journal} of them journal` : "no journal";
  return `${countOf(blocks, "block", "blocks")}, ${part}, data from block ${root}`;
}

/** What the checker also asks for, and which faults alone count, if it does. */
const checkersOf = report =>
  [...["strict", "atomic", "durable"].filter(name => report[name]), countedWords(report)].filter(Boolean);

/** The title of the window: script, result, ordering and size of the disk. */
export function titleNow() {
  const { report } = view, asked = ["", ...checkersOf(report)].join(", ");
  const found = report.search ? searchTitle(report)
    : report.enough ? foundWords(report)
    : report.isDecision ? `${countOf(report.failing, "fault", "faults")} in ${report.closed} sets`
    : `${report.failing} of ${report.closed} sets fail`;
  const disk = report.base ? `, ${diskWords(report)}` : "";
  return `${nameNow()}: ${found} under ${orderingWords(report)}${asked}${disk} - crashmap`;
}

export function drawHead() {
  const { report, run } = view;
  const words = run?.words?.flatMap(word => [" ", element("span", {}, quoted(word))]);
  const command = words && element("code", { id: "command" }, "crashmap", words);
  return element("header", { id: "head" },
    element("h1", {}, "crashmap ", element("span", { id: "name" }, shortened(nameNow(), MOST_LETTERS))),
    drawCounts(report), drawShare(report),
    drawOrdering(report), drawOpener(),
    element("div", { id: "about" }, element("div", {}, command, drawAbout(report)), drawScript()));
}

function drawCounts(report) {
  const fact = (name, value, kind) =>
    element("div", { class: kind }, element("dt", {}, name), element("dd", {}, String(value)));
  const counted = (count, one, many, kind) => fact(count === 1 ? one : many, count, kind);
  const { count, names, isBad } = resultOf(report), { search } = report;
  const sizes = search ? [counted(search.pool, "operation in the pool", "operations in the pool"),
    counted(search.workloads, "workload", "workloads")]
    : [counted(report.trace.length, "patch", "patches"), counted(report.closed, "closed set", "closed sets")];
  return element("dl", {}, fact("module", report.module, "module"), sizes,
    counted(count, ...names, isBad ? "bad" : ""));
}

/** The number that the report is about, and its words for one and for more. */
function resultOf({ enough, about, failing, isDecision, search }) {
  if (search && !enough) {
    return { count: search.failing, names: ["failing workload", "failing workloads"], isBad: search.failing > 0 };
  }
  if (enough?.[0]?.length === 0) return { count: 0, names: about.needed };
  if (enough) return { count: enough.length, names: setsEnough(about), isBad: enough.length === 0 };
  return { count: failing, names: isDecision ? ["fault", "faults"] : ["failing set", "failing sets"],
    isBad: failing > 0 };
}

const setsEnough = ({ many }) => [`set of ${many} is enough`, `sets of ${many} are enough`];

/** How large a part fails, where the report is about that. */
function drawShare({ failing, closed, isDecision, enough, search }) {
  const [part, whole, names] = search ? [search.failing, search.workloads, "workloads"]
    : [isDecision ? 0 : failing, closed, "closed sets"];
  return part && !enough ? element("div", { class: "share", title: `${part} of ${whole} ${names} fail` },
    element("i", { style: `width:${100 * part / whole}%` })) : null;
}

/** What differs from the module's own ordering and checker. */
function drawOrdering(report) {
  const rules = (list, kind, word) => list.map(rule => element("span", { class: `rule ${kind}` }, `${word} ${rule}`));
  return element("div", { class: "rules" }, rules(report.without, "out", "without"), rules(report.with, "in", "with"),
    report.generations && element("span", { class: "rule in" }, "generations"),
    report.wholeBlocks && element("span", { class: "rule in" }, "whole blocks"),
    checkersOf(report).map(word => element("span", { class: "rule in" }, word)));
}

function drawAbout(report) {
  const part = (name, words) => element("span", {}, element("b", {}, `${name} `), words);
  const meaning = MODULES[report.module] ? ` (${MODULES[report.module]})` : "";
  return element("p", { class: "soft" },
    part("Ordering", orderingWords(report).replace(report.module, `${report.module}${meaning}`)),
    report.base ? part("Disk", diskWords(report)) : null,
    part("Checker", checkersOf(report).join(", ") || "the usual one"),
    report.search ? part("Refused", refusedWords(report.search)) : null);
}

function drawOpener() {
  const file = element("input", { type: "file", id: "file", accept: ".json,application/json",
    onchange: event => actions.open(event.target.files[0]) });
  return element("div", { id: "other" }, file, element("label", { for: "file" }, "Open another report"));
}

/* --- the script --- */

function drawScript() {
  const text = view.run?.text;
  if (typeof text !== "string") {
    return element("p", { class: "soft", id: "script" }, "The script's text is not in the report. "
      + "A page that crashmap-page makes has it.");
  }
  const lines = text.replace(/\n$/, "").split("\n"), start = lines.findIndex(line => line === "start");
  const shown = lines.slice(0, MOST_LINES).map((line, k) => drawLine(line, k, start));
  const rest = lines.length > MOST_LINES && element("li", {}, `and ${lines.length - MOST_LINES} more lines`);
  return element("details", { id: "script", open: innerWidth > 820, ontoggle: () => showLine() },
    element("summary", {}, `Script, ${countOf(lines.length, "line", "lines")}`), element("ol", {}, shown, rest));
}

/** The lines before `start` build the disk; the others are what a crash can interrupt. Behind a line of a recorded
    script are the real paths. */
function drawLine(line, k, start) {
  const kind = line.startsWith("#") ? "comment" : k < start ? "base" : k === start ? "begin" : "traced";
  const real = kind === "comment" ? [] : realNames(line);
  return element("li", { class: kind }, shortened(line, MOST_LETTERS),
    real.length ? element("small", {}, shortened(real.join(" "), MOST_LETTERS)) : null);
}

/** The line of the script that was marked last, or null. */
let lineShown = null;

/** Marks a line of the script and brings it into the middle of the panel; if there is none, the line `start` is at its
    top. Without a line it shows the last one again. */
export function showLine(line = lineShown) {
  lineShown = line;
  const list = byId("script")?.querySelector("ol"), items = [...list?.children ?? []];
  items.forEach((item, k) => item.classList.toggle("now", k + 1 === line));
  const first = items[line - 1] ?? list?.querySelector(".begin");
  if (!first) return;
  const room = items[line - 1] ? (list.clientHeight - first.offsetHeight) / 2 : 0;
  list.scrollTop = first.offsetTop - list.offsetTop - room;
}
