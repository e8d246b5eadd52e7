// The list of what can be looked at, and what holds of all crashes together.
import { cleanDisk } from "./clean.js";
import { searchVerdict } from "./search.js";
import { actions, byId, choiceNow, choicesNow, element, view } from "./view.js";
import { countOf } from "./words.js";

export function drawChoices() {
  const { report } = view, hadFocus = byId("choices").contains(document.activeElement);
  byId("choices").replaceChildren(element("header", {}, element("h2", {}, report.title)),
    drawVerdict(report), drawCut(report),
    element("ol", { class: "list" }, choicesNow().flatMap(drawChoice)));
  const current = byId("choices").querySelector("[aria-current]");
  if (!current) return;
  scrollInto(current.closest(".list"), current);
  if (hadFocus) current.focus();
}

/** A choice, below a heading where it begins a part of the list. */
function drawChoice(choice, at, choices) {
  const isNow = choice === choiceNow();
  const kind = choice.faults.length ? "bad" : choice.isEnough ? "enough" : "";
  const button = element("button", { class: kind, disabled: choice.off,
    "aria-current": isNow ? "true" : null, onclick: () => actions.choose(at), onkeydown: moveFocus },
  choice.count !== undefined && element("span", { class: "sum" }, countOf(choice.count, ...choice.units)),
  element("b", {}, choice.number ? `${choice.number} ` : "", choice.label),
  choice.more && element("small", {}, choice.more));
  const isFirst = choice.part && choice.part !== choices[at - 1]?.part;
  return [isFirst && element("li", { class: "part" }, choice.part), element("li", {}, button)];
}

const FIRST_WORDS = "This report has the first fault. One made with --decide has every one.";

/** What holds of all crashes together, where the choices do not say it. */
function drawVerdict(report) {
  const { failing, asks } = report;
  if (asks === "search") return drawSearchVerdict(report);
  if (asks === "enough") return failing ? element("p", { class: "verdict" }, FIRST_WORDS) : "";
  return failing === 0 ? element("p", { class: "verdict good" }, nothingFails(report)) : "";
}

const drawSearchVerdict = report =>
  element("p", { class: report.search.failing ? "verdict" : "verdict good" }, searchVerdict(report));

function nothingFails(report) {
  const { closed } = report;
  const crashes = closed === 1 ? "the one crash that is possible" : `each of the ${closed} crashes that are possible`;
  return `None: after ${crashes}, replay leaves ${cleanDisk(report)}.`;
}

/** A list that is too long to look through. */
function drawCut({ listed, choices, title, asks, enough, about }) {
  const shown = choices.length - 1;
  if (listed <= shown) return "";
  const advice = asks === "sets" ? " A report made with --decide has each fault once." : "";
  const names = enough ? `sets and groups of ${about.many}` : title.toLowerCase();
  const part = enough ? `${shown.toLocaleString("en")} of them` : `the first ${shown}`;
  return element("p", { class: "verdict cut" }, `This report lists ${listed.toLocaleString("en")} `
    + `${names}, and the page shows ${part}.${advice}`);
}

/** The arrow keys go through a list. */
export function moveFocus(event) {
  const way = { ArrowUp: -1, ArrowDown: 1 }[event.key];
  if (!way) return;
  event.preventDefault();
  const all = [...event.target.closest(".list").querySelectorAll("button:not(:disabled)")];
  const next = all[all.indexOf(event.target) + way];
  next?.click();
  next?.focus();
}

export function scrollInto(list, child) {
  const top = child.offsetTop - list.offsetTop, bottom = top + child.offsetHeight;
  if (top < list.scrollTop) list.scrollTop = top - 8;
  else if (bottom > list.scrollTop + list.clientHeight) list.scrollTop = bottom - list.clientHeight + 40;
}
