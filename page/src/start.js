// The start: the report in the page, or one that is dropped or chosen; keys; the place that the address names.
import { ReportError } from "./form.js";
import { drawPage } from "./page.js";
import { pickedChoice } from "./pick.js";
import { showWindow } from "./picture.js";
import { readReport } from "./reading.js";
import { realPaths } from "./real.js";
import { actions, byId, element, view } from "./view.js";
import { shortened } from "./words.js";

const MOST_LETTERS = 400;

/** Asks for a report; says what is wrong with the last one. */
function drawDrop(error) {
  const problem = error && element("p", { class: "error", role: "alert" }, shortened(error, MOST_LETTERS));
  byId("page").replaceChildren(element("main", { id: "drop" }, element("h1", {}, "crashmap"), problem,
    element("p", {}, "Drop a report here, or choose its file."),
    element("input", { type: "file", accept: ".json,application/json", "aria-label": "Report",
      onchange: event => actions.open(event.target.files[0]) }),
    element("p", { class: "soft" }, "A report is what ",
      element("code", {}, "crashmap SCRIPT --json --explain --decide"), " prints, or what it prints with ",
      element("code", {}, "--enough"), " or ", element("code", {}, "--search N"), " in place of ",
      element("code", {}, "--decide"), ", or without any of them.")));
  document.title = error ? "crashmap: this report cannot be shown" : "crashmap";
}

/** Shows a report, or says why it cannot be shown. `run` says where it is from. */
function show(text, run) {
  Object.assign(view, { report: null, run, real: realPaths(run?.text), picked: null });
  try {
    view.report = readReport(text, run);
    readPicked();
    drawPage();
  } catch (error) {
    view.report = null;
    drawDrop(wordsOf(error, run));
  }
}

function wordsOf(error, run) {
  const from = run?.report ?? run?.script, words = error instanceof ReportError ? error.message
    : `The page cannot show this report: ${error.message}.`;
  return from ? `${shortened(from, 100)}: ${words}` : words;
}

async function openFile(file) {
  if (!file) return;
  history.replaceState(null, "", "#");
  view.choice = 0;
  view.step = undefined;
  const text = await file.text().catch(() => null);
  if (text === null) drawDrop(`${shortened(file.name, 100)}: This file cannot be read.`);
  else show(text, { report: file.name });
}

/* --- the address --- */

const addressWords = () => new URLSearchParams(location.hash.slice(1));

/** `#choice=1&step=3` names what is looked at, so that a page's address can be handed on. */
function readAddress() {
  const words = addressWords();
  const number = name => words.has(name) ? Number(words.get(name)) || 0 : undefined;
  view.choice = number("choice") ?? 0;
  view.step = number("step");
}

/** `#set=0+2` names picked patches, each `&rule=..` or `&line=..` a rule or a line that waits that the ordering is
    looked at without, and `&of=1` the choice of a search whose workload they are of. */
function readPicked() {
  const words = addressWords(), { choices } = view.report;
  if (!words.has("set")) return;
  const ids = words.get("set").split(" ").filter(Boolean).map(Number);
  const report = choices[Number(words.get("of"))]?.report ?? view.report;
  if (!report.trace || !ids.every(id => report.trace[id])) return;
  const lines = report.waits.map(wait => wait.line).filter(line => words.getAll("line").includes(String(line)));
  view.picked = { ...pickedChoice(report, ids, [...words.getAll("rule"), ...lines]), report };
  view.choice = choices.length;
}

/* --- keys and files --- */

function moveStep(event) {
  if (!view.report || event.ctrlKey || event.metaKey || event.altKey || event.target.matches("input")) return;
  const step = { ArrowLeft: view.step - 1, ArrowRight: view.step + 1, Home: 0, End: Infinity }[event.key];
  if (step === undefined) return;
  event.preventDefault();
  actions.goTo(step);
}

function start() {
  const over = isOver => document.body.classList.toggle("over", isOver);
  actions.open = openFile;
  addEventListener("keydown", moveStep);
  addEventListener("dragover", event => { event.preventDefault(); over(true); });
  addEventListener("dragleave", () => over(false));
  addEventListener("drop", event => { event.preventDefault(); over(false); openFile(event.dataTransfer.files[0]); });
  addEventListener("resize", () => { if (view.report) showWindow(); });
  readAddress();
  const run = JSON.parse(byId("run").textContent), given = byId("report").textContent;
  if (run || given.trim()) show(given, run); else drawDrop();
}

start();
