// The frame of the page, and what a person can do: look at a choice, go to a step, pick patches.
import { isLine } from "./about.js";
import { drawChoices } from "./choices.js";
import { imageOf, replayedImage } from "./disk.js";
import { patchesNamed, placesNamed } from "./faults.js";
import { drawHead, showLine, titleNow } from "./head.js";
import { pickedChoice } from "./pick.js";
import { drawGraph, paintGraph } from "./picture.js";
import { drawPlain } from "./plain.js";
import { lineThatMatters } from "./promises.js";
import { drawSteps, paintSteps } from "./steps.js";
import { drawDisk } from "./tables.js";
import { actions, byId, choiceNow, choicesNow, element, idsAt, view } from "./view.js";

export function drawPage() {
  const card = (tag, id, label) => element(tag, { id, class: "card", "aria-label": label });
  byId("page").replaceChildren(drawHead(), element("main", { id: "main" },
    element("div", { id: "side" }, card("nav", "choices", view.report.title), card("section", "steps", "Block writes")),
    element("div", { id: "work" }, card("section", "graph", "Patch graph"), card("section", "disk", "Disk"))));
  document.title = titleNow();
  choose(view.choice, view.step);
}

/** Looks at a choice, at a step of its block writes (the last where none is named). A search may have no choice with a
    crash, and may lack the patches of a workload. */
function choose(at, step) {
  const choices = choicesNow();
  view.choice = choices[at]?.set ? at : choices.findIndex(choice => choice.set);
  view.report = choiceNow()?.report ?? view.report;
  if (view.report.trace) choosePatches(step); else chooseWithoutPatches();
}

function chooseWithoutPatches() {
  view.step = 0;
  drawChoices();
  drawPlain();
  history.replaceState(null, "", addressNow());
}

function choosePatches(step) {
  const { report } = view, choice = choiceNow();
  for (const id of ["graph", "steps", "disk"]) byId(id).hidden = false;
  view.step = Math.min(Math.max(step ?? choice.writes.length, 0), choice.writes.length);
  view.block = view.stripAt = null;
  view.crash = imageOf(report, choice.set);
  view.after = choice.replay ? replayedImage(view.crash, choice.replay) : null;
  view.places = placesNamed(report, view.after ?? view.crash, choice.faults);
  view.named = choice.missing?.length ? new Set(choice.missing.map(edge => edge.from))
    : patchesNamed(report, choice, view.places);
  drawChoices();
  drawGraph();
  drawSteps();
  showLine(report.search ? null : lineThatMatters(choice));
  goTo(view.step);
}

/** Shows the disk after a number of block writes. */
function goTo(step) {
  if (!view.report.trace) return;
  view.step = Math.min(Math.max(step, 0), choiceNow().writes.length);
  paintSteps();
  paintGraph();
  drawDisk();
  history.replaceState(null, "", addressNow());
}

/** Puts a patch on the disk that is looked at, or takes it off. */
function pick(id) {
  const { isPicked, set, without } = choiceNow(), before = isPicked ? set : idsAt(view.step);
  pickAll(before.includes(id) ? before.filter(one => one !== id) : [...before, id], without);
}

/** Looks at these patches, under the ordering without these rules and lines. */
function pickAll(ids, without) {
  const { report } = view;
  view.picked = { ...pickedChoice(report, ids, without), report };
  choose(report.choices.length);
}

function addressNow() {
  const { isPicked, set, without } = choiceNow() ?? {}, words = new URLSearchParams(), { report } = view;
  if (isPicked) words.set("set", set.join(" ")); else words.set("choice", view.choice);
  if (isPicked) for (const one of without) words.append(isLine(one) ? "line" : "rule", one);
  if (isPicked && report.search) words.set("of", report.choices.findIndex(choice => choice.report === report));
  words.set("step", view.step);
  return `#${words}`;
}

Object.assign(actions, { choose, goTo, pick, pickAll });
