// The block writes as steps.
import { moveFocus, scrollInto } from "./choices.js";
import { imageOf, replayCopies } from "./disk.js";
import { actions, byId, choiceNow, element, view } from "./view.js";

export function drawSteps() {
  const choice = choiceNow(), { trace } = view.report;
  const words = write => write.patches.map(id => `${id} ${trace[id].part}: ${trace[id].meaning}`);
  const steps = choice.writes.map((write, k) => drawStep(k + 1, `block ${write.block}`, words(write)));
  const end = choice.replay && element("li", { class: "end" }, "Crash. ", replayWords(view.report, choice));
  const isCrash = choice.faults.length || choice.replay;
  byId("steps").replaceChildren(element("header", {}, element("h2", {}, "Block writes"),
    element("span", { class: "key" }, isCrash ? `${steps.length}, then the crash` : String(steps.length))),
    element("ol", { class: "list" }, drawStep(0, "base", []), steps, end));
}

function drawStep(at, name, words) {
  const button = element("button", { "data-step": at, onclick: () => actions.goTo(at), onkeydown: moveFocus },
    element("span", { class: "no" }, String(at)),
    element("span", {}, element("b", {}, name), words.map(word => element("small", {}, word))));
  return element("li", {}, button);
}

function replayWords(report, choice) {
  const words = copyWords(report, imageOf(report, choice.set));
  if (!words) return "Replay has nothing to copy.";
  const changed = choice.replay.map(one => one.block);
  const change = changed.length ? `block${changed.length > 1 ? "s" : ""} ${changed.join(", ")}` : "nothing";
  return `Replay copies blocks ${words}; this changes ${change}.`;
}

/** `5 → 2, 6 → 17`, the copies that replay makes on an image; empty where it makes none. */
export const copyWords = (report, image) =>
  replayCopies(report, image).map(({ from, to }) => `${from} \u2192 ${to}`).join(", ");

/** Marks the step that is looked at. */
export function paintSteps() {
  for (const button of byId("steps").querySelectorAll("button")) {
    const at = Number(button.dataset.step), isNow = at === view.step;
    if (isNow) button.setAttribute("aria-current", "step"); else button.removeAttribute("aria-current");
    button.classList.toggle("later", at > view.step);
    if (isNow) scrollInto(button.closest(".list"), button);
  }
}
