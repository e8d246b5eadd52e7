// A crash of a search's workload whose patches the page does not have: the words of the report alone.
import { drawFacts } from "./facts.js";
import { byId, choiceNow, element } from "./view.js";
import { listOf } from "./words.js";

const NO_PATCHES = "The report of a search does not say what the patches of a workload are. A page that crashmap-page "
  + "makes shows them.";

/** The block writes by their patches' numbers, and what is said of the crash. */
export function drawPlain() {
  const choice = choiceNow();
  byId("graph").hidden = true;
  for (const id of ["steps", "disk"]) byId(id).hidden = !choice;
  if (!choice) return;
  byId("steps").replaceChildren(element("header", {}, element("h2", {}, "Block writes")),
    element("ol", { class: "list" }, choice.writes.map(drawWrite)));
  byId("disk").replaceChildren(element("header", {}, element("h2", {}, "Crash")),
    element("div", { class: "facts" }, drawFacts(choice), element("p", { class: "soft" }, NO_PATCHES)));
}

function drawWrite({ block, patches }) {
  const names = patches.map(String), noun = names.length === 1 ? "patch" : "patches";
  return element("li", { class: "write" }, element("b", {}, `block ${block}`),
    element("small", {}, `${noun} ${listOf(names)}`));
}
