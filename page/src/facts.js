// What is said of the disk that is looked at: its faults, which set this is, and what is known of it.
import { cleanWords } from "./clean.js";
import { enoughWords } from "./enough.js";
import { isHalfDone, meaningsOf } from "./faults.js";
import { halvesWords } from "./halves.js";
import { pickedWords } from "./pick.js";
import { drawPromises } from "./promises.js";
import { searchNeedsWords, searchSetWords } from "./search.js";
import { copyWords } from "./steps.js";
import { element, view } from "./view.js";

/** The faults with what they mean, and which set this is. A search's workload may come without states. */
export function drawFacts(choice, states) {
  const said = (kind, words) => element("p", { class: kind }, words);
  return [choice.names ? said("needed", neededWords(choice)) : null,
    choice.steps ? said("workload", `Workload: ${choice.steps.join("; ")}`) : null,
    ...choice.faults.map(text => said("fault", `Fault ${text}`)),
    ...meaningsOf(choice.faults).map(words => said("meaning", words)),
    ...halvesOf(choice).map(words => said("half", words)),
    ...drawPromises(choice),
    choice.faults.length || choice.isPicked ? said("which", setWords(choice)) : null,
    choice.isPicked ? said("picked", pickedWords(view.report, choice)) : null,
    choice.isWhole && view.report.trace?.length ? said("walk", walkWords(states)) : null];
}

/** What is enough, or what a group prevents. */
const neededWords = choice => view.report.search ? searchNeedsWords(choice) : enoughWords(choice, view.report);

/** Where an operation is half done: which one. */
function halvesOf(choice) {
  const words = isHalfDone(choice.faults) && view.report.trace && halvesWords(view.report, view.after ?? view.crash);
  return words ? [words] : [];
}

/** What a crash at this step of the run without a crash would leave. */
function walkWords(states) {
  const { report } = view, copies = copyWords(report, states[1].image);
  const clean = report.failing === 0
    ? `After replay the disk ${cleanWords(report)} at each step, since no closed set fails. ` : "";
  const replay = !report.journal ? "" : copies ? `After a crash here, replay copies blocks ${copies}. `
    : "After a crash here, replay has nothing to copy. ";
  const own = report.journal ? "The page worked replay out from the journal." : "";
  return `A crash can stop the run at each of these steps. ${clean}${replay}${own}`.trim();
}

function setWords(choice) {
  return `Patches on disk: ${choice.set.length ? choice.set.join(" ") : "none"}${whichWords(choice)}`;
}

/** Which one of several sets this is. */
function whichWords({ isPicked, names, count }) {
  if (isPicked) return "";
  if (view.report.search) return searchSetWords({ names, count });
  return view.report.asks === "sets" ? "" : "; the first set with this fault";
}
