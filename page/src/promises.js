// A broken promise: what its paths show after the crash, what was promised, and what may stand in.
import { imageOf, shownOn } from "./disk.js";
import { checkCount, checkList, checkObject, checkText, checkTexts, must } from "./form.js";
import { lineBehind, momentWords } from "./moment.js";
import { realPath } from "./real.js";
import { element, view } from "./view.js";
import { below, listOf } from "./words.js";

const BROKEN = /^10 broken promise: line (\d+)$/;
const MOST_PATHS = 4;

/** The promises of a report, and the lines that wait; a script without any has neither. */
export function checkPromises({ promises = [], waits = [], trace }) {
  checkList("promises", promises);
  promises.forEach((one, k) => checkPromise(`promises[${k}]`, one));
  checkList("waits", waits);
  waits.forEach((one, k) => checkWait(`waits[${k}]`, one, trace.length));
}

function checkWait(place, one, patches) {
  checkObject(place, one);
  checkCount(`${place}.line`, one.line, 1);
  checkText(`${place}.step`, one.step);
  checkList(`${place}.ids`, one.ids);
  one.ids.forEach((id, k) => checkCount(`${place}.ids[${k}]`, id, 0, patches - 1));
}

function checkPromise(place, one) {
  checkObject(place, one);
  checkCount(`${place}.line`, one.line, 1);
  const word = one.hold === undefined ? "keep" : "hold", paths = one[word];
  checkTexts(`${place}.${word}`, paths);
  const isFew = paths.length > 0 && paths.length <= MOST_PATHS;
  must(isFew, `${place}.${word}`, `a list of 1 to ${MOST_PATHS} paths`, paths);
  checkTexts(`${place}.shows`, one.shows);
  checkTexts(`${place}.spares`, one.spares);
}

/** What the paths of each broken promise show, by the fault's text. A report says it in the order of the faults. */
export function shownOf(faults, shows) {
  const broken = faults.filter(text => BROKEN.test(text));
  return Object.fromEntries(broken.slice(0, shows?.length ?? 0).map((text, k) => [text, shows[k]]));
}

/** A sentence and a table for each promise that a crash breaks. */
export const drawPromises = choice => choice.faults.flatMap(text => {
  const promise = promiseAt(Number(BROKEN.exec(text)?.[1])), shown = choice.shown?.[text];
  if (!promise || shown === undefined) return [];
  return [element("p", { class: "broken" }, brokenWords(choice, promise, shown)), drawPromise(promise, shown)];
});

/** The line that matters most of what can be looked at: that behind which the power fails, or null without a crash. */
export function lineThatMatters({ faults, set }) {
  const promise = faults.map(text => promiseAt(Number(BROKEN.exec(text)?.[1]))).find(Boolean);
  return promise && view.report.operations ? lineBehind(view.report, set, promise)?.line ?? promise.line : null;
}

/** The promise of a line. A search numbers the lines of its pool, and of these a workload's report has the promises
    alone at their places. */
function promiseAt(line) {
  const promise = view.report.promises?.find(one => one.line === line);
  return promise && view.report.search && wordOf(promise) === "fsync" ? undefined : promise;
}

const pathsOf = promise => promise.hold ?? promise.keep;

function brokenWords({ set }, promise, shown) {
  const parts = partsOf(shown), kinds = parts.map((part, k) => kindOf(part, promise, k));
  const said = listOf(kinds.map((kind, k) => `${realPath(pathsOf(promise)[k])} is ${kind}`));
  const image = view.after ?? view.crash;
  return `${said} if the power fails ${momentWords(view.report, image, set, promise, parts)}.`;
}

function drawPromise(promise, shown) {
  const paths = pathsOf(promise).map(realPath), first = `line ${promise.line}: ${wordOf(promise)}`;
  const draw = (name, words, kind) => drawShown(name, partsOf(words), { promise, paths, kind });
  const allowed = promise.shows.map((words, k) => draw(k ? "or later" : "promised", words));
  return element("table", { class: "promise" },
    element("thead", {}, element("tr", {}, [first, ...paths].map(words => element("th", {}, words)))),
    element("tbody", {}, draw("after the crash", shown, "found"), allowed,
      promise.spares.map(words => drawSpare(words, promise, paths))));
}

/** The word of a promise's line. With --durable an fsync makes the promise of a hold. */
function wordOf({ line, hold }) {
  if (view.report.waits.some(wait => wait.line === line)) return "fsync";
  return hold ? "hold" : "keep";
}

/** What several paths show stands in their order. */
const partsOf = words => words.split(" | ");

/** `/q file 46020000`: a path that stands in for the one that is promised, which can be that one itself. */
function drawSpare(words, promise, paths) {
  const [path, ...rest] = words.split(" "), name = pathsOf(promise).includes(path) ? "or" : `or as ${realPath(path)}`;
  return drawShown(name, [rest.join(" ")], { promise, paths: name === "or" ? paths : [realPath(path)] });
}

/** A row: what each path shows, in a word, and behind it the bytes of its blocks. */
const drawShown = (name, parts, { promise, paths, kind }) => element("tr", { class: kind },
  element("th", { scope: "row" }, name), parts.map((part, k) => element("td", { "data-state": paths[k] },
    kind ? kindOf(part, promise, k) : allowedKind(part, promise, k), ...drawBytes(part))));

/** What is allowed is never torn: a journal that stands in is neither the old file nor the new one. */
function allowedKind(part, promise, k) {
  const kind = kindOf(part, promise, k);
  return kind === "gone" ? "not there" : kind.startsWith("torn") ? "whole" : kind;
}

const bytesIn = part => part.split(" ").slice(1);
const drawBytes = part => bytesIn(part).length ? [" ", element("small", {}, bytesIn(part).join(" "))] : [];

/** What a path shows, in a word: `old` is as before the first operation, and `new` another thing that is allowed. Of a
    file that never was like this it is said of each block. */
function kindOf(part, promise, k) {
  if (part === "nothing") return "gone";
  if (part === "file") return "empty";
  if (part === "directory") return part;
  const path = pathsOf(promise)[k], { report } = view, old = shownOn(report.base, report.root, path);
  const own = promise.spares.filter(words => words.startsWith(`${path} `)).map(words => words.slice(path.length + 1));
  const allowed = [...promise.shows.map(words => partsOf(words)[k]), ...own];
  if (part === old) return "old";
  if (allowed.includes(part)) return "new";
  if (shownBefore(promise.line, path).includes(part)) return "older";
  return `torn (${bytesIn(part).map((bytes, slot) => blockKind(bytes, slot, old, allowed)).join(", ")})`;
}

/** What a path shows before each operation that stands before a line. */
function shownBefore(line, path) {
  const { report } = view, begins = report.operations.filter(one => one.line < line).map(one => one.patches[0].id);
  return begins.map(begin => shownOn(imageOf(report, below(begin)), report.root, path));
}

function blockKind(bytes, slot, old, allowed) {
  if (bytes === "-" || bytes === "wild") return bytes === "-" ? "no block" : "a wild pointer";
  if (bytesIn(old)[slot] === bytes) return "old";
  return allowed.some(words => bytesIn(words)[slot] === bytes) ? "new" : "other data";
}
