// The disk before the crash, at a step of the block writes, and after replay: a strip of blocks, and places in words.
import { AREAS, JOURNAL_START, areaOf, cellWords, imageOf, isBlank, pathOf, phrasesOf, replayChanges, replayedImage,
  rowsOf, sameBytes } from "./disk.js";
import { drawFacts } from "./facts.js";
import { closureOf, pickedWords } from "./pick.js";
import { realPath } from "./real.js";
import { actions, byId, choiceNow, element, idsAt, view } from "./view.js";
import { below } from "./words.js";

/** The states of the disk, each with its image and the image that it is compared with. */
function statesNow() {
  const choice = choiceNow(), { base } = view.report, isLast = view.step === choice.writes.length;
  const middle = isLast ? (choice.replay ? "crash image" : "at the end")
    : view.step ? `after write ${view.step}` : "at first";
  const states = [{ name: "base", image: base, before: base },
    { name: middle, image: imageOf(view.report, idsAt(view.step)), before: base }];
  if (view.after) states.push({ name: "after replay", image: view.after, before: view.crash, early: !isLast });
  if (choice.isWhole && view.report.journal) states.push(replayHere(states[1].image));
  return states;
}

/** What replay makes of a crash at this step of the run without a crash. */
function replayHere(image) {
  return { name: "after replay", image: replayedImage(image, replayChanges(view.report, image)), before: image };
}

export function drawDisk() {
  const choice = choiceNow(), states = statesNow();
  if (choice.missing?.length) return drawNoDisk(choice);
  const every = element("label", {}, element("input", { type: "checkbox", checked: view.every,
    onchange: event => { view.every = event.target.checked; drawDisk(); } }), "every place");
  const keepScroll = event => { view.stripAt = event.target.scrollLeft; };
  byId("disk").replaceChildren(element("header", {}, element("h2", {}, "Disk"), drawBar(choice), every),
    element("div", { class: "scroll", onscroll: keepScroll }, drawStrip(states)),
    element("div", { class: "facts" }, drawFacts(choice, states), drawWords(states)));
  showStrip();
}

/** Picked patches that are not closed leave no disk. */
function drawNoDisk(choice) {
  byId("disk").replaceChildren(element("header", {}, element("h2", {}, "Disk")),
    element("div", { class: "facts" }, element("p", { class: "picked open" }, pickedWords(view.report, choice)),
      element("button", { id: "close", onclick: () => actions.pickAll(closureOf(view.report, choice), choice.without) },
        "Pick what they wait for too")));
}

/* --- steps --- */

function drawBar(choice) {
  const { trace } = view.report, write = choice.writes[view.step - 1], last = choice.writes.length;
  const words = write ? `block ${write.block}: ${write.patches.map(id => `${id} ${trace[id].part}`).join(", ")}`
    : "the base, before any write";
  return element("div", { id: "bar" }, barButton("Back", view.step - 1, view.step === 0, "ArrowLeft"),
    barButton("Next", view.step + 1, view.step === last, "ArrowRight"),
    element("output", {}, element("b", {}, `${view.step} of ${last}`), ` \u00b7 ${words}`));
}

function barButton(name, step, disabled, key) {
  return element("button", { disabled, "data-bar": name, "aria-keyshortcuts": key,
    onclick: () => { actions.goTo(step); focusBar(name); } }, name);
}

function focusBar(name) {
  const button = document.querySelector(`[data-bar=${name}]`);
  (button.disabled ? document.querySelector("#bar button:not(:disabled)") : button)?.focus();
}

/* --- the strip of blocks --- */

/** The strip stays where it was scrolled; at first the last place that the fault names is in view. */
function showStrip() {
  const scroll = byId("disk").querySelector(".scroll"), named = [...scroll.querySelectorAll(".number.named")].at(-1);
  const first = named ? named.offsetLeft - scroll.offsetLeft + 70 - scroll.clientWidth : 0;
  scroll.scrollLeft = view.stripAt ?? first;
}

/** Blocks with something in them in some state; runs of others become one cell. */
function cellsOf(states) {
  const cells = [];
  view.report.base.forEach((_, block) => {
    const isUsed = block < JOURNAL_START || states.some(state => !isBlank(state.image[block]))
      || view.places.some(place => place.block === block);
    const last = cells.at(-1), area = areaOf(view.report, block);
    if (!isUsed && last?.empty && last.area === area) last.to = block;
    else cells.push({ block, to: block, empty: !isUsed, area });
  });
  return cells;
}

function drawStrip(states) {
  const cells = cellsOf(states), named = new Set(view.places.map(place => place.block));
  const areas = AREAS.map(area => {
    const first = cells.findIndex(cell => cell.area === area), count = cells.filter(cell => cell.area === area).length;
    return count && element("div", { class: "area", style: `--i:${first};--n:${count};--s:0` }, area);
  });
  const heads = states.map((state, s) =>
    element("div", { class: `state${state.early ? " dim" : ""}`, style: `--s:${s};--i:0` }, state.name));
  const blocks = cells.flatMap((cell, i) => [drawNumber(cell, i, named.has(cell.block)),
    ...states.map((_, s) => drawCell(cell, i, s, states, named.has(cell.block)))]);
  return element("div", { class: "strip", style: `--cells:${cells.length}` }, areas.filter(Boolean), heads, blocks);
}

function drawNumber(cell, i, isNamed) {
  const words = cell.to > cell.block ? `${cell.block}\u2013${cell.to}` : String(cell.block);
  const area = element("i", {}, `${cell.area} `), style = `--i:${i};--s:0`;
  if (cell.empty) return element("div", { class: "number soft", style }, area, words);
  return element("button", { class: `number${isNamed ? " named" : ""}`, style, title: `bytes of block ${cell.block}`,
    "aria-pressed": String(view.block === cell.block), "data-block": cell.block,
    onclick: () => pickBlock(cell.block) }, area, words);
}

function pickBlock(block) {
  view.block = view.block === block ? null : block;
  drawDisk();
  document.querySelector(`.number[data-block="${block}"]`)?.focus();
}

function drawCell(cell, i, s, states, isNamed) {
  const { image, before, early } = states[s];
  const words = cell.empty ? null : cellWords(view.report, image, cell.block);
  const isChanged = !cell.empty && !sameBytes(before[cell.block], image[cell.block]);
  const kinds = ["cell", words ? "" : "blank", isChanged ? "changed" : "", early ? "dim" : "",
    isNamed && s === states.length - 1 ? "named" : ""];
  return element("div", { class: kinds.filter(Boolean).join(" "), style: `--i:${i};--s:${s}`,
    "data-cell": cell.block, "data-row": s }, (words ?? ["\u00b7"]).map(word => element("span", {}, word)));
}

/* --- places in words --- */

function drawWords(states) {
  const { report } = view, listed = listedBlocks(states);
  const sayAll = (row, images) => images.map(image => phrasesOf(report, image, row, listed));
  const rows = rowsOf(report).map(row => ({ ...row, said: sayAll(row, states.map(state => state.image)),
    before: sayAll(row, states.map(state => state.before)) })).filter(isShown);
  rows.sort((a, b) => rowRank(a) - rowRank(b));
  if (!rows.length && view.block === null) return element("p", { class: "soft" }, "No place differs from the base.");
  const head = states.map(state => element("th", { class: state.early ? "dim" : "" }, state.name));
  return element("table", {}, element("thead", {}, element("tr", {}, element("th", {}, "place"), head)),
    element("tbody", {}, rows.map(row => drawRow(row, states)), view.block === null ? "" : drawBytes(states)));
}

/** Blocks whose byte of the map is shown: those that a state has in use, and those that the fault names. */
function listedBlocks(states) {
  const { report } = view, isNamed = b => view.places.some(place => place.phrase === `map ${b}`);
  const isData = b => b >= report.root;
  return below(report.base.length).filter(b =>
    isNamed(b) || (isData(b) && (view.every || states.some(state => state.image[1][b]))));
}

/** The chosen block, or every place in use, or what differs or is named. */
function isShown(row) {
  const words = row.said.map(said => [...said.values()].join());
  const isFilled = words.some(one => one !== "empty" && one !== "free");
  if (view.block !== null) return row.blocks.includes(view.block) && (row.inode === undefined || isFilled);
  if (view.every) return isFilled;
  return isNamedRow(row) || words.some(one => one !== words[0]);
}

const isNamedRow = row => view.places.some(place => place.row === row.key);

/** Named places first, the journal last. */
const rowRank = row => isNamedRow(row) ? 0 : row.key === "journal" ? 2 : 1;

function drawRow(row, states) {
  const named = view.places.filter(place => place.row === row.key).map(place => place.phrase), last = states.length - 1;
  const isSame = s => s > 0 && [...row.said[s].values()].join() === [...row.before[s].values()].join();
  const cells = row.said.map((said, s) => {
    const kind = states[s].early ? "dim" : isSame(s) ? "same" : "";
    const words = sayPhrases(said, row.before[s], s === last ? named : []);
    return element("td", { "data-state": states[s].name, class: kind }, words);
  });
  const path = row.inode === undefined ? null : latestPath(row.inode, states);
  return element("tr", { class: named.length ? "named" : "", "data-place": row.key },
    element("th", { scope: "row" }, row.label, path && element("small", {}, path)), cells);
}

function latestPath(inode, states) {
  const path = [...states].reverse().map(({ image }) => pathOf(image, view.report.root, inode)).find(Boolean);
  return path && realPath(path);
}

/** New phrases marked, gone ones struck out, named ones underlined. */
function sayPhrases(said, before, named) {
  const words = [...said].map(([key, text]) =>
    element(before.get(key) === text ? "span" : "mark", { class: named.includes(key) ? "named" : null }, text));
  const gone = [...before].filter(([key]) => !said.has(key) && key !== "none")
    .map(([, text]) => element("del", {}, text));
  return [...words, ...gone].flatMap((word, k) => k ? [", ", word] : [word]);
}

function drawBytes(states) {
  const lastByte = ({ image }) => image[view.block].findLastIndex(byte => byte);
  const lines = Math.max(...states.map(state => Math.ceil((lastByte(state) + 1) / 8)), 2);
  const cells = states.map(({ image, before, name, early }) => {
    const bytes = [...image[view.block].subarray(0, 8 * lines)].flatMap((byte, k) => {
      const hex = byte.toString(16).padStart(2, "0"), gap = k % 8 === 7 ? "\n" : " ";
      return byte === before[view.block][k] ? [hex + gap] : [element("mark", {}, hex), gap];
    });
    return element("td", { class: early ? "bytes dim" : "bytes", "data-state": name }, bytes);
  });
  return element("tr", {}, element("th", { scope: "row" }, "bytes", element("small", {}, `first ${8 * lines}`)), cells);
}
