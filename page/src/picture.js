// The patch graph as a picture: columns, patches, arrows, the ground of what is on disk, and what a patch says.
import { EDGE_KINDS, NODE_HEIGHT, TOP, graphOf, kindOfEdge, layoutGraph, wayPath } from "./graph.js";
import { hideHint, showHint } from "./hint.js";
import { realLine } from "./real.js";
import { actions, byId, choiceNow, element, idsAt, shape, stateOf, view } from "./view.js";
import { countOf, shortened } from "./words.js";

export function drawGraph() {
  const { report } = view, card = byId("graph"), heading = element("h2", {}, "Patches");
  const place = placeInPicture(card);
  view.graph = graphOf(report, choiceNow().without);
  if (!report.trace.length) {
    view.plan = null;
    card.replaceChildren(element("header", {}, heading),
      element("p", { class: "verdict soft" }, "No operation after start, so no patch."));
    return;
  }
  const { edges } = view.graph, plan = layoutGraph(report, edges);
  view.plan = plan;
  const scroll = element("div", { class: "scroll", onscroll: showWindow, tabindex: -1 }, drawPicture(report, plan));
  const implied = edges.some(edge => edge.implied) && element("label", {},
    element("input", { type: "checkbox", id: "all-implied", onchange: () => drawImplied() }), "implied arrows");
  const advice = element("span", { class: "soft advice" }, "Click patches to try a set of your own.");
  card.replaceChildren(element("header", {}, heading, advice, implied || "", drawKey(edges)), scroll,
    drawOnPaper(plan));
  fitPicture(plan, scroll);
  scroll.scrollLeft = place.left;
  if (place.id !== undefined) focusNode(place.id);
}

/** How far the picture is scrolled, and the patch that has the focus, so that both stay when it is drawn again. */
function placeInPicture(card) {
  const focused = document.activeElement;
  return { left: card.querySelector(".scroll")?.scrollLeft ?? 0,
    id: card.contains(focused) ? focused.dataset.id : undefined };
}

function drawPicture(report, plan) {
  const drawing = shape("g", { id: "drawing" }, plan.columns.map(column => drawColumn(column, plan.height)),
    drawRegion(plan), shape("g", { id: "implied" }), plan.lanes.map(({ edge, way }) => drawEdge(edge, wayPath(way))),
    report.trace.map(patch => drawNode(plan.nodes.get(patch.id))));
  return shape("svg", { viewBox: `0 0 ${plan.width} ${plan.height}`, role: "group",
    "aria-label": "Patches and what they wait for" }, arrowTips(), drawing);
}

/** A picture that is a little too wide is drawn smaller; a wider one is scrolled, with all of it in small below. */
function fitPicture(plan, scroll) {
  const picture = scroll.querySelector("svg"), room = scroll.clientWidth - 28;
  const scale = plan.width > room && plan.width * 0.8 <= room ? room / plan.width : 1;
  picture.setAttribute("width", plan.width * scale);
  picture.setAttribute("height", plan.height * scale);
  if (plan.width * scale > scroll.clientWidth) byId("graph").append(drawOverview(plan, scroll));
}

function arrowTips() {
  const tip = name => shape("marker", { id: name, viewBox: "0 0 8 8", refX: 3, refY: 4, markerWidth: 7, markerHeight: 7,
    markerUnits: "userSpaceOnUse", orient: "auto" }, shape("path", { d: "M0 0.5L7.5 4L0 7.5z", class: name }));
  return shape("defs", {}, tip("tip-off"), tip("tip-on"));
}

function drawColumn({ left, width, operation }, height) {
  const room = Math.floor((width - 16) / 7.3), whole = realLine(operation.text), text = shortened(whole, room);
  const own = whole === operation.text ? "" : ` (in the script: ${operation.text})`;
  return shape("g", { class: "column" }, shape("title", {}, `line ${operation.line}: ${whole}${own}`),
    shape("rect", { x: left, y: 2, width, height: height - 4, rx: 6 }),
    shape("text", { x: left + 10, y: 20 }, `line ${operation.line}`),
    shape("text", { x: left + 10, y: 36, class: "op" }, text));
}

/** What is on disk lies on one patch of ground; its rim is the frontier. */
function drawRegion(plan) {
  const ways = plan.lanes.map(({ edge, way }) =>
    shape("path", { d: wayPath(way), "data-from": edge.from, "data-to": edge.to }));
  const homes = [...plan.nodes.values()].map(({ patch, x, y, width }) =>
    shape("rect", { x, y: y - NODE_HEIGHT / 2, width, height: NODE_HEIGHT, rx: 5, "data-on": patch.id }));
  return shape("g", { class: "region" }, ways, homes);
}

/* --- arrows --- */

function drawEdge(edge, path) {
  const { trace } = view.report, title = id => `${id} ${trace[id].part}`;
  const words = [`${title(edge.to)} waits for ${title(edge.from)}`, edge.why.join(", ")];
  return shape("g", { class: `edge ${kindOfEdge(edge.why)}${edge.implied ? " implied" : ""}`,
    "data-from": edge.from, "data-to": edge.to, role: "img", "aria-label": words.join(": "),
    onpointermove: event => showHint(words, event.clientX, event.clientY), onpointerleave: hideHint },
  shape("path", { class: "line", d: path }), shape("path", { class: "hit", d: path }));
}

/** The faint arrows: those of one patch, or all where they are wanted. */
function drawImplied(id) {
  const all = byId("all-implied")?.checked, wanted = all ? view.graph.edges : view.graph.waits[id] ?? [];
  const { nodes } = view.plan, implied = wanted.filter(edge => edge.implied);
  byId("implied").replaceChildren(...implied.map(edge =>
    drawEdge(edge, wayPath([nodes.get(edge.from), nodes.get(edge.to)]))));
}

/* --- patches --- */

function drawNode({ patch, x, y, width }) {
  const box = (kind, grow) => shape("rect", { class: kind, x: x - grow, y: y - NODE_HEIGHT / 2 - grow,
    width: width + 2 * grow, height: NODE_HEIGHT + 2 * grow, rx: 5 + grow });
  const light = event => lightNode(patch, event.currentTarget);
  return shape("g", { class: "node", "data-id": patch.id, role: "button", tabindex: patch.id === 0 ? 0 : -1,
    onpointerenter: light, onpointerleave: unlight, onfocus: light, onblur: unlight, onkeydown: moveNode,
    onclick: () => actions.pick(patch.id) },
  box("ring", 3.5), box("now", 3.5), box("body", 0),
  shape("text", { x: x + 8, y: y - 3 }, shape("tspan", { class: "id" }, String(patch.id)),
    shape("tspan", { dx: 5 }, patch.part)),
  shape("text", { x: x + 8, y: y + 11, class: "at" }, `${patch.block}+${patch.offset}`));
}

/** The arrow keys go from patch to patch; Enter and the space bar pick one. */
function moveNode(event) {
  const id = Number(event.currentTarget.dataset.id), way = { ArrowUp: -1, ArrowDown: 1 }[event.key];
  const isPick = event.key === "Enter" || event.key === " ";
  if (!way && !isPick) return;
  event.preventDefault();
  if (isPick) actions.pick(id); else focusNode(id + way);
}

function focusNode(id) {
  const nodes = [...byId("drawing").querySelectorAll(".node")];
  const next = nodes.find(node => node.dataset.id === String(id));
  if (!next) return;
  for (const node of nodes) node.setAttribute("tabindex", node === next ? 0 : -1);
  next.focus();
}

/** Picked patches that are not closed: no crash leaves them, so none is on a disk. */
const isOpenSet = () => Boolean(choiceNow().missing?.length);

const STATE_WORDS = {
  open: { later: "Picked.", lost: "Not picked." },
  closed: { disk: "On disk.", later: "On disk later.", lost: "Lost." },
};

function nodeWords(patch) {
  const { trace } = view.report, mine = view.graph.waits[patch.id];
  const said = mine.filter(edge => !edge.implied || mine.length < 8), rest = mine.length - said.length;
  const waits = said.map(edge => `waits for ${edge.from} ${trace[edge.from].part}: ${edge.why.join(", ")}`);
  if (rest) waits.push(`and for ${rest} earlier ones that this implies`);
  const state = STATE_WORDS[isOpenSet() ? "open" : "closed"][stateOf(patch.id)];
  const size = countOf(patch.bytes.length, "byte", "bytes");
  return [`${patch.id} ${patch.part}: ${patch.meaning}`,
    `Line ${patch.line}; block ${patch.block}, offset ${patch.offset}, ${size}. ${state}`,
    ...(waits.length ? waits : ["waits for nothing"])];
}

/** All that a patch waits for stays lit; the rest steps back. */
function lightNode(patch, node) {
  const before = view.graph.before[patch.id], drawing = byId("drawing");
  drawing.classList.add("lights");
  drawImplied(patch.id);
  for (const one of drawing.querySelectorAll(".node")) {
    const id = Number(one.dataset.id);
    one.classList.toggle("lit", id === patch.id || before.has(id));
  }
  for (const one of drawing.querySelectorAll(".edge")) {
    const to = Number(one.dataset.to);
    one.classList.toggle("lit", to === patch.id || (before.has(to) && !one.classList.contains("implied")));
  }
  const box = node.getBoundingClientRect();
  showHint(nodeWords(patch), box.left, box.bottom);
}

function unlight() {
  byId("drawing").classList.remove("lights");
  drawImplied();
  hideHint();
}

/* --- the step that is looked at --- */

/** Filled, hollow, frontier and the write of this step, without drawing again. */
export function paintGraph() {
  const drawing = byId("drawing");
  if (!drawing) return;
  const choice = choiceNow(), onDisk = new Set(isOpenSet() ? choice.set : idsAt(view.step));
  const now = view.step < choice.writes.length ? choice.writes[view.step - 1]?.patches ?? [] : [];
  for (const node of drawing.querySelectorAll(".node")) paintNode(node, onDisk, now);
  for (const one of drawing.querySelectorAll(".region [data-on]")) {
    one.classList.toggle("on", onDisk.has(Number(one.dataset.on)));
  }
  for (const one of drawing.querySelectorAll("[data-from]")) paintArrow(one, onDisk);
  byId("graph").classList.toggle("walking", view.step < choice.writes.length || isOpenSet());
  const focused = document.activeElement;
  if (focused.classList.contains("node")) lightNode(view.report.trace[focused.dataset.id], focused);
  if (choice.isPicked) showWindow(); else bringIntoView((choice.writes[view.step - 1]?.patches ?? [0])[0]);
}

function paintNode(node, onDisk, now) {
  const id = Number(node.dataset.id), isReady = [...view.graph.before[id]].every(one => onDisk.has(one));
  node.dataset.state = stateOf(id);
  node.classList.toggle("ready", isReady);
  node.classList.toggle("now", now.includes(id));
  node.classList.toggle("named", view.named.has(id));
  node.setAttribute("aria-label", nodeWords(view.report.trace[id]).join(". "));
}

function paintArrow(arrow, onDisk) {
  const on = onDisk.has(Number(arrow.dataset.from)) && onDisk.has(Number(arrow.dataset.to));
  arrow.classList.toggle("on", on);
  arrow.querySelector(".line")?.setAttribute("marker-end", on ? "url(#tip-on)" : "url(#tip-off)");
}

function bringIntoView(id) {
  const scroll = byId("graph").querySelector(".scroll"), item = view.plan.nodes.get(id);
  const isLeft = item.x < scroll.scrollLeft + 20, isRight = item.x + 110 > scroll.scrollLeft + scroll.clientWidth;
  if (isLeft || isRight) scroll.scrollLeft = item.x - scroll.clientWidth / 2;
  showWindow();
}

/* --- key and overview --- */

function drawKey(edges) {
  const kinds = new Set(edges.map(edge => kindOfEdge(edge.why)));
  const item = (picture, words, kind) => element("span", { class: kind }, picture, words);
  const words = isOpenSet() ? ["picked", "not picked, ready", "not picked, waits", "needed by a picked one"]
    : ["later", "lost, ready", "lost, waits", "place of the fault"];
  return element("div", { class: "key" }, item(keyNode("later"), words[0], "walk"),
    isOpenSet() ? null : item(keyNode("disk"), "on disk"),
    item(keyNode("lost", "ready"), words[1]), item(keyNode("lost"), words[2]),
    view.named.size ? item(keyNode("lost", "named ready"), words[3]) : null,
    EDGE_KINDS.filter(kind => kinds.has(kind)).map(kind => item(keyLine(kind), kind)));
}

function keyNode(state, more = "") {
  return shape("svg", { width: 26, height: 18, "aria-hidden": "true" },
    shape("g", { class: `node ${more}`, "data-state": state },
      shape("rect", { class: "ring", x: 2, y: 1.5, width: 22, height: 15, rx: 5 }),
      shape("rect", { class: "body", x: 5, y: 4.5, width: 16, height: 9, rx: 3 })));
}

function keyLine(kind) {
  return shape("svg", { width: 26, height: 10, "aria-hidden": "true" },
    shape("g", { class: `edge ${kind}` }, shape("path", { class: "line", d: "M1 5H25" })));
}

function drawOverview(plan, scroll) {
  const go = event => {
    const box = event.currentTarget.getBoundingClientRect();
    scroll.scrollLeft = (event.clientX - box.left) / box.width * plan.width - scroll.clientWidth / 2;
  };
  return element("div", { id: "overview" }, shape("svg", { id: "whole", preserveAspectRatio: "none",
    viewBox: `0 ${TOP} ${plan.width} ${plan.height - TOP}`, "aria-hidden": "true", onclick: go },
  shape("use", { href: "#drawing" }), shape("rect", { class: "window", y: TOP + 2, height: plan.height - TOP - 4 })));
}

/* --- on paper --- */

/** Paper cannot be scrolled, so there the picture is cut between operations into strips of about this width, all drawn
    at one scale. A narrow picture is not made larger. A strip also shows a little of the room beside its operations,
    where arrows go on into the next one. */
const STRIP_WIDTH = 900, PAPER_WIDTH = 680, EDGE = 5;

function drawOnPaper(plan) {
  const strips = stripsOf(plan.columns), widest = Math.max(PAPER_WIDTH, ...strips.map(widthOf));
  return element("div", { class: "paper", "aria-hidden": "true" }, strips.map(strip =>
    shape("svg", { viewBox: `${strip.left} 0 ${widthOf(strip)} ${plan.height}`,
      style: `width:${100 * widthOf(strip) / widest}%` }, shape("use", { href: "#drawing" }))));
}

const widthOf = strip => strip.right - strip.left;

/** From where to where each strip reads; an operation that is wider than a strip has one of its own. */
function stripsOf(columns) {
  const strips = [];
  for (const { left, width } of columns) {
    const last = strips.at(-1), right = left + width + EDGE;
    if (last && right - last.left <= STRIP_WIDTH) last.right = right;
    else strips.push({ left: left - EDGE, right });
  }
  return strips;
}
export function showWindow() {
  const frame = document.querySelector("#whole .window"), scroll = byId("graph")?.querySelector(".scroll");
  if (!frame) return;
  frame.setAttribute("x", scroll.scrollLeft);
  frame.setAttribute("width", scroll.clientWidth - 28);
}
