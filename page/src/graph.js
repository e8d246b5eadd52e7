// The patch graph: who waits for whom and why, and where each patch is in the picture. Columns are operations;
// inside a column patches are in layers, so that arrows run to the right.
import { isLine } from "./about.js";
import { realLine } from "./real.js";
import { below } from "./words.js";

/** The graph under the ordering without these rules and lines: edges {from, to, why, implied}; for each patch the edges
    that it waits by, and all patches that it waits for, near and far. */
export function graphOf(report, without = []) {
  const waits = [], before = [], isForced = forcedWithout(report, without.filter(isLine));
  for (const { id, line, after } of report.trace) {
    const left = ({ patch, why }) => why.filter(word => !without.includes(word)
      && (word !== "wait" || isForced(patch, line)));
    const mine = after.map(one => ({ from: one.patch, to: id, why: left(one) })).filter(edge => edge.why.length);
    before.push(new Set(mine.flatMap(edge => [edge.from, ...before[edge.from]])));
    for (const edge of mine) edge.implied = mine.some(other => before[other.from].has(edge.from));
    waits.push(mine);
  }
  return { edges: waits.flat(), waits, before };
}

/** Whether a patch is forced before a line, where these lines do not wait. */
function forcedWithout({ waits }, without) {
  if (!without.length) return () => true;
  const left = waits.filter(wait => !without.includes(wait.line));
  return (patch, before) => left.some(({ line, ids }) => line < before && ids.includes(patch));
}

/** What an arrow is drawn as: the first of these that is among its reasons. */
export const EDGE_KINDS = ["rule", "overlap", "block", "group", "wait"];

export const kindOfEdge = why =>
  why.some(word => word.includes(":")) ? "rule" : EDGE_KINDS.find(kind => why.includes(kind));

/* --- layout --- */

const NODE_HEIGHT = 34, NODE_GAP = 11, LANE = 8, LAYER_GAP = 22, COLUMN_GAP = 10, COLUMN_PAD = 10, TOP = 46;
export { NODE_HEIGHT, TOP };
const ORDER_SWEEPS = 16, HEIGHT_SWEEPS = 30, STRAIGHT_SWEEPS = 10;

const NODE_FONT = "11.5px " + getComputedStyle(document.documentElement).getPropertyValue("--sans");
const ruler = document.createElement("canvas").getContext("2d");

function textWidth(text, font) {
  ruler.font = font;
  return ruler.measureText(text).width;
}

function nodeWidth(patch) {
  return Math.ceil(Math.max(textWidth(`${patch.id}  ${patch.part}`, `600 ${NODE_FONT}`), 34)) + 16;
}

export function layoutGraph(report, edges) {
  const near = edges.filter(edge => !edge.implied);
  const layers = layersOf(report, near), lanes = addLanes(layers, near);
  orderLayers(layers);
  placeLayers(layers);
  const { columns, width } = placeColumns(report, layers);
  const items = layers.flatMap(layer => layer.items);
  const top = Math.min(...items.map(item => item.y - item.height / 2));
  for (const item of items) item.y += TOP + 6 - top;
  const height = Math.max(...items.map(item => item.y + item.height / 2)) + 10;
  const nodes = new Map(items.filter(item => item.patch).map(item => [item.patch.id, item]));
  return { columns, lanes, width, height, nodes };
}

/** One layer for each rank inside each operation. */
function layersOf(report, edges) {
  const rank = ranksOf(report, edges);
  return report.operations.flatMap(({ patches }, operation) => {
    const depth = Math.max(...patches.map(patch => rank.get(patch.id)));
    return below(depth + 1).map(r => {
      const mine = patches.filter(patch => rank.get(patch.id) === r);
      const items = mine.map(patch => ({ patch, height: NODE_HEIGHT, weight: 1, left: [], right: [] }));
      return { operation, items, width: Math.max(...mine.map(nodeWidth)) };
    });
  });
}

/** The length of the longest chain of patches, all of one operation, that a patch waits for. */
function ranksOf(report, edges) {
  const rank = new Map(), operationOf = id => report.trace[id].operation;
  for (const { id, operation } of report.trace) {
    const inside = edges.filter(edge => edge.to === id && operationOf(edge.from) === operation);
    rank.set(id, Math.max(0, ...inside.map(edge => rank.get(edge.from) + 1)));
  }
  return rank;
}

/** Puts a lane into each layer that an arrow passes; answers each arrow's way through the items. */
function addLanes(layers, edges) {
  const home = new Map();
  layers.forEach((layer, at) => layer.items.forEach(item => { item.layer = at; home.set(item.patch.id, item); }));
  return edges.map(edge => {
    const start = home.get(edge.from), end = home.get(edge.to), way = [start];
    for (let at = start.layer + 1; at < end.layer; at++) {
      const lane = { height: LANE, layer: at, weight: 5, left: [], right: [] };
      layers[at].items.push(lane);
      way.push(lane);
    }
    way.push(end);
    way.slice(1).forEach((item, k) => { item.left.push(way[k]); way[k].right.push(item); });
    return { edge, way };
  });
}

/** Barycentre sweeps (Sugiyama, Tagawa and Toda, 1981); the order with the fewest crossings stays. */
function orderLayers(layers) {
  const keep = () => layers.map(layer => [...layer.items]);
  numberItems(layers);
  let best = keep(), fewest = crossingsOf(layers);
  for (let sweep = 0; sweep < ORDER_SWEEPS && fewest > 0; sweep++) {
    sweepOrder(layers, sweep % 2 ? "right" : "left");
    const now = crossingsOf(layers);
    if (now < fewest) { fewest = now; best = keep(); }
  }
  layers.forEach((layer, at) => { layer.items = best[at]; });
  numberItems(layers);
}

const numberItems = layers =>
  layers.forEach(layer => layer.items.forEach((item, k) => { item.order = k; }));

const mean = numbers => numbers.reduce((sum, one) => sum + one, 0) / numbers.length;

function sweepOrder(layers, side) {
  for (const layer of side === "left" ? layers : [...layers].reverse()) {
    const wish = new Map(layer.items.map(item =>
      [item, item[side].length ? mean(item[side].map(one => one.order)) : item.order]));
    layer.items.sort((a, b) => wish.get(a) - wish.get(b));
    layer.items.forEach((item, k) => { item.order = k; });
  }
}

function crossingsOf(layers) {
  let crossings = 0;
  for (const { items } of layers) {
    const pairs = items.flatMap(item => item.right.map(to => [item.order, to.order]));
    pairs.forEach(([a, b], k) => {
      for (const [c, d] of pairs.slice(0, k)) if ((a - c) * (b - d) < 0) crossings++;
    });
  }
  return crossings;
}

/** Heights: each item goes as near to its neighbours as its order allows. */
function placeLayers(layers) {
  for (const { items } of layers) {
    items.forEach((item, k) => { item.step = k ? items[k - 1].step + distance(items[k - 1], item) : 0; });
    const middle = items.at(-1).step / 2;
    for (const item of items) item.y = item.step - middle;
  }
  for (let sweep = 0; sweep < HEIGHT_SWEEPS; sweep++) {
    // First together, then straight.
    const straight = sweep >= HEIGHT_SWEEPS - STRAIGHT_SWEEPS, pull = straight ? 1 : 0.96;
    const sides = straight ? ["left", "right"] : sweep % 2 ? ["right"] : ["left"];
    for (const { items } of sweep % 2 ? [...layers].reverse() : layers) {
      settle(items, items.map(item => pull * (wishOf(sides.flatMap(side => item[side])) ?? item.y)));
    }
  }
}

function distance(above, below) {
  const gap = above.patch && below.patch ? NODE_GAP : NODE_GAP - 4;
  return (above.height + below.height) / 2 + gap;
}

function wishOf(neighbours) {
  if (!neighbours.length) return null;
  const weight = neighbours.reduce((sum, one) => sum + one.weight, 0);
  return neighbours.reduce((sum, one) => sum + one.y * one.weight, 0) / weight;
}

/** Least squares under the distances: pools neighbours that press against each other. */
function settle(items, wishes) {
  const pools = [];
  items.forEach((item, k) => {
    pools.push({ wish: wishes[k] - item.step, weight: item.weight, items: [item] });
    while (pools.length > 1 && pools.at(-2).wish > pools.at(-1).wish) {
      const last = pools.pop(), into = pools.at(-1), weight = last.weight + into.weight;
      into.wish = (into.wish * into.weight + last.wish * last.weight) / weight;
      into.weight = weight;
      into.items.push(...last.items);
    }
  });
  for (const pool of pools) for (const item of pool.items) item.y = pool.wish + item.step;
}

function placeColumns(report, layers) {
  let x = 2;
  const columns = report.operations.map((operation, at) => {
    const left = x;
    x = placeColumn(operation, layers.filter(layer => layer.operation === at), left);
    const column = { left, width: x - left, operation };
    x += COLUMN_GAP;
    return column;
  });
  return { columns, width: x - COLUMN_GAP + 2 };
}

/** Gives an operation's items their places from `left` on; answers where the column ends, its words inside it. */
function placeColumn(operation, layers, left) {
  let x = left + COLUMN_PAD;
  for (const layer of layers) {
    for (const item of layer.items) Object.assign(item, { x, width: item.patch ? nodeWidth(item.patch) : layer.width });
    x += layer.width + LAYER_GAP;
  }
  x += COLUMN_PAD - LAYER_GAP;
  const short = left + Math.min(170, textWidth(realLine(operation.text), "12px monospace") + 24) - x;
  if (short <= 0) return x;
  for (const item of layers.flatMap(layer => layer.items)) item.x += short / 2;
  return x + short;
}

/** A smooth way from the right side of the first item to the left side of the last. */
export function wayPath(way) {
  let path = `M${way[0].x + way[0].width} ${way[0].y}`;
  way.slice(1).forEach((item, k) => {
    const last = way[k], start = last.x + last.width, isEnd = k === way.length - 2;
    const end = isEnd ? item.x - 5 : item.x, bend = Math.max((end - start) / 2, 9);
    path += `C${start + bend} ${last.y} ${end - bend} ${item.y} ${end} ${item.y}`;
    if (!isEnd) path += `H${item.x + item.width}`;
  });
  return path;
}
