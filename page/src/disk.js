// The disk: images as lists of blocks of 128 bytes, what their bytes mean (docs/DISK.md), and words for them.
import { below, countOf } from "./words.js";

const FREE = 0, FILE = 1, DIRECTORY = 2;
const COMMITTED = 0xc7, DONE = 0xc8, FILE_MARK = 0x46, DIRECTORY_MARK = 0x44;
const JOURNAL_START = 4, INODES = 16, SLOTS = 4, ENTRIES = 10, MOST_COPIES = 8;
const NAME_BYTES = 10;

export const AREAS = ["superblock", "map", "inodes", "journal", "data"];
export { FREE, JOURNAL_START, INODES, SLOTS, ENTRIES };

export const isBlank = bytes => bytes.every(byte => byte === 0);
export const sameBytes = (one, other) => one.every((byte, k) => byte === other[k]);

const put = (image, patch) => image[patch.block].set(patch.bytes, patch.offset);

/** The base with the new bytes of these patches, in ascending id. */
export function imageOf(report, ids) {
  const image = report.base.map(block => block.slice());
  for (const id of [...ids].sort((a, b) => a - b)) put(image, report.trace[id]);
  return image;
}

/** An image with the blocks that replay changed. */
export function replayedImage(image, changes) {
  const after = [...image];
  for (const { block, bytes } of changes) after[block] = bytes;
  return after;
}

/** The blocks that replay changes on an image, with their bytes after it, as this page finds them. */
export function replayChanges(report, image) {
  const after = [...image];
  for (const { from, to } of replayCopies(report, image)) after[to] = after[from].slice();
  return below(image.length).filter(block => !sameBytes(image[block], after[block]))
    .map(block => ({ block, bytes: after[block] }));
}

export const inodePlace = inode => ({ block: 2 + (inode >> 3), offset: 16 * (inode & 7) });
const inodeAt = (block, offset) => (block - 2) * 8 + (offset >> 4);

export function inodeOf(image, inode) {
  const { block, offset } = inodePlace(inode), bytes = image[block].subarray(offset, offset + 16);
  return { kind: bytes[0], links: bytes[1], generation: bytes[2], slots: [...bytes.subarray(4, 4 + SLOTS)],
    overwritten: bytes[8] };
}

const nameIn = entry => String.fromCharCode(...entry.subarray(2, 2 + Math.min(entry[1], NAME_BYTES)));

/** The entries in use of a directory's block. */
function entriesOf(block) {
  const all = below(ENTRIES).map(k => ({ k, bytes: block.subarray(8 + 12 * k, 20 + 12 * k) }));
  return all.filter(({ bytes }) => bytes[0]).map(({ k, bytes }) => ({ k, target: bytes[0] - 1, name: nameIn(bytes) }));
}

/** Directories that count, each with its block and its entries in use. */
export function directoriesOf(image, root) {
  const all = below(INODES).map(inode => ({ inode, ...inodeOf(image, inode) }));
  const live = all.filter(({ kind, slots: [block] }) => kind === DIRECTORY && block >= root && block < image.length);
  const isOwn = ({ inode, generation, slots: [block] }) =>
    image[block][0] === DIRECTORY_MARK && image[block][1] === inode && image[block][2] === generation;
  return live.filter(isOwn).map(({ inode, slots: [block] }) => ({ inode, block, entries: entriesOf(image[block]) }));
}

/** The first path that leads to an inode, or null. */
export function pathOf(image, root, inode, depth = 0) {
  if (inode === 0) return depth ? "" : "/";
  for (const directory of directoriesOf(image, root)) {
    const entry = directory.entries.find(one => one.target === inode);
    const front = entry && depth < 4 ? pathOf(image, root, directory.inode, depth + 1) : null;
    if (front !== null) return `${front}/${entry.name}`;
  }
  return null;
}

/** The inode that a path leads to, or null; it can be free. */
export function targetOf(image, root, path) {
  let inode = 0;
  for (const name of path.slice(1).split("/")) {
    const entries = directoriesOf(image, root).find(one => one.inode === inode)?.entries ?? [];
    const named = entries.filter(one => one.name === name && one.target < INODES);
    const entry = named.find(one => inodeOf(image, one.target).kind !== FREE) ?? named[0];
    if (!entry) return null;
    inode = entry.target;
  }
  return inode;
}

/** What a path shows on an image, as the program writes it (docs/PROMISES.md). */
export function shownOn(image, root, path) {
  const inode = targetOf(image, root, path), { kind, slots } = inodeOf(image, inode ?? 0);
  if (inode === null || kind === FREE) return "nothing";
  if (kind === DIRECTORY) return directoriesOf(image, root).some(one => one.inode === inode) ? "directory" : "nothing";
  const used = slots.slice(0, slots.findLastIndex(Boolean) + 1);
  return ["file", ...used.map(block => blockShown(image, root, block))].join(" ");
}

function blockShown(image, root, block) {
  if (block < root || block >= image.length) return block ? "wild" : "-";
  return [...image[block].subarray(0, 4)].map(byte => byte.toString(16).padStart(2, "0")).join("");
}

/** The copies that replay makes on a crash image, in order: those of committed transactions, the first first. */
export function replayCopies(report, image) {
  const copies = [];
  for (let j = JOURNAL_START, t = 1; j < report.root; t++) {
    const targets = headerTargets(report, image, j, t);
    if (!targets) break;
    if (image[j][0] === COMMITTED) targets.forEach((to, m) => copies.push({ from: j + 1 + m, to }));
    j += 1 + targets.length;
  }
  return copies;
}

/** The targets of the header of transaction t at journal block j, or null where it is none. */
function headerTargets(report, image, j, t) {
  const [kind, number, count] = image[j], targets = [...image[j].subarray(3, 3 + Math.min(count, MOST_COPIES))];
  const isTarget = b => (b > 0 && b < JOURNAL_START) || (b >= report.root && b < report.base.length);
  const ascending = targets.every((b, m) => m === 0 || b > targets[m - 1]);
  const fits = count >= 1 && count <= MOST_COPIES && j + count < report.root;
  const isHeader = (kind === COMMITTED || kind === DONE) && number === t && fits;
  return isHeader && ascending && targets.every(isTarget) ? targets : null;
}

/* --- what patches mean --- */

/** Gives each patch its meaning in words, said of the disk before it. */
export function explainPatches(report) {
  const image = report.base.map(block => block.slice());
  for (const patch of report.trace) {
    patch.meaning = meaningOf(report, image, patch);
    put(image, patch);
  }
}

function meaningOf(report, image, { part, block, offset, bytes, undo }) {
  const inode = inodeAt(block, offset);
  const entry = `entry ${(offset - 8) / 12} of directory ${image[block][1]}`;
  switch (part) {
    case "InodeInit": return `inode ${inode}: ${bytes[0] === DIRECTORY ? "directory" : "file"}, 1 link`;
    case "InodeFree": return `inode ${inode}: free`;
    case "PtrClear": return `inode ${inode}: no blocks`;
    case "NewData": return `block ${block}: ${dataWords(bytes[0])}`;
    case "Touch": return `inode ${inode}: ${overwrittenWords(bytes[0])}`;
    case "EntrySet": return `${entry}: "${nameIn(bytes)}" \u2192 inode ${bytes[0] - 1}`;
    case "EntryClear": return `${entry}: "${nameIn(undo)}" cleared`;
    case "MapSet": return `block ${offset} marked used`;
    case "MapClear": return `block ${offset} marked free`;
    case "InitFile": case "FileData": return `block ${block}: file data of inode ${bytes[1]}`;
    case "InitDir": return `block ${block}: empty directory ${bytes[1]}`;
    case "Ptr": return `inode ${inode} slot ${(offset & 15) - 4} \u2192 block ${bytes[0]}`;
    case "LinkUp": case "LinkDown": return `inode ${inode}: ${countOf(bytes[0], "link", "links")}`;
    case "Copy": return `journal copy of block ${report.copyTarget.get(block) ?? "?"}`;
    case "Commit": return `transaction ${bytes[1]}: copies of ${[...bytes.subarray(3, 3 + bytes[2])].join(", ")}`;
    case "Done": return `transaction at block ${block} done`;
    default: return part;
  }
}

/* --- the disk in words: rows of phrases; a phrase has a key, so that two states can be compared --- */

export function areaOf(report, block) {
  if (block < 2) return AREAS[block];
  if (block < JOURNAL_START) return "inodes";
  return block < report.root ? "journal" : "data";
}

/** One row for the superblock, the map, each inode, the journal and each block of the data area. */
export function rowsOf(report) {
  const inodes = below(INODES).map(inode =>
    ({ key: `inode ${inode}`, label: `inode ${inode}`, inode, blocks: [inodePlace(inode).block] }));
  const journal = below(report.journal).map(k => JOURNAL_START + k);
  const data = below(report.base.length - report.root).map(k => report.root + k);
  return [
    { key: "super", label: "superblock", blocks: [0] }, { key: "map", label: "map", blocks: [1] }, ...inodes,
    ...data.map(block => ({ key: `block ${block}`, label: `block ${block}`, blocks: [block] })),
    ...(journal.length ? [{ key: "journal", label: "journal", blocks: journal }] : []),
  ];
}

/** The phrases of a row on an image: a Map from key to text. The map has phrases for the blocks in `listed`. */
export function phrasesOf(report, image, row, listed) {
  if (row.key === "super") return new Map([["all", `${image[0][1]} blocks, ${image[0][2]} of them journal`]]);
  if (row.key === "map") return new Map(listed.map(b => [`map ${b}`, `${b} ${image[1][b] ? "used" : "free"}`]));
  if (row.key === "journal") return journalPhrases(report, image, row.blocks);
  return row.inode === undefined ? dataPhrases(image[row.blocks[0]]) : inodePhrases(inodeOf(image, row.inode));
}

/** What a block's data are: they get a new number with each overwrite, and so does what the inode says of it. */
const dataWords = number => `data ${number}`;
const overwrittenWords = count => `overwritten ${countOf(count, "time", "times")}`;

function inodePhrases({ kind, links, generation, slots, overwritten }) {
  const words = new Map([["kind", ["free", "file", "directory"][kind] ?? `kind ${kind}`]]);
  if (kind !== FREE || links) words.set("links", countOf(links, "link", "links"));
  if (generation) words.set("generation", `generation ${generation}`);
  if (overwritten) words.set("overwritten", overwrittenWords(overwritten));
  slots.forEach((block, slot) => { if (block) words.set(`slot ${slot}`, `slot ${slot} \u2192 block ${block}`); });
  return words;
}

/** The headers of the journal; the strip of blocks shows its copies. */
function journalPhrases(report, image, blocks) {
  const headers = blocks.filter(block => image[block][0] === COMMITTED || image[block][0] === DONE);
  const said = headers.filter(block => !report.copyTarget.has(block))
    .map(block => [`block ${block}`, headerWords(image[block], block)]);
  return new Map(said.length ? said : [["none", "empty"]]);
}

function headerWords([kind, number, count, ...rest], block) {
  const targets = rest.slice(0, Math.min(count, MOST_COPIES)).join(", ");
  return `${block} ${kind === COMMITTED ? "commit" : "done"} ${number} (${targets})`;
}

function dataPhrases(bytes) {
  const generation = bytes[2] ? [["generation", `generation ${bytes[2]}`]] : [];
  if (bytes[0] === FILE_MARK) {
    const data = bytes[3] ? [["data", dataWords(bytes[3])]] : [];
    return new Map([["mark", `file data of inode ${bytes[1]}`], ...generation, ...data]);
  }
  if (bytes[0] !== DIRECTORY_MARK) return new Map([["mark", isBlank(bytes) ? "empty" : "no mark"]]);
  const entries = entriesOf(bytes)
    .map(({ k, target, name }) => [`entry ${k}`, `entry ${k} \u2192 inode ${target} "${name}"`]);
  return new Map([["mark", `directory ${bytes[1]}`], ...generation,
    ...(entries.length ? entries : [["none", "no entries"]])]);
}

/** Two short lines for a block's cell, or null where there is nothing to say. */
export function cellWords(report, image, block) {
  const bytes = image[block], area = areaOf(report, block);
  if (area === "superblock") return [String(bytes[1]), "blocks"];
  if (area === "map") return [String(bytes.filter(byte => byte).length), "used"];
  if (area === "inodes") return [String(below(8).filter(k => bytes[16 * k]).length), "live"];
  if (isBlank(bytes)) return null;
  if (area === "journal") return journalCell(report, bytes, block);
  if (bytes[0] === FILE_MARK) return ["file", String(bytes[1])];
  if (bytes[0] !== DIRECTORY_MARK) return ["?", ""];
  const names = entriesOf(bytes).length;
  return [`dir ${bytes[1]}`, names ? countOf(names, "name", "names") : "empty"];
}

function journalCell(report, bytes, block) {
  if (bytes[0] === COMMITTED) return ["commit", String(bytes[1])];
  if (bytes[0] === DONE) return ["done", String(bytes[1])];
  return ["copy", `of ${report.copyTarget.get(block) ?? "?"}`];
}
