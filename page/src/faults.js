// Where a fault is: the places that its text names on the image after replay, and the patches that wrote them.
import { FREE, INODES, SLOTS, ENTRIES, imageOf, inodeOf, inodePlace, directoriesOf, replayCopies } from "./disk.js";
import { below } from "./words.js";

/** Places {row, phrase, block, offset, length} that the faults' texts name. */
export function placesNamed(report, image, faults) {
  return faults.flatMap(text => {
    const [kind, ...numbers] = (text.match(/\d+/g) ?? []).map(Number);
    const isKnown = FAULT_NUMBERS[kind]?.every((most, k) => numbers[k] < most);
    return isKnown ? FAULT_PLACES[kind](report, image, ...numbers) : [];
  });
}

/** For each kind of fault, above what its numbers are, from left to right; others name no place. */
const ANY = Infinity, BLOCKS = 128;
const FAULT_NUMBERS = {
  1: [INODES, ENTRIES, ANY], 2: [BLOCKS], 3: [INODES, SLOTS, BLOCKS], 4: [INODES, ANY, ANY],
  5: [INODES, SLOTS, BLOCKS], 6: [INODES, SLOTS, ANY], 7: [INODES], 8: [INODES],
};

/** For each fault's number the places that it names; the numbers are those of its text, from left to right. */
const FAULT_PLACES = {
  1: (report, image, directory, entry, inode) => [
    entryPlace(inodeOf(image, directory).slots[0], entry),
    ...(inode < INODES ? [inodeByte(inode, "kind", 0)] : [])],
  2: (report, image, block) => below(INODES).filter(inode => inodeOf(image, inode).kind !== FREE).flatMap(inode =>
    below(SLOTS).filter(slot => inodeOf(image, inode).slots[slot] === block).map(slot => slotPlace(inode, slot))),
  3: (report, image, inode, slot, block) =>
    [slotPlace(inode, slot), { row: `block ${block}`, phrase: "mark", block, offset: 0, length: 3 }],
  4: (report, image, inode) => [inodeByte(inode, "links", 1), ...entriesTo(report, image, inode)],
  5: (report, image, inode, slot, block) =>
    [slotPlace(inode, slot), { row: "map", phrase: `map ${block}`, block: 1, offset: block, length: 1 }],
  6: (report, image, inode, slot) => [slotPlace(inode, slot)],
  7: (report, image, inode) => [inodeByte(inode, "kind", 0), ...entriesTo(report, image, inode)],
  8: (report, image, inode) => [slotPlace(inode, 0), ...entriesTo(report, image, inode)],
};

function inodeByte(inode, phrase, k) {
  const { block, offset } = inodePlace(inode);
  return { row: `inode ${inode}`, phrase, block, offset: offset + k, length: 1 };
}

const slotPlace = (inode, slot) => inodeByte(inode, `slot ${slot}`, 4 + slot);
const entryPlace = (block, k) =>
  ({ row: `block ${block}`, phrase: `entry ${k}`, block, offset: 8 + 12 * k, length: 12 });

/** The entries of directories that count whose target is the inode. */
function entriesTo(report, image, inode) {
  return directoriesOf(image, report.root).flatMap(({ block, entries }) =>
    entries.filter(({ target }) => target === inode).map(({ k }) => entryPlace(block, k)));
}

/** Patches that wrote a named place last, or would write it next; of a lost inode also those of its names. */
export function patchesNamed(report, choice, places) {
  const inSet = new Set(choice.set), named = new Set();
  const copies = replayCopies(report, imageOf(report, choice.set));
  for (const place of places) {
    const over = report.trace.filter(patch => patch.block === place.block
      && patch.offset < place.offset + place.length && place.offset < patch.offset + patch.bytes.length);
    const copy = copies.filter(one => one.to === place.block).at(-1);
    const picks = [over.filter(patch => inSet.has(patch.id)).at(-1), over.find(patch => !inSet.has(patch.id)),
      copy && report.trace.find(patch => patch.block === copy.from)];
    for (const patch of picks) if (patch) named.add(patch.id);
  }
  for (const id of patchesOfNames(report, choice.faults)) named.add(id);
  return named;
}

/** Patches that set or clear a name of an inode that is lost, as the faults say. */
function patchesOfNames(report, faults) {
  const lost = faults.map(text => /^7 .* inode (\d+)$/.exec(text)?.[1]).filter(Boolean).map(Number);
  const isOfName = ({ part, bytes, undo }) => (part === "EntrySet" && lost.includes(bytes[0] - 1))
    || (part === "EntryClear" && lost.includes(undo[0] - 1));
  return report.trace.filter(isOfName).map(patch => patch.id);
}

/** What each kind of fault means, by its number. */
const FAULT_MEANINGS = {
  1: "A directory entry names an inode that is free or does not exist. The name leads nowhere, and later to whatever "
    + "file gets that inode.",
  2: "Two pointers name the same block, so a write through one of them changes what the other shows.",
  3: "A file or directory points to a block that does not hold its own data. Reading it shows old bytes, or those of "
    + "another file.",
  4: "More names lead to an inode than its link count says. Deleting some of them frees the inode while others still "
    + "lead to it.",
  5: "A block is in use, but the map says that it is free, so the file system can give it to another file.",
  6: "A pointer names a block outside the data area. Following it reads or overwrites the file system's own blocks, or "
    + "nothing at all.",
  7: "The script never deletes this file or directory, but no path leads to it any more.",
  8: "A path leads to a directory that has no block, so the directory cannot hold names.",
  9: "An operation is half done: the disk is not the one after some number of whole operations.",
  10: "A program was promised what its files show after a crash. The disk shows something else.",
};

/** The number that a fault's text begins with. */
const numberOf = text => Number(/^\d+/.exec(text)?.[0]);

/** Whether one of these texts says that an operation is half done. */
export const isHalfDone = faults => faults.some(text => numberOf(text) === 9);

/** A sentence for each kind of fault among these texts. */
export function meaningsOf(faults) {
  const numbers = [...new Set(faults.map(numberOf))].filter(number => number in FAULT_MEANINGS);
  return numbers.map(number => FAULT_MEANINGS[number]);
}
