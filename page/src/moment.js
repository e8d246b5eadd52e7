// When the power fails: behind which line of the script, and before which other one is on the disk.
import { inodePlace, targetOf } from "./disk.js";
import { realLine } from "./real.js";

const NAMING = ["create", "mkdir", "link", "rename", "replace"];
const COUNTED_IN_A_JOURNAL = ["FileData", "NewData", "Commit"];

/** The line behind which the power fails: the last of which something is on the disk, or the last before the promise.
    With --durable that of an fsync is made behind it. */
export function lineBehind(report, set, promise) {
  const begun = report.operations.filter(one => one.line < promise.line
    || one.patches.some(({ id }) => set.includes(id)));
  const waits = report.waits.filter(({ line }) => line <= promise.line).map(({ line, step }) => ({ line, text: step }));
  return [...begun, ...waits].reduce((last, one) => !last || one.line > last.line ? one : last, null);
}

/** The words behind `if the power fails`. `parts` has what each of the promise's paths shows on the image. */
export function momentWords(report, image, set, promise, parts) {
  const behind = lineBehind(report, set, promise), paths = promise.hold ?? promise.keep;
  if (!behind) return "before anything is on the disk";
  const missing = report.operations.filter(one => !isWhole(one, set)), last = promise.shows.at(-1).split(" | ");
  const unmended = paths.map((path, k) => ({ path, part: parts[k] }))
    .filter(({ part }, k) => paths.length === 1 || part !== last[k]);
  const found = unmended.map(one => mendingLine(report, image, missing, one)).find(Boolean);
  if (found?.line !== behind.line) return `behind ${nameOf(behind)}${found ? `, before ${onDisk(nameOf(found))}` : ""}`;
  const hasBegun = found.patches.some(({ id }) => set.includes(id));
  return hasBegun ? `while only a part of ${onDisk(nameOf(behind))}`
    : `behind ${nameOf(behind)}, before ${onDisk("it")}`;
}

const nameOf = ({ line, text }) => `line ${line} (${realLine(text)})`;
const onDisk = words => `${words} is on the disk`;

/** Whether all of an operation is on the disk, or will be after replay. */
function isWhole({ patches }, set) {
  const hasCommit = patches.some(({ part }) => part === "Commit");
  const counted = hasCommit ? patches.filter(({ part }) => COUNTED_IN_A_JOURNAL.includes(part)) : patches;
  return counted.every(({ id }) => set.includes(id));
}

/** The first operation that would mend what a path shows, if all of it were on the disk. */
function mendingLine(report, image, missing, { path, part }) {
  const inode = targetOf(image, report.root, path), isGone = part === "nothing";
  const changes = (...roles) => ({ patches }) =>
    inode !== null && patches.some(patch => roles.includes(patch.part) && isIn(patch, inode));
  return missing.find(isGone ? changes("InodeInit") : changes("Ptr", "Touch"))
    ?? missing.find(({ text }) => NAMING.includes(text.split(" ")[0]) && text.split(" ").at(-1) === path);
}

function isIn(patch, inode) {
  const { block, offset } = inodePlace(inode);
  return patch.block === block && offset <= patch.offset && patch.offset < offset + 16;
}
