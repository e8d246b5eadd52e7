// Which operation is half done on an image: some of its changes are there, and others are not.
import { FREE, INODES, JOURNAL_START, inodeOf } from "./disk.js";
import { realLine } from "./real.js";
import { below, listOf } from "./words.js";

/** A sentence on the operation that an image has in part, or on those out of their order; null if neither is clear. */
export function halvesWords(report, image) {
  const { operations } = report, bytes = bytesWritten(report, image);
  const one = operations.find((operation, k) => bytes.every(byte => isWithin(byte, k)));
  if (one) return `Half done: ${nameOf(one)}.`;
  const has = below(operations.length).map(k => ({
    new: bytes.some(byte => changesIn(byte, k) && byte.from.every(from => from >= k)),
    old: bytes.some(byte => changesIn(byte, k) && byte.from.every(from => from < k)),
  }));
  const inPart = operations.filter((operation, k) => has[k].new && has[k].old);
  if (inPart.length) return `On disk in part: ${listOf(inPart.map(nameOf))}.`;
  const missing = has.findIndex(one => one.old && !one.new);
  const later = has.findIndex((one, k) => one.new && k > missing);
  if (missing < 0 || later < 0) return null;
  return `On disk: ${nameOf(operations[later])}; but an earlier one is not: ${nameOf(operations[missing])}.`;
}

const nameOf = ({ line, text }) => `line ${line} ${realLine(text)}`;

/** Whether a byte has the value from before an operation, or one that the operation gives it. */
const isWithin = ({ value, versions }, k) => before(versions, k) === value
  || versions.some(version => version.operation === k && version.value === value);

/** Whether an operation leaves another value of a byte than it finds. */
const changesIn = ({ versions }, k) => before(versions, k) !== before(versions, k + 1);

/** The value of a byte before an operation. */
const before = (versions, k) => versions.findLast(({ operation }) => operation < k).value;

/** The bytes in which operations and the image may differ: the value on the image, the values that the byte has had,
    each with its operation (-1 is the base), and the operations after which it had the image's value. */
function bytesWritten(report, image) {
  return comparedBlocks(image).filter(block => !isInJournal(report, block)).flatMap(block => {
    const writes = report.trace.filter(patch => patch.block === block);
    return below(image[block].length).map(offset => {
      const over = writes.filter(patch => patch.offset <= offset && offset < patch.offset + patch.bytes.length);
      const made = over.map(({ operation, bytes, offset: start }) => ({ operation, value: bytes[offset - start] }));
      const versions = [{ operation: -1, value: report.base[block][offset] }, ...made], value = image[block][offset];
      const from = versions.filter(version => version.value === value).map(({ operation }) => operation);
      return { value, versions, from };
    });
  });
}

const isInJournal = (report, block) => JOURNAL_START <= block && block < report.root;

/** The map, the inodes, and the blocks that live inodes point to. */
function comparedBlocks(image) {
  const live = below(INODES).map(inode => inodeOf(image, inode)).filter(({ kind }) => kind !== FREE);
  const pointed = live.flatMap(({ slots }) => slots).filter(block => block >= JOURNAL_START);
  return [...new Set([1, 2, 3, ...pointed])].filter(block => block < image.length);
}
