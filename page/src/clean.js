// What holds of a disk without a fault, in words: a run can count some faults alone.
import { listOf } from "./words.js";

const faultsWords = counted => `fault${counted.length > 1 ? "s" : ""} ${listOf(counted.map(String))}`;

/** Which faults alone count, or nothing where all do. */
export const countedWords = ({ counted }) => counted ? `only ${faultsWords(counted)}` : "";

/** Whether broken promises alone count. */
const areOnlyPromises = counted => counted?.join() === "10";

/** What a disk without a fault is, after `the disk`. */
export function cleanWords({ counted, promises }) {
  if (areOnlyPromises(counted)) {
    return promises?.length ? "keeps every promise" : "breaks no promise, since none is made";
  }
  if (counted) return `has no ${faultsWords(counted)}`;
  return promises?.length ? "is clean and keeps every promise" : "is clean";
}

/** A disk without a fault. */
export function cleanDisk({ counted, promises }) {
  if (areOnlyPromises(counted)) {
    return promises?.length ? "a disk that keeps every promise" : "a disk that breaks no promise, since none is made";
  }
  if (counted) return `a disk without ${faultsWords(counted)}`;
  return promises?.length ? "a clean disk that keeps every promise" : "a clean disk";
}
