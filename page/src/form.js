// Checks of single values of a report. Each that fails throws a `ReportError`, which names the place in the report,
// what it must hold and what it holds.
import { shortened } from "./words.js";

/** The report cannot be shown; the message is a sentence for a person. */
export class ReportError extends Error {}

const MOST_LETTERS = 40;

export const isObject = value => typeof value === "object" && value !== null && !Array.isArray(value);

/** What a value is, for a sentence. */
export function kindOf(value) {
  if (value === undefined) return "missing";
  if (value === null) return "null";
  if (Array.isArray(value)) return `a list of ${value.length}`;
  if (typeof value === "object") return "an object";
  if (typeof value === "string") return `the text ${JSON.stringify(shortened(value, MOST_LETTERS))}`;
  return typeof value === "number" ? `the number ${value}` : String(value);
}

export function must(holds, place, wanted, value) {
  if (holds) return;
  const is = value === undefined ? "but it is missing" : `but it is ${kindOf(value)}`;
  throw new ReportError(`This report has an unexpected form: ${place} must be ${wanted}, ${is}.`);
}

export const isCount = (value, least, most) => Number.isSafeInteger(value) && value >= least && value <= most;

export function checkCount(place, value, least, most = Number.MAX_SAFE_INTEGER) {
  const wanted = most === Number.MAX_SAFE_INTEGER ? `a whole number, at least ${least}`
    : `a whole number from ${least} to ${most}`;
  must(isCount(value, least, most), place, wanted, value);
}

export const checkText = (place, value) => must(typeof value === "string", place, "a text", value);
export const checkObject = (place, value) => must(isObject(value), place, "an object", value);
export const checkList = (place, value) => must(Array.isArray(value), place, "a list", value);

export function checkTexts(place, value) {
  checkList(place, value);
  value.forEach((one, k) => checkText(`${place}[${k}]`, one));
}

/** Hexadecimal digits for at least one byte and at most this many. */
export function checkHex(place, value, least, most) {
  const size = least === most ? `${least}` : `${least} to ${most}`;
  const holds = typeof value === "string" && /^(?:[0-9a-f]{2})*$/.test(value)
    && value.length >= 2 * least && value.length <= 2 * most;
  must(holds, place, `${size} bytes in hexadecimal digits`, value);
}
