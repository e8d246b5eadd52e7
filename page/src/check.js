// What a report must look like for the page to show it.
import { isOfLines } from "./about.js";
import {
  ReportError, checkCount, checkHex, checkList, checkObject, checkText, checkTexts, isCount, isObject, kindOf, must,
} from "./form.js";
import { checkPromises } from "./promises.js";

/** Longer lists of faults, of failing sets, or of sets of rules or lines are shown up to here. */
export const MOST_CHOICES = 500;
const MOST_PATCHES = 1000;
const BLOCK_BYTES = 128, FEWEST_BLOCKS = 16, MOST_BLOCKS = 128, OUTSIDE_JOURNAL = 6;

/* --- the parts of a report --- */

function checkBase(base) {
  checkList("base", base);
  const wanted = `a list of ${FEWEST_BLOCKS} to ${MOST_BLOCKS} blocks`;
  must(base.length >= FEWEST_BLOCKS && base.length <= MOST_BLOCKS, "base", wanted, base);
  base.forEach((block, b) => checkHex(`base[${b}]`, block, BLOCK_BYTES, BLOCK_BYTES));
  const [blocks, journal] = [2, 4].map(at => parseInt(base[0].slice(at, at + 2), 16));
  must(blocks === base.length, "base", `as long as its superblock says (${blocks} blocks)`, base);
  const most = blocks - OUTSIDE_JOURNAL;
  must(journal <= most, "the journal in the superblock", `at most ${most} blocks`, journal);
}

function checkTrace(trace, blocks) {
  checkList("trace", trace);
  must(trace.length <= MOST_PATCHES, "trace", `a list of at most ${MOST_PATCHES} patches`, trace);
  trace.forEach((patch, id) => checkPatch(`trace[${id}]`, patch, id, blocks));
}

function checkPatch(place, patch, id, blocks) {
  checkObject(place, patch);
  checkText(`${place}.part`, patch.part);
  checkText(`${place}.step`, patch.step);
  checkCount(`${place}.line`, patch.line, 1);
  checkCount(`${place}.block`, patch.block, 0, blocks - 1);
  checkCount(`${place}.offset`, patch.offset, 0, BLOCK_BYTES - 1);
  checkHex(`${place}.new`, patch.new, 1, BLOCK_BYTES - patch.offset);
  checkHex(`${place}.undo`, patch.undo, patch.new.length / 2, patch.new.length / 2);
  checkList(`${place}.after`, patch.after);
  patch.after.forEach((one, k) => checkReason(`${place}.after[${k}]`, one, id));
}

function checkReason(place, one, id) {
  checkObject(place, one);
  must(isCount(one.patch, 0, id - 1), `${place}.patch`, `an earlier patch than ${id}`, one.patch);
  checkTexts(`${place}.why`, one.why);
  must(one.why.length > 0, `${place}.why`, "a list of at least one reason", one.why);
}

/** A failing set with the block writes that lead to it and the blocks that replay changes. A search has no trace and
    no base; those of its workloads may be known. */
export function checkSet(place, one, report) {
  checkList(`${place}.set`, one.set);
  one.set.forEach((id, k) => {
    checkCount(`${place}.set[${k}]`, id, 0, (report.trace?.length ?? MOST_PATCHES) - 1);
    must(k === 0 || id > one.set[k - 1], `${place}.set[${k}]`, "larger than the one before it", id);
  });
  checkList(`${place}.writes`, one.writes);
  one.writes.forEach((write, k) => checkWrite(`${place}.writes[${k}]`, write, one.set, report));
  const written = one.writes.flatMap(write => write.patches).sort((a, b) => a - b);
  must(written.join() === one.set.join(), `${place}.writes`, "writes of exactly the patches in set", one.writes);
  if (one.shows !== undefined) checkTexts(`${place}.shows`, one.shows);
  if (one.replay === undefined) return;
  checkList(`${place}.replay`, one.replay);
  one.replay.forEach((change, k) => checkChange(`${place}.replay[${k}]`, change, report));
}

function checkWrite(place, write, set, report) {
  checkObject(place, write);
  checkCount(`${place}.block`, write.block, 0, lastBlock(report));
  checkList(`${place}.patches`, write.patches);
  must(write.patches.length > 0, `${place}.patches`, "a list of at least one patch", write.patches);
  write.patches.forEach((id, k) => {
    const holds = set.includes(id) && (!report.trace || report.trace[id].block === write.block);
    must(holds, `${place}.patches[${k}]`, `a patch of the set, in block ${write.block}`, id);
  });
}

const lastBlock = ({ base }) => (base?.length ?? MOST_BLOCKS) - 1;

function checkChange(place, change, report) {
  checkObject(place, change);
  checkCount(`${place}.block`, change.block, 0, lastBlock(report));
  checkHex(`${place}.bytes`, change.bytes, BLOCK_BYTES, BLOCK_BYTES);
}

/* --- what can be chosen --- */

/** A decision lists faults, and its number of closed sets is a text. */
export const isDecision = ({ faults }) => faults !== undefined;

/** What is enough; there too the number of closed sets is a text. */
export const isOfEnough = ({ enough }) => enough !== undefined;

function checkFault(place, one, report) {
  checkObject(place, one);
  checkText(`${place}.fault`, one.fault);
  checkSet(place, one, report);
}

/** Rules, or lines that wait, of which one is needed, with a fault that comes without them. */
export function checkGroup(place, one, report, isOfLine = false) {
  checkFault(place, one, report);
  const [name, other, noun] = isOfLine ? ["syncs", "rules", "line"] : ["rules", "syncs", "rule"];
  must(one[other] === undefined, `${place}.${other}`, `missing in a report on ${noun}s`, one[other]);
  checkSome(`${place}.${name}`, one[name], report, isOfLine);
  must(one[name].length > 0, `${place}.${name}`, `a list of at least one ${noun}`, one[name]);
}

/** Rules by their names, or lines that wait by their numbers. */
function checkSome(place, some, { waits = [] }, isOfLine) {
  if (!isOfLine) return checkTexts(place, some);
  checkList(place, some);
  some.forEach((line, k) =>
    must(waits.some(wait => wait.line === line), `${place}[${k}]`, "the line of one of waits", line));
}

export function checkFailing(place, one, report) {
  checkObject(place, one);
  checkTexts(`${place}.faults`, one.faults);
  must(one.faults.length > 0, `${place}.faults`, "a list of at least one fault", one.faults);
  checkSet(place, one, report);
}

/** The head of a report: the ordering and its counts. */
function checkHead(json) {
  checkOrdering(json);
  if (isDecision(json) || isOfEnough(json)) {
    const holds = typeof json.closed === "string" && /^[1-9]\d*$/.test(json.closed);
    must(holds, "closed", "the digits of a whole number, at least 1", json.closed);
  } else {
    checkCount("closed", json.closed, 1);
  }
  if (json.patches !== undefined) {
    must(json.patches === json.trace.length, "patches", `the length of trace (${json.trace.length})`, json.patches);
  }
}

/** The module, what differs from its ordering, and what else the checker and the disk were asked for. */
export function checkOrdering(json) {
  checkText("module", json.module);
  for (const list of ["with", "without"]) if (json[list] !== undefined) checkTexts(list, json[list]);
  if (json.counted !== undefined) checkCounted(json.counted);
  for (const flag of ["atomic", "durable", "generations", "strict", "whole_blocks"]) {
    if (json[flag] !== undefined) must(typeof json[flag] === "boolean", flag, "true or false", json[flag]);
  }
}

/** The numbers of the faults that count. */
function checkCounted(counted) {
  checkList("counted", counted);
  must(counted.length > 0, "counted", "a list of at least one number", counted);
  counted.forEach((number, k) => checkCount(`counted[${k}]`, number, 1));
}

const checkLength = ({ failing, closed }) =>
  must(failing.length <= closed, "failing", `a list of at most ${closed} sets`, failing);

/** A report names either sets of rules or lines that are enough, or a fault that comes under all of them. */
function checkEnough(json) {
  for (const list of ["enough", "needs"]) checkList(list, json[list]);
  const isOfLine = isOfLines(json);
  json.enough.slice(0, MOST_CHOICES).forEach((some, k) => checkSome(`enough[${k}]`, some, json, isOfLine));
  json.needs.slice(0, MOST_CHOICES).forEach((one, k) => checkGroup(`needs[${k}]`, one, json, isOfLine));
  if (json.enough.length === 0) checkFault("first", json.first, json);
  else must(json.first === undefined, "first", "missing where a set is enough", json.first);
}

function checkLists(json) {
  const [name, check] = isDecision(json) ? ["faults", checkFault] : ["failing", checkFailing];
  if (json[name] === undefined) {
    throw new ReportError("This report lists no faults and no failing sets. Make it with --json --explain --decide.");
  }
  checkList(name, json[name]);
  if (name === "failing") checkLength(json);
  json[name].slice(0, MOST_CHOICES).forEach((one, k) => check(`${name}[${k}]`, one, json));
}

/** Throws a `ReportError` where the page cannot show this. */
export function checkReport(json) {
  if (!isObject(json)) throw new ReportError(`A report is a JSON object, but this file holds ${kindOf(json)}.`);
  if (json.base === undefined || json.trace === undefined) {
    throw new ReportError("This report does not say what its patches are. Make it with --json --explain --decide.");
  }
  checkBase(json.base);
  checkTrace(json.trace, json.base.length);
  checkPromises(json);
  checkHead(json);
  if (isOfEnough(json)) checkEnough(json); else checkLists(json);
}
