// node page/test/test_promises.mjs [FOLDER]: what pages show of promises that a crash breaks, and the real paths of a
// recorded script.
import { cases } from "./cases.mjs";
import {
  browser, check, drop, keepPicture, open, openAnswered, openMade, reportOf, run, shown,
} from "./harness.mjs";

/* --- promises --- */

/** A table's row for what paths show, as a report writes it: a word for each path, and the bytes of its blocks. */
const rowOf = (name, words, ...kinds) => [name,
  ...words.split(" | ").map((part, k) => [kinds[k], ...part.split(" ").slice(1)].join(" "))];

async function testPromise() {
  const { faults: [fault], promises: [promise] } = await open("promise"), page = await shown();
  check("a promise: the fault", page.faults, [`Fault ${fault.fault}`]);
  check("a promise: what the path shows, what was promised, and what stands in", page.promises, [[
    [`line ${promise.line}: hold`, "/a"], ["after the crash", "empty"], rowOf("promised", promise.shows[0], "old"),
    rowOf("or", promise.spares[0].replace("/a ", ""), "old")]]);
  check("a promise: a sentence", page.broken,
    ["/a is empty if the power fails behind line 5 (truncate /a), before line 6 (write /a) is on the disk."]);
  check("a promise: the report says that the file is empty", fault.shows, ["file"]);
  await keepPicture("promise");
  await open("promise", "#choice=1");
  check("a run without a crash breaks no promise", (await shown()).promises, []);
  await open("promise", "#set=0");
  check("a picked set that the report lists", (await shown()).promises.length, 1);
  await open("promise", "#set=0+1");
  check("a picked set that it does not list", (await shown()).promises, []);
}

async function testPromiseOfTwo() {
  const { faults: [fault], promises: [promise] } = await open("promise_of_two"), page = await shown();
  check("a promise of two paths", page.promises, [[["line 6: keep", "/a", "/b"],
    rowOf("after the crash", fault.shows[0], "new", "old"), rowOf("promised", promise.shows[0], "old", "old"),
    rowOf("or later", promise.shows[1], "new", "new")]]);
  check("a promise of two paths: a sentence", page.broken, ["/a is new and /b is old if the power fails behind line 8 "
    + "(overwrite /a), before line 9 (overwrite /b) is on the disk."]);
  await keepPicture("promise_of_two");
}

async function testSpares() {
  const { faults, promises: [promise] } = await open("promise_spared");
  const [, ...rest] = promise.spares[0].split(" "), [, ...own] = promise.spares[1].split(" ");
  check("spares: another path, and then the promised one", promise.spares.map(one => one.split(" ")[0]), ["/b", "/a"]);
  check("spares: each says what it shows", (await shown()).promises, [[["line 4: hold", "/a"],
    rowOf("after the crash", faults[0].shows[0], "gone"), rowOf("promised", promise.shows[0], "old"),
    rowOf("or as /b", ["file", ...rest.slice(1)].join(" "), "old"), rowOf("or", own.join(" "), "new")]]);
  const { rules, title } = await shown();
  check("only one fault counts", [rules.filter(Boolean), title.includes(" under soft, only fault 10, 16 blocks")],
    [["only fault 10"], true]);
}

async function testKept() {
  await open("promise_kept");
  const { verdict, choices, words, key, reasons } = await shown(), report = reportOf("promise_kept");
  check("kept: says so", verdict, [`None: after each of the ${report.closed} crashes that are possible, `
    + "replay leaves a clean disk that keeps every promise."]);
  check("kept: the run without a crash alone", choices, ["No crashevery patch on disk"]);
  check("kept: at each step", words, ["A crash can stop the run at each of these steps. After replay the disk is clean "
    + "and keeps every promise at each step, since no closed set fails."]);
  check("kept: arrows of the line that waits", [key.includes("wait"), reasons.some(one => one.endsWith(": wait"))],
    [true, true]);
  const isOfWait = await browser.ask('document.querySelector("#drawing .edge.wait").getAttribute("aria-label")');
  check("kept: an arrow says why", isOfWait.endsWith(": wait"), true);
  await open("promise_kept", "#set=0");
  check("kept: a picked set", (await shown()).words.at(-1).endsWith("After replay this disk is clean and keeps every "
    + "promise, since the report does not list it as failing."), true);
  await keepPicture("promise_kept");
}

async function testLasting() {
  const { failing, promises: [promise] } = await open("promise_lasting"), page = await shown();
  check("an fsync promises with --durable", page.promises, [[["line 6: fsync", "/a"],
    rowOf("after the crash", failing[0].shows[0], "gone"), rowOf("promised", promise.shows[0], "old")]]);
  check("the head says so", page.rules.filter(Boolean), ["without Commit:Copy", "durable", "only fault 10"]);
  check("each failing set has its own", failing.every(one => one.shows.length === 1), true);
}

/** Several faults of one set: each broken promise has its table, in the order of the faults. */
async function testTwoBroken() {
  await open("promise_of_two");
  const report = reportOf("promise_of_two"), [fault] = report.faults;
  report.failing = [{ ...fault, faults: ["1 dangling entry: directory 0 entry 0 inode 1", fault.fault,
    "10 broken promise: line 9"], shows: [fault.shows[0], "nothing"] }];
  report.promises.push({ after: [], hold: ["/b"], line: 9, shows: ["directory"], spares: [] });
  report.closed = 57;
  delete report.faults;
  check("two broken promises: the report is shown", await drop(JSON.stringify(report)), "shown");
  const { promises } = await shown();
  check("two broken promises", [promises.length, promises[0][0], promises[1]], [2, ["line 6: keep", "/a", "/b"],
    [["line 9: hold", "/b"], ["after the crash", "gone"], ["promised", "directory"]]]);
}

/** A report without what the paths show, as one of a search's workloads, has the fault alone. */
async function testNothingShown() {
  await open("promise");
  const report = reportOf("promise");
  delete report.faults[0].shows;
  await drop(JSON.stringify(report));
  const { faults, promises } = await shown();
  check("nothing is known of what the paths show", [faults.length, promises], [1, []]);
}

/** Where nothing is promised, nothing is said to keep promises. */
async function testNoPromise() {
  for (const [counted, words] of [[[10], "breaks no promise, since none is made"], [undefined, "is clean"]]) {
    const report = { ...reportOf("promise_kept"), promises: [], counted };
    await drop(JSON.stringify(report));
    const { words: [said] } = await shown();
    check("no promise: what is said of the disk", said.startsWith("A crash can stop the run at each of these steps. After "
      + `replay the disk ${words} at each step`), true);
  }
}

/** A search's workloads have the promises of the pool, and its lines that wait are steps of theirs. */
async function testSearch() {
  const { kinds: [kind] } = await openAnswered("search_promise"), page = await shown();
  check("a search: the workload's crash", [page.disk, page.columns], [kind.set, kind.steps]);
  check("a search: its promise", page.promises.map(([head, found]) => [head, found]),
    [[["line 8: keep", "/a"], rowOf("after the crash", kind.shows[0], "empty")]]);
  const lasting = (await openAnswered("search_lasting")).kinds[0], { error, disk, promises, rules } = await shown();
  check("a search: a workload with an fsync", [lasting.steps.includes("fsync /a"), error, disk],
    [true, [], lasting.set]);
  check("a search: a promise of its own line has no table", promises, []);
  check("a search: what is asked for", rules.filter(Boolean), ["without Commit:Copy", "durable", "only fault 10"]);
}

/* --- real paths --- */

const NOTES = `[...document.querySelectorAll("#script li")].filter(line => line.querySelector("small"))
  .map(line => [line.firstChild.textContent, line.querySelector("small").textContent])`;
const TITLES = '[...document.querySelectorAll(".column title")].map(one => one.textContent)';
const PATHS = '[...document.querySelectorAll("#disk tbody th small")].map(one => one.textContent)';

/** Whether the marked line of the script is in its panel. */
const IS_IN_VIEW = `(() => {
  const [line, panel] = ["#script .now", "#script ol"].map(one => document.querySelector(one).getBoundingClientRect());
  return panel.top <= line.top && line.bottom <= panel.bottom;
})()`;

const { script, words } = cases.recorded;
const textOf = lines => lines.map(line => `${line}\n`).join("");
const openRecorded = lines => openMade("recorded", textOf(lines), words);

/** The case's comments name them, and the others are those of the script without the first letter. */
async function testRealPaths() {
  await openRecorded(script);
  const page = await shown(), lock = ".git/config.lock", file = ".git/config";
  check("real paths: operations", page.columns, [`create ${lock}`, `write ${lock}`, `replace ${lock} ${file}`]);
  check("real paths: the pointer finds both", (await browser.ask(TITLES)).at(-1),
    `line 15: replace ${lock} ${file} (in the script: replace /git/configlock /git/config)`);
  check("real paths: promises", page.promises[0][0], ["line 12: hold", file]);
  check("real paths: places on the disk", (await browser.ask(PATHS)).includes(file), true);
  const notes = await browser.ask(NOTES);
  check("real paths: the script", notes.slice(-2), [["replace /git/configlock /git/config", `${lock} ${file}`],
    ["spare /git/config /git/config", `${file} ${file}`]]);
  check("real paths: each line that has some", notes.length, 9);
  const now = await browser.ask('document.querySelector("#script .now").firstChild.textContent');
  check("the script shows the line behind which the power fails", [now, await browser.ask(IS_IN_VIEW)],
    ["replace /git/configlock /git/config", true]);
  check("a sentence with the real paths", page.broken, [`${file} is empty if the power fails behind line 15 (replace `
    + `${lock} ${file}), before line 14 (write ${lock}) is on the disk.`]);
  await keepPicture("recorded");
}

/** On a phone a table has no head, and each row has the file's name. */
async function testPhone() {
  await browser.size(390, 800);
  await openRecorded(script);
  const names = await browser.ask(`[...document.querySelectorAll(".promise td")]
    .map(one => getComputedStyle(one, "::before").content)`);
  check("a phone: each row of a promise has the file's name", names, Array(3).fill('".git/config: "'));
  check("a phone: nothing hangs over the side", (await shown()).sideways, 0);
  await keepPicture("promise_phone", true);
  await browser.size(1280, 800);
}

/** Odd letters and HTML in a name are shown as they are; a name with a space stands in quotes. */
async function testOddPaths() {
  const odd = "<b>it's</b> \u00e9";
  await openRecorded(script.map(line => line.replace(" is .git/config.lock", ` is ${odd}`)));
  const { columns, sideways } = await shown();
  check("an odd path", columns[0], "create '<b>it'\\''s</b> \u00e9'");
  check("nothing hangs over the side", sideways, 0);
  await openRecorded(script.map(line => line.replace(" is .git/config.lock", ` is ${"long".repeat(99)}`)));
  check("a long path does not hang over the side", (await shown()).sideways, 0);
}

/** Names that are the real ones without the first letter, and a script that was not recorded. */
async function testOwnPaths() {
  await openRecorded(script.filter(line => !/^# .* is /.test(line)));
  const { columns, promises } = await shown();
  check("no comment names another path", [columns[0], promises[0][0]],
    ["create git/configlock", ["line 12: hold", "git/config"]]);
  check("no line of the script needs one", await browser.ask(NOTES), []);
  await openRecorded(script.filter(line => !line.startsWith("# recorded")));
  check("a script that was not recorded keeps its own paths", (await shown()).promises[0][0],
    ["line 12: hold", "/git/config"]);
  check("also in its text", await browser.ask(NOTES), []);
  await open("recorded");
  check("a report alone has the script's paths", (await shown()).promises[0][0], ["line 12: hold", "/git/config"]);
}

await run([testPromise, testPromiseOfTwo, testSpares, testKept, testLasting, testTwoBroken, testNothingShown, testNoPromise,
  testSearch, testRealPaths, testPhone, testOddPaths, testOwnPaths]);
