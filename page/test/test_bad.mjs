// node page/test/test_bad.mjs: report files that the page cannot show, or shows in part, leave a page that says what is
// wrong.
import { browser, check, drop, open, openText, reportOf, reportText, run, shown } from "./harness.mjs";

const FORM = "This report has an unexpected form: ";
const HTML = '</script><script>document.title = "broken"</script><img src=x onerror="document.title = \'broken\'">';

/** A report with one thing in it changed, as text. */
function changed(name, change) {
  const report = reportOf(name);
  return JSON.stringify(change(report) ?? report);
}

/* --- files that are no report --- */

const cutOff = reportText("create").slice(0, 1000);

/** Each: its name, the file's text, and how the sentence on the page begins. */
const noReports = [
  ["nothing at all", "", "This file is empty."],
  ["white space", " \n\n", "This file is empty."],
  ["no JSON", "module soft\npatches 3\n", "This file is not JSON, so it is no report: "],
  ["a beginning of a report", cutOff, "This file is not JSON, so it is no report: "],
  ["HTML", HTML, "This file is not JSON, so it is no report: "],
  ["HTML that hides the end of a script", "<!--<script>", "This file is not JSON, so it is no report: "],
  ["bytes that are no text", Buffer.from([0, 255, 254, 128, 0, 60, 47, 115]),
    "This file is not JSON, so it is no report: "],
  ["brackets in brackets", "[".repeat(200000), "This file is not JSON, so it is no report: "],
  ["null", "null", "A report is a JSON object, but this file holds null."],
  ["a number", "7", "A report is a JSON object, but this file holds the number 7."],
  ["a text with HTML", JSON.stringify(HTML), "A report is a JSON object, but this file holds the text \"</script>"],
  ["a list", "[1,2]", "A report is a JSON object, but this file holds a list of 2."],
  ["an empty object", "{}", "This report does not say what its patches are. Make it with --json --explain --decide."],
  ["a report without --explain", changed("create", ({ base, trace, ...rest }) => rest),
    "This report does not say what its patches are. Make it with --json --explain --decide."],
];

/* --- reports of an odd form --- */

/** Each: the report that is changed, how, and what the page says of it. */
const odd = [
  ["create", r => { r.base = {}; }, "base must be a list, but it is an object."],
  ["create", r => { r.base.length = 3; }, "base must be a list of 16 to 128 blocks, but it is a list of 3."],
  ["create", r => { r.base.pop(); r.base.push("00"); },
    "base[15] must be 128 bytes in hexadecimal digits, but it is the text \"00\"."],
  ["create", r => { r.base[2] = r.base[2].replace("0", "g"); },
    "base[2] must be 128 bytes in hexadecimal digits, but it is the text \"g"],
  ["create", r => { r.base[4] = 5; },
    "base[4] must be 128 bytes in hexadecimal digits, but it is the number 5."],
  ["create", r => { r.base.push(r.base[15]); },
    "base must be as long as its superblock says (16 blocks), but it is a list of 17."],
  ["create", r => { r.base[0] = `5310ff${r.base[0].slice(6)}`; },
    "the journal in the superblock must be at most 10 blocks"],
  ["create", r => { r.trace = { length: 2 }; }, "trace must be a list, but it is an object."],
  ["create", r => { r.trace = Array(20000).fill(r.trace[0]); },
    "trace must be a list of at most 1000 patches, but it is a list of 20000."],
  ["create", r => { r.trace[1] = null; }, "trace[1] must be an object, but it is null."],
  ["create", r => { delete r.trace[1].part; }, "trace[1].part must be a text, but it is missing."],
  ["create", r => { r.trace[0].step = ["create"]; }, "trace[0].step must be a text, but it is a list of 1."],
  ["create", r => { r.trace[0].line = 1.5; },
    "trace[0].line must be a whole number, at least 1, but it is the number 1.5."],
  ["create", r => { r.trace[1].block = 16; },
    "trace[1].block must be a whole number from 0 to 15, but it is the number 16."],
  ["create", r => { r.trace[1].offset = "8"; },
    "trace[1].offset must be a whole number from 0 to 127, but it is the text \"8\"."],
  ["create", r => { r.trace[1].offset = 120; },
    "trace[1].new must be 1 to 8 bytes in hexadecimal digits, but it is the text \"0201"],
  ["create", r => { r.trace[1].undo = "00"; },
    "trace[1].undo must be 12 bytes in hexadecimal digits, but it is the text \"00\"."],
  ["create", r => { r.trace[1].after = 0; }, "trace[1].after must be a list, but it is the number 0."],
  ["pointer", r => { r.trace[1].after[0].patch = 1; },
    "trace[1].after[0].patch must be an earlier patch than 1, but it is the number 1."],
  ["pointer", r => { r.trace[1].after[0].why = []; },
    "trace[1].after[0].why must be a list of at least one reason, but it is a list of 0."],
  ["create", r => { delete r.module; }, "module must be a text, but it is missing."],
  ["sets", r => { r.closed = null; }, "closed must be a whole number, at least 1, but it is null."],
  ["sets", r => { r.closed = "4"; },
    "closed must be a whole number, at least 1, but it is the text \"4\"."],
  ["create", r => { r.closed = 4; },
    "closed must be the digits of a whole number, at least 1, but it is the number 4."],
  ["create", r => { r.patches = 3; }, "patches must be the length of trace (2), but it is the number 3."],
  ["create", r => { r.with = {}; }, "with must be a list, but it is an object."],
  ["pointer", r => { r.without = [7]; }, "without[0] must be a text, but it is the number 7."],
  ["lost", r => { r.strict = "yes"; }, "strict must be true or false, but it is the text \"yes\"."],
  ["lost", r => { r.atomic = 1; }, "atomic must be true or false, but it is the number 1."],
  ["decided", r => { r.closed = "0"; },
    "closed must be the digits of a whole number, at least 1, but it is the text \"0\"."],
  ["decided", r => { r.closed = "24 "; },
    "closed must be the digits of a whole number, at least 1, but it is the text \"24 \"."],
  ["decided", r => { r.faults[1].set = [5]; },
    "faults[1].set[0] must be a whole number from 0 to 4, but it is the number 5."],
  ["sets", r => { r.closed = 35; }, "failing must be a list of at most 35 sets, but it is a list of 36."],
  ["create", r => { r.faults = { 0: r.faults[0] }; }, "faults must be a list, but it is an object."],
  ["create", r => { r.faults[0] = "1 dangling entry"; },
    "faults[0] must be an object, but it is the text \"1 dangling entry\"."],
  ["create", r => { r.faults[0].fault = 1; }, "faults[0].fault must be a text, but it is the number 1."],
  ["sets", r => { r.failing[0].faults[0] = 1; }, "failing[0].faults[0] must be a text, but it is the number 1."],
  ["create", r => { r.faults[0].set = [2]; },
    "faults[0].set[0] must be a whole number from 0 to 1, but it is the number 2."],
  ["create", r => { r.faults[0].set = [1, 0]; },
    "faults[0].set[1] must be larger than the one before it, but it is the number 0."],
  ["create", r => { delete r.faults[0].writes; }, "faults[0].writes must be a list, but it is missing."],
  ["create", r => { r.faults[0].writes = []; },
    "faults[0].writes must be writes of exactly the patches in set, but it is a list of 0."],
  ["create", r => { r.faults[0].writes[0].patches = [0]; },
    "faults[0].writes[0].patches[0] must be a patch of the set, in block 4, but it is the number 0."],
  ["create", r => { r.faults[0].replay = "00"; },
    "faults[0].replay must be a list, but it is the text \"00\"."],
  ["reuse", r => { r.faults[0].replay[1].bytes = ""; },
    "faults[0].replay[1].bytes must be 128 bytes in hexadecimal digits, but it is the text \"\"."],
  ["promise", r => { r.promises = {}; }, "promises must be a list, but it is an object."],
  ["promise", r => { r.promises[0] = 8; }, "promises[0] must be an object, but it is the number 8."],
  ["promise", r => { r.promises[0].line = "8"; },
    "promises[0].line must be a whole number, at least 1, but it is the text \"8\"."],
  ["promise", r => { delete r.promises[0].hold; }, "promises[0].keep must be a list, but it is missing."],
  ["promise", r => { r.promises[0].hold = []; },
    "promises[0].hold must be a list of 1 to 4 paths, but it is a list of 0."],
  ["promise_of_two", r => { r.promises[0].keep[1] = null; }, "promises[0].keep[1] must be a text, but it is null."],
  ["promise", r => { r.promises[0].shows = "file"; },
    "promises[0].shows must be a list, but it is the text \"file\"."],
  ["promise", r => { r.promises[0].spares = [1]; }, "promises[0].spares[0] must be a text, but it is the number 1."],
  ["promise_kept", r => { r.waits = 1; }, "waits must be a list, but it is the number 1."],
  ["promise_kept", r => { delete r.waits[0].step; }, "waits[0].step must be a text, but it is missing."],
  ["promise", r => { r.faults[0].shows = [7]; }, "faults[0].shows[0] must be a text, but it is the number 7."],
  ["promise_lasting", r => { r.durable = "yes"; }, "durable must be true or false, but it is the text \"yes\"."],
  ["promise_spared", r => { r.counted = [0]; },
    "counted[0] must be a whole number, at least 1, but it is the number 0."],
  ["promise_spared", r => { r.counted = []; }, "counted must be a list of at least one number, but it is a list of 0."],
  ["all_sets", r => { r.failing[2] = null; }, "failing[2] must be an object, but it is null."],
  ["all_sets", r => { delete r.failing[1].faults; }, "failing[1].faults must be a list, but it is missing."],
  ["all_sets", r => { r.failing[3].faults = []; },
    "failing[3].faults must be a list of at least one fault, but it is a list of 0."],
  ["all_sets", r => { r.failing[3].set[0] = 4; },
    "failing[3].set[0] must be a whole number from 0 to 3, but it is the number 4."],
  ["enough", r => { r.closed = 11; },
    "closed must be the digits of a whole number, at least 1, but it is the number 11."],
  ["enough", r => { r.enough = "all"; }, "enough must be a list, but it is the text \"all\"."],
  ["enough", r => { r.enough[1] = "Ptr:InitFile"; },
    "enough[1] must be a list, but it is the text \"Ptr:InitFile\"."],
  ["enough", r => { r.enough[0][2] = 3; }, "enough[0][2] must be a text, but it is the number 3."],
  ["enough", r => { delete r.needs; }, "needs must be a list, but it is missing."],
  ["enough", r => { r.needs[1] = "Ptr:InitFile"; },
    "needs[1] must be an object, but it is the text \"Ptr:InitFile\"."],
  ["enough", r => { r.needs[0].rules = []; },
    "needs[0].rules must be a list of at least one rule, but it is a list of 0."],
  ["enough", r => { r.needs[2].rules[1] = null; }, "needs[2].rules[1] must be a text, but it is null."],
  ["enough", r => { delete r.needs[0].fault; }, "needs[0].fault must be a text, but it is missing."],
  ["enough", r => { r.needs[1].set = [0, 2, 5]; },
    "needs[1].set[2] must be a whole number from 0 to 4, but it is the number 5."],
  ["enough", r => { r.needs[1].writes.pop(); },
    "needs[1].writes must be writes of exactly the patches in set, but it is a list of 2."],
  ["enough", r => { r.first = r.needs[0]; }, "first must be missing where a set is enough, but it is an object."],
  ["enough", r => { r.needs[1].syncs = [7]; },
    "needs[1].syncs must be missing in a report on rules, but it is a list of 1."],
  ["syncs", r => { r.enough[0][1] = "Ptr:InitFile"; },
    "enough[0][1] must be the line of one of waits, but it is the text \"Ptr:InitFile\"."],
  ["syncs", r => { r.enough[0][0] = "Ptr:InitFile"; },
    "enough[0][0] must be the line of one of waits, but it is the text \"Ptr:InitFile\"."],
  ["syncs", r => { r.enough[0][0] = 8; }, "enough[0][0] must be the line of one of waits, but it is the number 8."],
  ["syncs", r => { delete r.waits; }, "enough[0][0] must be the line of one of waits, but it is the number 7."],
  ["syncs", r => { r.needs[1].syncs = []; },
    "needs[1].syncs must be a list of at least one line, but it is a list of 0."],
  ["syncs", r => { r.needs[1].syncs[0] = "9"; },
    "needs[1].syncs[0] must be the line of one of waits, but it is the text \"9\"."],
  ["syncs", r => { delete r.needs[0].syncs; }, "needs[0].syncs must be a list, but it is missing."],
  ["syncs", r => { r.needs[1].rules = ["Ptr:InitFile"]; },
    "needs[1].rules must be missing in a report on lines, but it is a list of 1."],
  ["syncs", r => { r.needs = [{ ...r.needs[0], rules: ["Ptr:InitFile"], syncs: undefined }]; },
    "needs[0].rules must be missing in a report on lines, but it is a list of 1."],
  ["syncs", r => { delete r.waits[1].ids; }, "waits[1].ids must be a list, but it is missing."],
  ["syncs", r => { r.waits[0].ids[4] = 11; },
    "waits[0].ids[4] must be a whole number from 0 to 10, but it is the number 11."],
  ["not_enough", r => { delete r.first; }, "first must be an object, but it is missing."],
  ["not_enough", r => { r.first.replay = [1]; }, "first.replay[0] must be an object, but it is the number 1."],
  ["search", r => { r.search = 9; }, "search must be a whole number from 1 to 8, but it is the number 9."],
  ["search", r => { r.failing = 9; }, "failing must be a whole number from 0 to 8, but it is the number 9."],
  ["search", r => { r.with = "Ptr:InitFile"; }, "with must be a list, but it is the text \"Ptr:InitFile\"."],
  ["search", r => { r.refused[1].count = 0; },
    "refused[1].count must be a whole number, at least 1, but it is the number 0."],
  ["search", r => { r.kinds = null; }, "kinds must be a list, but it is null."],
  ["search", r => { delete r.kinds[0].steps; }, "kinds[0].steps must be a list, but it is missing."],
  ["search", r => { r.kinds[0].writes = []; },
    "kinds[0].writes must be writes of exactly the patches in set, but it is a list of 0."],
  ["search", r => { r.kinds[0].workloads = 9; },
    "kinds[0].workloads must be a whole number from 1 to 8, but it is the number 9."],
  ["search_enough", r => { r.enough = 2; }, "enough must be a list, but it is the number 2."],
  ["search_enough", r => { r.needs[2].rules = []; },
    "needs[2].rules must be a list of at least one rule, but it is a list of 0."],
  ["search_enough", r => { r.needs[2].syncs = [7]; },
    "needs[2].syncs must be missing in a report on rules, but it is a list of 1."],
  ["search_enough", r => { r.needs[3].steps = [1]; }, "needs[3].steps[0] must be a text, but it is the number 1."],
  ["sets", r => { r.failing = 36; }, "failing must be a list, but it is the number 36."],
  ["sets", r => { r.failing[35].set = {}; }, "failing[35].set must be a list, but it is an object."],
];

/** The page says this, asks for another report, and has run no code of the file. */
function checkSays(name, page, words) {
  check(`${name}: ${words}`, [page.error.length, page.error[0]?.slice(0, words.length)], [1, words]);
  check(`${name}: the title says it too`, page.title, "crashmap: this report cannot be shown");
}

async function testNoReports() {
  for (const [name, text, words] of noReports) {
    await openText("bad", text);
    checkSays(name, await shown(), `bad.json: ${words}`);
  }
  await openText("bad", "{}");
  const asks = await browser.ask('document.querySelector("#drop input[type=file]") !== null');
  check("after a bad report the page asks for another", asks, true);
}

async function testOddForms() {
  await open("create");
  for (const [name, change, words] of odd) {
    await drop(changed(name, change));
    checkSays(name, await shown(), `dropped.json: ${FORM}${words}`);
  }
  await openText("bad", changed("create", ({ faults, ...rest }) => ({ ...rest, closed: 4 })));
  checkSays("no list of what fails", await shown(), "bad.json: This report lists no faults and no failing sets. "
    + "Make it with --json --explain --decide.");
}

/* --- reports that are shown, though something in them is unusual --- */

async function testHtmlInAReport() {
  await openText("html", changed("create", r => {
    r.trace.forEach(patch => { patch.step = HTML; patch.part = HTML; });
    r.module = HTML;
    r.with = [HTML];
    r.faults[0].fault = HTML;
  }));
  const page = await shown();
  check("HTML in a report is shown as text", [page.faults, page.rules], [[`Fault ${HTML}`], [`with ${HTML}`]]);
  check("HTML in a report does not run", [page.title.startsWith("html.json: 1 fault in 4"), page.error], [true, []]);
  check("HTML in a report makes no element", await browser.ask('document.querySelectorAll("img").length'), 0);
  check("the script in the page is whole", await browser.ask('document.scripts.length'), 3);
}

async function testUnknownWords() {
  const faults = ["3 unwritten pointer: inode 99 slot 7 block 300", "77 new kind: inode 1", "no number at all", ""];
  for (const fault of faults) {
    await openText("odd", changed("create", r => { r.faults[0].fault = fault; }));
    const page = await shown();
    check(`the fault "${fault}" is shown`, page.faults, [`Fault ${fault}`.trim()]);
    check(`the fault "${fault}" names no place`, page.named, []);
  }
  await openText("odd", changed("create", r => { r.trace[0].part = "Barrier"; }));
  const hint = await browser.ask('document.querySelector("#drawing .node").getAttribute("aria-label")');
  check("a part that the page does not know has its name", hint.startsWith("0 Barrier: Barrier"), true);
}

/** Distinct sets of the patches of `long.json`: the k-th has the patches of the bits of k + 1. */
function manySets(count) {
  const { trace } = reportOf("long");
  return Array.from({ length: count }, (_, k) => {
    const set = trace.map((_, id) => id).filter(id => (k + 1) >> id & 1 && id < 31);
    const writes = set.map(id => ({ block: trace[id].block, patches: [id] }));
    return { faults: ["4 low link count: inode 1 entries 2 links 1"], replay: [], set, writes };
  });
}

async function testManySets() {
  const failing = manySets(20000);
  const text = changed("long", ({ faults, ...rest }) => ({ ...rest, failing, closed: 2 ** 31 }));
  const before = Date.now();
  await openText("many", text);
  const page = await shown();
  check("20,000 failing sets: the page is there within 10 seconds", Date.now() - before < 10000, true);
  check("20,000 failing sets: the page says that it shows some", page.cut, ["This report lists 20,000 failing sets, "
    + "and the page shows the first 500. A report made with --decide has each fault once."]);
  check("20,000 failing sets: so many can be chosen", page.choices.length, 501);
  check("20,000 failing sets: the head has their number", page.facts[3], "failing sets20000");
  check("20,000 failing sets: the first is on the disk", page.disk, failing[0].set);
}

/* --- a report with one value in it replaced, whichever it is --- */

/** Random numbers below n, the same in each run. */
function numbersFrom(seed) {
  let state = seed;
  return n => {
    state = (Math.imul(state, 1664525) + 1013904223) >>> 0;
    return Math.floor(state / 2 ** 32 * n);
  };
}

/** Every place in a JSON value, as the holder and the key. */
const placesIn = value => typeof value !== "object" || value === null ? []
  : Object.keys(value).flatMap(key => [[value, key], ...placesIn(value[key])]);

async function testReplacedValues() {
  const strange = [null, true, -1, 0, 3, 1e9, 0.5, "", "x", "00", [], {}, [[]], [null], { set: 1 }];
  const draw = numbersFrom(57), answers = [];
  await open("create");
  for (const name of ["create", "pointer", "reuse", "lost", "needed", "sets", "groups", "enough", "not_enough",
    "syncs", "search_kinds", "search_some"]) {
    for (let k = 0; k < 60; k++) {
      const report = reportOf(name), places = placesIn(report), [holder, key] = places[draw(places.length)];
      holder[key] = strange[draw(strange.length)];
      answers.push(await drop(JSON.stringify(report)));
    }
  }
  const isRefused = answer => /^dropped\.json: (This|A) report /.test(answer);
  check("a report with a strange value is shown or refused with its place",
    answers.filter(answer => answer !== "shown" && !isRefused(answer)), []);
  check("most strange values are refused", answers.filter(isRefused).length > answers.length / 2, true);
  check("some strange values can be shown", answers.includes("shown"), true);
}

async function testDropped() {
  await open("create");
  check("a good report that is dropped is shown", await drop(reportText("pointer")), "shown");
  check("its name is in the title", (await shown()).title.startsWith("dropped.json: 1 fault in 5 sets"), true);
  check("a bad one is refused", await drop("{}"), "dropped.json: This report does not say what its patches are. "
    + "Make it with --json --explain --decide.");
  check("a good one after it is shown", await drop(reportText("create")), "shown");
}

await run([testNoReports, testOddForms, testHtmlInAReport, testUnknownWords, testManySets, testReplacedValues,
  testDropped]);
