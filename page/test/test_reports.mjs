// node page/test/test_reports.mjs [FOLDER]: checks what pages show against their reports and against what is known of
// the scripts. With FOLDER, pictures of pages are left there to be looked at.
import { reasonsOf, reduction } from "./arrows.mjs";
import { cases } from "./cases.mjs";
import { browser, check, keepPicture, open, openEmpty, run, shown } from "./harness.mjs";

/* --- what holds of every page, said from its report alone --- */

function checkGraph(name, page, report, set, writes) {
  const all = report.trace.map((_, id) => id), disk = writes.flatMap(write => write.patches).sort((a, b) => a - b);
  const isReady = id => report.trace[id].after.every(({ patch }) => disk.includes(patch));
  check(`${name}: filled patches are those on disk`, page.disk, disk);
  check(`${name}: hollow patches are those that are lost`, page.lost, all.filter(id => !set.includes(id)));
  check(`${name}: patches of later writes`, page.later, set.filter(id => !disk.includes(id)));
  check(`${name}: the frontier`, page.ready, all.filter(id => !set.includes(id) && isReady(id)));
  check(`${name}: arrows, without the implied ones`, page.edges, reduction(report.trace));
  check(`${name}: each arrow's reasons`, page.reasons, reasonsOf(report.trace, page.edges));
}

function checkFault(name, page, report, choice, writes) {
  const one = report.faults[choice];
  check(`${name}: the fault's words`, page.faults, [`Fault ${one.fault}`]);
  check(`${name}: one step a block write, and the base`, page.steps.length, one.writes.length + 1);
  check(`${name}: the steps' blocks`, page.steps.slice(1), one.writes.map(write => `block ${write.block}`));
  checkGraph(name, page, report, one.set, writes ?? one.writes);
}

/* --- pages --- */

async function testCreate() {
  const report = await open("create"), page = await shown();
  checkFault("create", page, report, 0);
  check("create: the head", page.facts, ["moduleasync", "patches2", "closed sets4", "fault1"]);
  check("create: the fault", page.choices[0], "1 dangling entrydirectory 0 entry 0 inode 1");
  check("create: which set it is", page.words, ["Patches on disk: 1; the first set with this fault"]);
  check("create: the operation", page.columns, ["create /a"]);
  check("create: inode 1", page.rows["inode 1"], { named: true, words: ["free", "free", "free"] });
  const entry = 'directory 0, entry 0 \u2192 inode 1 "a"';
  check("create: block 4", page.rows["block 4"], { named: true, words: ["directory 0, no entries", entry, entry] });
  check("create: both patches touch the named place", page.named, [0, 1]);
  await keepPicture("create");
}

async function testReuse() {
  const report = await open("reuse"), page = await shown();
  checkFault("reuse", page, report, 0);
  check("reuse: operations", page.columns, ["unlink /d/x", "rmdir /d", "write /f"]);
  check("reuse: the old copy, the data, the copy with the pointer, the pointer", page.named, [1, 14, 16, 19]);
  check("reuse: block 17", page.rows["block 17"], { named: true, words: ['directory 1, entry 0 \u2192 inode 2 "x"',
    'file data of inode 3, entry 0 \u2192 inode 2 "x"', "directory 1, no entries"] });
  check("reuse: inode 3", page.rows["inode 3"].words[2], "file, 1 link, slot 0 \u2192 block 17");
  check("reuse: the journal's headers", page.rows.journal.words[1],
    "4 commit 1 (2, 17), 7 commit 2 (1, 2, 16), 11 commit 3 (1, 2)");
  check("reuse: what replay did", page.end, ["Crash. Replay copies blocks 5 \u2192 2, 6 \u2192 17, 8 \u2192 1, "
    + "9 \u2192 2, 10 \u2192 16, 12 \u2192 1, 13 \u2192 2; this changes blocks 2, 16, 17."]);
  await keepPicture("reuse");
  await open("reuse", "#choice=0&step=8");
  checkFault("reuse, 8 writes", await shown(), report, 0, report.faults[0].writes.slice(0, 8));
  await keepPicture("reuse_step_8");
}

async function testPointer() {
  const report = await open("pointer"), page = await shown();
  checkFault("pointer", page, report, 0);
  check("pointer: the operation", page.columns, ["write /a"]);
  check("pointer: the map's bit and the pointer are on the disk", page.disk, [0, 2]);
  check("pointer: the file's block is lost", page.lost, [1]);
  check("pointer: no arrow says that the pointer waits for the block", page.edges, ["0 1", "0 2"]);
  const words = ["file, 1 link", "file, 1 link, slot 0 \u2192 block 5", "file, 1 link, slot 0 \u2192 block 5"];
  check("pointer: inode 1", page.rows["inode 1"], { named: true, words });
  await keepPicture("pointer");
}

async function testTwice() {
  const { length } = (await open("twice")).faults;
  check("a block used twice: each fault can be chosen", (await shown()).choices.length, length + 1);
  for (let choice = 0; choice < length; choice++) {
    const report = await open("twice", `#choice=${choice}`);
    checkFault(`a block used twice, fault ${choice}`, await shown(), report, choice);
  }
  await open("twice", "#choice=1");
  const { rows } = await shown();
  check("a block used twice: both inodes are named", [rows["inode 1"].named, rows["inode 2"].named], [true, true]);
  await keepPicture("twice");
}

async function testNothingFails() {
  const report = await open("safe"), page = await shown(), all = report.trace.map((_, id) => id);
  check("safe: says so", page.verdict,
    ["None: after each of the 11 crashes that are possible, replay leaves a clean disk."]);
  check("safe: shows the run without a crash", [page.disk, page.lost, page.faults], [all, [], []]);
  check("safe: what the script does", page.rows["inode 1"].words, ["free", "file, 1 link, slot 0 \u2192 block 5"]);
  await keepPicture("safe");
  await open("nothing");
  const words = await browser.ask('document.querySelector("#work").textContent');
  const said = ["No operation after start", "No place differs"].filter(word => words.includes(word));
  check("no patch at all", said.length, 2);
}

async function testDecisions() {
  const report = await open("decided"), page = await shown();
  checkFault("decided", page, report, 0);
  check("decided: the head", page.facts, ["moduleasync", "patches5", "closed sets24", "faults3"]);
  check("decided: the title", page.title.includes(": 3 faults in 24 sets under async"), true);
  check("decided: a fault", page.choices[0], "1 dangling entrydirectory 0 entry 0 inode 1");
  check("decided: no share of sets", await browser.ask('document.querySelector(".share")'), null);
  const { length } = report.faults;
  for (let choice = 0; choice < length; choice++) {
    await open("decided", `#choice=${choice}`);
    checkFault(`decided, fault ${choice}`, await shown(), report, choice);
  }
  await open("certain");
  check("certain: says so", (await shown()).verdict,
    ["None: after each of the 11 crashes that are possible, replay leaves a clean disk."]);
}

async function testImmense() {
  const report = await open("immense", "#choice=15"), page = await shown();
  checkFault("immense", page, report, 15);
  check("immense: the head", page.facts,
    ["moduleasync", "patches124", "closed sets134930772508700371486596739530489856", "faults78"]);
  check("immense: each fault can be chosen", page.choices.length, report.faults.length + 1);
  await keepPicture("immense");
}

/** A plain run lists every failing set, and says which part of all sets fails. */
async function testSets() {
  for (const [name, title, part] of [["sets", "36 of 48", 75], ["all_sets", "8 of 12", 67]]) {
    const report = await open(name), page = await shown(), { length } = report.failing;
    check(`${name}: the head`, page.facts.slice(2), [`closed sets${report.closed}`, `failing sets${length}`]);
    check(`${name}: the title`, page.title.startsWith(`${name}.json: ${title} sets fail under async`), true);
    const share = await browser.ask('document.querySelector(".share i").style.width');
    check(`${name}: the share of sets that fail`, Math.round(parseFloat(share)), part);
    check(`${name}: each set can be chosen`, page.choices.slice(0, -1),
      report.failing.map(({ set, faults }) => `set ${set.join(" ")}${faults.join("; ")}`));
    for (const choice of [0, length - 1]) {
      await open(name, `#choice=${choice}`);
      const one = report.failing[choice], chosen = await shown();
      check(`${name}, set ${choice}: its faults`, chosen.faults, one.faults.map(text => `Fault ${text}`));
      check(`${name}, set ${choice}: which set it is`, chosen.words, [`Patches on disk: ${one.set.join(" ")}`]);
      checkGraph(`${name}, set ${choice}`, chosen, report, one.set, one.writes);
    }
  }
  await open("no_sets");
  const page = await shown();
  check("no set fails: the page says so", page.verdict,
    ["None: after each of the 11 crashes that are possible, replay leaves a clean disk."]);
  check("no set fails: the head", page.facts.at(-1), "failing sets0");
  check("no set fails: no share", await browser.ask('document.querySelector(".share")'), null);
}

async function testOrderings() {
  await open("lost", "#choice=1");
  const lost = await shown();
  check("a lost inode: the checker is strict", lost.rules, ["strict"]);
  check("a lost inode: its words", lost.faults, ["Fault 7 lost inode: inode 1"]);
  check("a lost inode: the patches of its names", lost.named, [1, 2]);
  const { trace } = await open("groups"), all = trace.map((_, id) => id);
  checkGraph("groups", await shown(), { trace }, all, [{ patches: all }]);
  const groups = await browser.ask('[...document.querySelectorAll("#graph .key span")].map(one => one.textContent)');
  check("the key has the arrows of groups", groups.includes("group"), true);
  await browser.ask('document.querySelector("#all-implied").click()');
  const every = trace.flatMap((patch, q) => patch.after.map(one => `${one.patch} ${q}`));
  const said = '[...document.querySelectorAll("#drawing .edge")].map(one => one.getAttribute("aria-label")).sort()';
  check("implied arrows say their reasons too", await browser.ask(said), reasonsOf(trace, every));
}

async function testKeyboard() {
  const report = await open("reuse"), last = report.faults[0].writes.length;
  for (const [key, step] of [["ArrowLeft", last - 1], ["Home", 0], ["ArrowRight", 1], ["End", last]]) {
    await browser.press(key);
    check(`${key} goes to step ${step}`, (await shown()).at.startsWith(`${step} of ${last}`), true);
  }
  await browser.ask('document.querySelector("#choices button").focus()');
  await browser.press("ArrowDown");
  const page = await shown();
  check("the next choice has the focus", page.focus, "No crashevery patch on disk");
  check("and is looked at", page.lost, []);
  await browser.ask('document.querySelector("#drawing .node").focus()');
  await browser.press("ArrowDown");
  const hint = await browser.ask('document.querySelector("#hint").textContent');
  check("a patch with the focus is described in words", hint.startsWith("1 Copy: journal copy of block 17"), true);
}

async function testSizesAndSchemes() {
  const seen = {};
  for (const [width, height] of [[1280, 800], [760, 900], [390, 844], [1920, 1080]]) {
    for (const scheme of ["light", "dark"]) {
      await browser.size(width, height);
      await browser.scheme(scheme);
      await open("reuse");
      const page = await shown();
      check(`${width} ${scheme}: nothing hangs over the side`, page.sideways, 0);
      check(`${width} ${scheme}: the fault is shown`, page.faults.length, 1);
      seen[scheme] = page.page;
      await keepPicture(`reuse_${width}_${scheme}`);
    }
  }
  check("dark is dark and light is light", seen, { light: "rgb(244, 245, 247)", dark: "rgb(16, 19, 24)" });
  await browser.size(1280, 800);
  await browser.scheme("light");
}

async function testLong() {
  const report = await open("long"), page = await shown();
  checkFault("62 patches", page, report, 0);
  check("62 patches: operations", [page.columns.length, ...page.columns.slice(0, 2)], [31, "link /a /b", "unlink /b"]);
  check("62 patches: the whole graph in small", await browser.ask('document.querySelector("#whole") !== null'), true);
  await keepPicture("long");
}

/** A file that is freed and made again, on a disk with generations. */
async function testGenerations() {
  const report = await open("generations"), page = await shown(), slot = "slot 0 \u2192 block 5";
  checkFault("generations", page, report, 0);
  check("generations: the head", page.rules.filter(Boolean), ["without Ptr:InitFile", "generations"]);
  check("generations: inode 1", page.rows["inode 1"].words,
    [`file, 1 link, ${slot}`, `file, 1 link, generation 1, ${slot}`, `file, 1 link, generation 1, ${slot}`]);
  check("generations: the block is the old file's", page.rows["block 5"],
    { named: true, words: Array(3).fill("file data of inode 1") });
}

const MEANINGS = `[...document.querySelectorAll("#drawing .node")]
  .map(node => node.getAttribute("aria-label").split(". ")[0])`;

async function testOverwritten() {
  await open("overwrite", "#choice=1");
  const page = await shown(), meanings = await browser.ask(MEANINGS);
  check("overwrite: what the patches mean", meanings, ["0 NewData: block 5: data 1",
    "1 Touch: inode 1: overwritten 1 time", "2 PtrClear: inode 1: no blocks", "3 MapClear: block 5 marked free"]);
  check("overwrite: half done", [page.disk, page.halves], [[0], ["Half done: line 4 overwrite /a."]]);
  check("overwrite: block 5", page.rows["block 5"].words, ["file data of inode 1",
    "file data of inode 1, data 1", "file data of inode 1, data 1"]);
}

async function testNoReport() {
  await openEmpty();
  const words = await browser.ask("document.body.textContent");
  check("a page without a report asks for one", words.includes("Drop a report here"), true);
  check("every case is tested", Object.keys(cases).length, 48);
}

await run([testCreate, testReuse, testPointer, testTwice, testNothingFails, testDecisions, testImmense, testSets,
  testOrderings,
  testKeyboard, testSizesAndSchemes, testLong, testGenerations, testOverwritten, testNoReport]);
