// node page/test/test_words.mjs [FOLDER]: what the page says beside the report: the script and how it was run, what
// faults mean, the run without a crash step by step, and sets of patches that a person picks.
import { isClosed } from "./arrows.mjs";
import {
  browser, check, click, differences, drop, keepPicture, open, openMade, reportOf, run, shown,
} from "./harness.mjs";

const SCRIPT = "# <b>bold</b> </script><script>document.title = 'broken'</script>\ncreate /a\nstart\nwrite /a\n";

/* --- the head --- */

const HEAD = `(() => {
  const text = what => document.querySelector(what)?.textContent.replace(/\\s+/g, " ").trim();
  const lines = [...document.querySelectorAll("#script li")].map(line => [line.className, line.textContent]);
  return { name: text("h1"), command: text("#command"), about: [...document.querySelectorAll("#about p span")]
    .map(one => one.textContent), summary: text("#script summary"), lines, note: text("p#script") };
})()`;

async function testHead() {
  const words = ["--module", "soft", "--without", "Ptr:InitFile", "--limit", "$5 'x'"];
  const path = await openMade("pointer", SCRIPT, words), head = await browser.ask(HEAD);
  check("the head has the script's name", head.name, "crashmap a script");
  check("the head has the words, as a shell reads them", head.command,
    `crashmap '${path}' --module soft --without Ptr:InitFile --limit '$5 '\\''x'\\'''`);
  check("the head has ordering, disk and checker", head.about, ["Ordering soft (soft updates, as FFS) without Ptr:InitFile",
    "Disk 16 blocks, no journal, data from block 4", "Checker the usual one"]);
  check("the head has the script's text", head.lines, [
    ["comment", "# <b>bold</b> </script><script>document.title = 'broken'</script>"],
    ["base", "create /a"], ["begin", "start"], ["traced", "write /a"]]);
  check("and how long it is", head.summary, "Script, 4 lines");
  check("the title has name, result, ordering and disk", (await shown()).title, "a script: 1 fault in 5 sets under soft "
    + "without Ptr:InitFile, 16 blocks, no journal, data from block 4 - crashmap");
  await keepPicture("head");
}

/** Long words and lines are broken, and a long script is scrolled. */
async function testLongHead() {
  const lines = Array.from({ length: 600 }, (_, k) => `# line ${k} ${"long".repeat(60)}`);
  const words = Array.from({ length: 16 }, () => "--with=Ptr:previous-InodeInit");
  for (const width of [390, 760, 1280]) {
    await browser.size(width, 800);
    await openMade("pointer", [...lines, "start", ""].join("\n"), words);
    check(`${width}: a long head does not hang over the side`, (await shown()).sideways, 0);
    await keepPicture(`long_head_${width}`);
  }
  const { lines: said } = await browser.ask(HEAD);
  const height = await browser.ask('document.querySelector("#head").clientHeight');
  check("400 lines of a script are shown", [said.length, said.at(-1)[1]], [401, "and 201 more lines"]);
  check("the head leaves room for the page", height < 400, true);
}

async function testHeadOfAReport() {
  await open("reuse");
  const head = await browser.ask(HEAD);
  check("a report alone: its name", head.name, "crashmap reuse.json");
  check("a report alone: the journal", head.about[1], "Disk 24 blocks, 12 of them journal, data from block 16");
  check("a report alone: no command and no script", [head.command, head.lines, head.note], [undefined, [],
    "The script's text is not in the report. A page that crashmap-page makes has it."]);
  await open("lost");
  check("a strict checker is named", (await browser.ask(HEAD)).about[2], "Checker strict");
  check("in the title too", (await shown()).title, "lost.json: 2 faults in 12 sets under async, strict, "
    + "16 blocks, no journal, data from block 4 - crashmap");
  await open("half");
  check("a checker of whole operations is named", (await browser.ask(HEAD)).about[2], "Checker strict, atomic");
  check("in the title as well", (await shown()).title, "half.json: 1 fault in 5 sets under soft, strict, atomic, "
    + "16 blocks, no journal, data from block 4 - crashmap");
  check("the operation that is half done is named", (await shown()).halves[0],
    "Half done: line 3 rename /a /b.");
}

/* --- faults --- */

/** Each kind of fault, and words that its sentence must have. */
const KINDS = [
  ["1 dangling entry: directory 0 entry 0 inode 1", "directory entry names an inode that is free"],
  ["2 block used twice: block 5", "Two pointers name the same block"],
  ["3 unwritten pointer: inode 1 slot 0 block 5", "does not hold its own data"],
  ["4 low link count: inode 1 entries 2 links 1", "More names lead to an inode than its link count says"],
  ["5 used block marked free: inode 1 slot 0 block 5", "the map says that it is free"],
  ["6 wild pointer: inode 1 slot 0 block 200", "outside the data area"],
  ["7 lost inode: inode 1", "no path leads to it any more"],
  ["8 directory without a block: inode 1", "directory that has no block"],
  ["9 half-done operation", "An operation is half done"],
  ["10 broken promise: line 4", "A program was promised what its files show after a crash"],
];

async function testMeanings() {
  await open("create");
  for (const [fault, words] of KINDS) {
    const report = reportOf("create");
    report.faults[0].fault = fault;
    await drop(JSON.stringify(report));
    const { meanings, faults } = await shown();
    const isSaid = meanings.length === 1 && meanings[0].includes(words);
    check(`a sentence for ${fault}`, [faults, isSaid], [[`Fault ${fault}`], true]);
  }
}

/* --- the run without a crash --- */

/** The patches on disk and the last column of a row, at each step from the first on. */
async function walk(row) {
  await browser.press("Home");
  const steps = [];
  for (;;) {
    const page = await shown(), [, at, last] = /^(\d+) of (\d+)/.exec(page.at);
    steps.push({ disk: page.disk, said: page.rows[row]?.words.at(-1), words: page.words });
    if (at === last) return steps;
    await browser.press("ArrowRight");
  }
}

async function testCleanRun() {
  await open("safe");
  const { trace } = reportOf("safe"), steps = await walk("inode 1");
  const blocks = trace.map(patch => patch.block), all = trace.map((_, id) => id);
  const ends = all.filter(id => id === all.length - 1 || blocks[id] !== blocks[id + 1]);
  check("a clean run has a step for each block write", steps.map(step => step.disk),
    [[], ...ends.map(end => all.slice(0, end + 1))]);
  check("each step says that a crash there leaves a clean disk", [...new Set(steps.flatMap(step => step.words))],
    ["A crash can stop the run at each of these steps. After replay the disk is clean at each step, "
      + "since no closed set fails."]);
}

async function testCleanRunWithAJournal() {
  await open("journal");
  const steps = await walk("inode 1");
  check("a full journal's block writes", steps.map(step => step.disk),
    [[], [0], [0, 1], [0, 1, 2], [0, 1, 2, 3], [0, 1, 2, 3, 4], [0, 1, 2, 3, 4, 5]]);
  check("after replay the inode is there from the commit on", steps.map(step => step.said),
    [undefined, undefined, undefined, "file, 1 link", "file, 1 link", "file, 1 link", "file, 1 link"]);
  const copies = "After a crash here, replay copies blocks 5 \u2192 2, 6 \u2192 16.";
  const none = "After a crash here, replay has nothing to copy.";
  const said = steps.map(({ words }) => [copies, none].findIndex(one => words[0].includes(one)));
  check("what replay copies at each step", said, [1, 1, 1, 0, 0, 0, 1]);
  const own = steps.filter(({ words }) => words[0].includes("The page worked replay out"));
  check("the page says that it worked replay out", own.length, steps.length);
}

/* --- picked patches --- */

/** Picks each set of the patches in turn, one click after another. */
async function testEverySet() {
  for (const name of ["create", "pointer", "groups", "twice"]) {
    const { trace } = await open(name, "#set="), wrong = [];
    for (let k = 1, bits = 0; k <= 1 << trace.length; k++) {
      const id = Math.min(31 - Math.clz32(k & -k), trace.length - 1);
      bits ^= 1 << id;
      await click(id);
      const page = await shown(), set = trace.map((_, one) => one).filter(one => bits >> one & 1);
      const wanted = isClosed(trace, set) ? "closed" : "not closed", said = page.choices.at(-1);
      const isRight = said === `Patches that you picked${wanted}`
        && JSON.stringify(wanted === "closed" ? page.disk : page.later) === JSON.stringify(set)
        && (page.at !== undefined) === (wanted === "closed");
      if (!isRight) wrong.push({ set, said });
    }
    check(`${name}: each of its ${1 << trace.length} sets is closed or not as the dependencies say`, wrong, []);
  }
}

async function testNotClosed() {
  await open("pointer");
  await click(0);
  const page = await shown();
  check("a set that is not closed: what is missing", page.words, ["Not closed, so no crash can leave these patches on "
    + "the disk: 2 Ptr waits for 0 MapSet (Ptr:MapSet). "
    + "The page worked this out from the dependencies in the report."]);
  check("no disk is shown", [page.rows, page.at, page.disk], [{}, undefined, []]);
  check("the patch that is missing is marked", page.named, [0]);
  await keepPicture("not_closed");
  await browser.ask('document.querySelector("#close").click()');
  const closed = await shown();
  check("the button picks what is missing", closed.disk, [0, 2]);
  check("a closed set: the page says how it knows", closed.words.at(-1), "Closed: every patch that a picked one waits "
    + "for is picked too, so a crash can leave this disk. The page worked this out from the dependencies in the "
    + "report, and replay from the journal. "
    + "The report lists this set with what is said above; it can have other faults.");
  check("the fault of that set", closed.faults, ["Fault 3 unwritten pointer: inode 1 slot 0 block 5"]);
  await keepPicture("closed");
}

/** A failing set that is picked shows what the report says of it: crash image and image after replay. */
async function testPickedIsAsReported() {
  for (const name of ["reuse", "twice", "lost", "sets", "long"]) {
    const report = await open(name), list = report.faults ?? report.failing, wrong = [];
    for (let choice = 0; choice < Math.min(list.length, 12); choice++) {
      await open(name, `#choice=${choice}`);
      const wanted = await shown();
      await open(name, `#set=${list[choice].set.join("+")}`);
      const page = await shown(), isSaid = wanted.faults.every(fault => page.faults.includes(fault));
      wrong.push(...differences(wanted, page), ...(isSaid ? [] : [page.faults]));
    }
    check(`${name}: a failing set that is picked shows the report's disks and faults`, wrong, []);
  }
}

async function testWhatIsKnown() {
  await open("safe", "#set=0");
  check("where nothing fails, a picked disk is clean", (await shown()).words.at(-1).endsWith(
    "After replay this disk is clean, since the report does not list it as failing."), true);
  const { failing } = await open("sets", "#set=");
  check("a report of all failing sets: one that is not listed", (await shown()).words.at(-1).endsWith(
    "After replay this disk is clean, since the report does not list it as failing."), true);
  await open("sets", `#set=${failing[3].set.join("+")}`);
  check("a report of all failing sets: one that is listed", (await shown()).faults,
    failing[3].faults.map(text => `Fault ${text}`));
  await open("twice", "#set=0+1+2+3+4+5");
  check("a report of faults does not say", (await shown()).words.at(-1).endsWith(
    "The page does not check disks, and the report does not say whether this one has faults."), true);
}

async function testPickedWithoutARule() {
  const report = await open("needed"), { choices } = await shown();
  const at = choices.findIndex(choice => choice.startsWith("MapClear:InodeFree"));
  const { set, fault } = report.needs.find(({ rules }) => rules.join() === "MapClear:InodeFree");
  await open("needed", `#choice=${at}`);
  await click(set[0]);
  await click(set[0]);
  const page = await shown();
  check("a set without a rule is closed under the ordering without it", [page.disk, page.words.at(-1).startsWith(
    "Closed under the ordering without MapClear:InodeFree: ")], [set, true]);
  check("and is the one that the rule prevents", page.faults, [`Fault ${fault}`]);
  await open("needed", "#set=&rule=MapClear:InodeFree");
  const [words] = (await shown()).words;
  check("another set is not called the first with a fault", words, "Patches on disk: none");
}

async function testPickingByKeys() {
  await open("pointer", "#set=");
  const picked = async () => (await shown()).choices.at(-1) + " " + JSON.stringify((await shown()).disk);
  await browser.ask('document.querySelector("#drawing .node").focus()');
  await browser.press("Enter");
  check("Enter picks the patch that has the focus", await picked(), "Patches that you pickedclosed [0]");
  await browser.press("ArrowDown");
  await browser.press(" ");
  check("the focus stays, and the space bar picks too", await picked(), "Patches that you pickedclosed [0,1]");
  await browser.press(" ");
  check("twice is not at all", await picked(), "Patches that you pickedclosed [0]");
  const address = await browser.ask("location.hash");
  check("the address names what is picked", address, "#set=0&step=1");
  await browser.ask('document.querySelector("#choices li:nth-child(2) button").click()');
  const page = await shown();
  check("another choice can be looked at again", [page.disk, page.choices.length], [[0, 1, 2], 3]);
  await open("pointer", "#set=0+7+x");
  check("an address with patches that there are not is passed over", (await shown()).disk, [0, 2]);
}

await run([testHead, testLongHead, testHeadOfAReport, testMeanings, testCleanRun,
  testCleanRunWithAJournal, testEverySet, testNotClosed, testPickedIsAsReported, testWhatIsKnown,
  testPickedWithoutARule, testPickingByKeys]);
