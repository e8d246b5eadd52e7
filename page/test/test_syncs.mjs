// node page/test/test_syncs.mjs [FOLDER]: what the page shows of a report of `--enough --syncs`: the sets of lines that
// are enough, the groups of which one line has to wait, and the crash that comes without each group.
import { isClosed, reasonsOf, reduction } from "./arrows.mjs";
import { cases } from "./cases.mjs";
import {
  answered, browser, check, click, clickChoice, differences, drop, keepPicture, open, openMade, openText, reportOf, run,
  shown,
} from "./harness.mjs";

const WITH_GROUPS = ["syncs", "syncs_pair", "syncs_pairs", "syncs_journal", "syncs_lasting"];

/** `a`, `a and b`, `a, b and c`. */
const listed = (words, last) => words.join(", ").replace(/, ([^,]*)$/, ` ${last} $1`);

/** `line 7 fsync /t and line 9 fsync /a`, with the words of the case's script. */
const named = (name, lines, last) => listed(lines.map(line => `line ${line} ${cases[name].script[line - 1]}`), last);

const textOf = script => script.map(line => `${line}\n`).join("");
const openCase = name => openMade(name, textOf(cases[name].script), cases[name].words);

/** The patches as the reference makes them of the script in which these lines are comments. */
function traceWithout(name, lines) {
  const { script, words } = cases[name], left = words.filter(word => !["--enough", "--syncs"].includes(word));
  return answered(script.map((line, k) => lines.includes(k + 1) ? `# ${line}` : line), [...left, "--decide"]).trace;
}

function checkArrows(about, page, trace) {
  check(`${about}: arrows`, [page.edges, page.reasons], [reduction(trace), reasonsOf(trace, page.edges)]);
}

async function testList() {
  for (const name of WITH_GROUPS) {
    const { enough, needs } = await open(name), { choices, verdict, cut } = await shown();
    const alone = needs.filter(one => one.syncs.length === 1), more = needs.filter(one => one.syncs.length > 1);
    const groups = [...alone, ...more].map(({ syncs, fault }) =>
      `${named(name, syncs, "or")}without ${syncs.length > 1 ? "them" : "it"}: ${fault}`);
    check(`${name}: the sets, the groups with their faults, and the run without a crash`, choices,
      [...enough.map(lines => named(name, lines, "and")), ...groups, "No crashevery patch on disk"]);
    check(`${name}: nothing above the list`, [verdict, cut], [[], []]);
  }
}

/** Each: the report, and the headings of its list. */
const HEADINGS = [
  ["syncs", ["These lines are enough", "Each of these lines has to wait", "All lines together are enough"]],
  ["syncs_pair", ["Each of these 2 sets of lines is enough", "This line has to wait", "One of these lines has to wait",
    "All lines together are enough"]],
  ["syncs_pairs", ["Each of these 4 sets of lines is enough", "One line of each group has to wait",
    "All lines together are enough"]],
  ["syncs_journal", ["This line is enough", "This line has to wait", "All lines together are enough"]],
  ["syncs_none", ["Nothing is needed", "The whole ordering is enough"]],
  ["syncs_lost", ["The whole ordering is not enough"]],
];

async function testHeadings() {
  for (const [name, parts] of HEADINGS) {
    await open(name);
    check(`${name}: the headings of the list`, (await shown()).parts, parts);
  }
}

async function testHead() {
  await openCase("syncs");
  const page = await shown(), title = await browser.ask('document.querySelector("#choices h2").textContent');
  check("the head", page.facts, ["modulesoft", "patches11", "closed sets19", "set of lines is enough1"]);
  check("the title", page.title,
    "a script: 1 set of lines is enough under soft, 16 blocks, no journal, data from block 4 - crashmap");
  check("the title of the list", title, "Lines that have to wait");
  await open("syncs_pairs");
  check("four sets", (await shown()).facts[3], "sets of lines are enough4");
}

/** A set that is enough shows the run without a crash, and the arrows where its lines alone wait. */
async function testSets() {
  for (const name of WITH_GROUPS) {
    const { enough, trace, waits } = await open(name);
    for (const [at, lines] of enough.entries()) {
      await clickChoice(at);
      const page = await shown(), about = `${name}, set ${at}`, isOne = lines.length === 1;
      const others = waits.map(wait => wait.line).filter(line => !lines.includes(line));
      checkArrows(about, page, traceWithout(name, others));
      check(`${about}: every patch is on the disk`, [page.disk, page.faults], [trace.map((_, id) => id), []]);
      check(`${about}: its words`, page.words[0], `${isOne ? "This line is" : "These lines are"} enough: `
        + `${named(name, lines, "and")}. If only ${isOne ? "it waits" : "they wait"}, replay leaves a clean disk that `
        + `keeps every promise after every crash. ${isOne ? "" : "No smaller part of them is enough. "}The graph has `
        + "no arrow of another line.");
    }
  }
}

/** What the page says of a group. */
function groupWords(name, lines) {
  const said = named(name, lines, "or");
  if (lines.length === 1) {
    return `This line has to wait: ${said}. Without it this crash is possible, even if all the other lines wait.`;
  }
  return `One of these lines has to wait: ${said}. If none of them waits, this crash is possible. If any one of them `
    + "and all the other lines wait, replay leaves a clean disk that keeps every promise after every crash.";
}

/** Lines that alone have to wait come before groups of more. */
const inOrder = needs => [...needs].sort((a, b) => (a.syncs.length > 1) - (b.syncs.length > 1));

/** What a path shows that is not its old contents. */
const KINDS = { nothing: "gone", file: "empty" };

/** A group shows its crash, what the promise's paths show, and the arrows where its lines do not wait. */
async function testGroups() {
  for (const name of WITH_GROUPS) {
    const { enough, needs } = await open(name);
    for (const [k, one] of inOrder(needs).entries()) {
      await clickChoice(enough.length + k);
      const page = await shown(), about = `${name}, group ${k}`;
      check(`${about}: the fault`, [page.faults, page.meanings.length], [[`Fault ${one.fault}`], 1]);
      check(`${about}: what the path shows`, page.promises[0][1],
        ["after the crash", KINDS[one.shows[0]] ?? `old ${one.shows[0].slice("file ".length)}`]);
      check(`${about}: the block writes`, page.steps, ["base", ...one.writes.map(write => `block ${write.block}`)]);
      check(`${about}: the patches on disk`, page.disk, one.set);
      check(`${about}: its words`, page.words, [groupWords(name, one.syncs),
        `Patches on disk: ${one.set.join(" ") || "none"}; the first set with this fault`]);
      checkArrows(about, page, traceWithout(name, one.syncs));
      await keepPicture(`${name}_group_${k}`);
    }
  }
}

/* --- picked patches --- */

const sides = lines => lines.map(line => `&line=${line}`).join("");
const underWords = (name, lines) => `if ${named(name, lines, "and")} ${lines.length > 1 ? "do" : "does"} not wait`;

/** The same set, picked where the same lines do not wait, is closed and has the same disks and fault. */
async function testPickedGroups() {
  for (const name of WITH_GROUPS) {
    const { enough, needs } = await open(name), wrong = [];
    for (const [k, { syncs, set, fault }] of inOrder(needs).entries()) {
      await open(name, `#choice=${enough.length + k}`);
      const wanted = await shown();
      await open(name, `#set=${set.join("+")}${sides(syncs)}`);
      const page = await shown();
      wrong.push(...differences(wanted, page));
      check(`${name}, group ${k}: picked by its address`,
        [page.faults, page.words.at(-1).startsWith(`Closed ${underWords(name, syncs)}: `)], [[`Fault ${fault}`], true]);
    }
    check(`${name}: the page's own replay gives the report's disks`, wrong, []);
  }
}

/** Where the lines wait that are enough each closed set is clean, and closed is what these lines say. */
async function testPickedUnderEnough() {
  const name = "syncs_pair", trace = traceWithout(name, [7]), wrong = [], said = [];
  const sets = [[], [0], [0, 1, 2], [5], [0, 5], [0, 5, 6], [0, 1, 2, 3, 4], [0, 1, 2, 3, 4, 5], [0, 1, 2, 3, 4, 6]];
  for (const set of sets) {
    await open(name, `#set=${set.join("+")}&line=7`);
    const { words, faults } = await shown(), isClean = words.at(-1).endsWith(
      "is clean and keeps every promise, since the report says that these lines are enough.");
    if (isClean !== isClosed(trace, set) || faults.length) wrong.push(set);
    said.push(isClean);
  }
  check("each set is closed or not as the other lines say, and clean where it is", wrong, []);
  check("some are closed, and some are not", [said.includes(true), said.includes(false)], [true, true]);
  await open(name, "#choice=3");
  await click(7);
  const page = await shown(), lines = "new URLSearchParams(location.hash.slice(1)).getAll('line')";
  check("a picked set keeps the lines that are looked at", page.words[0].startsWith(
    `Not closed ${underWords(name, [7, 8])}, so no crash can leave these patches on the disk: `), true);
  check("and the address names them", await browser.ask(lines), ["7", "8"]);
  await open(name, "#set=0&line=9&line=x&line=7.0");
  check("an address may name lines that do not wait", [(await shown()).error, await browser.ask(lines)], [[], []]);
}

/** The set without a patch breaks the promise of line 3 only if line 3 does not wait. */
async function testPickedPromise() {
  const { needs } = await open("syncs_lasting", "#set="), page = await shown();
  check("all lines wait: the set keeps every promise", [needs[0].set, page.faults, page.words.at(-1).endsWith(
    "After replay this disk is clean and keeps every promise, since the report does not list it as failing.")],
  [[], [], true]);
  await open("syncs_lasting", "#set=&line=5");
  const other = await shown();
  check("another line does not wait: nothing is known", [other.faults, other.words.at(-1).endsWith(
    "The page does not check disks, and the report does not say whether this one has faults.")], [[], true]);
  for (const lines of [[3], [3, 5]]) {
    await open("syncs_lasting", `#set=${sides(lines)}`);
    check(`lines ${lines} do not wait: the promise is broken`, (await shown()).faults, [`Fault ${needs[0].fault}`]);
  }
  await open("syncs_lasting", "#set=&line=3&rule=EntrySet:InodeInit");
  check("rules and lines can be left out together", (await shown()).words.at(-1).startsWith(
    `Closed under the ordering without EntrySet:InodeInit ${underWords("syncs_lasting", [3])}: `), true);
}

/* --- nothing is needed, or all is not enough --- */

const NO_LINE = "No line has to wait: if none waits, replay leaves a clean disk that keeps every promise after every "
  + "crash. That is so on a file system which allocates a block when it is written, as ext3 does. XFS and ext4 allocate "
  + "blocks later, and crashmap-judge asks about them too. The graph has no arrow of a line.";
const NOTHING = "Nothing is needed: replay leaves a clean disk that keeps every promise after every crash. The report "
  + "does not say whether it is about rules or about lines that wait, so the graph has every arrow.";

/** A report names no lines here. A page that crashmap-page makes has the words that the program was run with. */
async function testNone() {
  await openCase("syncs_none");
  const page = await shown(), { trace } = reportOf("syncs_none");
  check("no line: the list", page.choices, ["no line at all", "No crashevery patch on disk"]);
  check("no line: headings and words", [page.parts, page.words[0]],
    [["No line has to wait", "All lines together are enough"], NO_LINE]);
  check("no line: head and title", [page.facts[3], page.title.startsWith("a script: no line has to wait under meta")],
    ["lines have to wait0", true]);
  checkArrows("no line", page, traceWithout("syncs_none", [7]));
  check("no line: no arrow of one", page.key.includes("wait"), false);
  await keepPicture("syncs_none");
  await open("syncs_none");
  const alone = await shown();
  check("a report alone: the list and its words", [alone.choices[0], alone.words[0]], ["nothing at all", NOTHING]);
  check("a report alone: head and title", [alone.facts[3], alone.title.includes(": nothing is needed under meta")],
    ["needed0", true]);
  checkArrows("a report alone", alone, trace);
  check("a report alone: arrows of both kinds", ["rule", "wait"].map(kind => alone.key.includes(kind)), [true, true]);
}

async function testNotEnough() {
  const { first, trace } = reportOf("syncs_lost");
  await openCase("syncs_lost");
  const page = await shown(), [, number, kind, where] = /^(\d+) (.*): (.*)$/.exec(first.fault);
  check("not enough: the first fault", [page.choices, page.parts, page.faults, page.disk],
    [[`${number} ${kind}${where}`, "No crashevery patch on disk"], ["All lines together are not enough"],
      [`Fault ${first.fault}`], first.set]);
  check("not enough: where every fault is", page.verdict,
    ["This report has the first fault. One made with --decide has every one."]);
  const isTitled = page.title.startsWith("a script: the lines are not enough under async");
  check("not enough: head and title", [page.facts[3], isTitled], ["sets of lines are enough0", true]);
  checkArrows("not enough", page, trace);
  await open("syncs_lost");
  check("a report alone: its title", (await shown()).title.includes(": the whole ordering is not enough under"), true);
}

/** The word --syncs counts among the options, and what a report names counts more. */
async function testWords() {
  const { script, words } = cases.syncs_none, heading = [];
  for (const asked of [words, words.slice(0, -1), [...words.slice(0, -1), "--", "--syncs"]]) {
    await openMade("syncs_none", textOf(script), asked);
    heading.push((await shown()).parts[0]);
  }
  check("what the program was asked", heading, ["No line has to wait", "No rule is needed", "No rule is needed"]);
  await openMade("syncs", textOf(cases.syncs.script), ["--enough"]);
  check("the report names lines", (await shown()).parts[0], "These lines are enough");
  await openCase("syncs_none");
  await drop(JSON.stringify(reportOf("syncs_none")));
  check("a report that is dropped comes without words", (await shown()).parts[0], "Nothing is needed");
}

/* --- names, and room --- */

async function testRealPaths() {
  await openCase("syncs_recorded");
  const { choices, words } = await shown(), line = "line 12 fsync file.txt.new";
  check("real paths: the list", choices.slice(0, 2),
    [line, `${line}without it: ${reportOf("syncs_recorded").needs[0].fault}`]);
  check("real paths: the words", words[0].startsWith(`This line is enough: ${line}. `), true);
  await open("syncs_recorded");
  check("a report alone has the script's paths", (await shown()).choices[0], "line 12 fsync /t");
}

async function testHtmlInALine() {
  const html = "<img src=x onerror=\"document.title = 'broken'\">", report = reportOf("syncs");
  report.waits[0].step = html;
  await openText("syncs", JSON.stringify(report));
  const page = await shown(), images = await browser.ask('document.querySelectorAll("img").length');
  check("HTML in a line is shown as text", [images, page.choices[1].startsWith(`line 7 ${html}`)], [0, true]);
}

async function testWidths() {
  for (const width of [390, 1280]) {
    await browser.size(width, 800);
    for (const choice of [0, 3]) {
      await open("syncs_pair", `#choice=${choice}`);
      check(`${width}, choice ${choice}: nothing hangs over the side`, (await shown()).sideways, 0);
      await keepPicture(`syncs_${width}_${choice}`);
    }
  }
}

async function testLongLists() {
  const report = reportOf("syncs");
  report.enough = Array(600).fill([7]);
  await open("syncs");
  await drop(JSON.stringify(report));
  check("600 sets: the page says that it shows some", (await shown()).cut,
    ["This report lists 602 sets and groups of lines, and the page shows 502 of them."]);
}

await run([testList, testHeadings, testHead, testSets, testGroups, testPickedGroups, testPickedUnderEnough,
  testPickedPromise, testNone, testNotEnough, testWords, testRealPaths, testHtmlInALine, testWidths, testLongLists]);
