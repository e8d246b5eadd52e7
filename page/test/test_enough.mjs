// node page/test/test_enough.mjs [FOLDER]: what the page shows of a report of `--enough`: the sets of rules that are
// enough, the groups of which one rule is needed, and the crash that comes without each group.
import { isClosed, reasonsOf, reduction, traceWithout } from "./arrows.mjs";
import {
  browser, check, click, clickChoice, differences, drop, keepPicture, open, openMade, openText, reportOf, run, shown,
} from "./harness.mjs";

const WITH_GROUPS = ["enough", "enough_mkdir", "enough_journal"];

/** `a`, `a and b`, `a, b and c`. */
const listed = (words, last) => words.join(", ").replace(/, ([^,]*)$/, ` ${last} $1`);

/** The rules that a trace names. */
const rulesIn = trace => [...new Set(trace.flatMap(patch => patch.after.flatMap(one => one.why)))]
  .filter(why => why.includes(":"));

/** The graph has the arrows of the ordering without these rules, and of no other. */
function checkArrows(name, page, trace, without) {
  const left = traceWithout(trace, without);
  check(`${name}: arrows without ${without}`, [page.edges, page.reasons],
    [reduction(left), reasonsOf(left, page.edges)]);
}

async function testList() {
  for (const name of WITH_GROUPS) {
    const { enough, needs } = await open(name), { choices, verdict, cut } = await shown();
    const groups = needs.map(({ rules, fault }) =>
      `${listed(rules, "or")}without ${rules.length > 1 ? "them" : "it"}: ${fault}`);
    check(`${name}: the sets, the groups with their faults, and the run without a crash`, choices,
      [...enough.map(rules => listed(rules, "and")), ...groups, "No crashevery patch on disk"]);
    check(`${name}: nothing above the list`, [verdict, cut], [[], []]);
  }
}

/** Each: the report, and the headings of its list. */
const HEADINGS = [
  ["enough", ["Each of these 2 sets of rules is enough", "Each of these rules is needed",
    "One of these rules is needed", "All rules together are enough"]],
  ["enough_mkdir", ["Each of these 4 sets of rules is enough", "This rule is needed",
    "One rule of each group is needed", "All rules together are enough"]],
  ["enough_journal", ["These rules are enough", "Each of these rules is needed", "All rules together are enough"]],
  ["not_enough", ["The whole ordering is not enough"]],
  ["none_needed", ["Nothing is needed", "The whole ordering is enough"]],
];

async function testHeadings() {
  for (const [name, parts] of HEADINGS) {
    await open(name);
    check(`${name}: the headings of the list`, (await shown()).parts, parts);
  }
}

async function testHead() {
  await openMade("enough", "start\ncreate /a\nwrite /a\n", ["--enough"]);
  const page = await shown();
  check("the head", page.facts, ["modulesoft", "patches5", "closed sets11", "sets of rules are enough2"]);
  check("the title", page.title,
    "a script: 2 sets of rules are enough under soft, 16 blocks, no journal, data from block 4 - crashmap");
  check("no share of sets", await browser.ask('document.querySelector(".share")'), null);
  const facts = [], titles = [];
  for (const name of ["enough_journal", "not_enough", "none_needed"]) {
    await open(name);
    const { facts: all, title } = await shown();
    facts.push(all[3]);
    titles.push(/: (.*) under/.exec(title)[1]);
  }
  check("other heads", facts, ["set of rules is enough1", "sets of rules or lines are enough0", "needed0"]);
  check("other titles", titles, ["1 set of rules is enough", "the whole ordering is not enough", "nothing is needed"]);
  check("an immense number of closed sets", await drop(JSON.stringify({ ...reportOf("not_enough"),
    closed: "134930772508700371486596739530489856" })), "shown");
  check("has all its digits", (await shown()).facts[2], "closed sets134930772508700371486596739530489856");
}

/** A set that is enough shows the run without a crash, and the arrows of its rules alone. */
async function testSets() {
  for (const name of WITH_GROUPS) {
    const { enough, trace } = await open(name), all = trace.map((_, id) => id);
    for (const [at, rules] of enough.entries()) {
      await clickChoice(at);
      const page = await shown();
      checkArrows(name, page, trace, rulesIn(trace).filter(rule => !rules.includes(rule)));
      check(`${name}, set ${at}: every patch is on the disk`, [page.disk, page.faults], [all, []]);
      check(`${name}, set ${at}: its words`, page.words[0], `These rules are enough: ${listed(rules, "and")}. `
        + "With them and no other rule, replay leaves a clean disk after every crash. No smaller part of them is "
        + "enough. The graph has no arrow of another rule.");
    }
  }
  await open("enough");
  await keepPicture("enough");
}

/** What the page says of a group. */
const groupWords = rules => rules.length === 1
  ? `This rule is needed: ${rules[0]}. Without it this crash is possible, even with all other rules of the ordering.`
  : `One of these rules is needed: ${listed(rules, "or")}. Without all of them this crash is possible. With any one of `
    + "them and the rest of the ordering, replay leaves a clean disk after every crash.";

/** A group shows its crash as a fault of another report is shown, and the ordering without its rules. */
async function testGroups() {
  for (const name of WITH_GROUPS) {
    const { enough, needs, trace } = await open(name);
    for (const [k, one] of needs.entries()) {
      await clickChoice(enough.length + k);
      const page = await shown(), about = `${name}, group ${k}`;
      check(`${about}: the fault`, [page.faults, page.meanings.length], [[`Fault ${one.fault}`], 1]);
      check(`${about}: the block writes`, page.steps, ["base", ...one.writes.map(write => `block ${write.block}`)]);
      check(`${about}: the patches on disk`, page.disk, one.set);
      check(`${about}: its words`, page.words, [groupWords(one.rules),
        `Patches on disk: ${one.set.join(" ")}; the first set with this fault`]);
      checkArrows(about, page, trace, one.rules);
      await keepPicture(`${name}_group_${k}`);
    }
  }
}

/** The same set, picked under the same ordering, is closed and has the same disks and fault. */
async function testPickedGroups() {
  for (const name of WITH_GROUPS) {
    const { enough, needs } = await open(name), wrong = [];
    for (const [k, { rules, set, fault }] of needs.entries()) {
      await open(name, `#choice=${enough.length + k}`);
      const wanted = await shown(), without = rules.map(rule => `&rule=${encodeURIComponent(rule)}`);
      await open(name, `#set=${set.join("+")}${without.join("")}`);
      const page = await shown(), said = `Closed under the ordering without ${listed(rules, "and")}: `;
      wrong.push(...differences(wanted, page));
      check(`${name}, group ${k}: picked by its address`, [page.faults, page.words.at(-1).startsWith(said)],
        [[`Fault ${fault}`], true]);
    }
    check(`${name}: the page's own replay gives the report's disks`, wrong, []);
  }
}

/** Under rules that are enough each closed set is clean, and closed is what these rules say. */
async function testPickedUnderEnough() {
  const { enough, trace } = await open("enough_mkdir", "#choice=1");
  const others = rulesIn(trace).filter(rule => !enough[1].includes(rule)), left = traceWithout(trace, others);
  const wrong = [], all = trace.map((_, id) => id);
  for (let bits = 0; bits < 1 << trace.length; bits++) {
    const set = all.filter(id => bits >> id & 1);
    await open("enough_mkdir", `#set=${set.join("+")}${others.map(rule => `&rule=${rule}`).join("")}`);
    const { words } = await shown(), clean = "clean, since the report says that these rules are enough.";
    const isClean = words.at(-1).endsWith(clean);
    if (isClean !== isClosed(left, set)) wrong.push(set);
  }
  check("each set is closed or not as the rules alone say, and clean where it is", wrong, []);
  await open("enough_mkdir", "#choice=1");
  await click(4);
  const page = await shown();
  check("a picked set keeps the rules that are looked at", page.words[1].startsWith(
    `Closed under the ordering without ${listed(others, "and")}: `), true);
  check("and the address names them", await browser.ask("new URLSearchParams(location.hash.slice(1)).getAll('rule')"),
    others);
}

async function testPickedUnderOthers() {
  await open("enough_mkdir", "#set=&rule=Ptr:MapSet");
  check("under more rules than are enough a set is clean too", (await shown()).words.at(-1).endsWith(
    "clean, since the report says that these rules are enough."), true);
  await open("enough", "#set=&rule=EntrySet:InodeInit");
  check("under rules that are not enough a set is not called clean", (await shown()).words.at(-1).endsWith(
    "The page does not check disks, and the report does not say whether this one has faults."), true);
  const { needs } = await open("enough", "#set=1&rule=EntrySet:InodeInit&rule=Ptr:InitFile");
  const page = await shown();
  check("a set of the report has its fault under every ordering", [page.disk, page.faults],
    [needs[0].set, [`Fault ${needs[0].fault}`]]);
  const report = reportOf("enough");
  report.needs.push({ ...needs[0], rules: ["EntrySet:Ptr"] });
  await openText("doubled", JSON.stringify(report), "#set=1&rule=EntrySet:InodeInit");
  check("a fault of two groups is said once", (await shown()).faults, [`Fault ${needs[0].fault}`]);
}

async function testNotEnough() {
  const { first, trace } = await open("not_enough"), page = await shown();
  check("not enough: says where every fault is", page.verdict,
    ["This report has the first fault. One made with --decide has every one."]);
  check("not enough: the first fault", [page.choices, page.faults, page.disk],
    [["7 lost inodeinode 1", "No crashevery patch on disk"], [`Fault ${first.fault}`], first.set]);
  checkArrows("not enough", page, trace, []);
  await keepPicture("not_enough");
  await clickChoice(1);
  check("not enough: the run without a crash is not called clean", (await shown()).words,
    ["A crash can stop the run at each of these steps."]);
}

async function testNoneNeeded() {
  await open("none_needed");
  const page = await shown();
  check("nothing: the list", page.choices, ["nothing at all", "No crashevery patch on disk"]);
  check("nothing: its words", page.words, ["Nothing is needed: replay leaves a clean disk after every crash. The "
    + "report does not say whether it is about rules or about lines that wait, so the graph has every arrow."]);
}

/** With the words that the program was run with, a page says that no rule is needed, or that all are not enough. */
async function testRunOnRules() {
  await openMade("none_needed", "start\n", ["--module", "async", "--enough"]);
  const page = await shown();
  check("no rule: the list", page.choices, ["no rule at all", "No crashevery patch on disk"]);
  check("no rule: its headings and words", [page.parts, page.words], [["No rule is needed",
    "All rules together are enough"], ["No rule is needed: without any rule, replay leaves a clean disk after every "
    + "crash. The graph has no arrow of a rule."]]);
  check("no rule: the head", page.facts[3], "rules are needed0");
  await openMade("not_enough", "create /a\nstart\nlink /a /b\nunlink /a\n", ["--strict", "--enough"]);
  const { parts, facts, title } = await shown();
  const isTitled = title.startsWith("a script: the rules are not enough under soft");
  check("all rules are not enough", [parts, facts[3], isTitled],
    [["All rules together are not enough"], "sets of rules are enough0", true]);
}

async function testOneRule() {
  const report = reportOf("enough");
  report.enough = [["EntrySet:InodeInit"]];
  await open("enough");
  await drop(JSON.stringify(report));
  const page = await shown();
  check("one rule: heading and words", [page.parts[0], page.words[0]], ["This rule is enough",
    "This rule is enough: EntrySet:InodeInit. With it and no other rule, replay leaves a clean disk after every crash. "
      + "The graph has no arrow of another rule."]);
}

async function testKeyboard() {
  await open("enough_mkdir");
  await browser.ask('document.querySelector("#choices [aria-current]").focus()');
  const seen = [];
  for (let k = 0; k < 7; k++) {
    seen.push((await shown()).focus);
    await browser.press("ArrowDown");
  }
  check("the arrow keys go past the headings", seen, (await shown()).choices.slice(0, 7));
}

async function testWidths() {
  for (const width of [390, 760, 1280]) {
    await browser.size(width, 800);
    for (const choice of [0, 2]) {
      await open("enough_journal", `#choice=${choice}`);
      check(`${width}, choice ${choice}: nothing hangs over the side`, (await shown()).sideways, 0);
      await keepPicture(`enough_${width}_${choice}`);
    }
  }
}

async function testLongLists() {
  const report = reportOf("enough"), rules = Array.from({ length: 600 }, (_, k) => [`EntrySet:R${k}`]);
  report.enough = rules;
  report.needs = rules.map((one, k) => k < 500 ? { ...report.needs[0], rules: one } : null);
  await open("enough");
  await drop(JSON.stringify(report));
  const page = await shown();
  check("600 sets and 600 groups: the page says that it shows some", page.cut,
    ["This report lists 1,200 sets and groups of rules, and the page shows 1,000 of them."]);
  check("600 sets and 600 groups: so many can be chosen", page.choices.length, 1001);
}

await run([testList, testHeadings, testHead, testSets, testGroups, testPickedGroups, testPickedUnderEnough,
  testPickedUnderOthers, testNotEnough, testNoneNeeded, testRunOnRules, testOneRule, testKeyboard, testWidths,
  testLongLists]);
