// node page/test/test_search.mjs [FOLDER]: what the page shows of a report of `--search`: the kinds of fault, or the
// rules that are needed, for each the first workload and its crash, and what the search leaves out.
import { reasonsOf, reduction, traceWithout } from "./arrows.mjs";
import { cases } from "./cases.mjs";
import {
  answered, browser, check, click, clickChoice, drop, keepPicture, open, openAnswered, openText, reportOf, run, shown,
} from "./harness.mjs";

const FOR_KINDS = ["search", "search_kinds", "search_journal"], FOR_RULES = ["search_enough", "search_some"];
const LAST = "No operationthe disk before each workload";

/** `a`, `a or b`, `a, b or c`. */
const listed = (words, last) => words.join(", ").replace(/, ([^,]*)$/, ` ${last} $1`);

/** What a choice says of something that a search found. */
function choiceWords({ kind, name, steps, workloads, rules, fault }) {
  const said = steps.join("; ");
  if (!rules) return `${workloads} workload${workloads > 1 ? "s" : ""}${kind} ${name}${said}`;
  return `${listed(rules, "or")}${said}, without ${rules.length > 1 ? "them" : "it"}: ${fault}`;
}

const foundIn = report => report.kinds ?? report.needs;
const setsIn = report => report.enough ?? [];

/** What the reference answers about one workload of a case. */
function workloadReport(name, steps) {
  const { script, words } = cases[name], left = words.join(" ").replace(/--search[ =]\d+|--enough/g, "").trim();
  return answered([...script.slice(0, script.indexOf("start") + 1), ...steps], [...left.split(/\s+/), "--decide"]);
}

async function testList() {
  for (const name of [...FOR_KINDS, ...FOR_RULES]) {
    const report = await openAnswered(name), page = await shown();
    check(`${name}: what is found, and the disk before`, page.choices,
      [...setsIn(report).map(rules => listed(rules, "and")), ...foundIn(report).map(choiceWords), LAST]);
  }
}

/** Each: the case, and the headings of its list. */
const HEADINGS = [
  ["search_enough", ["Each of these 4 sets of rules is enough", "One rule of each group is needed"]],
  ["search_none", ["No rule is needed"]],
  ["search", []],
];

async function testHeadings() {
  for (const [name, parts] of HEADINGS) {
    await openAnswered(name);
    check(`${name}: the headings of the list`, (await shown()).parts, parts);
  }
}

/** The crash of each choice is shown on the patches of its own workload. */
async function testEachCrash() {
  for (const name of [...FOR_KINDS, ...FOR_RULES]) {
    const report = await openAnswered(name), before = setsIn(report).length;
    for (const [k, one] of foundIn(report).entries()) {
      await clickChoice(before + k);
      await checkCrash(`${name}, ${k}`, one, workloadReport(name, one.steps));
      await keepPicture(`${name}_${k}`);
    }
  }
}

async function checkCrash(name, one, { trace }) {
  const page = await shown(), left = traceWithout(trace, one.rules ?? []);
  const isNamed = page.words.includes(`Workload: ${one.steps.join("; ")}`);
  check(`${name}: the workload`, [page.columns, isNamed], [one.steps, true]);
  check(`${name}: the faults`, page.faults, (one.faults ?? [one.fault]).map(text => `Fault ${text}`));
  check(`${name}: the patches on the disk`, [page.disk, page.disk.concat(page.lost).length], [one.set, trace.length]);
  check(`${name}: the block writes`, page.steps, ["base", ...one.writes.map(({ block }) => `block ${block}`)]);
  check(`${name}: the arrows`, [page.edges, page.reasons], [reduction(left), reasonsOf(left, page.edges)]);
}

const LEFT_OUT = " A workload that fails is not made longer, so longer ones that begin with it were not tried.";
const ASIDE = " These fail under all rules, so they say nothing about the rules. Without --enough the report shows "
  + "them.";

/** Each: the case, what the page says of all workloads, its head, and its title. */
const WHOLE = [
  ["search", `1 of 8 workloads of up to 2 operations fails.${LEFT_OUT}`,
    ["modulesoft", "operations in the pool3", "workloads8", "failing workload1"],
    "a script: 1 of 8 workloads of up to 2 operations fails under soft, strict, 16 blocks, no journal, "
      + "data from block 4"],
  ["search_clean", "None of 8 workloads of up to 2 operations fails: after each crash, replay leaves a clean disk.",
    ["modulesoft", "operations in the pool3", "workloads8", "failing workloads0"],
    "a script: 0 of 8 workloads of up to 2 operations fail under soft, 16 blocks, no journal, data from block 4"],
  ["search_some", `1 of 8 workloads of up to 2 operations fails.${ASIDE}${LEFT_OUT}`,
    ["modulesoft", "operations in the pool3", "workloads8", "sets of rules are enough2"],
    "a script: 2 sets of rules are enough for 7 of 8 workloads of up to 2 operations under soft, strict, 16 blocks, "
      + "no journal, data from block 4"],
  ["search_none", `1 of 1 workload of up to 1 operation fails.${ASIDE}${LEFT_OUT}`,
    ["moduleasync", "operation in the pool1", "workload1", "rules are needed0"],
    "a script: no rule is needed for 0 of 1 workload of up to 1 operation under async, 16 blocks, no journal, "
      + "data from block 4"],
];

async function testWhole() {
  for (const [name, verdict, facts, title] of WHOLE) {
    await openAnswered(name);
    const page = await shown();
    check(`${name}: what holds of all workloads`, page.verdict, [verdict]);
    check(`${name}: the head`, page.facts, facts);
    check(`${name}: the title`, page.title, `${title} - crashmap`);
    check(`${name}: the page is whole`, [page.error, page.sideways], [[], 0]);
  }
  await openAnswered("search");
  const about = await browser.ask('[...document.querySelectorAll("#about p span")].map(one => one.textContent)');
  check("what was refused", about.at(-1), "Refused 3 not found, 1 exists");
}

/** With nothing found the disk before each workload is shown. */
async function testNothingFound() {
  for (const name of ["search_clean", "search_none"]) {
    const report = await openAnswered(name), page = await shown();
    check(`${name}: nothing was found`, [foundIn(report), page.faults, page.columns], [[], [], []]);
    check(`${name}: the disk before`, [page.choices.at(-1), page.steps], [LAST, ["base"]]);
  }
}

/** Picked patches are of the workload that is looked at, and the address says which. */
async function testPicked() {
  const report = await openAnswered("search_kinds", "#choice=2"), link = report.kinds[2];
  await click(0);
  const both = await shown(), hash = await browser.ask("location.hash");
  check("a picked patch of the third workload", [both.columns, both.disk], [link.steps, [0, 1]]);
  check("the address says whose patches they are", hash, "#set=0+1&of=2&step=2");
  await openAnswered("search_kinds", hash);
  const again = await shown();
  check("and is read again", [again.columns, again.disk, again.at], [both.columns, both.disk, both.at]);
  await clickChoice(1);
  check("another choice has its own workload", (await shown()).columns, report.kinds[1].steps);
  await clickChoice(report.kinds.length + 1);
  check("what was picked stays", [(await shown()).columns, (await shown()).disk], [both.columns, both.disk]);
}

/** A report alone, as `page/stitch` shows one or as it is dropped, has no patches. */
async function testWithoutPatches() {
  for (const name of [...FOR_KINDS, ...FOR_RULES]) {
    const report = await open(name), first = foundIn(report)[0], page = await shown(), before = setsIn(report).length;
    check(`${name}, alone: what is found`, page.choices.slice(before, -1), foundIn(report).map(choiceWords));
    check(`${name}, alone: its faults`, page.faults, (first.faults ?? [first.fault]).map(text => `Fault ${text}`));
    check(`${name}, alone: its workload`, page.words.includes(`Workload: ${first.steps.join("; ")}`), true);
    const writes = await browser.ask('[...document.querySelectorAll("#steps li")].map(one => one.textContent)');
    check(`${name}, alone: its block writes`, writes, first.writes.map(({ block, patches }) =>
      `block ${block}${patches.length > 1 ? "patches" : "patch"} ${listed(patches.map(String), "and")}`));
    const hasGraph = await browser.ask('document.querySelector("#graph").getClientRects().length > 0');
    check(`${name}, alone: there is no graph`, [hasGraph, page.sideways], [false, 0]);
    await browser.press("ArrowLeft");
  }
  await keepPicture("search_alone");
  await open("search_clean");
  const page = await shown();
  check("nothing found, alone", [page.choices, page.error, page.verdict.length], [[LAST], [], 1]);
  check("a search is shown where it is dropped", await drop(JSON.stringify(reportOf("search"))), "shown");
}

async function testTextOfASearch() {
  const html = "<img src=x onerror=\"document.title = 'broken'\">", report = reportOf("search");
  report.kinds[0].steps = [html];
  report.kinds[0].name = html;
  report.refused[0].text = html;
  await openText("search", JSON.stringify(report));
  const page = await shown(), images = await browser.ask('document.querySelectorAll("img").length');
  check("HTML in a search is shown as text", [images, page.choices[0].includes(html)], [0, true]);
}

await run([testList, testHeadings, testEachCrash, testWhole, testNothingFound, testPicked,
  testWithoutPatches, testTextOfASearch]);
