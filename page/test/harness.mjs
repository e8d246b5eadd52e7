// What the page's tests share: a browser, the making of pages, what a page shows, and the counting.
import { execFileSync, spawnSync } from "node:child_process";
import { mkdirSync, mkdtempSync, readFileSync, rmSync, writeFileSync } from "node:fs";
import { tmpdir } from "node:os";
import { join } from "node:path";
import { fileURLToPath } from "node:url";
import { Browser } from "./browser.mjs";
import { cases } from "./cases.mjs";

const here = fileURLToPath(new URL(".", import.meta.url));
const folder = mkdtempSync(join(tmpdir(), "crashmap-page-"));
const pictures = process.argv[2];
let passed = 0, failed = 0;

export const browser = await Browser.start(join(folder, "profile"));
export const shown = () => browser.ask(SHOWN);

/** Counts one check; values are compared as JSON. */
export function check(name, got, wanted) {
  const isSame = JSON.stringify(got) === JSON.stringify(wanted);
  if (isSame) passed++; else failed++;
  if (!isSame) console.log(`FAIL ${name}\n     got    ${JSON.stringify(got)}\n     wanted ${JSON.stringify(wanted)}`);
}

/** Runs the tests of a file in a window of this width; the last line is `N passed, M failed`. */
export async function run(tests, width = 1280) {
  await browser.size(width, 800);
  for (const test of tests) {
    try {
      await test();
    } catch (error) {
      check(`${test.name} ends`, error.message, "");
    }
    check(`${test.name}: the page caught every error`, browser.takeErrors(), []);
  }
  await browser.stop();
  rmSync(folder, { recursive: true, force: true, maxRetries: 20, retryDelay: 200 });
  console.log(`${passed} passed, ${failed} failed`);
  process.exitCode = failed ? 1 : 0;
}

/* --- pages --- */

export const reportText = name => readFileSync(join(here, "reports", `${name}.json`), "utf8");
export const reportOf = name => JSON.parse(reportText(name));

/** Opens these bytes as a page. */
export async function openBytes(name, bytes, address = "") {
  const page = join(folder, `${name}.html`);
  writeFileSync(page, bytes);
  await browser.open(`file://${page}${address}`);
}

/** The pages that were stitched, by the report's name, with the report's text. */
const stitchedPages = new Map();

function stitch(name, text) {
  if (stitchedPages.get(name)?.text === text) return stitchedPages.get(name).page;
  const report = join(folder, `${name}.json`);
  writeFileSync(report, text);
  const page = execFileSync(join(here, "../stitch"), [report], { maxBuffer: 1 << 30 });
  stitchedPages.set(name, { text, page });
  return page;
}

/** Stitches a page of a report's text and opens it at a choice and a step; answers the page. */
export async function openText(name, text, address = "") {
  const page = stitch(name, text);
  await openBytes(name, page, address);
  return page;
}

/** Opens the page of one of `reports/` and answers the report. */
export async function open(name, address = "") {
  const stitched = await openText(name, reportText(name), address);
  const fetches = /(?:src|href|action)="|url\((?!#)|@import|fetch\(|import\(/;
  check(`${name}: it fetches nothing`, fetches.test(stitched), false);
  return reportOf(name);
}

/** Opens what crashmap-page makes of a script's bytes and these words, where the program prints one of `reports/`. */
export async function openMade(name, script, words, address = "") {
  const program = { CRASHMAP_PROGRAM: join(here, "print_report"), REPORT: join(here, "reports", `${name}.json`) };
  return openPage(name, script, words, program, address);
}

async function openPage(name, script, words, program, address) {
  const path = join(folder, "a script"), env = { ...process.env, ...program };
  writeFileSync(path, script);
  const made = spawnSync(join(here, "../../crashmap-page"), [path, ...words], { env, maxBuffer: 1 << 30 });
  await openBytes(name, made.stdout, address);
  return path;
}

/* --- pages of the reference program, which answers whatever it is asked --- */

const textOf = script => script.map(line => `${line}\n`).join("");

/** Opens what crashmap-page makes of a case where the reference answers, and answers the report. */
export async function openAnswered(name, address = "") {
  const { script, words } = cases[name];
  await openPage(name, textOf(script), words, { CRASHMAP_PROGRAM: join(here, "reference") }, address);
  return reportOf(name);
}

/** What the reference prints for a script and words, as JSON. */
export function answered(script, words) {
  const printed = spawnSync(join(here, "reference"), [...words, "--json", "--explain"], { input: textOf(script) });
  return JSON.parse(printed.stdout);
}

/** The page that asks for a report. */
export async function openEmpty() {
  await openBytes("empty", execFileSync(join(here, "../stitch")));
}

/** Gives the page a file as one does who drops it, and answers what the page then shows. */
const DROP = `async (text) => {
  const data = new DataTransfer();
  data.items.add(new File([text], "dropped.json"));
  const seen = new Promise(done => new MutationObserver((_, observer) => { observer.disconnect(); done(); })
    .observe(document.getElementById("page"), { childList: true }));
  dispatchEvent(new DragEvent("drop", { dataTransfer: data, cancelable: true }));
  await seen;
  const error = document.querySelector("#drop .error")?.textContent;
  return error ?? (document.querySelector("#choices header") ? "shown" : "neither shown nor refused");
}`;

export const drop = text => browser.ask(`(${DROP})(${JSON.stringify(text)})`);

/** Clicks a patch. */
export const click = id =>
  browser.ask(`document.querySelector('#drawing .node[data-id="${id}"]')
    .dispatchEvent(new MouseEvent("click", { bubbles: true }))`);

/** Clicks a choice of the list. */
export const clickChoice = at => browser.ask(`document.querySelectorAll("#choices button")[${at}].click()`);

/** What of a page with a picked set is otherwise than on the page of the same set in the report. */
export function differences(wanted, page) {
  const isOther = ([key, { words }]) => page.rows[key]?.words.join("|") !== words.join("|");
  const rows = Object.entries(wanted.rows).filter(isOther);
  const parts = ["disk", "lost", "ready", "steps", "end"];
  return [...rows, ...parts.filter(key => JSON.stringify(page[key]) !== JSON.stringify(wanted[key]))];
}

/** Leaves a picture of what is in view, or of all of the page, where pictures are wanted. */
export async function keepPicture(name, isWhole = false) {
  if (!pictures) return;
  mkdirSync(pictures, { recursive: true });
  writeFileSync(join(pictures, `${name}.png`), await browser.picture(isWhole));
}

/* --- what a page shows --- */

/** What a page shows, asked of its elements. */
const SHOWN = `(() => {
  const texts = what => [...document.querySelectorAll(what)].map(one => one.textContent.replace(/\\s+/g, " ").trim());
  const nodes = [...document.querySelectorAll("#drawing .node")]
    .map(one => ({ id: Number(one.dataset.id), state: one.dataset.state, kinds: [...one.classList] }));
  const ids = test => nodes.filter(test).map(node => node.id);
  const rows = [...document.querySelectorAll("#disk tbody tr[data-place]")].map(row => [row.dataset.place,
    { named: row.classList.contains("named"), words: [...row.querySelectorAll("td")].map(one => one.textContent) }]);
  const drawn = [...document.querySelectorAll("#drawing > .edge")];
  const edges = drawn.map(one => one.dataset.from + " " + one.dataset.to);
  const reasons = drawn.map(one => one.getAttribute("aria-label"));
  return {
    facts: texts("#head dl div"), rules: texts(".rule"), choices: texts("#choices button"),
    verdict: texts("#choices .verdict"), parts: texts("#choices .part"), columns: texts(".column .op"),
    faults: texts(".fault"),
    promises: [...document.querySelectorAll(".promise")].map(table => [...table.querySelectorAll("tr")]
      .map(row => [...row.children].map(one => one.textContent))),
    steps: texts("#steps button b"), end: texts("#steps .end"),
    disk: ids(node => node.state === "disk"), later: ids(node => node.state === "later"),
    lost: ids(node => node.state === "lost"), named: ids(node => node.kinds.includes("named")),
    ready: ids(node => node.state === "lost" && node.kinds.includes("ready")),
    rows: Object.fromEntries(rows), edges: edges.sort(), reasons: reasons.sort(), at: texts("#bar output")[0],
    title: document.title, meanings: texts(".meaning"), halves: texts(".half"),
    words: texts(".facts > p:not(.fault):not(.meaning):not(.half):not(.broken):not(.soft)"), broken: texts(".broken"),
    error: texts("#drop .error"), cut: texts(".cut"), key: texts("#graph .key > span"),
    focus: document.activeElement?.textContent.replace(/\\s+/g, " ").trim(),
    sideways: document.documentElement.scrollWidth - document.documentElement.clientWidth,
    page: getComputedStyle(document.body).backgroundColor,
  };
})()`;
