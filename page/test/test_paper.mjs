// node page/test/test_paper.mjs [FOLDER]: what pages look like on paper: all of it is there, nothing lies over anything
// else, and the graph fits.
import { cases } from "./cases.mjs";
import { browser, check, keepPicture, open, openAnswered, openMade, run, shown } from "./harness.mjs";

/** The width of A4 between margins of 12 mm, in the style's pixels. */
const WIDTH = 703;
/** Patches are drawn at least at this scale, unless one operation is wider than the paper. */
const SMALLEST_SCALE = 0.7;
const ROUNDING = 1;

/** What would be lost on paper, or would lie over something else. */
const LOST = `(() => {
  const seen = [...document.body.querySelectorAll("*")].filter(one => one.getClientRects().length);
  const named = one => one.id ? "#" + one.id : one.tagName.toLowerCase() + "." + one.classList;
  const isCut = one => getComputedStyle(one).overflow !== "visible" && !one.closest("svg")
    && (one.scrollWidth > one.clientWidth + ${ROUNDING} || one.scrollHeight > one.clientHeight + ${ROUNDING});
  const cards = ["#head", "#choices", "#steps", "#graph", "#disk"].map(what => document.querySelector(what))
    .filter(card => card.getClientRects().length);
  const boxes = cards.map(card => card.getBoundingClientRect());
  return {
    cut: seen.filter(isCut).map(named),
    floating: seen.filter(one => ["fixed", "sticky"].includes(getComputedStyle(one).position)).map(named),
    covered: cards.filter((_, k) => k && boxes[k].top < boxes[k - 1].bottom).map(named),
    sideways: document.documentElement.scrollWidth - document.documentElement.clientWidth,
  };
})()`;

/** Whether all lines, choices and steps have a place. */
const PLACED = `(() => {
  const all = [...document.querySelectorAll("#script li, #choices li, #steps li, #disk tbody tr, #disk .cell")];
  const isPlaced = one => one.checkVisibility({ contentVisibilityAuto: true }) && one.getClientRects().length;
  return all.filter(one => !one.closest("[hidden]") && !isPlaced(one))
    .map(one => one.textContent);
})()`;

/** For each patch in how many strips it is whole; each strip's scale, and the room beside it. */
const STRIPS = `(() => {
  const strips = [...document.querySelectorAll(".paper svg")], views = strips.map(one => one.viewBox.baseVal);
  const room = document.querySelector(".paper");
  const isWithin = (box, view) => view.x <= box.x && box.x + box.width <= view.x + view.width
    && view.y <= box.y && box.y + box.height <= view.y + view.height;
  return {
    homes: [...document.querySelectorAll("#drawing .node")]
      .map(node => views.filter(view => isWithin(node.getBBox(), view)).length),
    scales: strips.map((one, k) => one.getBoundingClientRect().width / views[k].width),
    columns: views.map(view => [...document.querySelectorAll("#drawing .column")]
      .filter(column => isWithin(column.getBBox(), view)).length),
    hangsOver: strips.some(one =>
      one.getBoundingClientRect().right > room.getBoundingClientRect().right),
  };
})()`;

async function checkPaper(name) {
  const page = await browser.ask(LOST), missing = await browser.ask(PLACED);
  check(`${name}: nothing is cut off, floats, is covered or hangs over the side`,
    [page.cut, page.floating, page.covered, page.sideways], [[], [], [], 0]);
  check(`${name}: everything has a place`, missing, []);
  const { homes, scales, columns, hangsOver } = await browser.ask(STRIPS);
  check(`${name}: each patch is in one strip of the graph, which fits`, [homes, hangsOver],
    [homes.map(() => 1), false]);
  const isReadable = scales.every(scale => scale >= SMALLEST_SCALE) || columns.includes(1);
  check(`${name}: the graph can be read (${scales})`, isReadable, true);
}

async function testEachReport() {
  for (const name of Object.keys(cases)) {
    await open(name);
    await checkPaper(name);
    await keepPicture(`paper_${name}`, true);
  }
}

async function testSearches() {
  for (const name of ["search_kinds", "search_journal", "search_some", "search_clean"]) {
    await openAnswered(name);
    await checkPaper(`${name} with its workloads`);
    await keepPicture(`paper_${name}_answered`, true);
  }
}

/** On a narrow screen the script is folded; on paper it is not. */
async function testScript() {
  const lines = Array.from({ length: 90 }, (_, k) => `# line ${k} ${"long".repeat(60)}`);
  await openMade("reuse", [...lines, "start", ""].join("\n"), ["--with=Ptr:previous-InodeInit"]);
  check("a script that is folded on the screen", await browser.ask("document.querySelector('#script').open"), false);
  await checkPaper("a long script");
  check("each line of it", await browser.ask("document.querySelectorAll('#script li').length"), 91);
  await keepPicture("paper_script", true);
}

async function testEveryPlace() {
  await open("immense");
  await browser.ask("document.querySelector('#disk header input').click()");
  await checkPaper("every place");
}

/** Paper is white, also where the screen is dark. */
async function testColours() {
  await browser.media("print", "dark");
  await open("create");
  const ink = await browser.ask("getComputedStyle(document.body).color");
  check("dark ink", ink, "rgb(26, 31, 38)");
  await browser.media("screen", "dark");
  check("and light ink on a dark screen", (await shown()).page, "rgb(16, 19, 24)");
}

/** A page number is one object of a PDF. */
async function testPages() {
  await browser.media("");
  await open("reuse");
  const paper = (await browser.paper()).toString("latin1");
  check("the browser prints it", [paper.slice(0, 5), paper.match(/\/Type\s*\/Page\b/g)?.length > 1], ["%PDF-", true]);
}

await browser.media("print");
await run([testEachReport, testSearches, testScript, testEveryPlace, testColours, testPages], WIDTH);
