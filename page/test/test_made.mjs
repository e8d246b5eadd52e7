// PAGES=FOLDER node page/test/test_made.mjs: each page in the folder shows its report, whatever that is.
import { readFileSync, readdirSync } from "node:fs";
import { join } from "node:path";
import { check, openBytes, run, shown } from "./harness.mjs";

async function testEachPage() {
  for (const file of readdirSync(process.env.PAGES)) {
    await openBytes("made", readFileSync(join(process.env.PAGES, file)));
    const page = await shown(), hasDisk = page.at !== undefined && page.steps[0] === "base";
    check(`${file}: it is shown`, [page.error, hasDisk, page.sideways], [[], true, 0]);
    check(`${file}: each fault has a sentence`, page.meanings.length > 0, page.faults.length > 0);
  }
}

await run([testEachPage]);
