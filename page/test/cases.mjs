// The scripts and words of `cases.json`. `reports/NAME.json` is what an independent reference program of the same
// definitions prints for them.
import { readFileSync } from "node:fs";

export const cases = JSON.parse(readFileSync(new URL("cases.json", import.meta.url), "utf8"));
