// A report's text: what it is a report of, a script or a search.
import { ReportError, isObject } from "./form.js";
import { scriptReport } from "./report.js";
import { searchReport } from "./search.js";

function parsed(text) {
  if (!text.trim()) throw new ReportError("This file is empty.");
  try {
    return JSON.parse(text);
  } catch (error) {
    throw new ReportError(`This file is not JSON, so it is no report: ${error.message}.`);
  }
}

/** The report in the form that the page works on. `run` has the reports on a search's workloads, where they are known.
    Throws a `ReportError` where the text is no report, or one that the page cannot show. */
export function readReport(text, run) {
  const json = parsed(text), isSearch = isObject(json) && json.search !== undefined;
  return isSearch ? searchReport(json, run?.workloads ?? []) : scriptReport(json, run?.words);
}
