// The real paths of a recorded script: comments of the script say which of its paths stands for which real one.
import { view } from "./view.js";
import { quoted } from "./words.js";

const RECORDED = /^# crashmap: --blocks \d+ --journal \d+\n# recorded: /;
const NAMED = /^# (\/[a-z0-9/]+) is (.*)$/gm;
const PATH = /^\/[a-z0-9/]*$/;

/** The real paths that a script's comments name, by the script's own, or null where the script was not recorded. */
export const realPaths = text => RECORDED.test(text ?? "")
  ? new Map([...text.matchAll(NAMED)].map(([, path, real]) => [path, real])) : null;

/** The real path that a path stands for, below the recorded directory; in another script the path itself. */
export const realPath = path => view.real ? view.real.get(path) ?? (path.slice(1) || ".") : path;

/** A line with the real paths in it. */
export const realLine = text => view.real ? text.split(" ").map(realWord).join(" ") : text;

/** The real paths of a line where one of them is more than the script's path without its first letter. */
export function realNames(text) {
  const paths = view.real ? text.split(" ").filter(word => PATH.test(word)) : [];
  return paths.some(path => view.real.has(path)) ? paths.map(realWord) : [];
}

function realWord(word) {
  const real = PATH.test(word) ? realPath(word) : word;
  return /[\s'"]/.test(real) ? quoted(real) : real;
}
