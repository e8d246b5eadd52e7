// node picture.mjs DOM STYLE: the patch graph out of a page's elements, as an SVG file with the style that it uses.
import { readFileSync } from "node:fs";

const [dom, style] = process.argv.slice(2).map(file => readFileSync(file, "utf8"));
const graph = /<svg viewBox="[^"]*" role="group"[^]*?<\/svg>/.exec(dom.slice(dom.indexOf('id="graph"')))[0];
const [, width, height] = /viewBox="0 0 (\S+) (\S+)"/.exec(graph);

/** The colours of light and dark, and the rules between the comments that begin the graph's part and the disk's. */
const colours = style.slice(0, style.indexOf("* {"));
const rules = style.slice(style.indexOf("/* graph */"), style.indexOf("/* disk */")).replaceAll("#graph ", "");
const ground = ".ground { fill: var(--card); }";

console.log(graph
  .replace("<svg ", '<svg xmlns="http://www.w3.org/2000/svg" ')
  .replace(/ (?:aria-label|tabindex|role)="[^"]*"/g, "")
  .replace(/ width="[^"]*" height="[^"]*">/, ` width="${Math.round(width)}" height="${Math.round(height)}">`)
  .replace(">", `>\n<style>\n${colours}${rules}\n${ground}\n</style>\n`
    + '<rect class="ground" width="100%" height="100%"/>'));
