// What is looked at, and the making of elements.

/** What is looked at. `choice` is an index into `choicesNow()`; `picked` is the choice for the patches that a person
    picked, or null; `run` says where the report is from, and `real` the real paths of a recorded script. */
export const view = { report: null, run: null, real: null, choice: 0, picked: null, step: 0, block: null,
  every: false };

/** What a person can ask for; `page.js` says how it is done, which the files that it imports need not know. */
export const actions = { goTo: null, choose: null, pick: null, pickAll: null, open: null };

/** The report's choices, and after them the picked patches. */
export const choicesNow = () => [...view.report.choices, view.picked].filter(Boolean);
export const choiceNow = () => choicesNow()[view.choice];
export const idsAt = step => choiceNow().writes.slice(0, step).flatMap(write => write.patches);

/** `disk`: written at this step. `later`: written later. `lost`: not before the crash. */
export function stateOf(id) {
  if (idsAt(view.step).includes(id)) return "disk";
  return choiceNow().set.includes(id) ? "later" : "lost";
}

export const byId = id => document.getElementById(id);

/** An element of HTML; attributes that begin with `on` are listeners, and absent children are left out. */
export const element = (tag, attributes, ...children) => dress(document.createElement(tag), attributes, children);

/** The same for SVG. */
export const shape = (tag, attributes, ...children) =>
  dress(document.createElementNS("http://www.w3.org/2000/svg", tag), attributes, children);

function dress(made, attributes, children) {
  for (const [name, value] of Object.entries(attributes ?? {})) {
    if (value === undefined || value === null || value === false) continue;
    if (name.startsWith("on")) made.addEventListener(name.slice(2), value);
    else made.setAttribute(name, value === true ? "" : value);
  }
  made.append(...children.flat().filter(child => child !== null && child !== undefined && child !== false));
  return made;
}
