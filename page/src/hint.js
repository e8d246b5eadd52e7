// Words at the pointer.
import { byId, element } from "./view.js";

/** Shows words below a place in the window, or above it where there is no room; the first is the title. */
export function showHint(words, x, y) {
  const hint = byId("hint");
  hint.replaceChildren(...words.map((word, k) => element("p", {}, k ? word : element("b", {}, word))));
  hint.hidden = false;
  const box = hint.getBoundingClientRect(), isLow = y + 10 + box.height > innerHeight;
  hint.style.left = `${Math.max(6, Math.min(x + 8, innerWidth - box.width - 8))}px`;
  hint.style.top = `${isLow ? Math.max(6, y - box.height - 46) : y + 10}px`;
}

export function hideHint() {
  byId("hint").hidden = true;
}
