// What came of what the user did: that it is done, or why it isn't. A notice stays at the lower edge of the window, wherever
// the page is scrolled to, until it is put away, by its button or by Escape, until something else is done, or until another
// view is opened.

import { button, element, replaceContent } from "./dom.js";
import { texts } from "./texts.js";

export class Notices {
  #parts;
  #cameFrom = null;

  /** @param {{refusal: Element, done: Element, putAway: Element}} parts the first two are live regions: their texts are read out */
  constructor(parts) {
    this.#parts = parts;
  }

  get isShown() {
    return this.#parts.refusal.textContent + this.#parts.done.textContent !== "";
  }

  /** Says both, or the one that isn't empty, in place of what was said before. */
  tell(refusal, done) {
    this.#cameFrom = document.activeElement?.id || null;
    replaceContent(this.#parts.refusal, refusal && element("p", {}, refusal));
    replaceContent(this.#parts.done, done && element("p", {}, done));
    const away = button("put-away-button", texts.frame.putAway, () => this.putAway(), { class: "quiet" });
    replaceContent(this.#parts.putAway, this.isShown && away);
  }

  /** Says nothing any more. Who was at the button is at what was pressed before it again. */
  putAway() {
    if (!this.isShown) return;
    const [wasThere, cameFrom] = [this.#parts.putAway.contains(document.activeElement), this.#cameFrom];
    this.tell("", "");
    if (!wasThere) return;
    (document.getElementById(cameFrom) ?? document.getElementById("heading"))?.focus({ preventScroll: true });
  }
}
