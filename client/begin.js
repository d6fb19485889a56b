// The page begins: the form for signing in is drawn by the few modules that it needs, and all others are asked for meanwhile, so that
// somebody can type on a slow network before the rest of the page has come.

import { button, element, fragmentOf, patchContent, replaceContent } from "./dom.js";
import { newForms } from "./forms.js";
import { serverPathOf } from "./routes.js";
import { texts } from "./texts.js";
import { signInView } from "./views/sign_in.js";

const part = (id) => document.getElementById(id);

/** As much of a page as the form is drawn from; the page goes on with its forms and its path. */
class Beginning {
  forms = newForms();
  serverPath = serverPathOf(location.search);
  isBusy = false;

  draw() {
    patchContent(part("content"), fragmentOf(signInView(this)));
  }

  setServerPath(path) {
    this.serverPath = path;
  }

  /** Who is that quick is signed in as soon as the page can do it. */
  signIn() {
    this.isBusy = true;
    this.draw();
  }

  /** What can't be loaded isn't asked for again by every browser, so the whole page is to be loaded anew. */
  #tellNotLoaded() {
    this.isBusy = false;
    this.draw();
    replaceContent(part("refusal"), element("p", {}, texts.fault.notLoaded));
    replaceContent(part("put-away"), button("load-again", texts.frame.loadAgain, () => location.reload(), { class: "quiet" }));
  }

  async goOn() {
    const links = /** @type {NodeListOf<HTMLLinkElement>} */ (document.querySelectorAll("link[rel=later]"));
    for (const link of links) link.rel = "modulepreload";
    const { Page } = await import("./app.js").catch((fault) => {
      this.#tellNotLoaded();
      throw fault;
    });
    const page = new Page(this.forms, this.serverPath);
    page.start();
    if (this.isBusy) page.signIn(this.forms.signIn.name, this.forms.signIn.token);
  }
}

part("skip").textContent = texts.frame.skip;
replaceContent(part("top"), element("div", { class: "bar" }, element("p", { class: "brand" }, texts.title)));
const beginning = new Beginning();
beginning.draw();
part("name").focus();
beginning.goOn();
