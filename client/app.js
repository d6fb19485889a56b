// The page: its views by address, what the user does, and how often the server is asked.

import { firstCard, takeCard } from "./card_address.js";
import { Connection, ConnectionFault } from "./connection.js";
import { afterFrame, beginningOf, button, element, fragmentOf, freshOf, patchContent, replaceContent } from "./dom.js";
import { Drafts } from "./drafts.js";
import { newForms } from "./forms.js";
import { forgetAccount, keepAccount, readAccount } from "./kept_account.js";
import { keepLetters, readLetters } from "./letters.js";
import { Notices } from "./notices.js";
import { pauseInDoubt, pauseOf } from "./pauses.js";
import { personText } from "./people.js";
import { draftOf } from "./results.js";
import { RoundClock, leftText } from "./round_clock.js";
import { addressOf, routeOf, serverAddress } from "./routes.js";
import { keepScrolled } from "./scrolled.js";
import { signInAs } from "./signing_in.js";
import { Store } from "./store.js";
import { texts } from "./texts.js";
import { statusDeniedView, viewNeeds, viewNodes } from "./views.js";
import { footView, headView, isDesk, markPresent, offlineView, restartView } from "./views/frame.js";
import { signInView } from "./views/sign_in.js";

const toldBackFor = 15_000;
// as many elements of a view that is opened fill a phone's window, and are drawn before the others
const drawnFirst = 40;
const part = (id) => document.getElementById(id);

function storageOfTab() {
  try {
    return globalThis.sessionStorage;
  } catch {
    return null;
  }
}

export class Page {
  route = routeOf(location.hash);
  drafts = new Drafts(storageOfTab());
  notices = new Notices({ refusal: part("refusal"), done: part("done"), putAway: part("put-away") });
  clock = new RoundClock(storageOfTab(), {
    onTick: () => this.#drawClock(),
    onOver: (round) => {
      if (this.state.user !== null) this.notices.tell("", texts.clock.over(round));
      this.draw();
    },
  });
  opened = new Set();
  isBusy = false;
  isSlow = false;
  offlineFor = 0;
  backAfter = 0;
  #awaySince = null;
  hasLetters = readLetters(storageOfTab());
  heardAt = null;
  #account = null;
  #waitingCard = undefined;
  #armed = null;
  #openDetails = new Set();
  #failures = 0;
  #timer = null;
  #announced = "";
  #lacking = null;
  #isStale = false;
  #isPressed = false;
  #isFromTop = false;
  #drawRest = null;
  #madeOf = new Map();
  #store;

  /** It goes on with what was typed before it was loaded (begin.js). */
  constructor(forms, serverPath) {
    Object.assign(this, { forms, serverPath });
    this.#store = this.#newStore();
  }

  get state() {
    return this.#store.state;
  }

  start() {
    addEventListener("hashchange", () => this.#routeChanged());
    addEventListener("online", () => this.tryNow());
    addEventListener("beforeprint", () => this.#drawRest?.());
    document.addEventListener("visibilitychange", () => !document.hidden && this.tryNow());
    part("skip").addEventListener("click", (event) => {
      event.preventDefault();
      part("content").focus();
    });
    part("content").addEventListener("toggle", (event) => this.#noteDetails(event.target), true);
    part("content").addEventListener("focusout", () => this.#drawIfStale());
    part("content").addEventListener("input", () => part("refusal").textContent === this.#lacking && this.refuse(""));
    document.addEventListener("keydown", ({ key }) => key === "Escape" && this.notices.isShown && this.notices.putAway());
    document.addEventListener("pointerdown", () => {
      this.#isPressed = true;
    });
    for (const released of ["pointerup", "pointercancel"]) document.addEventListener(released, () => this.#released());
    document.body.classList.toggle("letters", this.hasLetters);
    for (const details of part("content").querySelectorAll("details[open]")) this.#openDetails.add(details.id);
    const [first, later, kept] = [firstCard(), takeCard(), readAccount(storageOfTab())];
    const card = later === undefined ? first : later;
    this.draw();
    if (card !== undefined) this.#signInByCard(card);
    else if (kept) this.#signInAgain(kept);
  }

  #newStore() {
    const connection = new Connection(
      serverAddress(location, this.serverPath),
      { onSlow: (isSlow) => this.#setSlow(isSlow) },
    );
    return new Store(connection, {
      needs: () => viewNeeds(this),
      onChange: () => this.#stateChanged(),
      onRestart: () => this.#entriesLost(),
    });
  }

  setServerPath(path) {
    this.serverPath = path;
    this.#store = this.#newStore();
  }

  // ---- what the user does

  /** @returns {Promise<boolean>} false where the server couldn't be reached */
  async signIn(name, token) {
    if (this.isBusy) return true;
    if (!name.trim() || !token.trim()) {
      this.refuse(texts.signIn.badNameOrToken);
      return true;
    }
    clearTimeout(this.#timer);
    const known = await this.#whileBusy(() => signInAs(this.#store, name, token));
    if (known === undefined) return false;
    const { stays } = this.forms.signIn;
    this.forms.signIn.token = "";
    this.draw();
    if (known === null) {
      this.refuse(texts.signIn.notKnown);
      return true;
    }
    this.forms = newForms();
    this.#failures = 0;
    this.#account = known;
    if (known.name !== name.trim()) this.notices.tell("", texts.signIn.nameIs(known.name));
    if (stays) this.staySignedIn(true);
    this.drawAnew();
    this.#poll();
    return true;
  }

  /** Whoever was signed in before has passed the device on. */
  #signInByCard(card) {
    if (this.isBusy) {
      this.#waitingCard = card;
      return;
    }
    if (this.state.user !== null) this.signOut();
    forgetAccount(storageOfTab());
    if (card) this.signIn(card.name, card.token);
    else this.refuse(texts.signIn.badCard);
  }

  /** After a reload, by what was kept: as long as the server can't be reached, again and again. */
  async #signInAgain({ name, token }) {
    const wasReached = await this.signIn(name, token);
    if (this.state.user !== null) return;
    if (wasReached) {
      forgetAccount(storageOfTab());
      return;
    }
    this.#failures += 1;
    this.#timer = setTimeout(() => this.#signInAgain({ name, token }), pauseOf(this.#failures, document.hidden, Math.random()));
  }

  get staysSignedIn() {
    return readAccount(storageOfTab()) !== null;
  }

  /** Keeps name and token in the tab's storage, or doesn't keep them any more. */
  staySignedIn(stays) {
    if (!stays) forgetAccount(storageOfTab());
    else if (!keepAccount(storageOfTab(), this.#account)) this.refuse(texts.signIn.staysNot);
    this.#madeOf.delete("foot"); // where it can't be kept, what was ticked is cleared
    this.draw();
  }

  signOut = () => {
    clearTimeout(this.#timer);
    this.#store.signOut();
    this.#account = null;
    forgetAccount(storageOfTab());
    this.forms = newForms();
    this.clock.stop();
    this.opened.clear();
    this.#openDetails.clear();
    this.#armed = null;
    history.replaceState(null, "", location.pathname + location.search);
    this.#awaySince = null;
    Object.assign(this, { offlineFor: 0, backAfter: 0, isSlow: false, route: routeOf(location.hash) });
    this.notices.tell("", texts.signIn.signedOut);
    this.drawAnew();
  };

  /**
   * Sends commands, and says in words what came of them; `then` is called where the first one was accepted, and there `done` is said.
   * @param {string|((answers: string[]) => string)} done
   * @param {(answers: string[]) => string} explain says why not all of them were
   */
  async perform(commands, done, then = () => {}, explain = (answers) => this.#refusalOf(answers)) {
    if (this.isBusy) return;
    const receipt = await this.#whileBusy(() => this.#store.perform(commands));
    if (!receipt) return;
    const answers = receipt.answers ?? [];
    if (answers[0] === "ok") then();
    const isRefused = answers.some((answer) => answer !== "ok");
    if (receipt.error) this.notices.tell(texts.error(receipt.error), "");
    else this.notices.tell(isRefused ? explain(answers) : "", typeof done === "function" ? done(answers) : answers[0] === "ok" ? done : "");
    this.#stateChanged();
    this.#poll();
  }

  #refusalOf(answers) {
    return texts.refusal(answers.find((answer) => answer !== "ok"), (name) => personText(this.state.facts, name));
  }

  refuse(text) {
    this.notices.tell(text, "");
  }

  /** The page's own address without its view, as it stands on a card. */
  get ownAddress() {
    return location.origin + location.pathname + location.search;
  }

  forget(user, table, board) {
    for (const step of ["enter", "confirm"]) this.drafts.remove(user, step, table, board);
    this.drafts.setEntered(user, table, board, false);
  }

  /** Refuses what lacks something, until anything is changed in a form. */
  refuseUntilChanged(text) {
    this.#lacking = text;
    this.refuse(text);
  }

  setRoute({ view, table, board }) {
    const numbers = view === "board" ? [board, table] : [table, board];
    location.hash = addressOf(view, ...numbers.filter((number) => number > 0));
  }

  setLetters(hasLetters) {
    this.hasLetters = hasLetters;
    document.body.classList.toggle("letters", hasLetters);
    keepLetters(storageOfTab(), hasLetters);
  }

  startClock(round, minutes) {
    this.clock.start(round, minutes);
    this.draw();
  }

  stopClock() {
    this.clock.stop();
    this.draw();
  }

  /** Whether a part of the page that can be opened is. */
  isOpen(id) {
    return this.#openDetails.has(id);
  }

  toggle(key) {
    if (!this.opened.delete(key)) this.opened.add(key);
    this.draw();
  }

  /** A button that asks once more before it acts, where `isReady`; what is drawn on it may be shorter than its label. */
  twoStep(id, label, sure, act, drawn = label, isReady = () => true) {
    const arm = (armed, focused) => {
      this.#armed = armed;
      this.draw();
      part(focused)?.focus();
    };
    const spoken = drawn === label ? null : label;
    if (this.#armed !== id) return button(id, drawn, () => isReady() && arm(id, `${id}-sure`), { class: "quiet", "aria-label": spoken });
    const sureButton = button(`${id}-sure`, texts.sure, () => {
      this.#armed = null;
      act();
    }, { class: "main", "aria-describedby": `${id}-question` });
    return element("span", { class: "sure", role: "group", "aria-label": label },
      element("span", { id: `${id}-question` }, sure),
      " ",
      sureButton,
      " ",
      button(`${id}-cancel`, texts.cancel, () => arm(null, id), { class: "quiet" }));
  }

  /** What was asked for by a first press isn't meant any more. */
  disarm() {
    if (this.#armed === null) return;
    this.#armed = null;
    this.draw();
  }

  answer(query) {
    return this.#store.answerOf(query);
  }

  /** Draws, and asks for what the view needs now: @returns {Promise<void>} when it was asked for */
  lookAgain() {
    this.draw();
    return this.#poll();
  }

  bringIntoView(id) {
    part(id)?.scrollIntoView({ block: "start" });
  }

  tryNow = () => {
    if (this.state.user) this.#poll();
  };

  understood = () => {
    this.state.wasRestarted = false;
    this.draw();
  };

  // ---- asking the server

  async #poll() {
    clearTimeout(this.#timer);
    const { user } = this.state;
    try {
      await this.#store.refresh();
      // What was asked for while another refresh was going on is still missing.
      if (viewNeeds(this).some((query) => !this.answer(query))) await this.#store.refresh();
      this.#reached();
    } catch (fault) {
      this.#missed(fault);
    } finally {
      if (this.state.user !== null && user === this.state.user) this.#pollLater();
    }
  }

  #pollLater() {
    clearTimeout(this.#timer);
    const pause = pauseOf(this.#failures, document.hidden, Math.random(), isDesk(this.route.view));
    this.#timer = setTimeout(() => this.#poll(), this.#store.isInDoubt ? pauseInDoubt : pause);
  }

  #reached() {
    this.heardAt = new Date();
    if (this.#drawRest === null) this.#drawFoot();
    if (this.#store.isInDoubt) return;
    this.#failures = 0;
    if (!this.offlineFor) return;
    this.#tellBack();
    this.offlineFor = 0;
    if (part("refusal").textContent === texts.fault.notSent) this.refuse("");
    this.#drawStrips();
  }

  /** The server is back with what it had, which is said for a while; without it, something else is said. */
  #tellBack() {
    const seconds = Math.max(1, Math.round((Date.now() - this.#awaySince) / 1000));
    this.#awaySince = null;
    if (this.state.wasRestarted) return;
    this.backAfter = seconds;
    setTimeout(() => {
      this.backAfter = 0;
      this.#drawStrips();
    }, toldBackFor);
  }

  /** What was entered or confirmed from this tab is marked, and what was confirmed stands in the form again. */
  #entriesLost() {
    const { user } = this.state;
    this.drafts.loseEntries(user);
    for (const [cell, result] of this.forms.confirmed) {
      const [table, board] = cell.split("/").map(Number);
      this.drafts.write(user, "enter", table, board, draftOf(result, []));
      this.drafts.setLost(user, table, board);
    }
    this.forms.confirmed.clear();
  }

  #missed(fault) {
    if (!(fault instanceof ConnectionFault)) throw fault;
    if (this.state.user === null) return;
    if (fault.kind === "notKnown") {
      this.signOut();
      this.notices.tell(texts.fault.notKnown, "");
      return;
    }
    this.#failures += 1;
    this.#awaySince ??= Date.now();
    this.backAfter = 0;
    this.offlineFor = Math.ceil(pauseOf(this.#failures, document.hidden, 1, false) / 1000);
    this.#drawStrips();
  }

  /** @returns {Promise<any>} undefined where the server couldn't be reached, which is said */
  async #whileBusy(act) {
    this.isBusy = true;
    this.notices.putAway();
    this.draw();
    try {
      return await act();
    } catch (fault) {
      if (!(fault instanceof ConnectionFault)) throw fault;
      this.refuse(texts.fault[fault.kind]);
      if (this.state.user) this.#poll();
      return undefined;
    } finally {
      this.isBusy = false;
      this.#stateChanged();
      const card = this.#waitingCard;
      this.#waitingCard = undefined;
      if (card !== undefined) setTimeout(() => this.#signInByCard(card), 0);
    }
  }

  // ---- drawing

  #routeChanged() {
    const card = takeCard();
    if (card !== undefined) {
      this.#signInByCard(card);
      return;
    }
    this.route = routeOf(location.hash);
    this.#armed = null;
    this.#openDetails.clear();
    this.notices.putAway();
    this.drawAnew();
    // behind the first frame: opening a connection takes a slow device as long as drawing ten elements
    afterFrame(() => this.state.user && this.#poll());
  }

  /**
   * What the server answered is drawn at once, but not over an open list of choices, nor under a finger that is down, nor before
   * the view is there that was opened.
   */
  #stateChanged() {
    if (this.state.facts?.phase === "Final") forgetAccount(storageOfTab());
    if (this.#drawRest !== null || this.#isHeldBack()) this.#isStale = true;
    else this.#drawChanged();
  }

  #isHeldBack() {
    return this.#isPressed || document.activeElement?.tagName === "SELECT";
  }

  #drawChanged() {
    if (this.#isFromTop) this.drawAnew();
    else this.draw();
  }

  #released() {
    this.#isPressed = false;
    this.#drawIfStale();
  }

  /** After the click or the choice that is being made. */
  #drawIfStale() {
    setTimeout(() => this.#isStale && this.#stateChanged(), 0);
  }

  #setSlow(isSlow) {
    if (this.isSlow === isSlow) return;
    this.isSlow = isSlow;
    this.#drawStrips();
  }

  draw() {
    this.#isStale = false;
    this.#drawRest = null;
    this.#drawHead();
    const hadFocus = part("content").contains(document.activeElement) && document.activeElement !== part("content");
    const scrollAgain = keepScrolled(part("content"));
    const content = freshOf(() => this.#content());
    this.#openDetailsOf(content);
    patchContent(part("content"), content);
    scrollAgain();
    if (hadFocus && document.activeElement === document.body) part("heading")?.focus({ preventScroll: true });
    this.#drawStrips();
    this.#isDrawn();
  }

  /** What was open is open before it is put in, so that who types in it stays there. */
  #openDetailsOf(content) {
    for (const details of content.querySelectorAll("details[id]")) details.open = this.#openDetails.has(details.id);
  }

  /** The view shows something else now: the next time that it is drawn, it is shown from its top. */
  showFromTop() {
    this.#isFromTop = true;
  }

  /** Draws a view that is opened: what fills a phone's window in one frame, and the rest after it. Nothing asks where anything is between changes. */
  drawAnew() {
    this.#isFromTop = false;
    this.#isStale = false;
    const { begun, isWhole, putRest } = beginningOf(() => this.#content(), drawnFirst);
    this.#openDetailsOf(begun);
    // a browser lays out what has changed before it takes away what has the focus
    part("content").replaceChildren(begun);
    part("content").classList.toggle("begun", !isWhole);
    this.#drawHead();
    this.#drawStrips();
    document.title = texts.windowTitle(part("heading")?.textContent ?? "");
    scrollTo(0, 0);
    part("heading")?.focus({ preventScroll: true });
    if (isWhole) this.#isDrawn();
    else this.#drawAfterFrame(putRest);
  }

  /** The rest of a view, or all of it anew where the server has answered meanwhile. */
  #drawAfterFrame(putRest) {
    const drawRest = () => {
      if (this.#drawRest !== drawRest) return;
      if (this.#isStale && !this.#isHeldBack()) this.#drawChanged();
      else this.#putRest(putRest);
    };
    this.#drawRest = drawRest;
    afterFrame(drawRest);
  }

  #putRest(putRest) {
    try {
      putRest(part("content"));
    } catch (fault) {
      // an answer can't be read: the view says so where it is drawn at once
      if (!(fault instanceof TypeError)) throw fault;
      this.draw();
      return;
    }
    this.#openDetailsOf(part("content"));
    this.#isDrawn();
  }

  /** The view is whole, and what stands around it is drawn with it. */
  #isDrawn() {
    this.#drawRest = null;
    part("content").classList.remove("begun");
    this.#drawFoot();
    this.#announce();
  }

  #drawHead() {
    const { facts, user, permissions } = this.state;
    this.#drawAround("top", [facts, user, permissions], () => headView(this));
    markPresent(this, part("top"));
  }

  #drawFoot() {
    const { facts, version } = this.state;
    this.#drawAround("foot", [facts, version, this.heardAt, this.staysSignedIn, this.hasLetters], () => footView(this));
  }

  /** Draws what stands around each view, where anything of what it is made of is another than it was. */
  #drawAround(id, madeOf, make) {
    const before = this.#madeOf.get(id) ?? [];
    if (before.length > 0 && madeOf.every((each, index) => each === before[index])) return;
    this.#madeOf.set(id, madeOf);
    patchContent(part(id), fragmentOf(make()));
  }

  #content() {
    if (this.state.user === null) return signInView(this);
    if (this.state.statusDenied) return statusDeniedView(this);
    return viewNodes(this);
  }

  /** The clock alone, each moment that it runs. */
  #drawClock() {
    const [left, shown] = [this.clock.leftIn(this.state.facts?.round), part("clock-left")];
    if (shown && left !== null && shown.textContent !== leftText(left)) shown.textContent = leftText(left);
  }

  #drawStrips() {
    const { permissions, wasRestarted } = this.state;
    this.#drawAround("offline", [this.isSlow, this.offlineFor, this.backAfter, permissions, wasRestarted], () => [offlineView(this), restartView(this)]);
  }

  /** Tells who listens what was denied, when it changes. */
  #announce() {
    const text = [
      ...part("content").querySelectorAll(".denial-sentence"),
    ].map((sentence) => sentence.textContent).join(" ");
    if (text === this.#announced) return;
    this.#announced = text;
    replaceContent(part("announcements"), text);
  }

  #noteDetails(details) {
    if (!details.id || details.open === this.isOpen(details.id)) return;
    if (details.open) this.#openDetails.add(details.id);
    else this.#openDetails.delete(details.id);
    this.draw();
  }
}
