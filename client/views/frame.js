// What stands around every view: the head with its links, and the foot.

import { button, element, link } from "../dom.js";
import { seatOf } from "../public_facts.js";
import { addressOf } from "../routes.js";
import { texts } from "../texts.js";
import { accountMark } from "./marks.js";
import { staysView } from "./sign_in.js";

const deskRights = { scorer: ["score"], director: ["direct"], accounts: ["direct", "administer"], audit: ["direct", "administer"] };

/**
 * Whether a view is drawn for the user. A desk is for whoever has one of its permissions; which the user has may still be unknown.
 * @returns {"drawn"|"unknown"|"notYours"}
 */
export function drawnFor({ permissions }, view) {
  if (!deskRights[view]) return "drawn";
  if (permissions === null || permissions === undefined) return "unknown";
  return deskRights[view].some((right) => permissions[right]) ? "drawn" : "notYours";
}

/** The views that are of use to the user, in the order of their links. */
export function viewsOf({ facts, user, permissions }) {
  if (!facts) return [];
  return [
    "session", ...(seatOf(facts, user) ? ["boards"] : []), "ranking", "find", "papers",
    ...Object.keys(deskRights).filter((view) => drawnFor({ permissions }, view) === "drawn"),
  ];
}

/** Under which of the views that have a link the present one is. */
function presentView({ state, route }) {
  if (route.view !== "board") return route.view;
  return seatOf(state.facts ?? { seats: [] }, state.user) ? "boards" : "session";
}

/** Another link is that of the present view: nothing else of the head hangs on which it is. */
export function markPresent(page, head) {
  const [before, now] = [head.querySelector("[aria-current]"), head.querySelector(`#nav-${presentView(page)}`)];
  if (before === now) return;
  before?.removeAttribute("aria-current");
  now?.setAttribute("aria-current", "page");
}

export function headView(page) {
  const { state } = page;
  return element("div", { class: "bar" },
    element("p", { class: "brand" }, texts.title),
    state.user && element(
      "p",
      { class: "who" },
      element("span", {}, texts.frame.signedInAs, " ", accountMark(state.facts, state.user)),
      " ",
      button("sign-out", texts.frame.signOut, page.signOut, { class: "quiet" }),
    ),
    state.user && element("nav", { "aria-label": texts.frame.nav }, element("ul", {}, viewsOf(state).map((view) =>
      element(
        "li",
        {},
        link(
          addressOf(view),
          texts.frame.view[view],
          { id: `nav-${view}`, "aria-current": view === presentView(page) ? "page" : null },
        ),
      )))));
}

export function footView(page) {
  const { state } = page;
  return element("div", { class: "bar" },
    state.facts && page.heardAt && element(
      "p",
      { id: "as-of", "data-version": state.version },
      texts.frame.asOf(page.heardAt),
    ),
    state.facts && state.facts.phase !== "Final" && element("p", {},
      staysView("stays-on", page.staysSignedIn, (stays) => page.staySignedIn(stays)),
      element("span", { id: "stays-note", class: "unseen" }, texts.signIn.staysNote)),
    element("p", {}, element("label", { for: "letters", class: "check" },
      element(
        "input",
        {
          type: "checkbox",
          id: "letters",
          checked: page.hasLetters,
          onChange: (event) => page.setLetters(event.target.checked),
        },
      ),
      " ",
      texts.frame.letters)));
}

/** Above every view, as long as a director withholds all boards. */
export const embargoView = (page) => page.state.facts.embargo && element(
  "p",
  { id: "embargo-notice", class: "notice" },
  texts.frame.embargo,
);

/** Whether a view is one where something is changed. */
export const isDesk = (view) => Object.hasOwn(deskRights, view);

export function offlineView(page) {
  if (page.isSlow) return element("p", {}, texts.frame.slow);
  if (!page.offlineFor) return page.backAfter > 0 && element("p", { class: "back" }, texts.frame.back(page.backAfter));
  const again = button("try-now", texts.frame.tryNow, page.tryNow);
  return element("p", {}, texts.frame.offline(page.offlineFor), " ", again);
}

export function restartView(page) {
  const { permissions, wasRestarted } = page.state;
  return wasRestarted && element(
    "p",
    { class: "restarted" },
    permissions?.score || permissions?.direct ? texts.frame.restarted : texts.frame.restartedElsewhere,
    " ",
    button("understood", texts.frame.understood, page.understood),
  );
}
