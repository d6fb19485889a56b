// Which view stands at which address, and what each asks for.

import { element, heading, link } from "./dom.js";
import { ask } from "./messages.js";
import { addressOf } from "./routes.js";
import { accountsNeeds, accountsView } from "./views/accounts.js";
import { auditNeeds, auditView } from "./views/audit.js";
import { boardNeeds, boardView } from "./views/board.js";
import { boardsNeeds, boardsView } from "./views/boards.js";
import { denialView } from "./views/denial.js";
import { directorNeeds, directorView } from "./views/director.js";
import { findNeeds, findView } from "./views/find.js";
import { drawnFor, embargoView } from "./views/frame.js";
import { waiting } from "./views/marks.js";
import { papersNeeds, papersView } from "./views/papers.js";
import { rankingNeeds, rankingView } from "./views/ranking.js";
import { scorerNeeds, scorerView } from "./views/scorer.js";
import { sessionNeeds, sessionView } from "./views/session.js";
import { texts } from "./texts.js";

const views = {
  session: [sessionView, sessionNeeds],
  boards: [boardsView, boardsNeeds],
  board: [boardView, boardNeeds],
  ranking: [rankingView, rankingNeeds],
  find: [findView, findNeeds],
  papers: [papersView, papersNeeds],
  scorer: [scorerView, scorerNeeds],
  director: [directorView, directorNeeds],
  accounts: [accountsView, accountsNeeds],
  audit: [auditView, auditNeeds],
};

/** The queries whose answers the present view shows. */
export function viewNeeds(page) {
  if (!page.state.facts || drawnFor(page.state, page.route.view) !== "drawn") return [];
  return views[page.route.view][1](page.state, page.route, page);
}

export function viewNodes(page) {
  if (!page.state.facts) return [heading(texts.session.title), waiting()];
  const drawn = drawnFor(page.state, page.route.view);
  if (drawn !== "drawn") return [heading(texts.frame.view[page.route.view]), drawn === "unknown" ? waiting() : notYours()];
  return [embargoView(page), views[page.route.view][0](page, page.route)];
}

const notYours = () => element("p", { class: "error", id: "not-yours" }, texts.frame.notYours, " ", link(addressOf("session"), texts.frame.view.session));

/** Who isn't a member sees nothing but why. */
export function statusDeniedView(page) {
  return [heading(texts.session.title), denialView(page, ask.status(), page.state.statusDenied, page.state.version)];
}
