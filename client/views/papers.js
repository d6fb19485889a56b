// What goes on paper, or into a spreadsheet: the ranking, score cards, travellers and hand records of the boards that the user
// may see, and guide cards.

import { tiles } from "../choices.js";
import { button, element, heading } from "../dom.js";
import { csvText, download } from "../csv.js";
import { linesOfPairs, linesOfTables } from "../guide_cards.js";
import { ask } from "../messages.js";
import { fileNameOf } from "../occasion.js";
import { seatOf } from "../public_facts.js";
import { scoreCardOf } from "../score_cards.js";
import { texts } from "../texts.js";
import { analysisFields, analysisHeads, makesView } from "./analysis.js";
import { answerView } from "./denial.js";
import { pairCards, tableCards } from "./guide_cards.js";
import { handsView } from "./hands.js";
import { boardsSoFar, listNeeds, listView, wholeList } from "./listed.js";
import { occasionOfCard, occasionView } from "./marks.js";
import { parFields, parHeads, parNeeds, parView } from "./par.js";
import { rankingCsv, rankingTables } from "./ranking.js";
import { scoreCardLines, scoreCardView } from "./score_card.js";
import { travellerLines, travellerView } from "./traveller.js";

const kindsOf = (pair) =>
  ["ranking", ...(pair ? ["results"] : []), "travellers", "records", "score_cards", "pair_cards", "table_cards"];
const pairOf = ({ facts, user }) => seatOf(facts, user)?.pair ?? null;

/** Which queries of a board a paper is made of. */
const aboutBoard = {
  results: (facts, board) => [ask.traveller(board)],
  travellers: (facts, board) => [ask.traveller(board), ...parNeeds(facts, board)],
  records: (facts, board) => [ask.board(board), ask.analysis(board), ...parNeeds(facts, board)],
  score_cards: (facts, board) => [ask.traveller(board)],
};

/** Guide cards follow from the status alone; for most others the boards are asked for once they are listed. */
export function papersNeeds(state, route, page) {
  const { kind } = page.forms.papers;
  if (kind === "ranking") return [ask.ranking()];
  if (!aboutBoard[kind]) return [];
  const aboutBoards = boardsSoFar(page, null).flatMap((board) => aboutBoard[kind](state.facts, board));
  return [...listNeeds(page, null), ...aboutBoards];
}

export function papersView(page) {
  const form = page.forms.papers;
  const choose = (kind) => { form.kind = kind; page.lookAgain(); };
  return [
    heading(texts.papers.title),
    element("div", { class: "no-print" },
      element("p", {}, texts.papers.explained),
      tiles(
        "paper",
        texts.papers.kindLegend,
        kindsOf(pairOf(page.state)).map((kind) => [kind, texts.papers.kind[kind]]),
        form.kind,
        choose,
      ),
      actions(page, form.kind)),
    element(
      "div",
      { class: `paper paper-${form.kind}` },
      occasionView(page.state.facts),
      element("h2", {}, texts.papers.kind[form.kind]),
      paper(page, form.kind),
    ),
  ];
}

/** Nothing is printed or saved before all of it is here: a part would look like the whole. */
function actions(page, kind) {
  const asked = papersNeeds(page.state, page.route, page);
  const here = asked.filter((query) => page.answer(query)).length;
  if (here < asked.length) return element("p", { class: "waiting", id: "papers-asking" }, texts.papers.asking(here, asked.length));
  const save = () => download(fileNameOf(page.state.facts, kind), csvOf(page, kind));
  return element("p", { class: "actions" },
    button("print", texts.papers.print, () => globalThis.print(), { class: "main" }),
    isTold(page, kind) && button("csv", texts.papers.csv, save, { class: "quiet" }));
}

const sheet = (...content) => element("section", { class: "sheet" }, ...content);

function paper(page, kind) {
  const { facts } = page.state;
  const pair = pairOf(page.state);
  if (kind === "ranking") return answerView(page, ask.ranking(), (ranking) => rankingTables(facts, ranking, pair));
  if (kind === "pair_cards") return pairCards(facts, pair);
  if (kind === "table_cards") return tableCards(facts);
  return listView(page, null, (boards) => {
    if (boards.length === 0) return element("p", {}, texts.papers.noBoards);
    if (kind === "records") return boards.map((board) => () => recordView(page, board));
    if (kind === "travellers") return boards.map((board) => () => travellerOf(page, board, pair));
    const travellers = travellersOf(page, boards);
    return pairsOfCards(facts, kind, pair).map((each) => () =>
      sheet(occasionOfCard(facts), scoreCardView(facts, scoreCardOf(facts, travellers, each), each)));
  });
}

const pairsOfCards = (facts, kind, ownPair) => (kind === "results" ? [ownPair] : facts.pairs);

/** The travellers of some boards, but for those that are denied. */
const travellersOf = (page, boards) => boards.map((board) => page.answer(ask.traveller(board))?.value).filter(Boolean);

function travellerOf(page, board, pair) {
  return sheet(
    answerView(page, ask.traveller(board), (traveller) => travellerView(page.state.facts, traveller, pair)),
    parView(page, board),
  );
}

function recordView(page, board) {
  const makes = () => answerView(page, ask.analysis(board), makesView);
  return sheet(
    element("h3", {}, texts.board.title(board)),
    answerView(page, ask.board(board), (value) => handsView(value, element("div", { class: "corner" }, makes(), parView(page, board)))),
  );
}

/** Whether what a paper is made of was told, and not denied. */
function isTold(page, kind) {
  if (kind === "ranking") return Boolean(page.answer(ask.ranking())?.value);
  return !aboutBoard[kind] || wholeList(page, null) !== null;
}

/** A paper for a spreadsheet, where what it is made of was told. */
function csvOf(page, kind) {
  const { facts } = page.state;
  if (kind === "ranking") return rankingCsv(facts, page.answer(ask.ranking()).value);
  if (kind === "pair_cards") return csvText([texts.guide.pairCsvHeads, ...linesOfPairs(facts)]);
  if (kind === "table_cards") return csvText([texts.guide.tableCsvHeads, ...linesOfTables(facts)]);
  const boards = wholeList(page, null);
  if (kind === "records") return recordsCsv(page, boards);
  const travellers = travellersOf(page, boards);
  if (kind === "travellers") return csvText([texts.papers.travellerHeads, ...travellers.flatMap((traveller) => travellerLines(facts, traveller))]);
  const lines = pairsOfCards(facts, kind, pairOf(page.state)).flatMap((pair) =>
    scoreCardLines(facts, scoreCardOf(facts, travellers, pair), pair));
  return csvText([texts.scoreCard.csvHeads, ...lines]);
}

function recordsCsv(page, boards) {
  const lines = boards.flatMap((board) => {
    const value = page.answer(ask.board(board))?.value;
    if (!value) return [];
    const { number, dealer, vul, deal } = value;
    return [[number, dealer, vul, deal, ...analysisFields(page.answer(ask.analysis(board))?.value?.tricks), ...parFields(page, board)]];
  });
  return csvText([[...texts.papers.recordHeads, ...analysisHeads, ...parHeads(page.state.facts)], ...lines]);
}
