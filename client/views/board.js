// A board: its hands, traveller, double-dummy table, and the play at a table. Each part is asked for by itself, and each
// may be denied by itself.

import { tiles } from "../choices.js";
import { button, element, heading, link } from "../dom.js";
import { ask } from "../messages.js";
import { reasonOf } from "../occasion.js";
import { isHeld, marksOf, seatOf, tableOfPair } from "../public_facts.js";
import { rowsOfBoard } from "../movement.js";
import { addressOf } from "../routes.js";
import { texts } from "../texts.js";
import { analysisView } from "./analysis.js";
import { answerView } from "./denial.js";
import { handsView } from "./hands.js";
import { notThere, section } from "./marks.js";
import { parNeeds, parView } from "./par.js";
import { playView } from "./play.js";
import { travellerView } from "./traveller.js";

export function boardNeeds({ facts }, { board, table: chosen }) {
  if (!facts || !facts.boards.includes(board)) return [];
  const about = [ask.board(board), ask.traveller(board), ask.analysis(board), ...parNeeds(facts, board)];
  return chosen ? [...about, ask.play(chosen, board), ask.costs(chosen, board), ask.reason(chosen, board)] : about;
}

export function boardView(page, { board, table: chosen }) {
  const { facts, user } = page.state;
  if (!facts.boards.includes(board)) return notThere(texts.board.title(board), "NoSuchBoard");
  const pair = seatOf(facts, user)?.pair ?? null;
  const hands = page.answer(ask.board(board));
  const denied = hands?.denied;
  const { dealer, vulnerability } = marksOf(facts, board);
  return [
    heading(texts.board.title(board), turns(facts, board)),
    element(
      "p",
      { class: "marks" },
      texts.marks(dealer, vulnerability),
      " ",
      isHeld(facts, board) && element("strong", {}, texts.board.held),
    ),
    section(texts.board.hands, answerView(page, ask.board(board), handsView)),
    !denied && hands && section(
      texts.board.traveller,
      answerView(page, ask.traveller(board), (traveller) => travellerView(facts, traveller, pair)),
      parView(page, board),
    ),
    !denied && hands && section(texts.board.analysis, answerView(page, ask.analysis(board), analysisView)),
    !denied && hands && playSection(page, board, chosen, pair ? tableOfPair(facts, pair, board) : 0),
  ];
}

function turns(facts, board) {
  const to = (other, text, id) =>
    facts.boards.includes(other) && link(addressOf("board", other), text, { id, class: "turn" });
  return element(
    "p",
    { class: "turns" },
    to(board - 1, texts.board.previous(board - 1), "previous-board"),
    to(board + 1, texts.board.next(board + 1), "next-board"),
  );
}

function playSection(page, board, chosen, own) {
  const { facts } = page.state;
  const options = rowsOfBoard(facts.rows, board, facts.per_set).map((row) => [
    row.table,
    String(row.table),
    texts.board.atTable(row.table, row.table === own),
  ]);
  const choose = (value) => page.setRoute({ view: "board", board, table: value });
  return section(texts.board.play,
    tiles("play-table", texts.board.chooseTable, options, chosen, choose),
    chosen > 0 && playOfTable(page, board, chosen),
    chosen > 0 && button("close-play", texts.board.closePlay, () => choose(0), { class: "quiet" }));
}

function playOfTable(page, board, chosen) {
  const { facts } = page.state;
  const row = page.answer(ask.traveller(board))?.value?.rows.find((each) => each.table === chosen);
  const costs = page.answer(ask.costs(chosen, board));
  const hasPlay = page.answer(ask.play(chosen, board))?.value?.cards?.length > 0;
  return [
    answerView(page, ask.play(chosen, board), ({ cards }) => playView(cards, costs?.value?.costs ?? null, row?.result)),
    costs?.denied && hasPlay && answerView(page, ask.costs(chosen, board), () => null),
    row?.ruling && answerView(
      page,
      ask.reason(chosen, board),
      ({ code }) => element("p", { class: "reason" }, texts.board.reason(code, reasonOf(facts, code))),
    ),
  ];
}
