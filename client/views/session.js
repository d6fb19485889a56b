// The session: round and phase, how a player stands, who plays whom where, and how far each board is.

import { element, heading, link, table } from "../dom.js";
import { awaitedTables, isComplete, isHeld, isLive, roundOf, seatNow, seatOf } from "../public_facts.js";
import { isIn, isTurned, rowsOfBoard } from "../movement.js";
import { ask } from "../messages.js";
import { percentText, unitsText } from "../percentages.js";
import { addressOf } from "../routes.js";
import { texts } from "../texts.js";
import { answerView } from "./denial.js";
import { occasionView, pairMark, section, stateMark } from "./marks.js";
import { rankOf } from "./ranking.js";

/** Whoever plays sees how the own pair stands. */
export const sessionNeeds = ({ facts, user }) => (seatOf(facts, user) ? [ask.ranking()] : []);

export function sessionView(page) {
  const { facts, user } = page.state;
  const seat = seatOf(facts, user);
  return [
    heading(texts.session.title),
    occasionView(facts),
    element(
      "p",
      { class: "lead-text" },
      texts.session.roundOf(facts.round, facts.rounds),
      " · ",
      texts.phase[facts.phase],
    ),
    element("p", { id: "own-seat" }, seat ? seatText(facts, seat) : texts.session.noSeat),
    seat && section(
      texts.session.rank,
      answerView(page, ask.ranking(), (ranking) => rankView(rankOf(facts, ranking, seat.pair))),
    ),
    section(texts.session.tables(facts.round), tablesView(facts, seat)),
    () => section(texts.session.boards, element("p", { class: "note" }, texts.session.boardsNote), boardsGrid(facts)),
  ];
}

/** Where the pair changes its side, the seat says where its player begins. */
function seatText(facts, seat) {
  const place = texts.place[seat.place];
  if (!isTurned(facts.rows, seat.pair)) return texts.session.seat(seat.pair, place);
  const now = seatNow(facts, seat);
  return `${texts.session.begins(seat.pair, place)} ${texts.session.seatNow(facts.round, now?.table ?? 0, texts.place[now?.place])}`;
}

function rankView(rank) {
  if (!rank) return element("p", { id: "own-rank" }, texts.session.noRank);
  const { earned, tops, place, shared, of, side } = rank;
  const parts = [
    ["percent", texts.percent(percentText(earned, tops))],
    ["total", texts.session.ofTops(unitsText(earned), unitsText(tops))],
    ["place", texts.session.placeOf(`${place}${shared ? "=" : ""}`, of, side)],
  ];
  return element(
    "dl",
    { id: "own-rank", class: "own-rank" },
    parts.map(([name, text]) => element("div", {}, element("dt", {}, texts.session.rankParts[name]), element("dd", {}, text))),
  );
}

function tablesView(facts, seat) {
  const rows = roundOf(facts, facts.round).map((row) => () => {
    const own = seat && isIn(row, seat.pair);
    const head = element("th", { scope: "row", class: own ? "own" : null }, row.table);
    const boards = row.boards.map((board) => [boardLink(facts, row.table, board), " "]);
    return [head, pairMark(facts, row.ns), pairMark(facts, row.ew), element("td", { class: "boards" }, boards)];
  });
  return table(texts.session.tablesCaption(facts.round), texts.session.tablesHeads, rows, { class: "tables" });
}

function boardLink(facts, tableNumber, board) {
  const live = isLive(facts, tableNumber, board);
  const spoken = live ? texts.session.hasResult : texts.session.noResult;
  return link(addressOf("board", board), `${board}${live ? " ✓" : ""}`,
    { id: `table-${tableNumber}-board-${board}`, class: live ? "live" : null, "aria-label": `${board}${spoken}` });
}

function boardsGrid(facts) {
  return element("ul", { class: "board-grid" }, facts.boards.map((board) => () => {
    const of = rowsOfBoard(facts.rows, board, facts.per_set).length;
    const count = of - awaitedTables(facts, board).length;
    const state = isHeld(facts, board) ? "held" : isComplete(facts, board) ? "complete" : count ? "waits" : "to_play";
    return element("li", {}, link(addressOf("board", board),
      [element("b", {}, board), stateMark(state, texts.session.boardState(state, count, of))],
      { id: `grid-board-${board}` }));
  }));
}
