// A player's own boards, the present round first, each with its state.

import { element, heading, link } from "../dom.js";
import { boardsOf, isIn, isTurned, opponentsIn, sideIn } from "../movement.js";
import { awaitedTables, boardStateOf, seatOf } from "../public_facts.js";
import { addressOf } from "../routes.js";
import { texts } from "../texts.js";
import { pairMark, section, stateMark } from "./marks.js";

export const boardsNeeds = () => [];

export function boardsView(page) {
  const { facts, user } = page.state;
  const seat = seatOf(facts, user);
  if (!seat) return [heading(texts.boards.title), element("p", {}, texts.session.noSeat)];
  const rows = facts.rows.filter((row) => isIn(row, seat.pair));
  const now = rows.filter((row) => row.round === facts.round);
  const others = rows.filter((row) => row.round !== facts.round);
  return [
    heading(texts.boards.title),
    element("p", {}, texts.boards.explained),
    [...now, ...others].map((row) => () => roundView(facts, row, seat.pair)),
  ];
}

function roundView(facts, row, pair) {
  const against = opponentsIn(row, pair);
  const side = isTurned(facts.rows, pair) ? texts.side[sideIn(row, pair)] : "";
  const title = texts.boards.round(row.round, row.round === facts.round && facts.phase === "Running");
  return section(title,
    element("p", {}, texts.boards.against(row.table, side), " ", pairMark(facts, against)),
    element(
      "ul",
      { class: "board-list" },
      boardsOf(row.set, facts.per_set).map((board) => boardItem(facts, row, board)),
    ));
}

function boardItem(facts, row, board) {
  const state = boardStateOf(facts, row.table, board);
  const text = texts.boards.state(state, awaitedTables(facts, board).length);
  return element(
    "li",
    {},
    link(
      addressOf("board", board),
      [element("b", {}, texts.board.title(board)), stateMark(state, text)],
      { id: `own-board-${board}` },
    ),
  );
}
