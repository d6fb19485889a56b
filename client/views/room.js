// The director's first view: the tables by the boards of the rounds so far, each to be opened, and all results that are awaited.

import { element, link, table } from "../dom.js";
import { ask } from "../messages.js";
import { awaitedCells } from "../public_facts.js";
import { boardsWithResults, roomOf } from "../room.js";
import { addressOf } from "../routes.js";
import { texts } from "../texts.js";
import { section } from "./marks.js";

/** Only a traveller tells which of the results are rulings. */
export const roomNeeds = ({ facts }) => boardsWithResults(facts).map((board) => ask.traveller(board));

export function roomSection(page) {
  const { facts } = page.state;
  const isRuled = (number, board) =>
    page.answer(ask.traveller(board))?.value?.rows?.some?.((row) => row.table === number && row.ruling) ?? false;
  const { rounds, tables } = roomOf(facts, isRuled);
  const heads = [texts.room.table, ...rounds.map((round) => texts.room.round(round, round === facts.round))];
  const rows = tables.map(({ table: number, rounds: cells }) => () => [
    number,
    ...cells.map((each) => element("td", {}, element("div", { class: "room-cells" }, each.map(cellLink)))),
  ]);
  return section(
    texts.room.title,
    element("p", {}, texts.session.roundOf(facts.round, facts.rounds), " · ", texts.phase[facts.phase]),
    table(texts.room.caption, heads, rows, { class: "room" }),
    () => [legend(), awaitedView(facts)],
  );
}

const markOf = (state) => element("span", { class: "room-mark", "aria-hidden": "true" }, texts.room.mark[state]);

const cellMark = (state) => element("span", { class: "room-mark" }, texts.room.mark[state]);

function cellLink({ table: number, board, state, isHeld }) {
  const words = [board, texts.room.state[state], ...(isHeld ? [texts.room.state.held] : [])];
  // there are hundreds of them, so what is said of each is an attribute
  return link(
    addressOf("director", number, board),
    [board, cellMark(state), isHeld && cellMark("held")],
    { id: `room-${number}-${board}`, class: `room-${state}${isHeld ? " room-held" : ""}`, "aria-label": words.join(", ") },
  );
}

function legend() {
  return element(
    "ul",
    { class: "legend" },
    Object.keys(texts.room.mark).map((state) =>
      element("li", { class: `room-${state}` }, markOf(state), " ", texts.room.state[state])),
  );
}

function awaitedView(facts) {
  const awaited = awaitedCells(facts);
  if (awaited.length === 0) return element("p", { id: "awaited" }, texts.room.noneAwaited);
  const item = ({ round, table: number, board }) => element(
    "li",
    {},
    link(
      addressOf("director", number, board),
      texts.room.awaitedCell(round, number, board),
      { id: `awaited-${number}-${board}` },
    ),
  );
  return [
    element("p", { id: "awaited" }, texts.director.awaited(awaited.length)),
    element("ul", { class: "awaited" }, awaited.map((cell) => () => item(cell))),
  ];
}
