// The director's desk: the room, the round, held boards, seats, and what belongs to a table's result.

import { choice } from "../choices.js";
import { button, element, heading } from "../dom.js";
import { ask, command } from "../messages.js";
import { rowsOfBoard } from "../movement.js";
import { awaitedCells } from "../public_facts.js";
import { texts } from "../texts.js";
import { cellDeskView } from "./director_cell.js";
import { seatsSection } from "./director_seats.js";
import { section } from "./marks.js";
import { roomNeeds, roomSection } from "./room.js";
import { clockSection } from "./round_clock.js";
import { walkInSection } from "./walk_in.js";

export function directorNeeds(state, { table, board }) {
  if (board) return [ask.traveller(board), ask.play(table, board), ask.reason(table, board), ask.board(board)];
  return [ask.accounts(), ...roomNeeds(state)];
}

export function directorView(page, { table, board }) {
  if (table && board) return cellDeskView(page, table, board);
  return [
    heading(texts.director.title),
    roomSection(page),
    () => [clockSection(page), roundSection(page), resultSection(page), heldSection(page)],
    () => page.state.facts.edition === 2 && embargoSection(page),
    () => [seatsSection(page), walkInSection(page)],
  ];
}

function roundSection(page) {
  const { facts } = page.state;
  const awaited = awaitedCells(facts);
  const isRunning = facts.phase === "Running";
  return section(texts.director.round,
    element("div", { class: "actions" },
      isRunning && facts.round < facts.rounds && page.twoStep(
        "next-round",
        texts.director.nextRound,
        texts.director.nextRoundSure(awaited.length),
        () => page.perform([command.nextRound()], texts.director.nextRoundDone),
      ),
      isRunning && page.twoStep(
        "close",
        texts.director.close,
        texts.director.closeSure,
        () => page.perform([command.close()], texts.director.closeDone),
      ),
      facts.phase === "Closed" && page.twoStep(
        "finalise",
        texts.director.finalise,
        texts.director.finaliseSure,
        () => page.perform([command.finalise()], texts.director.finaliseDone),
      )));
}

function resultSection(page) {
  const { facts } = page.state;
  const form = page.forms.cell;
  const numbers = (most) => Array.from({ length: most }, (_, index) => [index + 1, String(index + 1)]);
  const tables = rowsOfBoard(facts.rows, form.board, facts.per_set).map((row) => row.table);
  // there may be a board that no table plays
  if (!tables.includes(form.table)) form.table = tables[0] ?? 0;
  return section(texts.director.result,
    element("p", {}, texts.director.resultExplained),
    element("div", { class: "fields" },
      choice(
        "cell-board",
        texts.director.board,
        numbers(facts.boards.length),
        form.board,
        (value) => { form.board = Number(value); page.draw(); },
      ),
      choice(
        "cell-table",
        texts.director.table,
        tables.map((number) => [number, String(number)]),
        form.table,
        (value) => { form.table = Number(value); page.draw(); },
      ),
      button(
        "open-cell",
        texts.director.open,
        () => page.setRoute({ view: "director", table: form.table, board: form.board }),
      )));
}

function embargoSection(page) {
  const { embargo, phase } = page.state.facts;
  return section(texts.director.embargo,
    element("p", {}, texts.director.embargoExplained),
    element("p", { id: "embargo-state" }, embargo ? texts.director.underEmbargo : texts.director.noEmbargo),
    element("div", { class: "actions" },
      !embargo && phase !== "Final" && page.twoStep(
        "embargo",
        texts.director.putUnder,
        texts.director.putUnderSure,
        () => page.perform([command.embargo()], texts.director.putUnderDone),
      ),
      embargo && page.twoStep(
        "lift",
        texts.director.lift,
        texts.director.liftSure,
        () => page.perform([command.lift()], texts.director.lifted),
      )));
}

function heldSection(page) {
  const { facts } = page.state;
  const form = page.forms.hold;
  const free = facts.boards.filter((board) => !facts.held.includes(board));
  if (!free.includes(form.board)) form.board = free[0];
  return section(texts.director.held,
    element("p", {}, texts.director.heldExplained),
    facts.held.length === 0 && element("p", {}, texts.director.noneHeld),
    element("ul", { class: "rows" }, facts.held.map((board) => element("li", {}, texts.board.title(board), " ",
      button(
        `release-${board}`,
        texts.director.release(board),
        () => page.perform([command.release(board)], texts.director.released(board)),
        { class: "quiet" },
      )))),
    free.length > 0 && element("div", { class: "fields" },
      choice(
        "hold-board",
        texts.director.board,
        free.map((board) => [board, String(board)]),
        form.board,
        (value) => { form.board = Number(value); page.draw(); },
      ),
      button(
        "hold",
        texts.director.hold,
        () => page.perform([command.hold(form.board)], texts.director.heldDone(form.board)),
      )));
}
