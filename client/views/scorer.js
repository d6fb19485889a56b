// The scorer's desk: a table, a board, and its result, typed by one side and confirmed by the other.

import { button, element, heading, keptPart, link } from "../dom.js";
import { ask, command } from "../messages.js";
import { playOf } from "../plays.js";
import { percentText, topOf } from "../percentages.js";
import { cellsOfTable, isLive, isScheduled, marksOf, nextCellElsewhere, rowOf, tablesToScore } from "../public_facts.js";
import { resultOf } from "../results.js";
import { addressOf } from "../routes.js";
import { scoreOf } from "../scoring.js";
import { texts } from "../texts.js";
import { pairMark, resultMark, stateMark, section } from "./marks.js";
import { missingText, resultForm } from "./result_form.js";

/** Of a result that is there, what it is worth: the server shows it to whoever may see the board. */
export function scorerNeeds({ facts }, { table, board }) {
  return isScheduled(facts, table, board) && isLive(facts, table, board) ? [ask.traveller(board)] : [];
}

export function scorerView(page, { table, board }) {
  const { facts } = page.state;
  if (table < 1 || table > facts.tables) return [heading(texts.scorer.title), chooseTable(page)];
  if (board && isScheduled(facts, table, board)) return cellDesk(page, table, board);
  return [heading(texts.scorer.tableTitle(table)), boardsOfTable(page, table),
    element("p", {}, link(addressOf("scorer"), texts.scorer.otherTable, { id: "other-table" }))];
}

function chooseTable(page) {
  const { facts } = page.state;
  return [element("p", {}, texts.scorer.explained), element("ul", { class: "table-grid" }, tablesToScore(facts).map((table) => () => {
    const left = cellsOfTable(facts, table).filter((cell) => !cell.live).length;
    return element(
      "li",
      {},
      link(
        addressOf("scorer", table),
        [element("b", {}, texts.scorer.table(table)), element("span", {}, texts.scorer.left(left))],
        { id: `table-${table}` },
      ),
    );
  }))];
}

function boardsOfTable(page, table) {
  const { facts, user } = page.state;
  const cells = cellsOfTable(facts, table).filter((cell) => cell.round === facts.round || !cell.live);
  const rounds = [...new Set(cells.map((cell) => cell.round))];
  return rounds.map((round) => {
    const row = facts.rows.find((each) => each.round === round && each.table === table);
    return section(texts.scorer.round(round, round === facts.round),
      element("p", {}, pairMark(facts, row.ns), ` ${texts.against} `, pairMark(facts, row.ew)),
      element(
        "ul",
        { class: "board-list" },
        cells.filter((cell) => cell.round === round).map((cell) => cellItem(page, user, cell)),
      ));
  });
}

function cellItem(page, user, cell) {
  const isEntered = page.drafts.isEntered(user, cell.table, cell.board);
  const isLost = page.drafts.isLost(user, cell.table, cell.board);
  const [state, text] = cell.live ? ["complete", texts.scorer.hasResult] : isEntered ? ["waits", texts.scorer.toConfirm]
    : isLost ? ["held", texts.scorer.lost] : ["to_play", texts.scorer.toEnter];
  return element("li", {}, link(addressOf("scorer", cell.table, cell.board),
    [element("b", {}, texts.board.title(cell.board)), stateMark(state, text)],
    { id: `cell-${cell.table}-${cell.board}` }));
}

function cellDesk(page, table, board) {
  const { facts, user } = page.state;
  const row = rowOf(facts, table, board);
  const live = isLive(facts, table, board) || isConfirmedSince(page, table, board);
  if (!live) page.forms.confirmed?.delete(`${table}/${board}`); // what was confirmed here isn't there any more
  const step = page.drafts.isEntered(user, table, board) ? "confirm" : "enter";
  const { dealer, vulnerability } = marksOf(facts, board);
  return [
    heading(texts.scorer.cellTitle(table, board)),
    keptPart("p", { id: "cell-pairs" }, [facts, row.ns, row.ew, row.round], () =>
      [pairMark(facts, row.ns), ` ${texts.against} `, pairMark(facts, row.ew), " · ", texts.director.inRound(row.round)]),
    element("p", { class: "marks" }, texts.marks(dealer, vulnerability)),
    live ? liveView(page, table, board, vulnerability) : stepView(page, row, board, step, vulnerability),
    element("p", {}, link(addressOf("scorer", table), texts.scorer.backToTable(table), { id: "back-to-table" })),
  ];
}

/** Whether this tab confirmed a result that the status, being older, doesn't tell yet. */
const isConfirmedSince = ({ state, forms }, table, board) => state.version < state.known && forms.confirmed.has(`${table}/${board}`);

function liveView(page, table, board, vulnerability) {
  const { facts } = page.state;
  const next = cellsOfTable(facts, table).find((cell) => !cell.live);
  const elsewhere = nextCellElsewhere(facts, table);
  const to = (cell, text, id) => cell && link(addressOf("scorer", cell.table, cell.board), text, { id, class: "turn" });
  return [
    element("p", { class: "verdict verdict-holds", id: "cell-live" }, texts.scorer.isLive),
    outcomeView(page, table, board, vulnerability),
    element(
      "p",
      { class: "turns" },
      next && to(next, texts.scorer.next(next.board), "next-cell"),
      elsewhere && to(elsewhere, texts.scorer.nextTable(elsewhere.table, elsewhere.board), "next-table"),
    ),
  ];
}

/** What the table has, by the server's row where it shows one, and else as it was confirmed in this tab. */
function outcomeView(page, table, board, vulnerability) {
  const answer = page.answer(ask.traveller(board));
  const rows = answer?.value?.rows ?? [];
  const row = rows.find((each) => each.table === table);
  if (row?.ruling) return element("p", { class: "preview", id: "cell-outcome" }, texts.scorer.ruled(...row.ruling));
  const result = row?.result ?? page.forms.confirmed.get(`${table}/${board}`);
  if (!result) return null;
  return [
    element("p", { class: "preview", id: "cell-outcome" },
      resultMark(result),
      " ",
      element("b", { class: "preview-score" }, texts.form.scores(row?.score ?? scoreOf(result, vulnerability))),
      row && ` · ${worthText(row, topOf(rows))}`),
    answer?.denied && element("p", { class: "note", id: "cell-unseen" }, texts.scorer.percentUnseen),
  ];
}

const worthText = ({ points }, top) => (top
  ? texts.scorer.percent(percentText(points, top), percentText(top - points, top)) : texts.scorer.firstResult);

/** Who confirms begins with an empty form, so that the result is typed twice. */
function stepView(page, row, board, step, vulnerability) {
  const { facts, user } = page.state;
  const { table } = row;
  const draft = page.drafts.read(user, step, table, board);
  const onChange = (next) => {
    page.drafts.write(user, step, table, board, next);
    page.draw();
  };
  const send = () => (step === "enter" ? enter(page, table, board, draft) : confirm(page, table, board, draft));
  const other = step === "enter" ? "confirm" : "enter";
  const side = step === "enter" ? row.ns : row.ew;
  return element("section", { class: `panel step-${step}` }, element("h2", {}, texts.scorer.stepTitle[step]),
    keptPart("p", { id: "step-side" }, [facts, step, side], () => [texts.scorer.stepSide[step], " ", pairMark(facts, side)]),
    element("p", {}, texts.scorer.stepExplained[step]),
    page.drafts.isLost(user, table, board) && element("p", { class: "note fault", id: "cell-lost" }, texts.scorer.lostExplained),
    element("p", { class: "note", id: "why-twice" }, texts.scorer.whyTwice),
    resultForm(step, draft, onChange, { vulnerability, hasPlay: step === "enter", isPlayOpen: page.isOpen("enter-play-part") }),
    element("p", { class: "actions" },
      button(
        `${step}-button`,
        texts.scorer.stepButton[step],
        send,
        { class: "main", "aria-disabled": resultOf(draft) && !page.isBusy ? null : "true" },
      ),
      button(`to-${other}`, texts.scorer.toStep[other], () => {
        page.drafts.setEntered(user, table, board, other === "confirm");
        page.drawAnew();
      }, { class: "quiet" })));
}

function enter(page, table, board, draft) {
  const result = resultOf(draft);
  const { cards, fault } = playOf(draft.play, draft);
  if (!result) return page.refuseUntilChanged(missingText(draft));
  if (fault && !draft.passedOut) return page.refuse(texts.form.playFault(fault));
  const play = draft.passedOut ? [] : cards;
  const { user } = page.state;
  return page.perform(
    [command.enter(table, board, result, play)],
    texts.scorer.entered(table, board),
    () => {
      page.drafts.setEntered(user, table, board, true);
      page.showFromTop();
    },
  );
}

/** A confirmed result is the server's: its drafts go. */
function confirm(page, table, board, draft) {
  const result = resultOf(draft);
  if (!result) return page.refuseUntilChanged(missingText(draft));
  const { user } = page.state;
  return page.perform(
    [command.confirm(table, board, result)],
    texts.scorer.confirmed(table, board, result),
    () => {
      page.forget(user, table, board);
      page.forms.confirmed.set(`${table}/${board}`, result);
      page.showFromTop();
    },
  );
}
