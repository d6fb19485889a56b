// What a director does with a table's result on a board: correct, rule, make void.

import { handsOf } from "../cards.js";
import { choice } from "../choices.js";
import { button, element, field, heading, link } from "../dom.js";
import { ask, command } from "../messages.js";
import { playOf } from "../plays.js";
import { reasonOf } from "../occasion.js";
import { isLive, isScheduled, marksOf, rowOf } from "../public_facts.js";
import { draftOf, emptyDraft, isSameDraft, resultOf } from "../results.js";
import { addressOf } from "../routes.js";
import { texts } from "../texts.js";
import { answerView } from "./denial.js";
import { notThere, pairMark, resultMark, section, waiting } from "./marks.js";
import { missingText, resultForm } from "./result_form.js";

/**
 * What a table has on a board: undefined until the server has told it, null where it has nothing.
 * @typedef {import("../messages.js").TravellerRow & {cards: string[]}} Standing
 * @returns {Standing|null|undefined}
 */
function standingOf(page, table, board) {
  const [traveller, play] = [page.answer(ask.traveller(board))?.value, page.answer(ask.play(table, board))];
  if (!traveller || !play || play.error) return undefined;
  const row = traveller.rows.find((each) => each.table === table);
  return row ? { ...row, cards: play.value?.cards ?? [] } : null;
}

export function cellDeskView(page, table, board) {
  const { facts } = page.state;
  if (!isScheduled(facts, table, board)) return notThere(texts.scorer.cellTitle(table, board), "NoSuchCell");
  const standing = standingOf(page, table, board);
  const round = rowOf(facts, table, board);
  const { dealer, vulnerability } = marksOf(facts, board);
  const [isKnown, live] = [standing !== undefined, isLive(facts, table, board)];
  return [
    heading(texts.scorer.cellTitle(table, board)),
    element(
      "p",
      {},
      pairMark(facts, round.ns),
      ` ${texts.against} `,
      pairMark(facts, round.ew),
      " · ",
      texts.director.inRound(round.round),
    ),
    element("p", { class: "marks" }, texts.marks(dealer, vulnerability)),
    section(texts.director.now, isKnown ? nowView(page, standing, table, board) : untoldView(page, table, board)),
    isKnown && live && correctSection(page, standing, table, board, vulnerability),
    isKnown && ruleSection(page, standing, table, board),
    isKnown && live && voidSection(page, standing, table, board),
    element(
      "p",
      {},
      link(addressOf("director"), texts.director.back, { id: "back-to-desk" }),
      " · ",
      link(addressOf("board", board), texts.board.title(board), { id: "to-board" }),
    ),
  ];
}

/** Nothing is corrected, ruled or made void before it is told what that would replace. */
const untoldView = (page, table, board) => answerView(page, ask.traveller(board), () => answerView(page, ask.play(table, board), waiting));

function nowView(page, standing, table, board) {
  if (!standing) return element("p", { id: "cell-now" }, texts.director.noResult);
  if (standing.ruling) {
    const code = page.answer(ask.reason(table, board))?.value?.code;
    return element("p", { id: "cell-now" }, texts.director.ruled(standing.ruling[0], standing.ruling[1], code ?? 0, reasonOf(page.state.facts, code)));
  }
  return element(
    "p",
    { id: "cell-now" },
    resultMark(standing.result),
    " · ",
    texts.form.scores(standing.score),
    standing.cards.length > 0 && ` · ${texts.form.playCards(standing.cards.length)}`,
  );
}

/** What goes where a ruling is given or a result made void. */
function goesText(standing) {
  if (!standing) return texts.director.goes.entry;
  if (standing.ruling) return texts.director.goes.ruling(...standing.ruling);
  return texts.director.goes.result(standing.result, standing.score, standing.cards.length);
}

/** A director sees the hands, so the page knows who can have which card. */
function handsTold(page, board) {
  const deal = page.answer(ask.board(board))?.value?.deal;
  return typeof deal === "string" ? handsOf(deal) : null;
}

/** The form begins with what stands, so that what isn't changed in it stays. */
function correctSection(page, standing, table, board, vulnerability) {
  const { user } = page.state;
  const first = standing?.result ? draftOf(standing.result, standing.cards) : emptyDraft();
  const draft = page.drafts.read(user, "correct", table, board, first);
  const isChanged = !isSameDraft(draft, first);
  const onChange = (next) => {
    page.drafts.write(user, "correct", table, board, next);
    page.draw();
  };
  const forget = () => page.drafts.remove(user, "correct", table, board);
  const send = () => {
    const result = resultOf(draft);
    const { cards, fault } = playOf(draft.play, draft);
    if (!result) return page.refuseUntilChanged(missingText(draft));
    if (fault && !draft.passedOut) return page.refuse(texts.form.playFault(fault));
    if (!isChanged) return page.refuse(texts.director.unchanged);
    return page.perform([command.correct(table, board, result, draft.passedOut ? [] : cards)], texts.director.corrected, forget);
  };
  const beginAgain = () => {
    forget();
    page.draw();
  };
  const lost = standing && (draft.passedOut || draft.play.trim() === "") ? standing.cards.length : 0;
  return section(texts.director.correct,
    element("p", { class: "note" }, standing?.result ? texts.director.correctNote : texts.director.correctRulingNote),
    resultForm("correct", draft, onChange, {
      vulnerability, hasPlay: true, isPlayOpen: page.isOpen("correct-play-part"), hands: handsTold(page, board),
    }),
    lost > 0 && element("p", { class: "note fault", id: "correct-lost" }, texts.director.playGoes(lost)),
    element("p", { class: "actions" },
      button(
        "correct-button",
        texts.director.correctButton,
        send,
        { class: "main", "aria-disabled": resultOf(draft) && isChanged && !page.isBusy ? null : "true" },
      ),
      isChanged && button("correct-again", texts.director.beginAgain, beginAgain, { class: "quiet" })));
}

const emptyRuling = () => ({ ns: "", ew: "", reason: "" });

const isFrom = (text, least, most) => /^\d{1,3}$/u.test(text) && Number(text) >= least && Number(text) <= most;

/** The numbers belong to the cell for which they are typed. */
function ruleSection(page, standing, table, board) {
  const cell = `${table}/${board}`;
  const form = page.forms.rule.get(cell) ?? emptyRuling();
  const number = (part, label, least, most) => field(
    `rule-${part}`,
    label,
    {
      type: "number",
      inputmode: "numeric",
      min: least,
      max: most,
      value: form[part],
      onInput: (event) => {
        form[part] = event.target.value;
        page.forms.rule.set(cell, form);
        page.disarm();
      },
    },
  );
  const reasons = page.state.facts.reasons ?? [];
  // a session that says what its reasons mean has them chosen by what they mean
  const reasonChoice = () => choice(
    "rule-reason",
    texts.director.reasonOfList,
    [["", texts.director.noReason], ...reasons.map((meaning, index) => [index + 1, `${index + 1}: ${meaning}`])],
    form.reason,
    (value) => {
      form.reason = value;
      page.forms.rule.set(cell, form);
      page.disarm();
    },
  );
  const isReady = () => {
    const isRuling = isFrom(form.ns, 0, 100) && isFrom(form.ew, 0, 100) && isFrom(form.reason, 1, 99);
    if (!isRuling) page.refuse(texts.refusal("BadRuling"));
    return isRuling;
  };
  const numbers = () => [form.ns, form.ew, form.reason].map(Number);
  const give = () => page.perform(
    [command.rule(table, board, ...numbers())],
    texts.director.ruledDone,
    () => page.forms.rule.delete(cell),
  );
  const sure = `${texts.director.ruleSure(...numbers(), reasonOf(page.state.facts, numbers()[2]))} ${goesText(standing)}`;
  return section(texts.director.rule,
    element("p", { class: "note" }, texts.director.ruleNote),
    element("div", { class: "fields" },
      number("ns", texts.director.forNs, 0, 100),
      number("ew", texts.director.forEw, 0, 100),
      reasons.length ? reasonChoice() : number("reason", texts.director.reason, 1, 99)),
    page.twoStep("rule-button", texts.director.ruleButton, sure, give, texts.director.ruleButton, isReady));
}

function voidSection(page, standing, table, board) {
  return section(texts.director.void,
    element("p", { class: "note" }, texts.director.voidNote),
    page.twoStep(
      "void",
      texts.director.voidButton,
      `${texts.director.voidSure} ${goesText(standing)}`,
      () => page.perform([command.void(table, board)], texts.director.voided),
    ));
}
