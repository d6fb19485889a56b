// Guide cards on paper: one for each pair, and one for each table.

import { element, table } from "../dom.js";
import { cardOfPair, cardOfTable, tablesOf } from "../guide_cards.js";
import { isTurned, namedSideOf, numberOfPair } from "../movement.js";
import { texts } from "../texts.js";
import { occasionOfCard, pairMark, playersMark } from "./marks.js";

const boardsMark = (boards) => element("span", { class: "range" }, texts.guide.boards(boards));

export const pairCards = (facts, ownPair) => facts.pairs.map((pair) => () => pairCard(facts, pair, pair === ownPair));

function pairCard(facts, pair, isOwn) {
  const players = playersMark(facts, pair);
  const rows = cardOfPair(facts, pair).map(({ round, table: number, side, against, boards }) => (number
    ? [round, number, texts.side[side], pairMark(facts, against), boardsMark(boards)]
    : [round, element("td", { colspan: 4 }, texts.guide.sitsOut)]));
  return element(
    "section",
    { class: `sheet${isOwn ? " own" : ""}`, id: `card-${pair}` },
    occasionOfCard(facts),
    element("h3", {}, texts.guide.pair(pair), facts.changesSides && texts.guide.number(numberOfPair(facts.tables, pair)), players && " ", players),
    isTurned(facts.rows, pair) && element("p", { class: "turned" }, texts.guide.turned[namedSideOf(pair)]),
    table(texts.guide.pairCaption(pair), texts.guide.pairHeads, rows, { class: "guide" }),
  );
}

export const tableCards = (facts) => tablesOf(facts).map((number) => () => tableCard(facts, number));

function tableCard(facts, number) {
  const rows = cardOfTable(facts, number).map(({ round, ns, ew, boards, others }) => (ns
    ? [round, pairMark(facts, ns), pairMark(facts, ew), [boardsMark(boards), others.length > 0 && texts.guide.alsoAt(others)]]
    : [round, element("td", { colspan: 3 }, texts.guide.nobody)]));
  return element(
    "section",
    { class: "sheet", id: `card-table-${number}` },
    occasionOfCard(facts),
    element("h3", {}, texts.guide.table(number)),
    table(texts.guide.tableCaption(number), texts.guide.tableHeads, rows, { class: "guide" }),
  );
}
