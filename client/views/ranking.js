// The ranking over the boards that the user may see.

import { button, element, heading, table } from "../dom.js";
import { csvText, download } from "../csv.js";
import { ask } from "../messages.js";
import { numberOfPair, sideOfPair } from "../movement.js";
import { fileNameOf } from "../occasion.js";
import { playersText } from "../people.js";
import { percentText, placesOf, unitsText } from "../percentages.js";
import { boardsPlayed, seatOf } from "../public_facts.js";
import { texts } from "../texts.js";
import { answerView } from "./denial.js";
import { occasionView, pairMark, section } from "./marks.js";

export const rankingNeeds = () => [ask.ranking()];

export function rankingView(page) {
  const ranking = page.answer(ask.ranking())?.value;
  return [
    heading(texts.ranking.title),
    occasionView(page.state.facts),
    element("p", {}, texts.ranking.explained),
    ranking && element("p", { class: "actions no-print" },
      button("print-ranking", texts.papers.print, () => globalThis.print(), { class: "quiet" }),
      button(
        "csv-ranking",
        texts.papers.csv,
        () => download(fileNameOf(page.state.facts, "ranking"), rankingCsv(page.state.facts, ranking)),
        { class: "quiet" },
      )),
    section(
      null,
      answerView(
        page,
        ask.ranking(),
        (rows) => rankingTables(page.state.facts, rows, seatOf(page.state.facts, page.state.user)?.pair),
      ),
    ),
  ];
}

/**
 * The lists of a ranking, each in its order: one of all pairs where pairs change sides, else one for each direction, since
 * nobody has played the boards on the same side as the pairs of the other.
 * @returns {{side: import("../movement.js").Side|null, ranking: [string, number, number][]}[]}
 */
export function rankingLists(facts, ranking) {
  if (facts.changesSides) return [{ side: null, ranking }];
  /** @type {import("../movement.js").Side[]} */
  const sides = ["NS", "EW"];
  return sides.map((side) => ({ side, ranking: ranking.filter(([pair]) => sideOfPair(facts.rows, pair) === side) }));
}

/**
 * How a pair stands in its list, of how many pairs that have a place there.
 * @returns {{earned: number, tops: number, place: number, shared: boolean, of: number, side: import("../movement.js").Side|null}|null}
 *   null where no result counts for it yet
 */
export function rankOf(facts, ranking, pair) {
  for (const { side, ranking: list } of rankingLists(facts, ranking)) {
    const at = list.findIndex(([each]) => each === pair);
    if (at < 0) continue;
    const [places, [, earned, tops]] = [placesOf(list), list[at]];
    if (tops === 0) return null;
    return { earned, tops, ...places[at], of: places.filter(({ place }) => place !== null).length, side };
  }
  return null;
}

/** The lists of a ranking, and above them how many winners there are. */
export function rankingTables(facts, ranking, ownPair) {
  const lists = rankingLists(facts, ranking);
  return [
    element("p", { class: "winners" }, texts.ranking.winners[lists.length === 1 ? "one" : "two"]),
    lists.map((list) => () => rankingTable(facts, list, ownPair)),
  ];
}

function rankingTable(facts, { side, ranking }, ownPair) {
  const places = placesOf(ranking);
  const rows = ranking.map(([pair, earned, tops], index) => () => {
    const { place, shared } = places[index];
    const head = element(
      "th",
      { scope: "row", class: pair === ownPair ? "own" : null },
      place === null ? texts.noTop : `${place}${shared ? "=" : ""}`,
    );
    return [
      head,
      [pairMark(facts, pair), !side && element("span", { class: "number" }, texts.guide.number(numberOfPair(facts.tables, pair)))],
      tops ? texts.percent(percentText(earned, tops)) : texts.noTop,
      unitsText(earned),
      unitsText(tops),
      boardsPlayed(facts, pair),
    ];
  });
  return table(texts.ranking.caption(side), texts.ranking.heads, rows, { class: side ? `ranking ranking-${side}` : "ranking" });
}

/** A place is one of the pair's own list, which the field of the direction names. */
export function rankingCsv(facts, ranking) {
  const lines = rankingLists(facts, ranking).flatMap((list) => {
    const places = placesOf(list.ranking);
    return list.ranking.map(([pair, earned, tops], index) =>
      [
        places[index].place,
        pair,
        playersText(facts, pair),
        percentText(earned, tops),
        unitsText(earned),
        unitsText(tops),
        list.side,
        boardsPlayed(facts, pair),
      ]);
  });
  return csvText([texts.ranking.csvHeads, ...lines]);
}
