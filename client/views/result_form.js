// A result by few taps: contract, declarer, doubled and tricks, or passed out.

import { tileRows, tiles } from "../choices.js";
import { element, keptPart } from "../dom.js";
import { changed, missingParts, oversOf, resultOf } from "../results.js";
import { isVulnerable, overText, scoreOf } from "../scoring.js";
import { texts } from "../texts.js";
import { playPart } from "./play_form.js";
import { resultMark, strainMark } from "./marks.js";

/**
 * @param {string} name of the form, for the ids of its fields
 * @param {import("../results.js").Draft} draft
 * @param {(draft: import("../results.js").Draft) => void} onChange
 * @param {{vulnerability: string, hasPlay: boolean, isPlayOpen?: boolean, hands?: object|null}} options
 */
export function resultForm(name, draft, onChange, { vulnerability, hasPlay, isPlayOpen = false, hands = null }) {
  const set = (part) => (value) => onChange(changed(draft, part, value));
  const ended = [["played", texts.form.played], ["passed", texts.passedOut]];
  return element("div", { class: "result-form" },
    tiles(
      `${name}-ended`,
      texts.form.ended,
      ended,
      draft.passedOut ? "passed" : "played",
      (value) => onChange({ ...draft, passedOut: value === "passed" }),
    ),
    !draft.passedOut && contractTiles(name, draft, set, vulnerability),
    !draft.passedOut && tricksTiles(name, draft, set),
    hasPlay && !draft.passedOut && playPart(name, draft, onChange, { isOpen: isPlayOpen, hands }),
    preview(name, draft, vulnerability));
}

function contractTiles(name, draft, set, vulnerability) {
  const strain = (value) => [value, () => strainMark(value), texts.strain[value]];
  const declarer = (place) => {
    if (!isVulnerable(place, vulnerability)) return [place, place, texts.place[place]];
    const mark = () => element("small", { class: "vulnerable-mark" }, texts.form.vulnerableMark);
    return [place, () => [place, " ", mark()], texts.form.vulnerable(texts.place[place])];
  };
  return [
    tiles(
      `${name}-level`,
      texts.form.level,
      [1, 2, 3, 4, 5, 6, 7].map((level) => [level, level]),
      draft.level,
      set("level"),
      { class: "tiles columns-7" },
    ),
    tiles(
      `${name}-strain`,
      texts.form.strain,
      ["C", "D", "H", "S", "N"].map(strain),
      draft.strain,
      set("strain"),
      { class: "tiles columns-5" },
    ),
    tiles(
      `${name}-by`,
      texts.form.by,
      ["N", "E", "S", "W"].map(declarer),
      draft.by,
      set("by"),
      { class: "tiles columns-4" },
    ),
    tiles(
      `${name}-doubled`,
      texts.form.doubled,
      [0, 1, 2].map((count) => [count, texts.form.doublings[count], texts.form.doublingsInWords[count]]),
      draft.doubled,
      set("doubled"),
      { class: "tiles columns-3" },
    ),
  ];
}

/** What was made stands above what was set, so that each number of tricks has its place whatever the level. */
function tricksTiles(name, draft, set) {
  if (draft.level === null) return element("p", { class: "note" }, texts.form.levelFirst);
  const { made, set: under } = oversOf(draft.level);
  const option = (over) => [over, overText(over), texts.overInWords(over, draft.level + 6 + over)];
  return tileRows(
    `${name}-over`,
    texts.form.tricks(draft.level + 6),
    [made, under].map((overs) => overs.map(option)),
    draft.over,
    set("over"),
    { class: "tiles columns-7" },
  );
}

/** What is still to be told of a draft. */
export const missingText = (draft) => texts.form.missing(missingParts(draft).map((part) => texts.form.part[part]));

function preview(name, draft, vulnerability) {
  const result = resultOf(draft);
  if (!result) return element("p", { class: "preview waiting" }, missingText(draft));
  const score = scoreOf(result, vulnerability);
  const { level, strain, by, doubled, over, passedOut } = draft;
  return keptPart(
    "p",
    { id: `${name}-preview`, class: "preview", "data-score": score },
    [level, strain, by, doubled, over, passedOut, score],
    () => [resultMark(result), " ", element("b", { class: "preview-score" }, texts.form.scores(score))],
  );
}
