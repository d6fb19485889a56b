// A denial: a sentence, and on demand the public facts by which the rule holds here, with the page's own verdict.

import { checkDenial, rolesBehind, ruleOf } from "../denials.js";
import { button, element } from "../dom.js";
import { keyOf } from "../messages.js";
import { texts } from "../texts.js";

/**
 * @param {object} page
 * @param {object} query what was asked for
 * @param {import("../messages.js").Denied} denied
 * @param {number} version of the denial
 */
export function denialView(page, query, denied, version) {
  const key = `denial ${denied.rule} ${keyOf(query)}`;
  const isOpen = page.opened.has(key);
  const id = `check-${query.ask}-${query.table ?? 0}-${query.board ?? 0}`;
  const { rule, board, table } = denied;
  const name = ruleOf(page.state.facts?.edition ?? 1, rule);
  return element("div", { class: "denial", "data-rule": rule, "data-board": board, "data-table": table },
    element(
      "p",
      { class: "denial-sentence" },
      texts.denial.sentence(name, denied, texts.denial.thing[query.ask] ?? texts.denial.thing.board),
    ),
    element("p", { class: "note" }, texts.denial.rule(name, denied), " ", texts.denial.serverSays(denied.why)),
    button(
      id,
      isOpen ? texts.denial.hideCheck : texts.denial.check,
      () => page.toggle(key),
      { "aria-expanded": String(isOpen), "aria-controls": `${id}-facts`, class: "quiet" },
    ),
    isOpen && element(
      "div",
      { id: `${id}-facts`, class: "evidence", role: "status" },
      evidence(page, query, denied, version),
    ));
}

function evidence(page, query, denied, version) {
  const { facts, user } = page.state;
  if (denied.rule > 2 && (!facts || page.state.version !== version)) return element("p", {}, texts.denial.movedOn);
  const edition = facts?.edition ?? 1;
  const name = ruleOf(edition, denied.rule);
  const { verdict, evidence: found } = denied.rule <= 2 ? {
    verdict: "unseen",
    evidence: [],
  } : checkDenial(facts, user, query, denied);
  return [
    element("p", { class: `verdict verdict-${verdict}`, "data-verdict": verdict }, texts.denial.verdict[verdict]),
    element("p", {}, texts.denial.condition(name, denied, edition)),
    found.length > 0 && element("p", {}, texts.denial.factsOf(version)),
    found.length > 0 && element(
      "ul",
      {},
      found.map(({ text, values }) => element("li", {}, texts.evidence[text](values))),
    ),
    (verdict === "roles" || verdict === "unseen") && element(
      "p",
      { class: "note" },
      texts.denial.roles[rolesBehind(edition, name)] ?? texts.denial.roles.account,
    ),
  ];
}

/**
 * What a query is answered: `show` draws the value; a denial, an error and an answer that isn't here yet are drawn here.
 * @param {(value: any) => import("../dom.js").Content} show
 */
export function answerView(page, query, show) {
  const answer = page.answer(query);
  if (!answer) return element("p", { class: "waiting" }, texts.waiting);
  if (answer.denied) return denialView(page, query, answer.denied, answer.version);
  if (answer.error) return element("p", { class: "error" }, texts.error(answer.error));
  return readable(() => show(answer.value));
}

/**
 * What is made of an answer, as are its parts whose turn comes later: one of another shape than docs/PROTOCOL.md's must not take the
 * whole page away.
 * @param {() => import("../dom.js").Content} make
 */
function readable(make) {
  try {
    return [make()].flat(Infinity).map((part) => (typeof part === "function" ? () => readable(part) : part));
  } catch (fault) {
    if (!(fault instanceof TypeError)) throw fault;
    return element("p", { class: "error" }, texts.error("Unreadable"));
  }
}
