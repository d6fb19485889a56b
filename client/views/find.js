// The boards that the user may see and for which chosen conditions hold.

import { choice } from "../choices.js";
import { button, element, field, heading, link } from "../dom.js";
import { badCondition, boundsOf, conditionKinds, filterOf, mostConditions, newCondition } from "../filters.js";
import { marksOf } from "../public_facts.js";
import { addressOf } from "../routes.js";
import { texts } from "../texts.js";
import { listNeeds, listView } from "./listed.js";
import { section } from "./marks.js";

const askedOf = ({ asked }) => filterOf(asked.conditions, asked.joiner);

export const findNeeds = (state, route, page) => listNeeds(page, askedOf(page.forms.find));

export function findView(page) {
  const form = page.forms.find;
  return [
    heading(texts.find.title),
    element("p", {}, texts.find.explained),
    section(texts.find.conditions, conditionsView(page, form), addView(page, form), actions(page, form)),
    element("div", { id: "found" }, section(texts.find.found, listView(page, askedOf(form), (boards) => foundView(page, boards)))),
  ];
}

function conditionsView(page, form) {
  const joiners = [["and", texts.find.all], ["or", texts.find.any]];
  return [
    form.conditions.length > 1 && choice(
      "joiner",
      texts.find.joiner,
      joiners,
      form.joiner,
      (value) => { form.joiner = value; page.draw(); },
    ),
    form.conditions.length === 0 && element("p", { class: "note" }, texts.find.none),
    form.conditions.map((condition, index) => conditionView(page, form, condition, index)),
  ];
}

function conditionView(page, form, condition, index) {
  const set = (name) => (value) => { condition.values[name] = value; page.draw(); };
  const fieldOf = (name) => {
    const id = `condition-${index}-${name}`;
    if (name !== "min" && name !== "max") {
      return choice(id, texts.find.field[name], Object.entries(texts.find.values[name]), condition.values[name], set(name));
    }
    const [least, most] = boundsOf[condition.kind];
    return field(
      id,
      texts.find.field[name],
      {
        type: "number",
        min: least,
        max: most,
        value: condition.values[name],
        onInput: (event) => { condition.values[name] = event.target.value; },
      },
    );
  };
  const nots = [["false", texts.find.holds], ["true", texts.find.holdsNot]];
  return element("fieldset", { class: "condition" }, element("legend", {}, texts.find.kind[condition.kind]),
    element("div", { class: "fields" },
      choice(
        `condition-${index}-not`,
        texts.find.not,
        nots,
        String(condition.isNot),
        (value) => { condition.isNot = value === "true"; page.draw(); },
      ),
      conditionKinds[condition.kind].map(fieldOf),
      button(
        `remove-${index}`,
        texts.find.remove,
        () => { form.conditions.splice(index, 1); page.draw(); },
        { class: "quiet", "aria-label": texts.find.removeKind(texts.find.kind[condition.kind]) },
      )));
}

function addView(page, form) {
  if (form.conditions.length >= mostConditions) return null;
  return element("div", { class: "fields" },
    choice(
      "new-kind",
      texts.find.add,
      Object.entries(texts.find.kind),
      form.newKind,
      (value) => { form.newKind = value; page.draw(); },
    ),
    button(
      "add-condition",
      texts.find.addButton,
      () => { form.conditions.push(newCondition(form.newKind)); page.draw(); },
      { class: "quiet" },
    ));
}

function actions(page, form) {
  const search = () => {
    const bad = badCondition(form.conditions);
    if (bad >= 0) {
      const { kind } = form.conditions[bad];
      return page.refuse(texts.find.badBounds(texts.find.kind[kind], boundsOf[kind]));
    }
    form.asked = structuredClone({ conditions: form.conditions, joiner: form.joiner });
    return page.lookAgain().then(() => page.bringIntoView("found"));
  };
  return element("p", { class: "actions" }, button("search", texts.find.search, search, { class: "main" }));
}

function foundView(page, boards) {
  const { facts } = page.state;
  const item = (board) => {
    const { dealer, vulnerability } = marksOf(facts, board);
    return element(
      "li",
      {},
      link(
        addressOf("board", board),
        [element("b", {}, texts.board.title(board)), element("span", {}, texts.marks(dealer, vulnerability))],
        { id: `found-${board}` },
      ),
    );
  };
  return [
    element("p", { id: "found-count", role: "status" }, texts.find.count(boards.length)),
    element("ul", { class: "board-list" }, boards.map((board) => () => item(board))),
  ];
}
