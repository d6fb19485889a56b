// What one of several is chosen by: a list with its label, and tiles.

import { element, keptPart } from "./dom.js";

/** A choice with its label: options are pairs of a value and a text. */
export function choice(id, label, options, chosen, onChange, more = {}) {
  const option = ([value, text]) => element("option", { value, selected: String(value) === String(chosen) }, text);
  const change = (event) => onChange(event.target.value);
  return element("div", { class: "field" },
    element("label", { for: id }, label),
    keptPart("select", { id, onChange: change, ...more }, options.flat(), () => options.map(option), String(chosen)));
}

/**
 * Buttons of which one is chosen: radio buttons, drawn as tiles. Each option is a value, what is drawn, and what is said in its place; what is
 * drawn may be made by a function, and then hangs on the other two alone.
 */
export const tiles = (name, legend, options, chosen, onChoose, more = {}) =>
  tileRows(name, legend, [options], chosen, onChoose, more);

/** The same, in several rows of options. */
export function tileRows(name, legend, rows, chosen, onChoose, more = {}) {
  const options = rows.flat();
  const change = ({ target }) => onChoose(options.find(([value]) => String(value) === target.value)[0]);
  const drawn = options.flatMap(([value, content, spoken]) => [value, typeof content === "function" ? null : content, spoken]);
  const rowOf = (row) => element("div", { class: "tile-row" }, row.map((option) => tile(name, option, chosen)));
  const content = () => [element("legend", {}, legend), rows.map(rowOf)];
  return keptPart("fieldset", { id: `${name}-tiles`, class: "tiles", onChange: change, ...more }, [legend, ...drawn], content, String(chosen));
}

function tile(name, [value, content, spoken], chosen) {
  const id = `${name}-${value}`;
  return element("label", { class: "tile", for: id },
    element("input", { type: "radio", id, name, value, checked: value === chosen, "aria-label": spoken }),
    element("span", {}, content));
}
