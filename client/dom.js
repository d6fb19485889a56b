// Elements from values. A text becomes a text node, whatever it holds, so that no name and no reply can become markup.

// in milliseconds
const longestFrame = 500;

const listeners = { onClick: "click", onInput: "input", onChange: "change", onSubmit: "submit", onToggle: "toggle" };

/** @typedef {Node|string|number|null|undefined|false|any[]|(() => any)} Content what can stand in an element; of a list what is in it, and of a
 *  function what it gives */
/** @typedef {Event & {target: HTMLInputElement}} FieldEvent what happens at a field */

/**
 * @param {string} tag
 * @param {Record<string, string|number|boolean|null|undefined|((event: FieldEvent) => void)>} [attributes]
 * @param {...Content} children
 */
export function element(tag, attributes = {}, ...children) {
  const made = document.createElement(tag);
  if (beginning !== null) beginning.wanted -= elementsOf[tag] ?? 1;
  for (const name in attributes) setAttribute(made, name, attributes[name]);
  put(made, children);
  return made;
}

function setAttribute(made, name, value) {
  if (value === null || value === undefined || value === false) return;
  if (typeof value === "function") listen(made, listeners[name], value);
  else if (name === "value") made.value = value;
  else made.setAttribute(name, value === true ? "" : String(value));
}

/** What each element does on which event; another listener takes its place without the browser's being told. */
const heard = new WeakMap();

function listen(made, type, listener) {
  if (!heard.has(made)) heard.set(made, {});
  const there = heard.get(made);
  if (there[type]) {
    there[type].listener = listener;
    return;
  }
  const entry = { listener, hear: (event) => entry.listener(event) };
  there[type] = entry;
  made.addEventListener(type, entry.hear);
}

/** For how many elements one counts, with those that a browser puts into it. */
const elementsOf = { details: 3 };

/** What is made to be drawn first, while it is: how many elements are still wanted, and for each place that has them what is made later. */
let beginning = null;

/** @param {Content} child */
function put(made, child) {
  const nodes = [];
  gather(nodes, made, child);
  made.append(...nodes);
}

/** The nodes and texts of some content, of which as much as is made now. */
function gather(nodes, made, child) {
  if (child === null || child === undefined || child === false) return;
  if (Array.isArray(child)) for (const each of child) gather(nodes, made, each);
  else if (beginning !== null && isForLater(made, child)) beginning.later.get(made).push(child);
  else if (typeof child === "function") gather(nodes, made, child());
  else nodes.push(child instanceof Node ? child : String(child));
}

/** Elements and texts that stand in no place yet. */
export function fragmentOf(...children) {
  const made = document.createDocumentFragment();
  put(made, children);
  return made;
}

/** Of which values each kept part is made that is whole. */
const madeOf = new WeakMap();

/** Of content that is to patch what is drawn: the kept parts that stand there as they would be, and what would make each. */
const unmade = new Map();
let isPatching = false;

/** What is chosen of a kept list or group of tiles: it may change while the others stay. */
const chosenIn = new WeakMap();

/**
 * An element whose content hangs on some values alone. Where one with its id was made of the same values, a patch leaves that content as it
 * is, and doesn't make it. So nothing in it may listen: what happens in it is heard by the element itself.
 * @param {string} tag
 * @param {Record<string, any>} attributes with an id
 * @param {any[]} values
 * @param {() => Content} makeContent
 * @param {string} [chosen] what is chosen of it, where it is a list of choices or a group of tiles
 */
export function keptPart(tag, attributes, values, makeContent, chosen) {
  const made = element(tag, attributes);
  if (chosen !== undefined) chosenIn.set(made, chosen);
  if (isPatching && isMadeOf(document.getElementById(attributes.id), values)) {
    unmade.set(made, makeContent);
    return made;
  }
  const waiting = beginning?.later.size;
  put(made, makeContent());
  if (beginning?.later.size === waiting) madeOf.set(made, values);
  return made;
}

function isMadeOf(there, values) {
  const before = madeOf.get(there);
  return before?.length === values.length && before.every((value, index) => value === values[index]);
}

/** New content for the next patch, without what would be the same. */
export function freshOf(makeContent) {
  unmade.clear();
  isPatching = true;
  try {
    return fragmentOf(makeContent);
  } finally {
    isPatching = false;
  }
}

/** What isn't put over something that is the same has to be made after all. */
function wholeOf(node) {
  for (const [part, makeContent] of unmade) if (node.contains(part)) put(part, makeContent);
  return node;
}

/** Puts new content into an element; who was at a field or a button stays there, found by its id. */
export function replaceContent(container, ...children) {
  const active = container.contains(document.activeElement) ? /** @type {HTMLInputElement} */ (document.activeElement) : null;
  const selection = active && "selectionStart" in active ? [active.selectionStart, active.selectionEnd] : null;
  container.replaceChildren(fragmentOf(children));
  const again = active?.id ? /** @type {HTMLInputElement|null} */ (document.getElementById(active.id)) : null;
  if (!again) return;
  again.focus({ preventScroll: true });
  if (selection && selection[0] !== null && again.tagName !== "SELECT") restoreSelection(again, selection);
}

/**
 * Makes of what is in a container what new content says, and leaves alone what is the same: so its reader stays where she is, and a
 * browser draws what has changed. Elements are the same by their ids, and those without one by their order.
 * @param {Node} fresh an element or a fragment, of which nothing is used afterwards
 */
export function patchContent(container, fresh) {
  let [next, node] = [firstIn(container), firstIn(fresh)];
  while (next !== null && node !== null && idOf(next) === idOf(node) && isAlike(next, node)) {
    const [after, later] = [next.nextSibling, node.nextSibling];
    patchNode(next, node);
    [next, node] = [after, later];
  }
  if (next !== null || node !== null) patchRest(container, next, node);
}

const firstIn = (container) => container.childNodes[0] ?? null;

/** From a node on and its siblings: what isn't where it was is found by its id, and what isn't there any more goes. */
function patchRest(container, from, fresh) {
  /** @type {Map<string, ChildNode>} */
  const byId = new Map();
  for (const node of siblingsOf(from)) if (idOf(node)) byId.set(idOf(node), node);
  let next = from;
  for (const node of siblingsOf(fresh)) {
    const found = idOf(node) ? byId.get(idOf(node)) ?? null : firstWithoutId(next);
    if (found === null || !isAlike(found, node)) {
      container.insertBefore(wholeOf(node), next);
      continue;
    }
    if (found === next) next = next.nextSibling;
    else container.insertBefore(found, next);
    patchNode(found, node);
  }
  for (const node of siblingsOf(next)) container.removeChild(node);
}

function siblingsOf(first) {
  const found = [];
  for (let node = first; node !== null; node = node.nextSibling) found.push(node);
  return found;
}

// a text has none
const idOf = (node) => node.id;

/** Into these a cut goes; any other is drawn whole or not at all. */
const divided = new Set(["SECTION", "DIV", "UL", "TABLE", "TBODY"]);
/** What is in these stands side by side, and would move where only some of it is drawn. */
const sideBySide = new Set(["diagram", "fields"]);

const isDivided = (node) => divided.has(node.nodeName) && !sideBySide.has(node.getAttribute("class"));

/** Once there are enough elements, what is a function isn't made yet, and what is to stand behind it waits too. */
function isForLater(place, child) {
  const { begun, wanted, later } = beginning;
  const isEnough = later.size > 0 || wanted <= 0;
  const canWait = isEnough && typeof child === "function" && (place === begun || isDivided(place));
  if (canWait && !later.has(place)) later.set(place, []);
  return later.has(place);
}

/**
 * Makes the first elements of some content, so that they can be drawn before the rest of it.
 * @param {() => Content} makeContent parts of it that are functions, in whatever depth, are made when their turn comes
 * @param {number} most how many elements are made, or a few more
 * @returns {{begun: DocumentFragment, isWhole: boolean, putRest: (place: Element) => void}} whether there is no rest, and what puts it
 *   where it belongs, once the others stand in a place of the page
 */
export function beginningOf(makeContent, most) {
  const begun = document.createDocumentFragment();
  const later = new Map();
  beginning = { begun, wanted: most, later };
  try {
    put(begun, makeContent);
  } finally {
    beginning = null;
  }
  const cut = cutBehind(begun, most, later);
  return {
    begun,
    isWhole: cut.length === 0 && later.size === 0,
    putRest: (place) => {
      for (const [container, nodes] of [...cut, ...later]) put(container === begun ? place : container, nodes);
    },
  };
}

/**
 * Takes out of new content what stands behind its first elements, or behind a place in which more is made later.
 * @param {Node} fresh an element or a fragment
 * @param {number} most how many elements stay, or a few more
 * @param {Map<Node, Content[]>} later
 * @returns {[Node, Node[]][]} what was taken out, and of what
 */
function cutBehind(fresh, most, later) {
  const rest = [];
  let count = 0;
  const cut = (container) => {
    for (let node = firstIn(container); node !== null; node = node.nextSibling) {
      if (count >= most) {
        rest.push([container, siblingsOf(node)]);
        for (const each of siblingsOf(node)) container.removeChild(each);
        for (let each = container; each !== null; each = each.parentNode) madeOf.delete(each);
        return;
      }
      if (!("setAttribute" in node)) continue;
      count += 1;
      if (isDivided(node)) cut(node);
      else count += node.querySelectorAll("*").length;
      if (later.has(node)) count = Infinity;
    }
  };
  cut(fresh);
  return rest;
}

/** In the frame behind the one that is drawn next; where nobody sees the page, none is. */
export function afterFrame(act) {
  let isOver = false;
  const once = () => {
    if (!isOver) act();
    isOver = true;
  };
  requestAnimationFrame(() => requestAnimationFrame(once));
  setTimeout(once, longestFrame);
}

function firstWithoutId(node) {
  return node !== null && !node.id ? node : null;
}

const isAlike = (one, other) => one.nodeName === other.nodeName && one.type === other.type;

/** What was typed or chosen stands in properties, which attributes only begin. */
const properties = { INPUT: ["value", "checked"], TEXTAREA: ["value"], SELECT: ["value"] };

function patchNode(node, fresh) {
  if (!("setAttribute" in node)) {
    if (node.textContent !== fresh.textContent) node.textContent = fresh.textContent;
    return;
  }
  if (unmade.has(fresh)) {
    patchAttributes(node, fresh);
    patchListeners(node, fresh);
    if (chosenIn.has(fresh)) choose(node, chosenIn.get(fresh));
    return;
  }
  if (node.isEqualNode(fresh)) {
    const [there, now] = [node, fresh].map((each) => each.querySelectorAll(active));
    there.forEach((each, index) => patchWhatIsDone(each, now[index]));
  } else {
    patchAttributes(node, fresh);
    patchContent(node, fresh);
  }
  patchWhatIsDone(node, fresh);
}

/** What is chosen of a part that is left as it is: the first of a list that has no such value. */
function choose(node, chosen) {
  for (const tile of node.querySelectorAll("input")) {
    if (tile.checked !== (tile.value === chosen)) tile.checked = tile.value === chosen;
  }
  if (node.nodeName !== "SELECT" || node.value === chosen) return;
  node.value = chosen;
  if (node.selectedIndex < 0) node.selectedIndex = 0;
}

/** These alone hear anything, as groups hear what is done in them: what looks the same may do something else than before, or have been typed into. */
const active = "button, input, select, textarea, form, fieldset, [role=group]";

function patchWhatIsDone(node, fresh) {
  patchListeners(node, fresh);
  if (madeOf.has(fresh)) madeOf.set(node, madeOf.get(fresh));
  for (const property of properties[node.nodeName] ?? []) {
    if (node[property] !== fresh[property]) node[property] = fresh[property];
  }
}

function patchAttributes(node, fresh) {
  const names = fresh.getAttributeNames();
  for (const name of names) {
    const value = fresh.getAttribute(name);
    if (node.getAttribute(name) !== value) node.setAttribute(name, value);
  }
  if (node.attributes.length === names.length) return;
  for (const name of node.getAttributeNames()) if (fresh.getAttribute(name) === null) node.removeAttribute(name);
}

function patchListeners(node, fresh) {
  if (!heard.has(node) && !heard.has(fresh)) return;
  const [before, now] = [heard.get(node) ?? {}, heard.get(fresh) ?? {}];
  for (const type of Object.keys(before)) {
    if (now[type]) continue;
    node.removeEventListener(type, before[type].hear);
    delete before[type];
  }
  for (const type of Object.keys(now)) listen(node, type, now[type].listener);
}

/** @param {HTMLInputElement} field @param {number[]} selection */
function restoreSelection(field, [from, to]) {
  try {
    field.setSelectionRange(from, to);
  } catch {
    // A field of this type has no selection.
  }
}

export const button = (id, label, onClick, more = {}) => element(
  "button",
  { type: "button", id, onClick, ...more },
  label,
);
export const link = (href, label, more = {}) => element("a", { href, ...more }, label);

/** The heading of a view, to which the focus goes when the view is opened. */
export const heading = (text, ...more) => element(
  "div",
  { class: "heading" },
  element("h1", { id: "heading", tabindex: "-1" }, text),
  ...more,
);

/** A field with its label, and a note below it. */
export function field(id, label, attributes, note = null) {
  const noteId = note ? `${id}-note` : null;
  return element("div", { class: "field" },
    element("label", { for: id }, label),
    element("input", { id, "aria-describedby": noteId, autocapitalize: "none", spellcheck: "false", ...attributes }),
    note && element("p", { id: noteId, class: "note" }, note));
}

/** A table with a caption, heads of columns, and rows of cells, each of which may be made by a function; the first cell of a row is its head. */
export function table(caption, heads, rows, more = {}) {
  const head = heads.map((text) => (text instanceof Node ? text : element("th", { scope: "col" }, text)));
  const body = rows.map((cells) => (typeof cells === "function" ? () => tableRow(cells()) : tableRow(cells)));
  return element("div", { class: "scrolls", tabindex: "0", role: "region", "aria-label": caption },
    element(
      "table",
      more,
      element("caption", {}, caption),
      element("thead", {}, element("tr", {}, head)),
      element("tbody", {}, body),
    ));
}

const tableRow = (cells) => element("tr", {}, cells.map((cell, index) =>
  cell instanceof Node && ["TD", "TH"].includes(cell.nodeName) ? cell : element(
    index ? "td" : "th",
    index ? {} : { scope: "row" },
    cell,
  )));
