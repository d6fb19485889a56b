// As much of a document as the views need to make their elements of: enough to read what they say, not to show it.

import { RoundClock } from "../round_clock.js";

class FakeNode {
  childNodes = [];
  attributes = {};
  listeners = {};

  parent = null;

  constructor(tagName, text = "") {
    this.tagName = tagName.toUpperCase();
    this.nodeName = this.tagName;
    this.text = text;
  }

  append(...nodes) {
    for (const node of nodes) this.insertBefore(typeof node === "string" ? new FakeNode("", node) : node, null);
  }

  replaceChildren(...nodes) {
    this.childNodes = [];
    this.append(...nodes);
  }

  insertBefore(node, next) {
    node.parent?.removeChild(node);
    node.parent = this;
    this.childNodes.splice(next === null ? this.childNodes.length : this.childNodes.indexOf(next), 0, node);
  }

  removeChild(node) {
    this.childNodes.splice(this.childNodes.indexOf(node), 1);
    node.parent = null;
  }

  isEqualNode(other) {
    const same = (one, two) => one.nodeName === two.nodeName && one.text === two.text && one.childNodes.length === two.childNodes.length
      && JSON.stringify(Object.entries(one.attributes).sort()) === JSON.stringify(Object.entries(two.attributes).sort())
      && one.childNodes.every((node, index) => same(node, two.childNodes[index]));
    return same(this, other);
  }

  get parentNode() {
    return this.parent;
  }

  get nextSibling() {
    return this.parent.childNodes[this.parent.childNodes.indexOf(this) + 1] ?? null;
  }

  contains(node) {
    return all(this, (each) => each === node).length > 0;
  }

  focus() {
    document.activeElement = this;
  }

  /** Of all elements in it. */
  querySelectorAll() {
    return all(this.childNodes, (node) => node instanceof FakeElement);
  }

  get id() {
    return this.attributes.id ?? "";
  }

  get textContent() {
    return this.text + this.childNodes.map((node) => node.textContent).join("");
  }

  set textContent(text) {
    this.text = text;
  }
}

class FakeElement extends FakeNode {
  get type() {
    return this.attributes.type;
  }

  setAttribute(name, value) {
    this.attributes[name] = value;
  }

  getAttribute(name) {
    return this.attributes[name] ?? null;
  }

  getAttributeNames() {
    return Object.keys(this.attributes);
  }

  removeAttribute(name) {
    delete this.attributes[name];
  }

  addEventListener(name, listener) {
    this.listeners[name] = listener;
  }

  removeEventListener(name) {
    delete this.listeners[name];
  }
}

globalThis.Node = FakeNode;
globalThis.document = {
  createElement: (tagName) => new FakeElement(tagName),
  createDocumentFragment: () => new FakeNode(""),
  createTextNode: (text) => new FakeNode("", text),
  activeElement: null,
  getElementById: () => null,
};

const isThere = (node) => node !== null && node !== undefined && node !== false;
const given = (made) => (typeof made === "function" ? listOf(made()) : [made]);
const listOf = (made) => [made].flat(Infinity).flatMap(given).filter(isThere);

export const nodeOf = (tagName) => new FakeElement(tagName);

/** All elements of a view for which something holds, in their order. */
export const all = (made, holds) =>
  listOf(made).flatMap((node) => [...(holds(node) ? [node] : []), ...all(node.childNodes ?? [], holds)]);

export const byTag = (made, tagName) => all(made, (node) => node.tagName === tagName.toUpperCase());
export const byClass = (made, name) => all(made, (node) => node.attributes?.class?.split(" ").includes(name));
export const byId = (made, id) => all(made, (node) => node.attributes?.id === id)[0];
export const textOf = (made) => listOf(made).map((node) => node.textContent).join("");

/** Something happens at an element, which is heard there or, as by a group of tiles or cards, by what it stands in. */
export function happens(made, id, type) {
  const target = byId(made, id);
  let hears = target;
  while (!hears.listeners[type]) hears = hears.parentNode;
  hears.listeners[type]({ target: Object.assign(Object.create(target), { value: String(target.value) }) });
}

/** The cells of each row of a table's body, as texts. */
export const rowsOf = (made) => byTag(byTag(made, "tbody"), "tr").map((row) => row.childNodes.map((cell) => cell.textContent));

/** A page as the views know it, of a user. */
export const pageOf = (facts, user, more = {}) => ({
  state: { facts, user, version: 0 },
  drafts: { read: () => null, isEntered: () => false, isLost: () => false },
  forms: {},
  clock: new RoundClock(null),
  answer: () => null,
  isOpen: () => false,
  ...more,
});
