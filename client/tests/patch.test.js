// Drawing what has changed: what is the same stays the same element, and the rest becomes what the new content says.
import assert from "node:assert/strict";
import { choice, tiles } from "../choices.js";
import { test } from "node:test";
import { byId, byTag, happens, nodeOf, textOf } from "./elements.js";
import { beginningOf, button, element, fragmentOf, freshOf, keptPart, patchContent, table } from "../dom.js";

function drawn(...content) {
  const container = nodeOf("main");
  container.append(...content);
  return container;
}

const patch = (container, ...content) => patchContent(container, fragmentOf(...content));
const shape = (node) => ("setAttribute" in node ? [node.tagName, { ...node.attributes }, ...node.childNodes.map(shape)] : node.textContent);

test("what comes is what was asked for, whatever was there", () => {
  const contents = [
    () => [element("p", { id: "a", class: "x" }, "one"), "text", element("p", {}, "two", element("b", {}, 3))],
    () => [element("p", { id: "b" }, "one"), element("p", { id: "a" }, "four")],
    () => [element("div", {}, "text"), element("p", { id: "a", title: "t" }, element("b", {}, "one"))],
    () => [],
    () => ["text", element("p", {}, "two"), element("p", {}, "three"), element("p", { id: "b" }), element("p", { id: "a" })],
    () => [element("input", { type: "radio", id: "c" }), element("input", { type: "text" }), element("b", { id: "a" })],
  ];
  for (const before of contents) {
    for (const after of contents) {
      const container = drawn(...before().flatMap((each) => (typeof each === "string" ? [document.createTextNode(each)] : [each])));
      patch(container, after());
      assert.deepEqual(container.childNodes.map(shape), fragmentOf(after()).childNodes.map(shape));
    }
  }
});

test("what is the same stays the same element, though it moves", () => {
  const [a, b, plain] = [element("p", { id: "a" }, "one"), element("p", { id: "b" }), element("p", {}, "two")];
  const container = drawn(a, plain, b);
  patch(container, element("p", { id: "b" }), element("p", { id: "a" }, "three"), element("p", {}, "four"));
  assert.deepEqual(container.childNodes.map((node) => [node === a, node === b, node === plain]), [[false, true, false], [true, false, false], [false, false, true]]);
  assert.deepEqual(container.childNodes.map(textOf), ["", "three", "four"]);
});

test("a button does what it does now, and not what it did before", () => {
  const done = [];
  const container = drawn(button("a", "A", () => done.push("before")));
  patch(container, button("a", "A", () => done.push("now")));
  byId(container, "a").listeners.click();
  assert.deepEqual(done, ["now"]);
  patch(container, element("button", { type: "button", id: "a" }, "A"));
  assert.equal(byId(container, "a").listeners.click, undefined);
});

test("what was typed and chosen becomes what the new content says", () => {
  const field = element("input", { type: "text", id: "a", value: "typed" });
  const container = drawn(field);
  patch(container, element("input", { type: "text", id: "a", value: "" }));
  assert.equal(field.value, "");
  const tile = Object.assign(element("input", { type: "radio", id: "b" }), { checked: true });
  const others = drawn(tile);
  patch(others, Object.assign(element("input", { type: "radio", id: "b" }), { checked: false }));
  assert.equal(tile.checked, false);
  assert.notEqual(byId(others, "b"), undefined);
  patch(others, element("input", { type: "checkbox", id: "b" }));
  assert.notEqual(byId(others, "b"), tile, "another kind of field is another element");
});

/** A view of some sections, each with a table of rows, of which those from the third section on are made when their turn comes. */
function sectionsOf(count, rows, onMade = () => {}) {
  const row = (number) => element("tr", {}, element("td", {}, number, element("b", {}, "!")), element("td", {}, "text"));
  const section = (index) => {
    onMade(index);
    return element("section", {}, element("h2", {}, index), "text",
      element("table", {}, element("tbody", {}, Array.from({ length: rows }, (_, number) => row(number)))), element("p", {}, "behind"));
  };
  return [element("h1", {}), ["words", null], Array.from({ length: count }, (_, index) => (index < 2 ? section(index) : () => section(index)))];
}

/** What is drawn first of a view, in a place, and what puts the rest there. */
function begin(makeContent, most) {
  const { begun, isWhole, putRest } = beginningOf(makeContent, most);
  const container = nodeOf("main");
  container.append(...begun.childNodes);
  return { container, isWhole, putRest: () => putRest(container) };
}

const countIn = (container) => container.querySelectorAll("*").length;

test("what is drawn first and the rest are together what would be drawn at once, wherever the first ends", () => {
  const [whole, count] = [fragmentOf(sectionsOf(4, 5)).childNodes.map(shape), countIn(fragmentOf(sectionsOf(4, 5)))];
  for (let most = 1; most < 140; most += 1) {
    const { container, isWhole, putRest } = begin(() => sectionsOf(4, 5), most);
    const first = countIn(container);
    assert.ok(first >= Math.min(most, count) && first < most + 4, `${first} elements where ${most} were asked for`);
    assert.ok(container.querySelectorAll("*").filter(({ tagName }) => tagName === "TR").every((row) => row.childNodes.length === 2), "no row is cut");
    assert.equal(isWhole, first === count);
    putRest();
    assert.deepEqual(container.childNodes.map(shape), whole);
  }
});

test("what isn't drawn first isn't made first", () => {
  const made = [];
  const { putRest } = begin(() => sectionsOf(4, 5, (index) => made.push(index)), 30);
  assert.deepEqual(made, [0, 1]);
  putRest();
  assert.deepEqual(made, [0, 1, 2, 3]);
});

/** A list and then a table of so many rows, each made when its turn comes, and words behind both. */
function listAndTable(count, onMade) {
  const numbers = Array.from({ length: count }, (_, index) => index);
  const made = (number, content) => {
    onMade(number);
    return content;
  };
  return [
    element("section", {}, element("ul", {}, numbers.map((number) => () => made(number, element("li", {}, number)))), element("p", {}, "behind the list")),
    element("section", {}, table("caption", ["one", "two"], numbers.map((number) => () => made(number, [number, "text"]))), element("p", {}, "behind the table")),
    "behind all",
  ];
}

test("of a list or a table so much is made first as is drawn first, however long it is", () => {
  const whole = fragmentOf(listAndTable(500, () => {})).childNodes.map(shape);
  for (const most of [1, 20, 80, 499, 520, 700]) {
    const made = [];
    const { container, putRest } = begin(() => listAndTable(500, (number) => made.push(number)), most);
    assert.ok(made.length <= most + 2, `${made.length} rows are made where ${most} elements were asked for`);
    assert.ok(countIn(container) <= most + 4, `${countIn(container)} elements where ${most} were asked for`);
    putRest();
    assert.equal(made.length, 1000);
    assert.deepEqual(container.childNodes.map(shape), whole);
  }
});

test("what stands side by side is drawn together or not at all, since it would move", () => {
  const view = (name) => () => [element("h1", {}), element("div", { class: name }, Array.from({ length: 40 }, () => element("p", {})))];
  for (const name of ["diagram", "fields"]) assert.equal(countIn(begin(view(name), 10).container), 42);
  assert.equal(countIn(begin(view("paper"), 10).container), 10);
});

/** A place of a page in which content is drawn, and drawn again over what is there. */
function drawnAgain(makeContent) {
  const container = nodeOf("main");
  document.getElementById = (id) => byId(container, id) ?? null;
  container.append(...fragmentOf(makeContent()).childNodes);
  return { container, draw: (make = makeContent) => patchContent(container, freshOf(make)) };
}

test("a kept part is made again where one of its values has changed, and only there", () => {
  const [made, heard] = [[], []];
  let values = [1, "a"];
  const view = () => element("section", {}, keptPart("div", { id: "part", class: values[0], onClick: ((now) => () => heard.push(now))(made.length) }, values.slice(1), () => {
    made.push(values[1]);
    return element("b", {}, values[1]);
  }));
  const { container, draw } = drawnAgain(view);
  const bold = byTag(container, "b")[0];
  values = [2, "a"];
  draw();
  assert.deepEqual([made, byTag(container, "b")[0] === bold, byId(container, "part").attributes.class], [["a"], true, "2"], "its attributes are patched");
  byId(container, "part").listeners.click();
  assert.deepEqual(heard, [1], "what it does is what the last drawing said");
  values = [2, "b"];
  draw();
  draw();
  assert.deepEqual([made, textOf(container)], [["a", "b"], "b"]);
});

test("a kept part that moves, or stands in something new, is whole", () => {
  const part = () => keptPart("p", { id: "part" }, ["a"], () => element("b", {}, "words"));
  const contents = [() => part(), () => element("div", { id: "x" }, part()), () => [element("h2", {}), element("ul", { id: "y" }, element("li", {}, part()))], () => null];
  for (const before of contents) {
    for (const after of contents) {
      const { container, draw } = drawnAgain(before);
      draw(after);
      draw(after);
      assert.deepEqual(container.childNodes.map(shape), fragmentOf(after()).childNodes.map(shape));
    }
  }
});

test("a kept part of which the rest was to come is made where the view is drawn before that", () => {
  const part = () => keptPart("div", { id: "part" }, ["a"], () => Array.from({ length: 9 }, (_, index) => element("p", {}, index)));
  for (const content of [() => [element("h1", {}), part()], () => [element("h1", {}), keptPart("div", { id: "part" }, ["a"], () => [1, 2, 3].map((each) => () => element("p", {}, each)))]]) {
    const { container, draw } = drawnAgain(() => null);
    container.append(...beginningOf(content, 2).begun.childNodes);
    assert.ok(byTag(container, "p").length < 3);
    draw(content);
    assert.deepEqual(container.childNodes.map(shape), fragmentOf(content()).childNodes.map(shape));
  }
});

test("a list of choices that has grown has them all", () => {
  let sides = [["1", "NS"]];
  const { container, draw } = drawnAgain(() => choice("side", "Side", sides, "1", () => {}));
  for (const more of [[["1", "NS"], ["2", "EW"]], [["1", "NS"]], []]) {
    sides = more;
    draw();
    assert.deepEqual(byTag(container, "option").map(textOf), sides.map(([, text]) => text));
  }
});

test("tiles and lists that are kept do what they do now, and of them is chosen what is chosen now", () => {
  const done = [];
  const view = (what, chosen) => () => [tiles("level", "Level", [["1", 1], ["2", () => "two"]], chosen, (value) => done.push([what, value])),
    choice("side", "Side", [["1", "NS"], ["2", "EW"]], chosen, (value) => done.push([what, value]))];
  const { container, draw } = drawnAgain(view("before", "1"));
  const tile = byId(container, "level-2");
  draw(view("now", "2"));
  assert.deepEqual([byId(container, "level-2") === tile, tile.checked, byId(container, "level-1").checked ?? false, byId(container, "side").value], [true, true, false, "2"]);
  happens(container, "level-2", "change");
  happens(container, "side", "change");
  assert.deepEqual(done, [["now", "2"], ["now", "2"]]);
});
