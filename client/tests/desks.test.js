// Which views are drawn for whom.
import assert from "node:assert/strict";
import { test } from "node:test";
import { Drafts } from "../drafts.js";
import { newForms } from "../forms.js";
import { routeOf } from "../routes.js";
import { byId, pageOf, textOf } from "./elements.js";
import { mitchell } from "./movements.js";
import { viewNeeds, viewNodes } from "../views.js";
import { viewsOf } from "../views/frame.js";

const none = { score: false, direct: false, administer: false };
const desks = ["scorer", "director", "accounts", "audit"];

function shown(view, permissions) {
  const page = pageOf(mitchell(3, 3), "rosa", { route: routeOf(`#/${view}`), drafts: new Drafts(null), forms: newForms(), twoStep: () => null });
  page.state.permissions = permissions;
  const made = viewNodes(page);
  return { isDrawn: !byId(made, "not-yours") && !/Asking the server/u.test(textOf(made[1] ?? "")), text: textOf(made), needs: viewNeeds(page) };
}

test("a desk that isn't the user's isn't drawn, and asks for nothing", () => {
  for (const view of [...desks, "scorer/1/1", "director/1/1"]) {
    const { isDrawn, text, needs } = shown(view, none);
    assert.deepEqual([isDrawn, needs], [false, []], view);
    assert.match(text, /for other roles than yours/u);
  }
});

test("nor is one drawn as long as the user's permissions aren't known", () => {
  for (const view of desks) assert.deepEqual([shown(view, null).isDrawn, shown(view, null).needs], [false, []], view);
});

test("each desk is drawn for whoever may use it, and those are the links that are offered", () => {
  const rows = [[{ score: true }, ["scorer"]], [{ direct: true, score: true }, desks], [{ administer: true }, ["accounts", "audit"]], [{}, []]];
  for (const [permissions, wanted] of rows) {
    const all = { ...none, ...permissions };
    const drawn = desks.filter((view) => shown(view, all).isDrawn || shown(view, all).needs.length > 0);
    assert.deepEqual(drawn, wanted);
    assert.deepEqual(viewsOf({ facts: mitchell(3, 3), user: "rosa", permissions: all }).filter((view) => desks.includes(view)), wanted);
  }
});

test("what every member may see is drawn whatever the permissions are", () => {
  for (const view of ["session", "ranking", "find", "board/1"]) {
    assert.doesNotMatch(shown(view, null).text, /for other roles/u, view);
  }
  assert.ok(shown("session", none).isDrawn);
});
