// People by their names, the occasion, and the reasons of rulings, where the status tells them; by what it always tells, else.
import assert from "node:assert/strict";
import { test } from "node:test";
import { csvText } from "../csv.js";
import { newForms } from "../forms.js";
import { fileNameOf, reasonOf } from "../occasion.js";
import { nameOf, pairText, personText, playersText } from "../people.js";
import { texts } from "../texts.js";
import { accountsView } from "../views/accounts.js";
import { auditView } from "../views/audit.js";
import { boardsView } from "../views/boards.js";
import { cellDeskView } from "../views/director_cell.js";
import { seatsSection } from "../views/director_seats.js";
import { headView } from "../views/frame.js";
import { tableCards, pairCards } from "../views/guide_cards.js";
import { pairMark, personMark } from "../views/marks.js";
import { papersView } from "../views/papers.js";
import { rankingCsv, rankingTables } from "../views/ranking.js";
import { sessionView } from "../views/session.js";
import { all, byClass, byId, byTag, nodeOf, pageOf, rowsOf, textOf } from "./elements.js";
import { mitchell } from "./movements.js";

const seats = [["anna", "NS1", "N"], ["ben", "NS1", "S"], ["eve", "EW1", "E"]];
const names = [["anna", "Anna Müller"], ["ben", "=Ben \"B\" Roth"], ["dora", "דורה"]];
const named = (more) => mitchell(3, 3, { seats, names, ...more });
const unnamed = mitchell(3, 3, { seats });
const accounts = { inherits: [], users: [["anna", ["Contestant"]], ["dora", ["Director"]]] };
const answering = (value, more) => ({ answer: () => ({ value, denied: null, error: null, version: 0 }), opened: new Set(), ...more });
const twoStep = () => nodeOf("button");

test("a person is shown by the name to show, and else by the one for signing in", () => {
  assert.deepEqual(["anna", "eve"].map((user) => nameOf(named(), user)), ["Anna Müller", "eve"]);
  assert.equal(nameOf(unnamed, "anna"), "anna");
  assert.deepEqual(["NS1", "EW1", "NS2"].map((pair) => textOf(pairMark(named(), pair))), ['Anna Müller – =Ben "B" Roth (NS1)', "eve (EW1)", "NS2"]);
  assert.equal(textOf(pairMark(unnamed, "NS1")), "anna – ben (NS1)");
});

test("each name stands apart from what is around it, whichever way it is written, and is whole under the pointer", () => {
  const mark = pairMark(named(), "NS1");
  assert.deepEqual(byTag(mark, "bdi").map(textOf), ["Anna Müller", '=Ben "B" Roth']);
  assert.deepEqual(byTag(mark, "bdi").map(({ attributes }) => attributes.title), ["Anna Müller", '=Ben "B" Roth']);
  assert.equal(personMark(unnamed, "anna").attributes.title, undefined, "a name for signing in is never cut");
  assert.equal(personText(named(), "dora"), "\u2068דורה\u2069 (dora)");
  assert.equal(pairText(named(), "NS1"), '\u2068Anna Müller\u2069 – \u2068=Ben "B" Roth\u2069 (NS1)');
});

test("every view and paper with a pair has its names", () => {
  const page = (user, more) => pageOf(named(), user, more);
  const shows = (what, made, text) => assert.ok(byTag(made, "bdi").map(textOf).includes(text), what);
  shows("the session", sessionView(page("vera")), "Anna Müller");
  shows("the boards of an opponent", boardsView(page("eve")), "Anna Müller");
  shows("the ranking", rankingTables(named(), [["NS1", 100, 200]], null), "Anna Müller");
  shows("guide cards of pairs", pairCards(named(), null), "Anna Müller");
  assert.deepEqual(rowsOf(tableCards(named())[0])[0].slice(1, 3), ['Anna Müller – =Ben "B" Roth (NS1)', "eve (EW1)"]);
  shows("a table's desk", cellDeskView(page("dora", { drafts: { read: () => null } }), 1, 1), "Anna Müller");
  shows("who is signed in", headView(page("dora", { route: { view: "session" } })), "דורה");
  assert.match(textOf(headView(page("dora", { route: { view: "session" } }))), /Signed in as דורה \(dora\)/u);
  assert.match(textOf(headView(pageOf(unnamed, "dora", { route: { view: "session" } }))), /Signed in as dora/u);
});

test("at a desk the name for signing in stands behind", () => {
  const administers = pageOf(named(), "ada", { ...answering(accounts), forms: newForms(), twoStep });
  administers.state.permissions = { score: false, direct: true, administer: false };
  const users = byTag(accountsView(administers), "li").map(textOf);
  assert.deepEqual(users, ["Anna Müller (anna) Contestant", "דורה (dora) Director"]);
  const directs = pageOf(named(), "dora", { ...answering(accounts), forms: newForms(), twoStep, isOpen: (id) => id === "seats-list" });
  assert.match(textOf(byTag(seatsSection(directs), "li")[0]), /^NS1 N Anna Müller \(anna\)/u);
  assert.deepEqual(byTag(seatsSection({ ...directs, isOpen: () => false }), "li"), [], "a list that is closed isn't drawn");
  const audit = auditView(pageOf(named(), "ada", { ...answering([[1, "dora", "Unseat", "anna"], [2, null, "Solved", "3"], [3, "ada", "Rename", "anna"], [4, "ada", "Assign", "anna:Member"]]), forms: newForms() }));
  const person = "\u2068Anna Müller\u2069 (anna)";
  assert.deepEqual(rowsOf(audit).map((row) => row.slice(1)), [
    ["ada", "gave the user a role", `${person}: Member`], ["ada", "gave a name to show to the user", person],
    ["the solver", "found the double-dummy table", "board 3"], ["דורה (dora)", "took the seat of the user", person]]);
  assert.match(texts.refusal("Spoiled(anna)", (name) => personText(named(), name)), /^\u2068Anna Müller\u2069 \(anna\) sits at this table/u);
});

test("in a spreadsheet no name is a formula, and none breaks out of its field", () => {
  assert.equal(playersText(named(), "NS1"), 'Anna Müller – =Ben "B" Roth');
  const only = (name) => mitchell(3, 3, { seats: [["ben", "NS1", "N"]], names: [["ben", name]] });
  for (const sign of ["=", "+", "-", "@", "＝", "＋", "－", "＠"]) {
    assert.equal(csvText([[playersText(only(`${sign}1+1`), "NS1")]]), `'${sign}1+1\r\n`, sign);
  }
  assert.equal(rankingCsv(only('Roth, "Ben"'), [["NS1", 100, 200]]).split("\r\n")[1], '1,NS1,"Roth, ""Ben""",50.00,1,2,NS,0');
});

test("title and date head the session and the papers, and begin the names of their files", () => {
  const occasion = { title: "Club evening", date: "2026-11-27" };
  const of = (made) => byClass(made, "occasion").map(textOf);
  assert.deepEqual(of(sessionView(pageOf(named(occasion), "vera"))), ["Club evening, 27 November 2026"]);
  assert.deepEqual(of(sessionView(pageOf(named({ title: "Club evening" }), "vera"))), ["Club evening"]);
  assert.deepEqual(of(sessionView(pageOf(named({ date: "2026-11-27" }), "vera"))), ["27 November 2026"]);
  assert.deepEqual(of(sessionView(pageOf(named(), "vera"))), []);
  const papers = papersView(pageOf(named(occasion), "vera", { ...answering([]), forms: { papers: { kind: "ranking" } } }));
  assert.deepEqual(of(byClass(papers, "paper")), ["Club evening, 27 November 2026"]);
  for (const cards of [pairCards, tableCards]) {
    const made = all(cards(named(occasion), null), (each) => /\bsheet\b/u.test(each.attributes?.class ?? ""));
    assert.ok(made.length > 2);
    for (const card of made) assert.deepEqual(of(card), ["Club evening, 27 November 2026"], "each card is handed out by itself");
  }
  assert.equal(fileNameOf(named(occasion), "ranking"), "2026-11-27 Club evening ranking.csv");
  assert.equal(fileNameOf(named(), "ranking"), "ranking.csv");
  assert.equal(fileNameOf(named({ title: '../a\\b: "c"<d>|?*\n' }), "ranking"), ".. a b c d ranking.csv");
});

test("a ruling is given for a reason by its text, and shows it", () => {
  const reasons = ["late play", "wrong board"];
  assert.deepEqual([1, 2, 3, 0].map((code) => reasonOf(named({ reasons }), code)), ["late play", "wrong board", "", ""]);
  assert.equal(reasonOf(named(), 1), "");
  const ruled = { rows: [{ table: 1, ns: "NS1", ew: "EW1", ruling: [60, 40] }], board: 1 };
  const values = { traveller: ruled, play: { cards: null }, reason: { code: 2 } };
  const deskOf = (facts) => cellDeskView(pageOf(facts, "dora", {
    answer: ({ ask }) => ({ value: values[ask], denied: null, error: null, version: 0 }),
    drafts: { read: (user, step, table, board, first) => first }, forms: newForms(), twoStep,
  }), 1, 1);
  const live = [[1], [], []];
  const [with_, without] = [deskOf(named({ reasons, live })), deskOf(named({ live }))];
  assert.match(textOf(byId(with_, "cell-now")), /reason 2, \u2068wrong board\u2069\.$/u);
  assert.match(textOf(byId(without, "cell-now")), /reason 2\.$/u);
  const options = all(byId(with_, "rule-reason"), (node) => node.tagName === "OPTION").map((node) => [node.value, node.textContent]);
  assert.deepEqual(options, [["", "choose one"], [1, "1: late play"], [2, "2: wrong board"]]);
  assert.equal(byId(without, "rule-reason").attributes.type, "number");
  assert.match(texts.board.reason(2, "wrong board"), /wrong board.*number 2/u);
  assert.match(texts.director.ruleSure(60, 40, 2, "wrong board"), /for reason 2, .wrong board.\?$/u);
});

test("an administrator of the second edition gives, changes and takes away a name to show", () => {
  const sent = [];
  const page = (edition) => pageOf(named({ edition }), "ada", {
    ...answering(accounts), forms: newForms(), twoStep, refuse: (text) => sent.push(text),
    perform: (commands, done, then) => {
      sent.push(...commands, done);
      then();
    },
  });
  const [first, second] = [page(1), page(2)];
  for (const each of [first, second]) each.state.permissions = { score: false, direct: false, administer: true };
  assert.equal(byId(accountsView(first), "rename"), undefined);
  const give = (name, shown) => {
    byId(accountsView(second), "rename-name").listeners.input({ target: { value: name } });
    byId(accountsView(second), "rename-shown").listeners.input({ target: { value: shown } });
    byId(accountsView(second), "rename").listeners.click();
  };
  give("anna ", " Anna M. ");
  give("anna", "");
  give("anna", "An\nna");
  assert.deepEqual(sent, [
    { cmd: "Rename", name: "anna", shown: "Anna M." }, "anna is shown as \u2068Anna M.\u2069.",
    { cmd: "Rename", name: "anna", shown: "" }, "anna is shown by the name for signing in.", texts.walkIn.badShown]);
});
