// A server that the test plays: a Mitchell with as many boards as are wanted, played at some tables, and answers of the shapes and
// the bounds of docs/PROTOCOL.md.
import { keyOf } from "../messages.js";
import { Store } from "../store.js";
import { mitchell } from "./movements.js";
import { rowsOfBoard } from "../movement.js";

const mostListed = 64;
const suit = "AKQJT98765432";
const dealt = `N:${suit}... .${suit}.. ..${suit}. ...${suit}`;

/** Passed out, or as many tricks in a contract of a level: what it scores doesn't matter, but that more tricks score more. */
const played = (row, board) => ({ by: "N", doubled: 0, level: 1, strain: "N", tricks: 7 + ((row.table + board) % 6) });

/** Five hearts doubled by East, two down; on each third board passed out. */
const parOf = (board) => (board % 3 === 0 ? { result: "pass", score: 0 }
  : { result: { by: "E", doubled: 1, level: 5, strain: "H", tricks: 9 }, score: 300 });

/** The traveller of a board of which some tables have a result. */
export function travellerOf(facts, board) {
  const rows = rowsOfBoard(facts.rows, board, facts.per_set).filter((row) => facts.live[board - 1].includes(row.table));
  const scores = rows.map((row) => 90 + 30 * (played(row, board).tricks - 7));
  const points = (own) => scores.reduce((sum, other) => sum + (own > other ? 2 : own === other ? 1 : 0), -1);
  return {
    board,
    rows: rows.map((row, index) => ({
      table: row.table, ns: row.ns, ew: row.ew, result: played(row, board), score: scores[index], points: points(scores[index]),
    })),
  };
}

/** Each table has played the first rounds of a session. */
export function club(tables, perSet, rounds, more = {}) {
  const boards = tables * perSet;
  const marks = Array.from({ length: boards }, (_, index) => `${"NESW"[index % 4]} ${["none", "ns", "ew", "both"][index % 4]}`);
  const facts = mitchell(tables, tables % 2 ? tables : tables - 1, {
    per_set: perSet, marks, round: rounds, live: marks.map(() => []), ...more,
  });
  facts.rows.filter((row) => row.round <= rounds).forEach((row) => {
    for (let board = (row.set - 1) * perSet + 1; board <= row.set * perSet; board += 1) facts.live[board - 1].push(row.table);
  });
  return facts;
}

/** The answers of the club's server: `change` makes of a reply another. */
export function serverOf(facts, change = (reply) => reply) {
  const { rows: _, boards: listed, pairs: __, changesSides: ___, ...status } = facts;
  const tricks = (board) => ({ N: [1, 2, 3, 4, board % 14], E: [5, 6, 7, 8, 9], S: [10, 11, 12, 13, 0], W: [1, 3, 5, 7, 9] });
  const values = {
    status: () => status,
    list: ({ from = 1, limit = mostListed }) => {
      const later = listed.filter((board) => board >= from);
      return { boards: later.slice(0, limit), more: later.length > limit };
    },
    traveller: ({ board }) => travellerOf(facts, board),
    board: ({ board }) => {
      const [dealer, vul] = status.marks[board - 1].split(" ");
      return { deal: dealt, dealer, number: board, vul };
    },
    analysis: ({ board }) => ({ board, tricks: tricks(board) }),
    par: ({ board }) => ({ board, ...parOf(board) }),
  };
  const asked = [];
  return {
    asked,
    ask: async (message) => {
      asked.push(message);
      if (message.do) return { answers: message.do.map(() => "NotPermitted"), first: 0, last: 0, version: 1 };
      if ((message.since ?? 0) > 1) return { error: "Behind", version: 1 };
      return change({ [message.ask]: values[message.ask](message), version: 1 }, message);
    },
    signIn: async () => true,
    signOut: () => {},
  };
}

/** A page of a user at a view, after it has asked for what the view needs. */
export async function pageAt(facts, user, needs, forms, change) {
  const page = { forms, route: {}, lookAgain: () => {} };
  const server = serverOf(facts, change);
  const store = new Store(server, { needs: () => (store.state.facts ? needs(store.state, page.route, page) : []), onChange: () => {} });
  Object.defineProperty(page, "state", { get: () => store.state });
  page.answer = (query) => store.answerOf(query);
  page.asked = () => server.asked.map(keyOf);
  page.refresh = () => store.refresh();
  await store.signIn(user, "token");
  return page;
}
