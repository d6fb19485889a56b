// Checking a denial: the rules of docs/POLICY.md, in their order, over a status and the user's own seat. The server makes
// the same test with the user's roles beside it. No query tells a user the own roles, so this page tries all roles that
// agree with what it knows, and says where the verdict hangs on them.

import { awaitedTables, isHeld, isLive, seatOf, tableOfPair } from "./public_facts.js";

/** @typedef {"public"|"accounts"|"hands"|"analysis"|"play"|"costs"|"reason"} Kind */
/** @typedef {{kind: Kind, board: number, table: number}} Fact the board and the table are 0 where the fact has none */
/** @typedef {"contestant"|"spectator"|"director"|"administrator"|"commentator"} Role */
/** @typedef {Record<Role, boolean>} Roles */

// The rules of the second edition by name, in their order; the first has all but the embargo's.
const rules = [
  "account", "member", "accounts", "embargo", "held", "stillToPlay", "notPlayed", "neither", "incomplete", "analysis", "play",
  "reason", "noResult",
];

/** The name of a rule by its number in an edition. */
export const ruleOf = (edition, number) => rules[edition === 2 || number <= 3 ? number - 1 : number];

const kinds = {
  board: "hands",
  traveller: "hands",
  analysis: "analysis",
  play: "play",
  costs: "costs",
  reason: "reason",
  accounts: "accounts",
};

/** The fact that decides a query. */
export function factOf(query) {
  return { kind: kinds[query.ask] ?? "public", board: query.board ?? 0, table: query.table ?? 0 };
}

/**
 * The first rule that forbids a fact to a member, with the board and the table that it names.
 * @param {import("./public_facts.js").Facts} facts
 * @param {string|null} pair the user's pair, where the user has a seat
 * @param {Roles} roles
 * @param {Fact} fact
 * @returns {{rule: number, board: number, table: number}|null}
 */
export function denialOf(facts, pair, roles, fact) {
  if (fact.kind === "public") return null;
  if (fact.kind === "accounts") return roles.administrator || roles.director ? null : { rule: 3, board: 0, table: 0 };
  if (roles.director) return null;
  const found = secretRules(facts, pair, roles, fact);
  const first = found.findIndex(([forbids]) => forbids);
  return first < 0 ? null : { rule: first + 4, board: fact.board, table: found[first][1] };
}

/** The rules from the fourth on: whether it forbids, the table that it names. */
function secretRules(facts, pair, roles, { kind, board, table }) {
  const own = pair ? tableOfPair(facts, pair, board) : 0;
  const awaited = awaitedTables(facts, board);
  const least = awaited[0] ?? 0;
  const isIncomplete = awaited.length > 0;
  const sitsThere = own !== 0 && own === table;
  const isAboutPlay = kind === "play" || kind === "costs";
  return [
    ...(facts.edition === 2 ? [[facts.embargo, 0]] : []),
    [isHeld(facts, board), 0],
    [roles.contestant && own !== 0 && awaited.includes(own), own],
    [roles.contestant && own === 0 && isIncomplete, least],
    [!roles.contestant && !roles.spectator, 0],
    [!roles.contestant && !roles.commentator && isIncomplete, least],
    [(kind === "analysis" || kind === "costs") && !roles.commentator && isIncomplete, least],
    [isAboutPlay && !sitsThere && facts.phase === "Running", table],
    [kind === "reason" && !sitsThere, table],
    [table !== 0 && !isLive(facts, table, board), table],
  ];
}

/**
 * The roles that a member may have for all that the status tells. Whoever has a seat is a contestant, and a contestant is
 * neither director, administrator nor commentator: the server refuses what would make it otherwise. The first edition has
 * no commentator.
 * @returns {Roles[]}
 */
export function possibleRoles(seat, edition = 1) {
  const one = { contestant: true, spectator: true, director: true, administrator: true, commentator: edition === 2 };
  /** @type {any[]} */
  const none = [{}];
  const all = Object.keys(one).reduce((made, role) => made.flatMap((roles) =>
    (one[role] ? [true, false] : [false]).map((has) => ({ ...roles, [role]: has }))), none);
  const isKeptApart = (roles) => roles.director || roles.administrator || roles.commentator;
  return all.filter((roles) => (roles.contestant ? !isKeptApart(roles) : !seat));
}

/**
 * Whether a denial is what the rules say, from public facts.
 * @param {import("./public_facts.js").Facts} facts the status of the version of the denial
 * @param {string} name the user
 * @param {object} query what was asked for
 * @param {import("./messages.js").Denied} denied
 * @returns {{verdict: "holds"|"roles"|"contradicted"|"unseen", evidence: {text: string, values: object}[]}}
 */
export function checkDenial(facts, name, query, denied) {
  if (denied.rule <= 2) return { verdict: "unseen", evidence: [] };
  const seat = seatOf(facts, name);
  const fact = factOf(query);
  const agrees = possibleRoles(seat, facts.edition).map((roles) => isSame(denialOf(facts, seat?.pair ?? null, roles, fact), denied));
  const evidence = evidenceOf(facts, seat, denied);
  if (!agrees.includes(true)) return { verdict: "contradicted", evidence };
  if (denied.rule === 3) return { verdict: "unseen", evidence };
  return { verdict: agrees.includes(false) ? "roles" : "holds", evidence };
}

function isSame(found, denied) {
  return found !== null && found.rule === denied.rule && found.board === denied.board && found.table === denied.table;
}

/** The public facts on which a rule rests: a word of `texts.evidence` each, with its values. */
function evidenceOf(facts, seat, denied) {
  const { board, table } = denied;
  const own = seat ? tableOfPair(facts, seat.pair, board) : 0;
  const sits = own ? [
    "playsAt",
    { pair: seat.pair, board, table: own },
  ] : seat ? ["playsNot", { pair: seat.pair, board }] : ["noSeat", {}];
  const embargo = [facts.embargo ? "embargo" : "noEmbargo", {}];
  const shut = [...(facts.edition === 2 ? [embargo] : []), [isHeld(facts, board) ? "held" : "notHeld", { board }]];
  const at = (cell) => [isLive(facts, cell, board) ? "live" : "notLive", { board, table: cell }];
  const awaited = ["awaited", { board, tables: awaitedTables(facts, board) }];
  const phase = ["phase", { phase: facts.phase }];
  const listed = {
    embargo: [embargo], held: shut, stillToPlay: [...shut, sits, at(own)], notPlayed: [...shut, sits, awaited],
    neither: [...shut, sits], incomplete: [...shut, sits, awaited], analysis: [...shut, ...(own ? [at(own)] : []), awaited],
    play: [sits, phase], reason: [sits], noResult: [sits, at(table)],
  }[ruleOf(facts.edition, denied.rule)] ?? [];
  return listed.map(([text, values]) => ({ text, values }));
}

const behind = {
  accounts: "neitherAdministratorNorDirector",
  embargo: "notDirector",
  held: "notDirector",
  notPlayed: "contestant",
  neither: "neither",
  incomplete: "spectator",
  analysis: "someViewer",
  play: "someViewer",
  reason: "someViewer",
  noResult: "someViewer",
};

/** Which roles a verdict hangs on where the user has no seat. */
export const rolesBehind = (edition, rule) =>
  (edition === 2 ? { ...behind, incomplete: "noCommentator", analysis: "viewerNoCommentator" } : behind)[rule];
