// The messages of docs/PROTOCOL.md, as this page writes them, and the types of their answers.

/** @typedef {"N"|"E"|"S"|"W"} Place */
/** @typedef {"S"|"H"|"D"|"C"|"N"} Strain */
/** @typedef {"none"|"ns"|"ew"|"both"} Vulnerability */
/** @typedef {{by: Place, doubled: number, level: number, strain: Strain, tricks: number}} PlayedResult */
/** @typedef {"pass"|PlayedResult} Result */
/** @typedef {{board: number, rule: number, table: number, why: string}} Denied */

/**
 * What every member may see.
 * @typedef {object} Status
 * @property {string} [absent] the pair that isn't there, where one isn't
 * @property {string} [date] the session's, as "2026-11-27", where it has one
 * @property {2} [edition] in the second edition alone, as is the next
 * @property {boolean} [embargo] whether the session is under embargo
 * @property {number[]} held the boards that the director holds
 * @property {number[][]} live for each board, from 1 on, the tables that have a result on it
 * @property {string[]} marks for each board its dealer and who is vulnerable, as "E ns"
 * @property {[number, number, number, string, string][]} [movement] round, table, set, North-South pair and East-West pair of each
 *   row, where it isn't the plain Mitchell
 * @property {[string, string][]} [names] the name for signing in and the name to show of each user who has one to show
 * @property {number} per_set
 * @property {"Running"|"Closed"|"Final"} phase
 * @property {string[]} [reasons] what the numbers of rulings' reasons mean, from 1 on, where the session says it
 * @property {number} round
 * @property {number} rounds
 * @property {[string, string, Place][]} seats a user's name, pair and place
 * @property {number} tables
 * @property {string} [title] the session's, where it has one
 */

/** @typedef {{deal: string, dealer: Place, number: number, vul: Vulnerability}} Board */
/**
 * @typedef {object} TravellerRow
 * @property {string} ew
 * @property {string} ns
 * @property {number} table
 * @property {Result} [result] how the board ended, where it was played
 * @property {number} [score] what it scores for North-South
 * @property {number} [points] the units that it earns North-South among the rows shown
 * @property {[number, number]} [ruling] the percentages of a ruling
 */
/** @typedef {{board: number, tricks: Record<Place, number[]>|null}} Analysis in spades, hearts, diamonds, clubs, no trump */
/** @typedef {{board: number, result: Result|null, score: number|null}} Par for North-South; null until it is solved */
/** @typedef {{answers: string[], first: number, last: number, version: number}} Receipt */
/** @typedef {{inherits: [string, string][], users: [string, string[]][]}} Accounts */
/** @typedef {[number, string|null, string, string]} AuditRow number, user (null: the solver), word, what it is about */

// the roles, in their order, each with the edition that it came with
// written by tests/pages/client_commands.py, from the table of docs/PROTOCOL.md
const roles = {
  Member: 1,
  Spectator: 1,
  Contestant: 1,
  Scorer: 1,
  Director: 1,
  Administrator: 1,
  Commentator: 2,
};

/** The roles of an edition. */
export const rolesOf = (edition) => Object.keys(roles).filter((role) => roles[role] <= edition);

/** @typedef {{ask: string, board?: number, table?: number, filter?: object, from?: number, limit?: number}} Query */

export const ask = {
  status: () => ({ ask: "status" }),
  board: (board) => ({ ask: "board", board }),
  traveller: (board) => ({ ask: "traveller", board }),
  analysis: (board) => ({ ask: "analysis", board }),
  par: (board) => ({ ask: "par", board }),
  play: (table, board) => ({ ask: "play", table, board }),
  costs: (table, board) => ({ ask: "costs", table, board }),
  reason: (table, board) => ({ ask: "reason", table, board }),
  list: (filter, from = 1) => (filter ? { ask: "list", filter, from } : { ask: "list", from }),
  ranking: () => ({ ask: "ranking" }),
  accounts: () => ({ ask: "accounts" }),
  audit: (from, limit) => ({ audit: { from, limit } }),
};

// written by tests/pages/client_commands.py, from the table of docs/PROTOCOL.md
export const command = {
  enter: (table, board, result, play = []) => ({ cmd: "Enter", table, board, result, ...(play.length ? { play } : {}) }),
  confirm: (table, board, result) => ({ cmd: "Confirm", table, board, result }),
  correct: (table, board, result, play = []) => ({ cmd: "Correct", table, board, result, ...(play.length ? { play } : {}) }),
  rule: (table, board, ns, ew, reason) => ({ cmd: "Rule", table, board, ns, ew, reason }),
  void: (table, board) => ({ cmd: "Void", table, board }),
  hold: (board) => ({ cmd: "Hold", board }),
  release: (board) => ({ cmd: "Release", board }),
  seat: (name, pair, place) => ({ cmd: "Seat", name, pair, place }),
  unseat: (name) => ({ cmd: "Unseat", name }),
  nextRound: () => ({ cmd: "NextRound" }),
  close: () => ({ cmd: "Close" }),
  finalise: () => ({ cmd: "Finalise" }),
  embargo: () => ({ cmd: "Embargo" }),
  lift: () => ({ cmd: "Lift" }),
  addUser: (name, digest) => ({ cmd: "AddUser", name, digest }),
  rename: (name, shown) => ({ cmd: "Rename", name, shown }),
  assign: (name, role) => ({ cmd: "Assign", name, role }),
  deassign: (name, role) => ({ cmd: "Deassign", name, role }),
  addInheritance: (senior, junior) => ({ cmd: "AddInheritance", senior, junior }),
  deleteInheritance: (senior, junior) => ({ cmd: "DeleteInheritance", senior, junior }),
};

/**
 * A batch that no session accepts, since there is no table 0 and no user without a name: its answers tell whether the
 * user has the permission of a scorer, of a director and of an administrator, which no query tells.
 */
export const permissionProbe = () => ({
  do: [command.enter(0, 0, "pass"), command.rule(0, 0, 0, 0, 1), command.assign("", "Member")],
});

/** @param {Receipt|{error: string}} receipt the answer to `permissionProbe` */
export function permissionsOf(receipt) {
  const answers = "answers" in receipt ? receipt.answers : [];
  const permitted = (index) => answers[index] !== undefined && answers[index] !== "NotPermitted";
  return { score: permitted(0), direct: permitted(1), administer: permitted(2) };
}

/** The word under which the reply to a query stands; an audit's stands under its own. */
export const wordOf = (query) => query.ask ?? "audit";

/** One text for each query: where its answer is kept. */
export const keyOf = (query) => JSON.stringify(query);
