// What the page knows of the session, and how it learns it. Views read `state`; nothing but this module changes what the
// server said.

import { ask, keyOf, permissionProbe, permissionsOf, wordOf } from "./messages.js";
import { publicFacts } from "./public_facts.js";

const mostRounds = 4;
const repliesBeforeRestart = 3;
const resendable = ["NoEntry", "OutOfMemory"];

/**
 * @typedef {object} State
 * @property {string|null} user who is signed in
 * @property {import("./public_facts.js").Facts|null} facts the status, of `version`
 * @property {import("./messages.js").Denied|null} statusDenied why there is no status
 * @property {number} version of the status
 * @property {number} known the greatest version that an answer told: nothing older is wanted from another connection
 * @property {{score: boolean, direct: boolean, administer: boolean}|null} permissions null until they are known
 * @property {Map<string, {reply: object, version: number}>} answers by `keyOf` of the query
 * @property {boolean} wasRestarted whether the server was seen to begin anew
 */

const firstState = () => ({
  user: null, facts: null, statusDenied: null, version: -1, known: 0, answers: new Map(), wasRestarted: false, permissions: null,
});

export class Store {
  /** @type {State} */
  state = firstState();
  #connection;
  #needs;
  #onChange;
  #onRestart;
  #olderReplies = 0;
  #refreshing = null;

  /**
   * @param {{ask: (message: object) => Promise<object>, signIn: Function, signOut: Function}} connection
   * @param {{needs: () => object[], onChange: () => void, onRestart?: () => void}} page the queries that the present view shows, and
   *   what to do where something is new, and where the server was started again without what it had
   */
  constructor(connection, { needs, onChange, onRestart = () => {} }) {
    this.#connection = connection;
    this.#needs = needs;
    this.#onChange = onChange;
    this.#onRestart = onRestart;
  }

  /** Whether the last answer was older than what is known: the next ones tell whether the server began anew. */
  get isInDoubt() {
    return this.#olderReplies > 0;
  }

  /** @returns {Promise<boolean>} false where name and token aren't known */
  async signIn(name, token) {
    if (!(await this.#connection.signIn(name, token))) return false;
    this.state = { ...firstState(), user: name };
    await this.refresh();
    return true;
  }

  signOut() {
    this.#connection.signOut();
    this.state = firstState();
    this.#onChange();
  }

  async probePermissions() {
    const { user } = this.state;
    const permissions = permissionsOf(await this.#connection.ask(permissionProbe()));
    if (user !== this.state.user) return;
    this.state.permissions = permissions;
    this.#onChange();
  }

  /** Asks for what is new, once at a time: the status, then what the view shows, until all is of one version. */
  refresh() {
    this.#refreshing ??= this.#refreshAll().finally(() => {
      this.#refreshing = null;
    });
    return this.#refreshing;
  }

  async #refreshAll() {
    const { user } = this.state;
    for (let round = 0; round < mostRounds && user !== null && user === this.state.user; round += 1) {
      await this.#refreshStatus();
      if (this.state.permissions === null) await this.probePermissions();
      if (await this.#refreshNeeds()) return;
    }
  }

  /** By `since` the server sends a status only where there is a newer one, and a short `Behind` else. */
  async #refreshStatus() {
    const { state } = this;
    const next = Number.isSafeInteger(state.version + 1) ? Math.max(state.version + 1, state.known) : 0;
    const reply = await this.#query({ ...ask.status(), since: next });
    if (this.state !== state) return;
    if (reply.status) {
      this.#olderReplies = 0;
      this.#changeStatus(publicFacts(reply.status), null, reply.version);
    } else if (reply.denied) {
      this.#changeStatus(null, reply.denied, reply.version);
    } else if (reply.error === "Behind" && reply.version < Math.max(state.version, state.known)) {
      this.#sawOlder();
    } else {
      this.#olderReplies = 0;
    }
  }

  #changeStatus(facts, denied, version) {
    Object.assign(this.state, { facts, statusDenied: denied, version });
    this.#onChange();
  }

  /**
   * A connection may show an older version than another one did (docs/PROTOCOL.md), for a moment. Where it stays older,
   * the server was started again: what the page knows is gone.
   */
  #sawOlder() {
    this.#olderReplies += 1;
    if (this.#olderReplies < repliesBeforeRestart) return;
    this.#olderReplies = 0;
    Object.assign(this.state, { version: -1, known: 0, wasRestarted: true });
    this.state.answers.clear();
    this.#onRestart();
    this.#onChange();
  }

  /** @returns {Promise<boolean>} whether all that the view shows is of the status's version */
  async #refreshNeeds() {
    const { state } = this;
    const missing = this.#needs().filter((query) => state.answers.get(keyOf(query))?.version !== state.version);
    const replies = await Promise.all(
      missing.map((query) => this.#query(query.ask ? { ...query, since: Math.max(0, state.version) } : query)),
    );
    if (this.state !== state) return true;
    missing.forEach((query, index) => this.#keep(query, replies[index]));
    if (missing.length) this.#onChange();
    return this.#needs().every((query) => state.answers.get(keyOf(query))?.version === state.version);
  }

  /** A refused audit names no version: it is of the present one. */
  #keep(query, reply) {
    if (reply.error === "Behind") return;
    this.state.answers.set(keyOf(query), { reply, version: reply.version ?? this.state.version });
  }

  async #query(message) {
    let reply = await this.#connection.ask(message);
    for (let again = 0; again < 2 && resendable.includes(reply.error); again += 1) {
      reply = await this.#connection.ask(message);
    }
    return reply;
  }

  /**
   * Sends commands, once: whether one was taken isn't known where no answer comes, so none is sent again unasked.
   * @returns {Promise<import("./messages.js").Receipt|{error: string}>}
   */
  async perform(commands) {
    const { state } = this;
    const receipt = await this.#connection.ask({ do: commands });
    state.known = Math.max(state.known, receipt.version ?? 0);
    if (receipt.answers?.includes("NotPermitted")) state.permissions = null;
    return receipt;
  }

  /** What is known of a query's answer: its value, its denial or its error, or null where none has come yet. */
  answerOf(query) {
    const kept = this.state.answers.get(keyOf(query));
    if (!kept) return null;
    const { reply, version } = kept;
    return { value: reply[wordOf(query)] ?? null, denied: reply.denied ?? null, error: reply.error ?? null, version };
  }
}
