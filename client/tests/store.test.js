// What the page knows, with a server that the test plays.
import assert from "node:assert/strict";
import { test } from "node:test";
import { ask, keyOf, permissionProbe, permissionsOf } from "../messages.js";
import { Store } from "../store.js";

const status = {
  held: [],
  live: [[], [], []],
  marks: ["N none", "E ns", "S ew"],
  per_set: 1,
  phase: "Running",
  round: 1,
  rounds: 3,
  seats: [["n1", "NS1", "N"]],
  tables: 3,
};

/** A server with a version: it answers a query of the version that it has, as docs/PROTOCOL.md says. */
function playedServer() {
  const server = { version: 0, asked: [], before: () => {} };
  server.ask = async (message) => {
    server.asked.push(message);
    server.before(message);
    if (message.do) return { answers: message.do.map(() => "NotPermitted"), first: 0, last: 0, version: server.version };
    if ((message.since ?? 0) > server.version) return { error: "Behind", version: server.version };
    return { [message.ask]: message.ask === "status" ? status : { of: server.version }, version: server.version };
  };
  server.signIn = async () => true;
  server.signOut = () => {};
  return server;
}

function storeOf(server, needs = () => [ask.board(1)]) {
  const drawn = { count: 0 };
  const store = new Store(
    server,
    { needs: () => (store.state.facts ? needs() : []), onChange: () => { drawn.count += 1; } },
  );
  return { store, drawn };
}

test("where nothing is new, one short query is asked and nothing is drawn", async () => {
  const server = playedServer();
  const { store, drawn } = storeOf(server);
  await store.signIn("n1", "token");
  const [before, asked] = [drawn.count, server.asked.length];
  await store.refresh();
  assert.deepEqual(server.asked.slice(asked), [{ ask: "status", since: 1 }]);
  assert.equal(drawn.count, before);
});

test("what is shown is of the status's version, also where the session moves on meanwhile", async () => {
  const server = playedServer();
  const { store } = storeOf(server);
  await store.signIn("n1", "token");
  server.version = 5;
  server.before = (message) => {
    if (message.ask === "board" && server.version < 7) server.version += 1;
  };
  await store.refresh();
  assert.equal(store.answerOf(ask.board(1)).version, store.state.version);
  assert.ok(store.state.version > 5);
});

test("a lower version for a moment changes nothing, and one that stays is a server that began anew", async () => {
  const server = playedServer();
  server.version = 9;
  const { store } = storeOf(server);
  await store.signIn("n1", "token");
  server.version = 0;
  await store.refresh().catch(() => {});
  server.version = 9;
  await store.refresh();
  assert.equal(store.state.wasRestarted, false);
  server.version = 0;
  for (let count = 0; count < 5; count += 1) await store.refresh();
  assert.equal(store.state.wasRestarted, true);
  assert.equal(store.state.version, 0);
  assert.equal(store.answerOf(ask.board(1)).version, 0);
});

test("an older answer is in doubt until the next ones, and a server that began anew is told once", async () => {
  const server = playedServer();
  server.version = 9;
  const told = { restarts: 0 };
  const store = new Store(server, { needs: () => [], onChange: () => {}, onRestart: () => { told.restarts += 1; } });
  await store.signIn("k", "token");
  assert.equal(store.isInDoubt, false);
  server.version = 8;
  await store.refresh();
  assert.equal(store.isInDoubt, true);
  server.version = 9;
  await store.refresh();
  assert.deepEqual([store.isInDoubt, told.restarts], [false, 0]);
  server.version = 8;
  for (let count = 0; count < 5; count += 1) await store.refresh();
  assert.deepEqual([store.isInDoubt, told.restarts, store.state.version], [false, 1, 8]);
});

test("what a receipt told isn't asked for in an older version", async () => {
  const server = playedServer();
  const { store } = storeOf(server, () => []);
  await store.signIn("k", "token");
  const answer = server.ask;
  server.ask = async (message) => (message.do ? { answers: ["ok"], first: 4, last: 4, version: 4 } : answer(message));
  await store.perform([{ cmd: "Hold", board: 1 }]);
  server.asked = [];
  await store.refresh();
  assert.deepEqual(server.asked[0], { ask: "status", since: 4 });
});

test("what the server couldn't keep is sent once, and nothing is thought to be newer", async () => {
  const server = playedServer();
  server.version = 3;
  const { store } = storeOf(server, () => []);
  await store.signIn("k", "token");
  const answer = server.ask;
  for (const error of ["NotKept", "Unsure"]) {
    let sent = 0;
    server.ask = async (message) => {
      if (!message.do) return answer(message);
      sent += 1;
      return { error };
    };
    assert.deepEqual(await store.perform([{ cmd: "Hold", board: 1 }]), { error });
    assert.deepEqual([sent, store.state.known, store.state.version], [1, 0, 3]);
    assert.deepEqual(store.state.permissions, { score: false, direct: false, administer: false });
  }
});

test("permissions are asked by commands that no session takes", async () => {
  const { do: commands } = permissionProbe();
  assert.deepEqual(
    commands.map(({ cmd, table, name }) => [cmd, table ?? name]),
    [["Enter", 0], ["Rule", 0], ["Assign", ""]],
  );
  assert.deepEqual(
    permissionsOf({ answers: ["NoSuchCell", "NotPermitted", "NotPermitted"] }),
    { score: true, direct: false, administer: false },
  );
  assert.deepEqual(
    permissionsOf({ answers: ["NoSuchCell", "NoSuchCell", "NotPermitted"] }),
    { score: true, direct: true, administer: false },
  );
  assert.deepEqual(
    permissionsOf({ answers: ["NotPermitted", "NotPermitted", "NoSuchUser"] }),
    { score: false, direct: false, administer: true },
  );
  assert.deepEqual(permissionsOf({ error: "OutOfMemory" }), { score: false, direct: false, administer: false });
});

test("permissions are asked once, and again where no answer came", async () => {
  const server = playedServer();
  const { store } = storeOf(server, () => []);
  let breaks = true;
  server.before = (message) => {
    if (message.do && breaks) throw new Error("broken");
  };
  await assert.rejects(store.signIn("n1", "token"));
  assert.equal(store.state.permissions, null);
  breaks = false;
  await store.refresh();
  await store.refresh();
  assert.deepEqual(store.state.permissions, { score: false, direct: false, administer: false });
  assert.equal(server.asked.filter((message) => message.do).length, 2);
});

test("who isn't a member is shown why", async () => {
  const server = playedServer();
  server.ask = async (message) => (message.do ? { answers: [], first: 0, last: 0, version: 3 } : {
    denied: { board: 0, rule: 2, table: 0, why: "not a member" },
    version: 3,
  });
  const { store } = storeOf(server);
  await store.signIn("v", "token");
  assert.equal(store.state.facts, null);
  assert.equal(store.state.statusDenied.rule, 2);
});

test("a refused audit is of the version of the status", async () => {
  const server = playedServer();
  const answer = server.ask;
  server.ask = async (message) => (message.audit ? { error: "NotPermitted" } : answer(message));
  const { store } = storeOf(server, () => [ask.audit(1, 10)]);
  await store.signIn("n1", "token");
  assert.deepEqual(store.answerOf(ask.audit(1, 10)), { value: null, denied: null, error: "NotPermitted", version: 0 });
});

test("a version too large to count with asks for the newest", async () => {
  const server = playedServer();
  server.version = 2 ** 60;
  const { store } = storeOf(server, () => []);
  await store.signIn("n1", "token");
  server.asked = [];
  await store.refresh();
  assert.deepEqual(server.asked, [{ ask: "status", since: 0 }]);
});

test("each query has a place of its own", () => {
  const queries = [
    ask.board(1),
    ask.board(2),
    ask.play(1, 2),
    ask.play(2, 1),
    ask.list(null),
    ask.list({ and: [{ vul: "ns" }] }),
    ask.list({ and: [{ vul: "ew" }] }),
    ask.audit(1, 100),
    ask.audit(2, 100),
  ];
  assert.equal(new Set(queries.map(keyOf)).size, queries.length);
});
