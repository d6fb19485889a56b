// The connection, with a socket that the test holds in its hand.
import assert from "node:assert/strict";
import { test } from "node:test";
import { Connection, ConnectionFault } from "../connection.js";

class Socket extends EventTarget {
  sent = [];
  closedWith = null;
  send = (text) => this.sent.push(JSON.parse(text));
  close = (code) => { this.closedWith = code; };
  open = () => this.dispatchEvent(new Event("open"));
  answer = (value) => this.dispatchEvent(Object.assign(
    new Event("message"),
    { data: typeof value === "string" ? value : JSON.stringify(value) },
  ));
  breaks = () => this.dispatchEvent(new Event("close"));
}

const pause = (time = 0) => new Promise((resolve) => { setTimeout(resolve, time); });
const faultOf = (promise) => promise.then(
  () => null,
  (fault) => (fault instanceof ConnectionFault ? fault.kind : fault),
);

function connected(times = {}) {
  const sockets = [];
  const slow = [];
  const makeSocket = () => {
    sockets.push(new Socket());
    return sockets.at(-1);
  };
  const connection = new Connection(
    "ws://here/session",
    {
      makeSocket,
      times: { idle: 20, slow: 20, opening: 60, answer: 60, ...times },
      onSlow: (isSlow) => slow.push(isSlow),
    },
  );
  return { connection, sockets, slow };
}

async function signedIn(times) {
  const all = connected(times);
  const known = all.connection.signIn("anna", "secret");
  all.sockets[0].open();
  all.sockets[0].answer({ hello: "anna" });
  assert.equal(await known, true);
  return all;
}

test("a greeting comes first, then what is asked, in order; each connection greets anew", async () => {
  const { connection, sockets } = await signedIn();
  const answers = [connection.ask({ ask: "status" }), connection.ask({ ask: "ranking" })];
  assert.deepEqual(sockets[0].sent, [{ hello: "anna", token: "secret" }, { ask: "status" }, { ask: "ranking" }]);
  sockets[0].answer({ status: 1 });
  sockets[0].answer({ ranking: 2 });
  assert.deepEqual(await Promise.all(answers), [{ status: 1 }, { ranking: 2 }]);
  await pause(40);
  assert.equal(sockets[0].closedWith, 1000, "an idle connection is let go");
  connection.ask({ ask: "status" });
  assert.equal(sockets.length, 2);
  sockets[1].open();
  assert.deepEqual(sockets[1].sent, [{ hello: "anna", token: "secret" }], "nothing before the greeting is answered");
  sockets[1].answer({ hello: "anna" });
  assert.deepEqual(sockets[1].sent.length, 2);
  sockets[1].answer({ status: 3 });
  await pause(40);
});

test("a name and a token that aren't known are forgotten", async () => {
  const { connection, sockets } = connected();
  const known = connection.signIn("anna", "wrong");
  sockets[0].open();
  sockets[0].answer({ error: "NotKnown" });
  assert.equal(await known, false);
  const asked = faultOf(connection.ask({ ask: "status" }));
  sockets[1].open();
  assert.equal(await asked, "notSent");
  assert.deepEqual(sockets[1].sent, []);
});

test("what was sent before a connection broke may have been taken, what waited was not sent", async () => {
  const { connection, sockets } = await signedIn();
  const sent = faultOf(connection.ask({ do: [] }));
  sockets[0].breaks();
  assert.equal(await sent, "unanswered");
  const waiting = faultOf(connection.ask({ do: [] }));
  sockets[1].breaks();
  assert.equal(await waiting, "notSent");
});

test("an answer that doesn't come, or is no object, ends the connection", async () => {
  const { connection, sockets } = await signedIn();
  assert.equal(await faultOf(connection.ask({ ask: "status" })), "unanswered");
  assert.equal(sockets[0].closedWith, 1000);
  const asked = faultOf(connection.ask({ ask: "status" }));
  sockets[1].open();
  sockets[1].answer({ hello: "anna" });
  sockets[1].answer("{");
  assert.equal(await asked, "unanswered");
});

test("a handshake that isn't answered is said to be slow, and given up in the end", async () => {
  const { connection, sockets, slow } = connected();
  const known = faultOf(connection.signIn("anna", "secret"));
  await pause(35);
  assert.equal(slow.at(-1), true);
  assert.equal(await known, "notSent");
  assert.equal(slow.at(-1), false);
  assert.equal(sockets[0].closedWith, 1000);
});

test("after signing out nothing is sent, and late answers reach nobody", async () => {
  const { connection, sockets } = await signedIn();
  const asked = faultOf(connection.ask({ ask: "status" }));
  connection.signOut();
  assert.equal(await asked, "notSent");
  sockets[0].answer({ status: 1 });
  assert.equal(sockets[0].closedWith, 1000);
});
