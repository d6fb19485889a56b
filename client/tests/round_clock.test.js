// The clock of a round: what it shows, when it is over, and what is kept of it.
import assert from "node:assert/strict";
import { test } from "node:test";
import { newForms } from "../forms.js";
import { RoundClock, leftText, minutesOf } from "../round_clock.js";
import { clockSection } from "../views/round_clock.js";
import { byId, pageOf, textOf } from "./elements.js";
import { mitchell } from "./movements.js";

const storageOf = (kept = new Map()) => ({
  kept, getItem: (name) => kept.get(name) ?? null, setItem: (name, value) => kept.set(name, value), removeItem: (name) => kept.delete(name),
});

test("what is left is told in minutes and seconds, and how long it is over", () => {
  for (const [milliseconds, text] of [[1_380_000, "23:00"], [725_000, "12:05"], [59_001, "1:00"], [1, "0:01"], [0, "0:00"], [-999, "0:00"], [-1_000, "+0:01"], [-90_000, "+1:30"]]) {
    assert.equal(leftText(milliseconds), text, `${milliseconds}`);
  }
});

test("a clock has 1 to 240 whole minutes", () => {
  for (const [typed, minutes] of [["1", 1], [" 23 ", 23], ["240", 240], ["0", null], ["241", null], ["7.5", null], ["-3", null], ["", null], ["1e2", null]]) {
    assert.equal(minutesOf(typed), minutes, typed);
  }
});

test("it runs in the round in which it was started, until it is stopped", () => {
  let now = 1_000_000;
  const clock = new RoundClock(null, { now: () => now });
  assert.equal(clock.leftIn(2), null);
  clock.start(2, 20);
  now += 90_000;
  assert.equal(leftText(clock.leftIn(2)), "18:30");
  assert.equal(clock.leftIn(3), null, "no other round has it");
  clock.stop();
  assert.equal(clock.leftIn(2), null);
});

test("that its time is over is told once", async (context) => {
  context.mock.timers.enable({ apis: ["setInterval"] });
  let now = 0;
  const [told, ticks] = [[], []];
  const clock = new RoundClock(null, { now: () => now, onOver: (round) => told.push(round), onTick: () => ticks.push(now) });
  clock.start(4, 1);
  for (; now < 58_000; now += 500) context.mock.timers.tick(500);
  assert.deepEqual(told, []);
  for (; now < 70_000; now += 500) context.mock.timers.tick(500);
  assert.deepEqual(told, [4]);
  assert.ok(ticks.length > 100);
  clock.stop();
  const before = ticks.length;
  context.mock.timers.tick(5_000);
  assert.equal(ticks.length, before, "a clock that is stopped does nothing");
});

test("it outlives a reload, and one that was over by then isn't told again", (context) => {
  context.mock.timers.enable({ apis: ["setInterval"] });
  const storage = storageOf();
  new RoundClock(storage, { now: () => 0 }).start(3, 10);
  const again = new RoundClock(storage, { now: () => 60_000 });
  assert.equal(leftText(again.leftIn(3)), "9:00");
  const told = [];
  const late = new RoundClock(storage, { now: () => 700_000, onOver: (round) => told.push(round) });
  context.mock.timers.tick(2_000);
  assert.deepEqual([leftText(late.leftIn(3)), told], ["+1:40", []]);
  late.stop();
  assert.equal(storage.kept.size, 0);
  for (const bad of ["{", "7", "{\"round\":\"3\",\"ends\":1}", "null"]) {
    assert.equal(new RoundClock(storageOf(new Map([["tevyhora/clock", bad]]))).leftIn(3), null, bad);
  }
  const refuse = () => { throw new Error("full"); };
  const unkept = new RoundClock({ getItem: refuse, setItem: refuse, removeItem: refuse }, { now: () => 0 });
  unkept.start(1, 5);
  assert.equal(unkept.leftIn(1), 300_000);
});

test("a director starts it for the present round, and sees what is left", () => {
  const facts = mitchell(3, 3, { round: 2, per_set: 3 });
  const refused = [];
  const page = pageOf(facts, "d", { forms: newForms(), clock: new RoundClock(null), refuse: (text) => refused.push(text) });
  page.startClock = (round, minutes) => page.clock.start(round, minutes);
  page.stopClock = () => page.clock.stop();
  assert.equal(byId(clockSection(page), "clock-minutes").value, "23", "seven and a half minutes a board");
  page.forms.clock.minutes = "0";
  byId(clockSection(page), "start-clock").listeners.click();
  assert.deepEqual(refused, ["A round's clock has 1 to 240 whole minutes."]);
  page.forms.clock.minutes = "20";
  byId(clockSection(page), "start-clock").listeners.click();
  assert.match(textOf(byId(clockSection(page), "clock-left")), /^(20:00|19:59)$/u);
  assert.match(textOf(clockSection(page)), /left of round 2, which ends at \d\d:\d\d/u);
  byId(clockSection(page), "stop-clock").listeners.click();
  assert.equal(byId(clockSection(page), "clock-left"), undefined);
  assert.equal(clockSection(pageOf(mitchell(3, 3, { phase: "Closed" }), "d", { forms: newForms() })), null, "and not after play");
});
