// Movements for the tests: the status of a Howell of three tables with a board a set, as docs/PROTOCOL.md has it, and the lists
// of examples/movements as a status tells them.
import { readFileSync } from "node:fs";
import { publicFacts } from "../public_facts.js";

/** By set and then by table. */
const howellOfThree = [
  [1, 1, 1, "NS1", "EW1"], [1, 2, 1, "NS2", "EW2"], [1, 3, 1, "NS3", "EW3"], [2, 1, 2, "EW3", "NS1"], [4, 2, 2, "EW1", "EW2"],
  [3, 3, 2, "NS3", "NS2"], [5, 1, 3, "NS1", "NS2"], [3, 2, 3, "EW3", "EW1"], [2, 3, 3, "NS3", "EW2"], [3, 1, 4, "NS1", "EW2"],
  [5, 2, 4, "EW1", "NS3"], [4, 3, 4, "EW3", "NS2"], [4, 1, 5, "NS3", "NS1"], [2, 2, 5, "EW1", "NS2"], [5, 3, 5, "EW2", "EW3"],
];

export const howellStatus = {
  held: [],
  live: [[], [], [], [], []],
  marks: ["N none", "E ns", "S ew", "W both", "N ns"],
  movement: howellOfThree,
  per_set: 1,
  phase: "Running",
  round: 1,
  rounds: 5,
  seats: [["n1", "NS1", "N"], ["e1", "EW1", "E"]],
  tables: 3,
};

export const howell = (changes) => publicFacts({ ...howellStatus, ...changes });

/** The same where EW3 is absent: its rows aren't told. */
export const withoutEw3 = (changes) =>
  howell({ absent: "EW3", movement: howellOfThree.filter((row) => !row.includes("EW3")), ...changes });

const greatest = (rows, part) => Math.max(...rows.map((row) => row[part]));

/** A status of a movement of examples/movements. */
export function statusOfList(name, changes) {
  const list = JSON.parse(readFileSync(new URL(`../../examples/movements/${name}.json`, import.meta.url), "utf8"));
  const perSet = changes?.per_set ?? 1;
  const boards = greatest(list, 2) * perSet;
  return {
    ...howellStatus,
    live: Array.from({ length: boards }, () => []),
    marks: Array.from({ length: boards }, () => "N none"),
    movement: list.sort((one, other) => one[2] - other[2] || one[1] - other[1]),
    per_set: perSet,
    rounds: greatest(list, 0),
    seats: [],
    tables: greatest(list, 1),
    ...changes,
  };
}

/** A status of a plain Mitchell, a board a set. */
export const mitchell = (tables, rounds, changes) => publicFacts({
  ...howellStatus,
  live: Array.from({ length: tables }, () => []),
  marks: Array.from({ length: tables }, () => "N none"),
  movement: undefined,
  rounds,
  seats: [],
  tables,
  ...changes,
});
