// What is chosen and typed on the page's forms, apart from results (drafts.js). A token that is typed stays here until the
// server has judged it.

export const newForms = () => ({
  signIn: { name: "", token: "", stays: false },
  cell: { board: 1, table: 1 },
  confirmed: new Map(),
  hold: { board: 1 },
  clock: { minutes: null },
  seat: { name: "", pair: "NS1", place: "N" },
  rule: new Map(),
  assign: new Map(),
  inheritance: { senior: "Director", junior: "Scorer" },
  rename: { name: "", shown: "" },
  walkIn: { shown: "", pair: "", place: "", made: null },
  newUser: { name: "", role: "", digest: "", made: null },
  audit: { before: null },
  find: { conditions: [], joiner: "and", newKind: "vul", asked: { conditions: [], joiner: "and" } },
  papers: { kind: "ranking" },
});
