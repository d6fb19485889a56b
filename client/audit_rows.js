// An audit's rows as sentences have them: what each command is about, as far as docs/PROTOCOL.md has it in the audit.

/** @typedef {import("./messages.js").AuditRow} AuditRow */
/**
 * What a command is about: which text of `texts.audit.about` says it, and its values.
 * @typedef {{text: string, values: (string|number)[], cell?: {table: number, board: number}}} About
 */

const cellOf = /^(\d{1,3})\/(\d{1,3})$/u;
// written by tests/pages/client_commands.py, from the table of docs/PROTOCOL.md
const kinds = {
  cell: ["Enter", "Confirm", "Correct", "Rule", "Void", "Analysed"],
  board: ["Hold", "Release", "Solved"],
  role: ["Assign", "Deassign"],
  inheritance: ["AddInheritance", "DeleteInheritance"],
};
const kindOf = (word) => Object.keys(kinds).find((kind) => kinds[kind].includes(word)) ?? "name";

/** @returns {About} what isn't as the protocol has it is said as it is */
export function aboutOf(word, target) {
  const kind = kindOf(word);
  const asItIs = { text: "name", values: [target] };
  if (kind === "cell") {
    const found = cellOf.exec(target);
    if (!found) return asItIs;
    const [table, board] = [Number(found[1]), Number(found[2])];
    return { text: "cell", values: [table, board], cell: { table, board } };
  }
  if (kind === "board") return /^\d{1,3}$/u.test(target) ? { text: "board", values: [Number(target)] } : asItIs;
  const parts = target.split(kind === "role" ? ":" : ">");
  return kind !== "name" && parts.length === 2 ? { text: kind, values: parts } : asItIs;
}

/**
 * A page of the audit: the numbers from `first` to `last`, of the newest `size` where `before` is null, else of those up to `before`.
 * @returns {{first: number, last: number, newer: number|null|undefined, older: number|undefined}} what the pages beside it begin
 *   with; undefined where there is none
 */
export function pageOfAudit(version, before, size) {
  const last = Math.max(0, Math.min(before ?? version, version));
  const first = Math.max(1, last - size + 1);
  const newer = last + size >= version ? null : last + size;
  return { first, last, newer: before === null || last >= version ? undefined : newer, older: first > 1 ? first - 1 : undefined };
}
