// The audit: which commands were accepted, by whom, the newest first.

import { aboutOf, pageOfAudit } from "../audit_rows.js";
import { button, element, heading, link, table } from "../dom.js";
import { csvText, download } from "../csv.js";
import { ask } from "../messages.js";
import { fileNameOf } from "../occasion.js";
import { personText } from "../people.js";
import { rowOf } from "../public_facts.js";
import { addressOf } from "../routes.js";
import { texts } from "../texts.js";
import { answerView } from "./denial.js";
import { accountMark, section } from "./marks.js";

const rowsOfPage = 100;

const pageNow = ({ version }, { audit }) => pageOfAudit(version, audit.before, rowsOfPage);
const queryOf = ({ first, last }) => ask.audit(first, Math.max(1, last - first + 1));

export const auditNeeds = (state, route, page) => [queryOf(pageNow(state, page.forms))];

export function auditView(page) {
  const shown = pageNow(page.state, page.forms);
  const query = queryOf(shown);
  const rows = page.answer(query)?.value;
  return [
    heading(texts.audit.title),
    element("p", {}, texts.audit.explained),
    turns(page, shown, rows),
    section(null, answerView(page, query, (value) => auditTable(page, value, shown))),
  ];
}

function turns(page, { first, last, newer, older }, rows) {
  const go = (before) => () => {
    page.forms.audit.before = before;
    page.lookAgain();
  };
  const save = () => download(fileNameOf(page.state.facts, "audit"), csvText([texts.audit.heads, ...rows]));
  return element(
    "p",
    { class: "actions no-print" },
    element("span", { id: "audit-shown" }, texts.audit.shown(first, last, page.state.version)),
    newer && button("audit-newest", texts.audit.newest, go(null), { class: "quiet" }),
    newer !== undefined && button("audit-newer", texts.audit.newer, go(newer), { class: "quiet" }),
    older !== undefined && button("audit-older", texts.audit.older, go(older), { class: "quiet" }),
    older > rowsOfPage && button("audit-oldest", texts.audit.oldest, go(((last - 1) % rowsOfPage) + 1), { class: "quiet" }),
    rows && button("csv-audit", texts.papers.csv, save, { class: "quiet" }),
  );
}

/** @param {any} page @param {import("../messages.js").AuditRow[]} rows @param {{first: number, last: number}} shown */
function auditTable(page, rows, { first, last }) {
  if (rows.length === 0) return element("p", {}, texts.audit.empty);
  const cells = [...rows].reverse().map(([number, user, word, target]) => () =>
    [number, user === null ? texts.audit.solver : accountMark(page.state.facts, user), wordText(word), aboutView(page, aboutOf(word, target))]);
  return table(texts.audit.caption(first, last), texts.audit.heads, cells, { class: "audit" });
}

const wordText = (word) => (Object.hasOwn(texts.audit.word, word) ? texts.audit.word[word] : word);

/**
 * With the pairs of a table and a board; and who may look into a result goes there from its row.
 * @param {any} page
 * @param {import("../audit_rows.js").About} about
 */
function aboutView(page, { text, values, cell }) {
  const { facts, permissions } = page.state;
  const isPerson = text === "name" || text === "role";
  const said = texts.audit.about[text](...values.map((value, index) => (isPerson && index === 0 ? personText(facts, value) : value)));
  const row = cell && rowOf(facts, cell.table, cell.board);
  if (!row) return said;
  const about = permissions?.direct ? link(addressOf("director", cell.table, cell.board), said) : said;
  return element("td", {}, about, texts.audit.pairs(row.ns, row.ew));
}
