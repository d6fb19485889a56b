// Tables as comma-separated values (RFC 4180), for a spreadsheet.

/**
 * A text that a spreadsheet would read as a formula gets an apostrophe before it; numbers stay numbers.
 * @param {string|number|null|undefined} value
 */
export function csvField(value) {
  if (value === null || value === undefined) return "";
  if (typeof value === "number") return String(value);
  const safe = /^[=+\-@\t\r＝＋－＠]/u.test(value) ? `'${value}` : value;
  return /[",\r\n]/u.test(safe) ? `"${safe.replaceAll('"', '""')}"` : safe;
}

/** @param {(string|number|null|undefined)[][]} rows */
export const csvText = (rows) => rows.map((row) => `${row.map(csvField).join(",")}\r\n`).join("");

/** Hands a text to the browser as a file. */
export function download(name, text) {
  const address = URL.createObjectURL(new Blob(["\uFEFF", text], { type: "text/csv;charset=utf-8" }));
  const link = document.createElement("a");
  link.href = address;
  link.download = name;
  document.body.append(link);
  link.click();
  link.remove();
  setTimeout(() => URL.revokeObjectURL(address), 10_000);
}
