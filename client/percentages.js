// Percentages and places, in whole numbers until they are written.

/** "58.33": earned of tops in percent with two digits, a half rounded up; "" where there are no tops. */
export function percentText(earned, tops) {
  if (tops === 0) return "";
  const hundredths = Math.floor((20000 * earned + tops) / (2 * tops));
  return `${Math.floor(hundredths / 100)}.${String(hundredths % 100).padStart(2, "0")}`;
}

/** "12.5": hundredths of a unit without closing zeros. */
export function unitsText(hundredths) {
  const whole = Math.trunc(hundredths / 100);
  const rest = String(Math.abs(hundredths) % 100).padStart(2, "0").replace(/0+$/u, "");
  return rest ? `${whole}.${rest}` : String(whole);
}

/**
 * The place of each row of a ranking, which is in order already: equal percentages share one.
 * @param {[string, number, number][]} ranking
 * @returns {{place: number|null, shared: boolean}[]} a null place where a pair has no tops
 */
export function placesOf(ranking) {
  const equal = (one, other) => one[1] * other[2] === other[1] * one[2];
  const ranked = ranking.filter((row) => row[2] > 0);
  return ranking.map((row) => {
    if (row[2] === 0) return { place: null, shared: false };
    const alike = ranked.filter((other) => equal(row, other)).length;
    return { place: ranked.findIndex((other) => equal(row, other)) + 1, shared: alike > 1 };
  });
}

/** The top of a board: two units for each other result that was played (Law 78A), among the rows that are shown. */
export function topOf(rows) {
  return 2 * Math.max(0, rows.filter((row) => row.result !== undefined).length - 1);
}
