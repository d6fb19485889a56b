// What a contract scores by Law 77, for the preview beside a scorer's form. What the page shows of a result that is
// there is the server's own number.

const gameFrom = 100;
const trickPoints = { C: 20, D: 20, H: 30, S: 30, N: 30 };
const slamPremium = { 6: [500, 750], 7: [1000, 1500] };

/** Whether the declarer's side is vulnerable. */
export const isVulnerable = (by, vulnerability) =>
  vulnerability === "both" || vulnerability === (by === "N" || by === "S" ? "ns" : "ew");

/**
 * @param {import("./messages.js").Result} result
 * @param {import("./messages.js").Vulnerability} vulnerability
 * @returns {number} for North-South
 */
export function scoreOf(result, vulnerability) {
  if (result === "pass") return 0;
  const vulnerable = isVulnerable(result.by, vulnerability);
  const over = result.tricks - result.level - 6;
  const score = over >= 0 ? madeScore(result, over, vulnerable) : -setScore(-over, result.doubled, vulnerable);
  return result.by === "N" || result.by === "S" ? score : -score || 0;
}

function madeScore({ level, strain, doubled }, over, vulnerable) {
  const bid = (level * trickPoints[strain] + (strain === "N" ? 10 : 0)) * 2 ** doubled;
  const game = bid >= gameFrom ? (vulnerable ? 500 : 300) : 50;
  const slam = slamPremium[level]?.[vulnerable ? 1 : 0] ?? 0;
  const overtrick = doubled ? (vulnerable ? 200 : 100) * doubled : trickPoints[strain];
  return bid + game + slam + 50 * doubled + over * overtrick;
}

function setScore(under, doubled, vulnerable) {
  if (doubled === 0) return under * (vulnerable ? 100 : 50);
  const first = vulnerable ? [200] : [100, 200, 200];
  const points = Array.from({ length: under }, (_, index) => first[index] ?? 300);
  return points.reduce((sum, each) => sum + each, 0) * doubled;
}

/** "=", "+1" or "−2": the tricks of a result beside its contract. */
export function tricksText(result) {
  if (result === "pass") return "";
  return overText(result.tricks - result.level - 6);
}

export const overText = (over) => (over === 0 ? "=" : over > 0 ? `+${over}` : `−${-over}`);

/** A score as one side writes it: "" where the other side scores. */
export const scoreOfSide = (score, side) => {
  const own = side === "NS" ? score : -score;
  return own > 0 || (own === 0 && side === "NS") ? String(own) : "";
};
