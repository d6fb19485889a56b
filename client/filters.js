// A filter of boards from what is chosen on the page: conditions, of which all or any must hold.

/**
 * @typedef {object} Condition
 * @property {string} kind the atom's word
 * @property {boolean} isNot whether it must not hold
 * @property {Record<string, string>} values what is chosen, as the fields have it
 */

/** The fields of each condition: a choice, or the bounds of a number. */
export const conditionKinds = {
  vul: ["vul"],
  dealer: ["by"],
  level: ["min", "max"],
  strain: ["strain"],
  doubled: ["doubled"],
  made: ["made"],
  score: ["min", "max"],
  dd: ["by", "strain", "min", "max"],
};

export const boundsOf = { level: [1, 7], score: [-10000, 10000], dd: [0, 13] };
export const mostConditions = 32;

const firstValues = { vul: "none", by: "N", strain: "S", doubled: "1", made: "true" };

/** @returns {Condition} */
export function newCondition(kind) {
  const [least, most] = boundsOf[kind] ?? [0, 0];
  const firstOf = (field) => (field === "min" ? String(least) : field === "max" ? String(most) : firstValues[field]);
  return {
    kind,
    isNot: false,
    values: Object.fromEntries(conditionKinds[kind].map((field) => [field, firstOf(field)])),
  };
}

/** Which condition's bounds can't be sent, or -1. */
export function badCondition(conditions) {
  return conditions.findIndex(({ kind, values }) => {
    if (!boundsOf[kind]) return false;
    const [least, most] = boundsOf[kind];
    return ["min", "max"].some(
      (bound) => !/^[-−]?\d+$/u.test(values[bound].trim()) || numberOf(values[bound]) < least || numberOf(values[bound]) > most,
    );
  });
}

const numberOf = (text) => Number(text.trim().replace("−", "-"));
const rangeOf = (values) => ({ max: numberOf(values.max), min: numberOf(values.min) });

const atoms = {
  vul: (values) => values.vul,
  dealer: (values) => values.by,
  level: rangeOf,
  strain: (values) => values.strain,
  doubled: (values) => Number(values.doubled),
  made: (values) => values.made === "true",
  score: rangeOf,
  dd: (values) => ({ by: values.by, ...rangeOf(values), strain: values.strain }),
};

/**
 * @param {Condition[]} conditions
 * @param {"and"|"or"} joiner
 * @returns {object|null} the filter of a message, or null where all boards are asked for
 */
export function filterOf(conditions, joiner) {
  if (conditions.length === 0) return null;
  const members = conditions.map(({ kind, isNot, values }) => {
    const atom = { [kind]: atoms[kind](values) };
    return isNot ? { not: atom } : atom;
  });
  return { [joiner]: members };
}
