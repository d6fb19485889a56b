// Tables that are wider than the window and scrolled sideways: they stay so when the view is drawn anew.

/** Each such table with a name of its own: what it says it is, and the how manieth of that it is. */
function tablesOf(container) {
  const counts = new Map();
  return [...container.querySelectorAll(".scrolls")].map((table) => {
    const label = table.getAttribute("aria-label");
    counts.set(label, (counts.get(label) ?? 0) + 1);
    return [`${label} ${counts.get(label)}`, table];
  });
}

/**
 * Notes how far tables are scrolled, before their view is drawn anew.
 * @param {Element} container
 * @returns {() => void} scrolls them as far again, once it is drawn
 */
export function keepScrolled(container) {
  const kept = new Map(tablesOf(container).map(([name, { scrollLeft }]) => [name, scrollLeft]));
  return () => {
    for (const [name, table] of tablesOf(container)) if (kept.get(name)) table.scrollLeft = kept.get(name);
  };
}
