// Which view the page shows: the part of its address after "#".

/** @typedef {{view: string, table: number, board: number}} Route */

const shapes = {
  session: [], boards: [], ranking: [], find: [], papers: [], audit: [], accounts: [],
  board: ["board", "table"],
  scorer: ["table", "board"],
  director: ["table", "board"],
};

/** @returns {Route} the view that an address names, or that of the session */
export function routeOf(hash) {
  const [view, ...numbers] = hash.replace(/^#\/?/u, "").split("/");
  const route = { view: "session", table: 0, board: 0 };
  if (!Object.hasOwn(shapes, view) || numbers.length > shapes[view].length) return route;
  route.view = view;
  numbers.forEach((text, index) => {
    if (/^\d{1,3}$/u.test(text)) route[shapes[view][index]] = Number(text);
  });
  return route;
}

export const addressOf = (view, ...numbers) => `#/${[view, ...numbers].join("/")}`;

/**
 * Where the server is: a path on the page's own host. Nothing in a link can send a token to another host.
 * @param {{protocol: string, host: string}} location
 * @param {string} path
 */
export function serverAddress(location, path) {
  return `${location.protocol === "https:" ? "wss:" : "ws:"}//${location.host}${path}`;
}

/** A path as it may be asked for: one slash, then letters, digits, "-", "_", "." and slashes. */
export const isServerPath = (path) => /^\/[\w.-]+(\/[\w.-]+)*\/?$/u.test(path) && path.length <= 100;

/** The path that `?server=` asks for, or the usual one. */
export function serverPathOf(search) {
  const asked = new URLSearchParams(search).get("server");
  return asked !== null && isServerPath(asked) ? asked : "/session";
}
