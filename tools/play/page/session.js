// The session of a page: kept in the browser between visits, and held whole by a link if it is small.

const KEPT = "gcore-playground";
const LONGEST_LINK = 32000;

export const EMPTY = { command: "run", query: "CONSTRUCT (n) MATCH (n)", graphs: [{ name: "g", text: '{"gcore":1}' }] };

/** Whether a value has the form of a session. */
function isSession(value) {
  const isText = (it) => typeof it === "string";
  return value !== null && typeof value === "object" && isText(value.command) && isText(value.query)
    && Array.isArray(value.graphs) && value.graphs.length >= 1 && value.graphs.length <= 8
    && value.graphs.every((graph) => graph !== null && typeof graph === "object" && isText(graph.name) && isText(graph.text));
}

/** The session that a JSON text holds, or null. */
function read(text) {
  try {
    const value = JSON.parse(text);
    return isSession(value) ? value : null;
  } catch {
    return null;
  }
}

/** The fragment of a link that holds a session, or null where the session is too large for one. */
export function fragmentOf(session) {
  const bytes = new TextEncoder().encode(JSON.stringify(session));
  if (bytes.length > LONGEST_LINK) return null;
  const letters = Array.from(bytes, (byte) => String.fromCharCode(byte)).join("");
  return "#s=" + btoa(letters).replaceAll("+", "-").replaceAll("/", "_").replaceAll("=", "");
}

/** The session that a fragment holds, or null. */
export function sessionIn(fragment) {
  if (!fragment.startsWith("#s=")) return null;
  try {
    const letters = atob(fragment.slice(3).replaceAll("-", "+").replaceAll("_", "/"));
    return read(new TextDecoder().decode(Uint8Array.from(letters, (letter) => letter.charCodeAt(0))));
  } catch {
    return null;
  }
}

/** Keeps a session for the next visit; whether there was room. */
export function keep(session) {
  try {
    localStorage.setItem(KEPT, JSON.stringify(session));
    return true;
  } catch {
    return false;
  }
}

/** The session that was kept, or null. */
export function kept() {
  try {
    return read(localStorage.getItem(KEPT));
  } catch {
    return null;
  }
}
