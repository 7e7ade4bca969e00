// Shows a graph: its picture, what an element is, its paths one by one, and its tables.

// A wide picture shrinks to the place that it has, but not so far that it cannot be read.
const SMALLEST_SCALE = 0.75;
const COLUMNS = {
  nodes: ["id", "labels", "properties"],
  edges: ["id", "from", "to", "labels", "properties"],
  paths: ["id", "walk", "labels", "properties"],
};

/** An element of the page with a text. */
function made(kind, text, className) {
  const element = document.createElement(kind);
  if (text !== undefined) element.textContent = text;
  if (className) element.className = className;
  return element;
}

/** The text of a cell. */
function cellText(row, column) {
  if (column === "labels") return row.labels.map((label) => ":" + label).join("");
  if (column === "properties") return row.properties.map(([name, values]) => name + " = " + values).join("\n");
  return column === "walk" ? row.walk.join(" ") : row[column];
}

/** All that is known of an element, in one line. */
function lineOf(row) {
  const ends = row.from === undefined ? "" : ` (${row.from} to ${row.to})`;
  const properties = row.properties.map(([name, values]) => name + " = " + values).join(", ");
  return [row.id + ends, cellText(row, "labels"), properties, row.created ? "created" : ""].filter(Boolean).join("  ");
}

/** The table of one kind of elements; of an answer it tells what was created. */
function tableOf(part, rows, count, isAnswer) {
  const table = made("table");
  const more = rows.length < count ? `, the first ${rows.length} of them` : "";
  table.append(made("caption", `${count} ${count === 1 ? part.slice(0, -1) : part}${more}`));
  const columns = isAnswer ? [...COLUMNS[part], "origin"] : COLUMNS[part];
  const head = table.createTHead().insertRow();
  for (const column of columns) head.append(made("th", column));
  const body = table.createTBody();
  for (const row of rows) {
    const line = body.insertRow();
    if (row.created) line.className = "created";
    for (const column of columns) {
      line.insertCell().innerText = column === "origin" ? (row.created ? "created" : "copied") : cellText(row, column);
    }
  }
  return table;
}

/** The rows of a graph by the identity that they have in its picture. */
function rowsByPlace(tables) {
  const rows = new Map();
  for (const row of tables.nodes) rows.set("node-" + row.id, row);
  for (const row of tables.edges) rows.set("edge-" + row.id, row);
  return rows;
}

/** The picture, whose elements say what they are when they are pointed at or reached by Tab. */
function pictureOf(svg, tables, about) {
  const place = made("div", undefined, "picture");
  const drawn = new DOMParser().parseFromString(svg, "image/svg+xml").documentElement;
  const rows = rowsByPlace(tables);
  for (const element of drawn.querySelectorAll("g.node, g.edge")) {
    const row = rows.get(element.id);
    if (!row) continue;
    element.querySelector("title").remove();
    element.setAttribute("tabindex", "0");
    element.setAttribute("role", "img");
    element.setAttribute("aria-label", lineOf(row));
    for (const event of ["mouseenter", "focus"]) {
      element.addEventListener(event, () => { about.textContent = lineOf(row); });
    }
  }
  place.append(document.adoptNode(drawn));
  drawn.style.minWidth = SMALLEST_SCALE * drawn.width.baseVal.value + "px";
  return place;
}

/** Lights the nodes and edges of a walk in a picture, and no others. */
function light(picture, walk) {
  for (const lit of picture.querySelectorAll(".lit")) lit.classList.remove("lit");
  walk.forEach((id, at) => {
    const element = picture.querySelector((at % 2 === 0 ? "#node-" : "#edge-") + id);
    if (element) element.classList.add("lit");
  });
}

/** The list of the walks of a graph, each with a button that lights it in the picture. */
function walksOf(lights, picture) {
  const list = made("ul", undefined, "walks");
  for (const { text, walk, colour } of lights) {
    const button = made("button", text);
    button.setAttribute("aria-pressed", "false");
    button.addEventListener("click", () => {
      const lit = button.getAttribute("aria-pressed") === "false";
      for (const other of list.querySelectorAll("button")) other.setAttribute("aria-pressed", "false");
      button.setAttribute("aria-pressed", String(lit));
      light(picture, lit ? walk : []);
    });
    const swatch = made("span", undefined, "swatch");
    swatch.style.background = colour ?? "transparent";
    const item = made("li");
    item.append(swatch, button);
    list.append(item);
  }
  return list;
}

/** Shows one graph in a place of the page, one of an answer or one that was asked about. */
export function showGraph(place, graph, isAnswer) {
  const about = made("div", undefined, "about");
  place.replaceChildren();
  if (graph.svg) {
    const picture = pictureOf(graph.svg, graph.tables, about);
    place.append(picture, about);
    if (graph.lights.length) place.append(walksOf(graph.lights, picture));
  } else {
    place.append(made("p", graph.no_picture));
  }
  const scroll = made("div", undefined, "scroll");
  for (const part of Object.keys(COLUMNS)) {
    if (graph.counts[part]) scroll.append(tableOf(part, graph.tables[part], graph.counts[part], isAnswer));
  }
  if (!scroll.children.length) scroll.append(made("p", "The graph is empty."));
  place.append(scroll);
}

/** A paragraph of a sentence in which what stands between backticks is code. */
function sentenceOf(text) {
  const paragraph = made("p");
  text.split("`").forEach((part, at) => paragraph.append(at % 2 === 0 ? part : made("code", part)));
  return paragraph;
}

/** Shows what a refusal says. */
export function showRefusal(place, refusal) {
  place.replaceChildren(made("code", refusal.line));
  if (refusal.sentence) place.append(sentenceOf(refusal.sentence));
  if (refusal.example) place.append(made("p", "The smallest example:"), made("pre", refusal.example));
  place.hidden = false;
}
