// A text field whose text is coloured, and in which one part can be marked.

const LONGEST_COLOURED = 200000;
const TOKEN = /#[^\n]*|"(?:\\.|[^"\\])*"?|'(?:\\.|[^'\\])*'?|[A-Za-z][A-Za-z0-9_]*|[0-9]+/gs;

/** The kind of a token of a query, as a class of the page; undefined for a name. */
function kindOf(token, words) {
  if (token[0] === "#") return "comment";
  if (token[0] === '"' || token[0] === "'") return "quoted";
  if (/[0-9]/.test(token[0])) return "number";
  return words.has(token) ? "word" : undefined;
}

/** The coloured parts of a query, as [begin, end, class]. */
export function partsOfQuery(text, words) {
  const parts = [];
  for (const found of text.matchAll(TOKEN)) {
    const kind = kindOf(found[0], words);
    if (kind) parts.push([found.index, found.index + found[0].length, kind]);
  }
  return parts;
}

/** Cuts the parts at the mark's ends, so that each piece has one colour and is marked or not. */
function pieces(length, parts, mark) {
  const cuts = new Set([0, length]);
  for (const [begin, end] of parts) cuts.add(begin).add(end);
  if (mark) cuts.add(mark.begin).add(mark.end);
  return [...cuts].filter((at) => at <= length).sort((one, other) => one - other);
}

/** A node of the page for a piece of text. */
function painted(text, kind, marked) {
  if (!kind && !marked) return document.createTextNode(text);
  const piece = document.createElement("span");
  piece.className = [kind, marked ? "mark" : ""].filter(Boolean).join(" ");
  piece.textContent = text;
  return piece;
}

export class Editor {
  /** `colour` gives the coloured parts of a text; `changed` is called after each change by hand. */
  constructor(place, label, colour, changed) {
    this.colour = colour;
    this.mark = null;
    this.paper = document.createElement("pre");
    this.paper.setAttribute("aria-hidden", "true");
    this.field = document.createElement("textarea");
    this.field.setAttribute("aria-label", label);
    this.field.spellcheck = false;
    place.append(this.paper, this.field);
    this.field.addEventListener("input", () => { this.mark = null; this.paint(); changed(); });
    this.field.addEventListener("scroll", () => this.follow());
  }

  get text() { return this.field.value; }

  set text(text) {
    this.field.value = text;
    this.mark = null;
    this.paint();
  }

  /** Marks a part of the text, and shows it; null takes the mark away. */
  show(mark) {
    const end = this.text.length;
    this.mark = mark && mark.begin === mark.end && mark.begin === end ? { begin: Math.max(0, end - 1), end } : mark;
    this.paint();
    const marked = this.paper.querySelector(".mark");
    if (!marked) return;
    this.field.scrollTop = Math.max(0, marked.offsetTop - this.field.clientHeight / 2);
    this.field.setSelectionRange(mark.begin, mark.begin);
    this.follow();
  }

  follow() {
    this.paper.scrollTop = this.field.scrollTop;
    this.paper.scrollLeft = this.field.scrollLeft;
  }

  paint() {
    const text = this.text;
    const parts = text.length > LONGEST_COLOURED ? [] : this.colour(text);
    const cuts = pieces(text.length, parts, this.mark);
    const nodes = [];
    let part = 0;
    for (let at = 0; at + 1 < cuts.length; at += 1) {
      while (part < parts.length && parts[part][1] <= cuts[at]) part += 1;
      const kind = part < parts.length && parts[part][0] <= cuts[at] ? parts[part][2] : undefined;
      const marked = this.mark !== null && this.mark.begin <= cuts[at] && cuts[at] < this.mark.end;
      nodes.push(painted(text.slice(cuts[at], cuts[at + 1]), kind, marked));
    }
    this.paper.replaceChildren(...nodes, document.createTextNode("\n"));
    this.follow();
  }
}
