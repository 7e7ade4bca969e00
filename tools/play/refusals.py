"""Reads the line that the program writes where it stops: what it means, and which part of which text it marks.

A mark is a beginning and an end in UTF-16 units, as a page counts.
"""
import json
import re
from json.decoder import scanstring

from lib.repository import CODES, read

LINE = re.compile(r"gcore: ([LPSGFCK]\d+) (\w+)(?: (\d+):(\d+))?(?: (.*))?\n?")
IN_GRAPH = re.compile(r"(?:.* )?in g(\d+)")
ITEM = re.compile(r"(nodes|edges|paths)\[(\d+)\]")
TOKEN = re.compile(r"[A-Za-z][A-Za-z0-9_]*|[0-9]+|:=|<=|>=|<>|.", re.S)
BLANK = re.compile(r"[ \t\r\n]*")
SECTION = re.compile(r"^### ([A-Z]\d+) (\w+)\n(.*?)\n```\n(.*?)\n```", re.M | re.S)
OTHERS = {
    "usage": "The words have no form of a command.",
    "cannot write": "The output failed: the answer is larger than this page takes.",
    "out of memory": "The program found no more memory.",
}


def codes():
    """For each code its name, its sentences and its smallest example, as docs/CODES.md has them."""
    found = SECTION.findall(read(CODES))
    return {code: {"name": name, "sentence": text.strip(), "example": block} for code, name, text, block in found}


def units(text):
    """How many UTF-16 units a text has."""
    return len(text.encode("utf-16-le", "surrogatepass")) // 2


def mark(text, begin, end):
    """The mark of a part of a text, which is given in characters."""
    before = units(text[:begin])
    return {"begin": before, "end": before + units(text[begin:end])}


def mark_at_place(text, line, column):
    """The mark of the token at a line and a column, both from 1, the column in bytes."""
    lines = text.split("\n")
    if line > len(lines):
        return mark(text, len(text), len(text))
    before = lines[line - 1].encode("utf-8")[: column - 1].decode("utf-8", "ignore")
    begin = sum(len(it) + 1 for it in lines[: line - 1]) + len(before)
    token = TOKEN.match(text, begin)
    return mark(text, begin, token.end() if token else begin)


def past_blanks(text, at):
    """The next place that is no blank."""
    return BLANK.match(text, at).end()


def members(text, at, closing, read_one):
    """Reads the parts of an array or an object from behind its opening bracket on; `read_one` gives the end of one."""
    at = past_blanks(text, at)
    while text[at] != closing:
        at = past_blanks(text, read_one(at))
        if text[at] == ",":
            at = past_blanks(text, at + 1)
    return at + 1


def spans_of_items(text, part):
    """The beginnings and ends of the items of the array at the key `part` of a graph file; the last such key counts."""
    decoder, spans = json.JSONDecoder(), []

    def read_item(at):
        end = decoder.raw_decode(text, at)[1]
        spans.append((at, end))
        return end

    def read_pair(at):
        key, at = scanstring(text, at + 1)
        at = past_blanks(text, past_blanks(text, at) + 1)
        if key == part and text[at] == "[":
            spans.clear()
            return members(text, at + 1, "]", read_item)
        return decoder.raw_decode(text, at)[1]

    members(text, past_blanks(text, 0) + 1, "}", read_pair)
    return spans


def mark_of_item(text, part, number):
    """The mark of one item of a graph file, or None where it is not found."""
    try:
        return mark(text, *spans_of_items(text, part)[number])
    except (ValueError, IndexError, RecursionError):
        return None


def mark_where_no_json(text):
    """The mark of the first character at which a text is no JSON, as Python reads it, or None."""
    try:
        json.loads(text)
    except json.JSONDecodeError as error:
        return mark(text, error.pos, error.pos + 1)
    except (ValueError, RecursionError):
        return None
    return None


def mark_in_graph(text, code, rest):
    """The mark in a graph file: the item that is named, or where a text is no JSON."""
    item = ITEM.match(rest)
    if item:
        return mark_of_item(text, item[1], int(item[2]))
    return mark_where_no_json(text) if code == "G1" else None


def place_of(found, session):
    """Where a coded line points to: the query or a graph by its number, and the mark there."""
    rest = found[5] or ""
    if found[3]:
        return {"in": "query", "mark": mark_at_place(session.query, int(found[3]), int(found[4]))}
    graph = IN_GRAPH.fullmatch(rest)
    if graph:
        number = int(graph[1])
        return {"in": "graph", "graph": number, "mark": mark_in_graph(session.graphs[number], found[1], rest)}
    return {"in": "nothing", "mark": None}


def named(line, session):
    """The line with the names of the graphs in place of the server's files."""
    return re.sub(r"\bg(\d+)\n?$", lambda it: "graph " + session.names[int(it[1])], line)


def refusal_of(line, session):
    """What a line on standard error says: its text, its sentence, its example, and where it points to."""
    found = LINE.fullmatch(line)
    if not found:
        words = line.removeprefix("gcore: ").strip()
        return {"line": line.strip(), "sentence": OTHERS.get(words, ""), "example": "", "in": "nothing", "mark": None}
    known = codes().get(found[1], {"sentence": "", "example": ""})
    graph_line = line if found[3] else named(line, session)
    return {
        "line": graph_line.strip(), "sentence": known["sentence"], "example": known["example"], **place_of(found, session),
    }
