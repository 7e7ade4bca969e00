"""Makes of what the program wrote what a page shows: tables, and pictures by Graphviz' dot where it is installed."""
import json
import shutil

from lib.pictures import dot_of, literal_text, path_colours, path_text, values_of

PARTS = ("nodes", "edges", "paths")
MOST_ROWS = 1000
MOST_DRAWN = 300
MOST_PICTURES = 20
MOST_GRAPHS = 50
MOST_LABELS = 100
MOST_TEXT = 1_000_000
MOST_CELL = 1000


class NoGraph(Exception):
    """A text that is no graph, as far as a picture asks for it."""


def is_identity(value):
    """Whether a value is an identity, as JSON writes one."""
    return isinstance(value, int) and not isinstance(value, bool)


def is_element(element, part):
    """Whether a value has what a table and a picture need of an element."""
    needed = {"nodes": (), "edges": ("from", "to"), "paths": ()}[part]
    if not isinstance(element, dict) or not all(is_identity(element.get(key)) for key in ("id", *needed)):
        return False
    walk, labels = element.get("walk", []), element.get("labels", [])
    if not isinstance(walk, list) or not all(is_identity(it) for it in walk) or (part == "paths") != ("walk" in element):
        return False
    return isinstance(labels, list) and all(isinstance(it, str) for it in labels) and has_literals(element)


def has_literals(element):
    """Whether the properties of an element are literals, or lists of them."""
    properties = element.get("properties", {})
    if not isinstance(properties, dict):
        return False
    return all(isinstance(it, (bool, int, str)) for value in properties.values() for it in values_of(value))


def graph_in(text):
    """The graph in a text; NoGraph where there is none."""
    try:
        graph = json.loads(text)
    except (ValueError, RecursionError):
        raise NoGraph("the text is no JSON") from None
    if not isinstance(graph, dict):
        raise NoGraph("the text is no object")
    for part in PARTS:
        elements = graph.get(part, [])
        if not isinstance(elements, list) or not all(is_element(it, part) for it in elements):
            raise NoGraph("%s: an item is no element of a graph" % part)
    return graph


def identities(graph):
    """The identities of all elements of a graph."""
    return {element["id"] for part in PARTS for element in graph.get(part, [])}


def identities_of_texts(texts):
    """The identities of all elements of several graph files, which the program has read."""
    return set().union(*(identities(json.loads(text)) for text in texts))


def cell_of(values):
    """The text of a list of literals, of at most MOST_CELL characters."""
    text = ", ".join(literal_text(it) for it in values[:MOST_CELL])
    return text if len(text) <= MOST_CELL else text[:MOST_CELL] + "…"


def row_of(element, created):
    """A row of a table: texts alone, since a page would round large numbers."""
    row = {"id": str(element["id"]), "created": element["id"] in created, "labels": element.get("labels", [])[:MOST_LABELS]}
    properties = list(element.get("properties", {}).items())[:MOST_LABELS]
    row["properties"] = [[name[:MOST_CELL], cell_of(values_of(value))] for name, value in properties]
    for key in ("from", "to"):
        if key in element:
            row[key] = str(element[key])
    if "walk" in element:
        row["walk"] = [str(it) for it in element["walk"][:MOST_CELL]]
    return row


def tables_of(graph, created):
    """The tables of nodes, edges and stored paths, with at most MOST_ROWS rows each, and their whole numbers."""
    tables = {part: [row_of(it, created) for it in graph.get(part, [])[:MOST_ROWS]] for part in PARTS}
    return {"tables": tables, "counts": {part: len(graph.get(part, [])) for part in PARTS}}


def lights_of(paths):
    """What can be lit in a picture: each stored path by its text, its walk and its colour."""
    paths = paths[:MOST_ROWS]
    return [{"text": "path " + path_text(it), "walk": it["walk"], "colour": colour} for it, colour in zip(paths, path_colours(paths))]


def lights_of_walks(walks):
    """What can be lit in the picture of a search of a certificate: the walks that it found."""
    return [{"text": "cost %s; walk %s" % (it["cost"], " ".join(map(str, it["walk"]))), "walk": it["walk"]} for it in walks[:MOST_ROWS]]


class Artist:
    """Draws graphs by `dot`, under the limits of a seat."""

    def __init__(self, runs, seat):
        self.runs, self.seat, self.drawn = runs, seat, 0

    def picture_of(self, graph, created):
        """The SVG text of a graph, or None and the reason why there is none."""
        program = shutil.which("dot")
        if program is None:
            return None, "There are no pictures: Graphviz is not installed (Debian's package graphviz)."
        if sum(len(graph.get(part, [])) for part in PARTS) > MOST_DRAWN:
            return None, "The graph has more than %d elements and is not drawn." % MOST_DRAWN
        if self.drawn == MOST_PICTURES:
            return None, "No more graphs are drawn."
        self.drawn += 1
        with open(self.seat.folder + "/dot", "w", encoding="utf-8") as file:
            file.write(dot_of(graph, created))
        ended = self.runs.run(self.seat, program, ["-Tsvg", "dot"])
        if ended.status != 0:
            self.drawn = MOST_PICTURES
            return None, "Graphviz could not draw the graph."
        return ended.out.decode("utf-8", "replace"), ""

    def shown(self, graph, created=frozenset()):
        """All that a page shows of a graph."""
        svg, reason = self.picture_of(graph, created)
        lights = lights_of(graph.get("paths", []))
        return {**tables_of(graph, created), "svg": svg, "no_picture": reason, "lights": lights}


def shown_certificate(artist, text):
    """What a page shows of a certificate: for each of the first searches its graph, and the walks that it found."""
    searches = json.loads(text)["searches"][:MOST_GRAPHS]
    shown = [artist.shown(search["graph"]) for search in searches]
    return [{**it, "lights": lights_of_walks(search["walks"])} for it, search in zip(shown, searches)]


def shown_answer(artist, lines, graph_texts):
    """What a page shows of the first graphs that the program wrote, a line each."""
    if not lines:
        return []
    known = identities_of_texts(graph_texts)
    graphs = [json.loads(line) for line in lines[:MOST_GRAPHS]]
    return [artist.shown(graph, identities(graph) - known) for graph in graphs]


def cut(text):
    """A text of at most MOST_TEXT characters, and whether it was longer."""
    return {"out": text[:MOST_TEXT], "out_is_cut": len(text) > MOST_TEXT}
