"""Writes a graph, as a graph file or an answer has it, in the language of Graphviz' dot.

A node is a box with its identity, its labels and its properties, an edge an arrow with the same. Each stored path has
a colour: its edges have a line in it beside their own, and it stands in a list below the graph. What is in the set
`created` is drawn with a green, dashed border. Elements have the SVG identities `node-N` and `edge-N`.
"""
import html

PATH_COLOURS = ("#c2185b", "#1565c0", "#ef6c00", "#2e7d32", "#6a1b9a", "#00838f")
LONGEST_VALUE = 40
EDGE_COLOUR = "#555555"


def shown(text):
    """A text without what no picture can hold: each such character stands there as `\\u` and its number."""
    return "".join(char if char.isprintable() else "\\u%04x" % ord(char) for char in text)


def shortened(text):
    """A text of at most LONGEST_VALUE characters."""
    return text if len(text) <= LONGEST_VALUE else text[: LONGEST_VALUE - 1] + "…"


def literal_text(value):
    """A literal as a query writes it: TRUE, FALSE, a number, or a text in quotes."""
    if isinstance(value, bool):
        return "TRUE" if value else "FALSE"
    return '"%s"' % shown(value) if isinstance(value, str) else str(value)


def values_of(value):
    """The list of literals of a property, which a graph file may write as one literal."""
    return value if isinstance(value, list) else [value]


def title_of(element):
    """The identity and the labels of an element, as `1 :Person:Teacher`."""
    labels = "".join(":" + shown(label) for label in element.get("labels", []))
    return "%d %s" % (element["id"], labels) if labels else str(element["id"])


def property_lines(element):
    """A line for each property of an element, as `name = "Ann"`."""
    for name, value in element.get("properties", {}).items():
        texts = ", ".join(literal_text(it) for it in values_of(value))
        yield shortened("%s = %s" % (shown(name), texts))


def quoted(text):
    """A text as a quoted text of dot, in which neither escapes nor entities are read."""
    return text.replace("\\", "\\\\").replace('"', '\\"').replace("&", "&amp;")


def label_of(element):
    """The label of a node or an edge: its title, then its properties, each on a line."""
    return quoted(title_of(element)) + "".join("\\n" + quoted(line) for line in property_lines(element))


def class_of(element, created):
    """Whether an element is created or copied, as its class in the picture."""
    return "created" if element["id"] in created else "copied"


def node_line(node, created):
    """The line of a node."""
    style = ', style="rounded,filled,dashed", color="#2e7d32", fillcolor="#e8f5e9"' if node["id"] in created else ""
    form = '  %d [id="node-%d", class="%s", label="%s"%s];'
    return form % (node["id"], node["id"], class_of(node, created), label_of(node), style)


def edge_line(edge, colours, created):
    """The line of an edge; `colours` are those of the paths that walk along it."""
    style = ', style="dashed"' if edge["id"] in created else ""
    form = '  %d -> %d [id="edge-%d", class="%s", label="%s", color="%s"%s];'
    colour = ":".join(["#2e7d32" if edge["id"] in created else EDGE_COLOUR, *colours])
    return form % (edge["from"], edge["to"], edge["id"], class_of(edge, created), label_of(edge), colour, style)


def path_colours(paths):
    """The colour of each path, by its place in the list."""
    return [PATH_COLOURS[at % len(PATH_COLOURS)] for at in range(len(paths))]


def colours_of_edges(paths):
    """For each edge on a walk, the colours of the paths that walk along it."""
    colours = {}
    for path, colour in zip(paths, path_colours(paths)):
        for edge in dict.fromkeys(path["walk"][1::2]):
            colours.setdefault(edge, []).append(colour)
    return colours


def path_text(path):
    """A path in one line: its title, its properties and its walk."""
    parts = [title_of(path), *property_lines(path), "walk " + " ".join(str(it) for it in path["walk"])]
    return "; ".join(parts)


def list_of_paths(paths):
    """The list of paths below the graph, as a label of dot; nothing where there are none."""
    row = '<font color="%s">%s</font>'
    rows = [row % (colour, html.escape(path_text(path))) for path, colour in zip(paths, path_colours(paths))]
    return "  label=<%s>;" % "<br/>".join(rows) if rows else ""


def dot_of(graph, created=frozenset()):
    """The dot text of a graph; elements whose identity is in `created` are drawn as new."""
    paths = graph.get("paths", [])
    colours = colours_of_edges(paths)
    return "\n".join([
        "digraph graph_picture {",
        '  graph [rankdir=LR, fontname="Helvetica", fontsize=11, bgcolor="white"];',
        '  node [shape=box, style="rounded,filled", fillcolor="#f5f5f5", color="#555555", fontname="Helvetica", fontsize=11];',
        '  edge [fontname="Helvetica", fontsize=10];',
        list_of_paths(paths),
        *(node_line(node, created) for node in graph.get("nodes", [])),
        *(edge_line(edge, colours.get(edge["id"], []), created) for edge in graph.get("edges", [])),
        "}",
        "",
    ])
