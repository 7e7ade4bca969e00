"""What the peers of `bench/peers` in Python share: a reader of graph files, and a writer of graphs in the form
in which gcore answers. It reads and writes by orjson, or by json where orjson is not there."""
import sys

try:
    import orjson
except ImportError:
    import json

    orjson = None


def read(path):
    with open(path, "rb") as f:
        return orjson.loads(f.read()) if orjson else json.load(f)


def text(value):
    if orjson:
        return orjson.dumps(value, option=orjson.OPT_SORT_KEYS)
    return json.dumps(value, separators=(",", ":"), sort_keys=True, ensure_ascii=False).encode()


def full(element):
    """An element as gcore answers it: labels in order, and of each property the list of its values."""
    values = {name: sorted(value) if isinstance(value, list) else [value] for name, value in element["properties"].items()}
    return {**element, "labels": sorted(element["labels"]), "properties": values}


def show(nodes, edges=(), paths=()):
    sys.stdout.buffer.write(text({"edges": list(edges), "gcore": 1, "nodes": list(nodes), "paths": list(paths)}) + b"\n")


def by_id(elements):
    return {element["id"]: element for element in elements}


def show_some(graph, ids):
    nodes = by_id(graph["nodes"])
    show(full(nodes[i]) for i in sorted(ids))


def first_free(graph):
    return max(element["id"] for kind in ("nodes", "edges") for element in graph[kind]) + 1


def named(graph, name):
    return next(node["id"] for node in graph["nodes"] if node["properties"]["name"] == name)


def following(graph, label):
    """For each node the nodes to which its edges of a label lead, one for each edge."""
    after = {}
    for edge in graph["edges"]:
        if label in edge["labels"]:
            after.setdefault(edge["from"], []).append(edge["to"])
    return after


def pairs(graph, after):
    """An edge for each pair of nodes that two edges in turn connect."""
    nodes = by_id(graph["nodes"])
    found = {(a, c) for a, ahead in after.items() for b in ahead for c in after.get(b, ())}
    new = enumerate(sorted(found), first_free(graph))
    edges = [{"from": a, "id": i, "labels": ["near"], "properties": {}, "to": c} for i, (a, c) in new]
    show((full(nodes[i]) for i in sorted({end for pair in found for end in pair})), edges)


def triangle(graph, after):
    """The nodes from which three edges in turn lead back."""
    sets, none = {a: set(ahead) for a, ahead in after.items()}, set()
    show_some(graph, [a for a, bs in sets.items() if any(a in sets.get(c, none) for b in bs for c in sets.get(b, none))])


def all_pairs(graph, reached):
    """An edge from each node to each that is reached from it."""
    nodes, free, edges = by_id(graph["nodes"]), first_free(graph), []
    for start in sorted(nodes):
        for to in sorted(reached(start)):
            edges.append({"from": start, "id": free + len(edges), "labels": ["reaches"], "properties": {}, "to": to})
    show((full(nodes[i]) for i in sorted(nodes)), edges)


def show_walks(graph, start, walks):
    """Stored paths for walks, which are told as their costs and the identities of their edges."""
    nodes, edges, free = by_id(graph["nodes"]), by_id(graph["edges"]), first_free(graph)
    used_nodes, used_edges, paths = set(), set(), []
    for _, steps, cost in sorted((len(steps), steps, cost) for cost, steps in walks):
        walk = [start]
        for i in steps:
            walk += (i, edges[i]["to"])
        used_nodes.update(walk[::2])
        used_edges.update(steps)
        paths.append({"id": free + len(paths), "labels": [], "properties": {"cost": [cost]}, "walk": walk})
    show((full(nodes[i]) for i in sorted(used_nodes)), (full(edges[i]) for i in sorted(used_edges)), paths)


def run_library(following, reach, reached_by_all, shortest):
    """Runs the workload that the words name, with the searches of a library; what follows is plain Python."""
    workloads = {
        "pairs": lambda graph: pairs(graph, following(graph, "knows")),
        "triangle": lambda graph: triangle(graph, following(graph, "knows")),
        "reach": reach,
        "all_pairs": reached_by_all,
        "shortest": shortest,
    }
    workloads[sys.argv[1]](read(sys.argv[2]))
