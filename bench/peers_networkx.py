#!/usr/bin/env python3
"""The peers of `bench/peers` with python3-networkx: searches are networkx's, the rest is that of plain Python.

    peers_networkx.py WORKLOAD FILE

It runs under Debian's Python, for which networkx is packaged; where that has no orjson, json reads and writes.
"""
import networkx

from peers_graphs import all_pairs, named, run_library, show_some, show_walks


def directed(graph, label):
    made = networkx.MultiDiGraph()
    made.add_nodes_from(node["id"] for node in graph["nodes"])
    made.add_edges_from((edge["from"], edge["to"], edge["id"]) for edge in graph["edges"] if label in edge["labels"])
    return made


def following(graph, label):
    made = directed(graph, label)
    return {a: list(made.successors(a)) for a in made}


def reach(graph):
    start = named(graph, 0)
    show_some(graph, {start, *networkx.descendants(directed(graph, "to"), start)})


def reached_by_all(graph):
    made = directed(graph, "to")
    all_pairs(graph, lambda start: {start, *networkx.descendants(made, start)})


def shortest(graph):
    """Of the edges between two nodes the lightest counts."""
    made = networkx.DiGraph()
    for edge in graph["edges"]:
        weight, ends = edge["properties"]["weight"], (edge["from"], edge["to"])
        if "to" in edge["labels"] and (not made.has_edge(*ends) or weight < made.edges[ends]["weight"]):
            made.add_edge(*ends, weight=weight, id=edge["id"])
    start = named(graph, 0)
    made.add_node(start)
    costs, routes = networkx.single_source_dijkstra(made, start)
    show_walks(graph, start, [(costs[to], [made.edges[ends]["id"] for ends in zip(route, route[1:])]) for to, route in routes.items()])


if __name__ == "__main__":
    run_library(following, reach, reached_by_all, shortest)
