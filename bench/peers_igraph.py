#!/usr/bin/env python3
"""The peers of `bench/peers` with python3-igraph: searches are igraph's, the rest is that of plain Python.

    peers_igraph.py WORKLOAD FILE

It runs under Debian's Python, for which igraph is packaged; where that has no orjson, json reads and writes.
"""
import igraph

from peers_graphs import all_pairs, named, run_library, show_some, show_walks


def directed(graph, label):
    """The edges with a label, and the graph of them; a node's number is its place."""
    places = {node["id"]: place for place, node in enumerate(graph["nodes"])}
    edges = [edge for edge in graph["edges"] if label in edge["labels"]]
    ends = [(places[edge["from"]], places[edge["to"]]) for edge in edges]
    return places, edges, igraph.Graph(n=len(places), edges=ends, directed=True)


def ids(graph):
    return [node["id"] for node in graph["nodes"]]


def following(graph, label):
    _, _, made = directed(graph, label)
    of = ids(graph)
    return {of[place]: [of[to] for to in after] for place, after in enumerate(made.get_adjlist())}


def reach(graph):
    places, _, made = directed(graph, "to")
    of = ids(graph)
    show_some(graph, [of[place] for place in made.subcomponent(places[named(graph, 0)], mode="out")])


def reached_by_all(graph):
    _, _, made = directed(graph, "to")
    of = ids(graph)
    all_pairs(graph, lambda start: [of[place] for place in made.subcomponent(start, mode="out")])


def shortest(graph):
    places, edges, made = directed(graph, "to")
    start = named(graph, 0)
    weights = [edge["properties"]["weight"] for edge in edges]
    found = made.get_shortest_paths(places[start], weights=weights, output="epath")
    walks = []
    for place, steps in enumerate(found):
        if steps or place == places[start]:
            walks.append((sum(weights[i] for i in steps), [edges[i]["id"] for i in steps]))
    show_walks(graph, start, walks)


if __name__ == "__main__":
    run_library(following, reach, reached_by_all, shortest)
