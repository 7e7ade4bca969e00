#!/usr/bin/env python3
"""The igraph peer of `bench/reach`: reads a graph file by json, builds an igraph graph and prints graphs.

    peer_igraph.py FILE load | one FROM.. | pairs | on FROM TO
"""
import json
import sys

import igraph


def text(value):
    return json.dumps(value, separators=(",", ":"), sort_keys=True)


def node_text(i):
    return '{"id":%d,"labels":["Node"],"properties":{"name":[%d]}}' % (i, i)


def show(nodes, edges=()):
    print('{"edges":[%s],"gcore":1,"nodes":[%s],"paths":[]}' % (",".join(edges), ",".join(map(node_text, nodes))))


def main():
    with open(sys.argv[1], "rb") as f:
        read = json.load(f)
    count, edges = len(read["nodes"]), read["edges"]
    graph = igraph.Graph(n=count, edges=[(e["from"], e["to"]) for e in edges], directed=True)
    what, ends = sys.argv[2], list(map(int, sys.argv[3:]))
    if what == "load":
        show([0])
    elif what == "one":
        for start in ends:
            show(sorted(graph.subcomponent(start, mode="out")))
    elif what == "pairs":
        made = []
        for start in range(count):
            for to in sorted(graph.subcomponent(start, mode="out")):
                made.append('{"from":%d,"id":%d,"labels":["reaches"],"properties":{},"to":%d}' % (start, count + len(edges) + len(made), to))
        show(range(count), made)
    else:
        ahead, behind = set(graph.subcomponent(ends[0], mode="out")), set(graph.subcomponent(ends[1], mode="in"))
        along = [e for e in edges if e["from"] in ahead and e["to"] in behind]
        full = [{**e, "labels": sorted(e["labels"]), "properties": {key: [value] for key, value in e["properties"].items()}} for e in along]
        show(sorted(ahead & behind), map(text, full))


main()
