#!/usr/bin/env python3
"""Certificates by chance: right ones, and damaged ones.

    made.py COUNT SEED FOLDER      writes FOLDER/000.json and so on

A graph, segments and an expression are drawn; the potentials and one walk to each node are found by Dijkstra's
search on the moves of docs/CERTIFICATES.md. Then up to two things are changed.
"""
import copy
import heapq
import json
import random
import sys
from collections import defaultdict

from check import automaton

LABELS = ["a", "b", "knows"]
ATOMS = [":a", ":b-", ":knows", "_", "_-", "!:a", "!:b", "~v", "~w"]
COSTS = ["0", "1", "2", "01", "x", 3, str(2**127), str(2**127 - 1)]
EXPRESSIONS = [":", "(" * 65 + "_" + ")" * 65, "(" * 64 + "_" + ")" * 64, " _ # c\n", "~ALL", 5, "_ _*", "((_))",
               "_" + " _" * 511, "_" + " _" * 512, ":a|", "!a", "#", "_*_", ":a-b", "_ ~"]


def labels():
    return sorted(random.sample(LABELS, random.randint(0, 2)))


def expression(depth):
    draw = random.random()
    if depth == 0 or draw < 0.45:
        return random.choice(ATOMS)
    if draw < 0.6:
        return "(" + expression(depth - 1) + ")*"
    between = " " if draw < 0.8 else "|"
    return "(" + between.join(expression(depth - 1) for _ in range(random.randint(2, 3))) + ")"


def a_graph():
    ids = random.sample(range(30), random.randint(1, 6))
    nodes = [{"id": i, "labels": labels(), "properties": {}} for i in sorted(ids)]
    edges = [{"from": random.choice(ids), "id": 100 + k, "labels": labels(), "properties": {}, "to": random.choice(ids)}
             for k in range(random.randint(0, 9))]
    return {"edges": edges, "gcore": 1, "nodes": nodes, "paths": []}


def a_segment(edges):
    first = random.choice(edges)
    walk = random.choice([[first["from"], first["id"], first["to"]], [first["to"], first["id"], first["from"]]])
    on = [e for e in edges if e["from"] == walk[-1]]
    if on and random.random() < 0.5:
        e = random.choice(on)
        walk += [e["id"], e["to"]]
    return {"cost": str(random.choice([1, 2, 3, 2**63 - 1])), "view": random.choice("vw"), "walk": walk}


def found(graph, segments, text, start):
    """The potentials, and a walk to each node that is reached."""
    moves, states = automaton(text)
    leaving = defaultdict(list)
    for move in moves:
        leaving[move[0]].append(move)
    names = {n["id"]: n["labels"] for n in graph["nodes"]}

    def steps(node, state):
        for _, to, kind, name, back in leaving[state]:
            if kind == "skip" or kind == "test" and name in names[node]:
                yield (node, to), 0, {}, []
            for e in graph["edges"] if kind == "edge" else []:
                ends = (e["to"], e["from"]) if back else (e["from"], e["to"])
                if ends[0] == node and (name is None or name in e["labels"]):
                    yield (ends[1], to), 1, {"edge": e["id"]}, [e["id"], ends[1]]
            for i, t in enumerate(segments) if kind == "view" else []:
                if t["view"] == name and t["walk"][0] == node:
                    yield (t["walk"][-1], to), int(t["cost"]), {"segment": i}, t["walk"][1:]

    least, before, pending = {(start, 0): 0}, {}, [(0, start, 0)]
    while pending:
        cost, node, state = heapq.heappop(pending)
        if least[node, state] == cost:
            for pair, more, by, passed in steps(node, state):
                if pair not in least or cost + more < least[pair]:
                    least[pair], before[pair] = cost + more, ((node, state), by, passed)
                    heapq.heappush(pending, (cost + more, *pair))
    walks = []
    for node in sorted(names):
        pair, run, walk = (node, states - 1), [], []
        if pair in least:
            cost = least[pair]
            while pair in before:
                run.insert(0, {**before[pair][1], "to": pair[1]})
                walk = before[pair][2] + walk
                pair = before[pair][0]
            walks.append({"cost": str(cost), "run": run, "walk": [start] + walk})
    return [[n, q, str(c)] for (n, q), c in sorted(least.items())], walks


def a_search():
    graph = a_graph()
    segments = [a_segment(graph["edges"]) for _ in range(random.randint(0, 3)) if graph["edges"]]
    text, start = expression(random.randint(0, 3)), random.choice(graph["nodes"])["id"]
    potentials, walks = found(graph, segments, text, start)
    return {"expression": text, "graph": graph, "potentials": potentials, "segments": segments, "start": start, "walks": walks}


def damage(document):
    """Changes one thing, or nothing where there is none of the kind that is drawn."""
    if not document["searches"]:
        return
    s = random.choice(document["searches"])

    def one(key):
        return random.choice(s[key]) if isinstance(s.get(key), list) and s[key] else None

    potential, segment, walk, kind = one("potentials"), one("segments"), one("walks"), random.randint(0, 17)
    if kind == 0 and potential:
        potential[2] = random.choice(COSTS)
    elif kind == 1 and potential:
        s["potentials"].remove(potential)
    elif kind == 2 and potential:
        potential[random.randint(0, 1)] = random.choice([0, 1, 5, 2**32, -1, "a", 2**53])
    elif kind == 3:
        s["start"] = random.choice([0, 1, "1", None, 1.0, [], 2**53])
    elif kind == 4 and walk:
        walk["cost"] = random.choice(COSTS)
    elif kind == 5 and walk and walk["run"]:
        random.choice(walk["run"])["to"] = random.choice([0, 1, 2, 3, 2**32])
    elif kind == 6 and walk:
        walk["walk"][random.randrange(len(walk["walk"]))] = random.choice([0, 1, 100, 101, -1])
    elif kind == 7 and segment:
        segment["cost"] = random.choice(COSTS)
    elif kind == 8 and segment:
        segment["view"] = random.choice(["v", "w", "u", "ALL", "a b", 3, "nodes"])
    elif kind == 9 and segment:
        segment["walk"].append(random.choice([0, 1, 100]))
    elif kind == 10:
        s["expression"] = random.choice(EXPRESSIONS)
    elif kind == 11 and isinstance(s.get("graph"), dict):
        s["graph"]["gcore"] = random.choice([1, 3, "1", 1.0])
    elif kind == 12 and s:
        del s[random.choice(list(s))]
    elif kind == 13:
        s["extra"] = 1
    elif kind == 14 and walk:
        walk["run"].append({"to": random.choice([0, 1])})
    elif kind == 15 and potential:
        s["potentials"].reverse()
    elif kind == 16 and walk:
        s["walks"].append(copy.deepcopy(walk))
    elif kind == 17:
        document["gcore_cert"] = random.choice([1, 2, "1", 1.0, True])


def main(count, seed, folder):
    random.seed(seed)
    for i in range(count):
        document = {"gcore_cert": 1, "searches": [a_search() for _ in range(random.choice([0, 1, 1, 2, 3]))]}
        for _ in range(random.choice([0, 0, 1, 1, 1, 2])):
            damage(document)
        text = json.dumps(document, separators=(",", ":")) + "\n"
        if random.random() < 0.03:
            text = text[:random.randrange(len(text))]
        with open(f"{folder}/{i:03}.json", "w") as file:
            file.write(text)


if __name__ == "__main__":
    main(int(sys.argv[1]), int(sys.argv[2]), sys.argv[3])
