#!/usr/bin/env python3
"""A checker of certificates that shares nothing with the engine: written from docs/CERTIFICATES.md alone.

    check.py FILE      prints `accepted K`, or the code of what is wrong first, as `C3 BadGraph search 0` or
                       `rejected search 0 K4`, and ends with 0 or 9
"""
import json
import re
import sys
from collections import defaultdict

RESERVED = set("""ALL AND AS COLLECT CONSTRUCT COST COUNT EXISTS FALSE GRAPH GROUP IN INTERSECT MATCH MAX MIN MINUS NOT ON
OPTIONAL OR PATH REMOVE SET SHORTEST SUBSET SUM TRUE UNION VIEW WHEN WHERE edges length nodes""".split())
WORD = re.compile(r"[A-Za-z][A-Za-z0-9_]*\Z")
SEARCH = ["expression", "graph", "potentials", "segments", "start", "walks"]


class Wrong(Exception):
    pass


def need(holds, what):
    if not holds:
        raise Wrong(what)


def has(value, *keys):
    return isinstance(value, dict) and set(value) == set(keys)


def whole(value, most):
    return type(value) is int and 0 <= value <= most


def ident(value):
    return whole(value, 9007199254740991)


def is_cost(value):
    return isinstance(value, str) and re.match(r"(0|[1-9][0-9]{0,38})\Z", value) and int(value) < 2**127


def word(value):
    return isinstance(value, str) and WORD.match(value)


def depth(value):
    inner = value.values() if isinstance(value, dict) else value if isinstance(value, list) else None
    return 0 if inner is None else 1 + max(map(depth, inner), default=0)


def read(data):
    def bad(text):
        raise ValueError(text)

    try:
        value = json.loads(data.decode(), parse_constant=bad, parse_int=lambda s: -0.0 if s == "-0" else int(s))
        need(depth(value) <= 127, "C1 NotJson")
    except (ValueError, RecursionError):
        raise Wrong("C1 NotJson")
    one = has(value, "gcore_cert", "searches") and whole(value["gcore_cert"], 1) and value["gcore_cert"] == 1
    need(one and isinstance(value["searches"], list) and all(map(shape, value["searches"])), "C2 WrongShape")
    return value["searches"]


def shape(s):
    def each(key, test):
        return isinstance(s[key], list) and all(map(test, s[key]))

    def segment(t):
        return has(t, "cost", "view", "walk") and isinstance(t["walk"], list)

    def move(m):
        return has(m, "to") or has(m, "edge", "to") or has(m, "segment", "to")

    def walk(w):
        return (has(w, "cost", "run", "walk") and isinstance(w["run"], list) and all(map(move, w["run"]))
                and isinstance(w["walk"], list) and len(w["walk"]) % 2 == 1)

    return (has(s, *SEARCH) and each("potentials", lambda q: isinstance(q, list) and len(q) == 3)
            and each("segments", segment) and each("walks", walk))


def is_walk(walk, nodes, edges):
    return (len(walk) % 2 == 1 and all(map(ident, walk)) and walk[0] in nodes
            and all(e in edges and edges[e][0] in ((a, b), (b, a)) for a, e, b in zip(walk[::2], walk[1::2], walk[2::2])))


def graph(g):
    """The labels of each node, and the ends and labels of each edge; None where a graph file is refused."""
    def literal(v):
        return type(v) in (bool, str) or type(v) is int and -2**63 <= v < 2**63

    def described(x):
        labels, properties = x.get("labels", []), x.get("properties", {})
        return (isinstance(labels, list) and all(map(word, labels)) and isinstance(properties, dict)
                and all(word(k) and (literal(v) or isinstance(v, list) and all(map(literal, v))) for k, v in properties.items()))

    if not (isinstance(g, dict) and set(g) <= {"gcore", "nodes", "edges", "paths"} and whole(g.get("gcore"), 1) and g["gcore"] == 1):
        return None
    lists = [(g.get("nodes", []), {"id"}), (g.get("edges", []), {"id", "from", "to"}), (g.get("paths", []), {"id", "walk"})]
    if not all(isinstance(xs, list) for xs, _ in lists) or sum(len(xs) for xs, _ in lists) > 1000000:
        return None
    seen, nodes, edges = set(), {}, {}
    for xs, keys in lists:
        for x in xs:
            if not (isinstance(x, dict) and keys <= set(x) <= keys | {"labels", "properties"} and ident(x["id"])
                    and x["id"] not in seen and described(x)):
                return None
            seen.add(x["id"])
            if "walk" in x:
                if not (isinstance(x["walk"], list) and is_walk(x["walk"], nodes, edges)):
                    return None
            elif "from" in x:
                if not (ident(x["from"]) and ident(x["to"]) and x["from"] in nodes and x["to"] in nodes):
                    return None
                edges[x["id"]] = ((x["from"], x["to"]), set(x.get("labels", [])))
            else:
                nodes[x["id"]] = set(x.get("labels", []))
    return nodes, edges


def automaton(text):
    """The transitions and how many states there are; None where the text is no expression, or too large a one."""
    if not isinstance(text, str):
        return None
    tokens = re.findall(r"[A-Za-z][A-Za-z0-9_]*|\S", re.sub(r"#[^\n]*", " ", text))
    if re.search(r"[^A-Za-z0-9_:!~()|*\- \t\r\n]", re.sub(r"#[^\n]*", " ", text)):
        return None
    at, open_, moves = 0, 0, []
    for token in tokens:
        open_ += (token == "(") - (token == ")")
        if open_ > 64:
            return None

    def take(token):
        nonlocal at
        if at < len(tokens) and tokens[at] == token:
            at += 1
            return True
        return False

    def a_word():
        nonlocal at
        need(at < len(tokens) and WORD.match(tokens[at]), "")
        at += 1
        return tokens[at - 1]

    def symbol(kind, name, m):
        back = kind == "edge" and take("-")
        moves.append((m, m + 1, kind, name, back))
        return m + 2

    def atom(m):
        if take(":"):
            return symbol("edge", a_word(), m)
        if take("_"):
            return symbol("edge", None, m)
        if take("!"):
            need(take(":"), "")
            return symbol("test", a_word(), m)
        if take("~"):
            name = a_word()
            need(name not in RESERVED, "")
            return symbol("view", name, m)
        need(take("("), "")
        m = alt(m)
        need(take(")"), "")
        return m

    def star(m):
        first = len(moves)
        end = atom(m)
        if not take("*"):
            return end
        moves[first:] = [(a + 1, b + 1, *rest) for a, b, *rest in moves[first:]]
        last = end + 1
        moves.extend((a, b, "skip", None, False) for a, b in ((m, m + 1), (m, last), (end, m + 1), (end, last)))
        return last + 1

    def cat(m):
        end = star(m)
        while at < len(tokens) and tokens[at] not in ("|", ")"):
            moves.append((end - 1, end, "skip", None, False))
            end = star(end)
        return end

    def alt(m):
        first, ends = len(moves), [(m, cat(m))]
        while take("|"):
            ends.append((ends[-1][1], cat(ends[-1][1])))
        if len(ends) == 1:
            return ends[0][1]
        moves[first:] = [(a + 1, b + 1, *rest) for a, b, *rest in moves[first:]]
        last = ends[-1][1] + 1
        for begin, end in ends:
            moves.append((m, begin + 1, "skip", None, False))
            moves.append((end, last, "skip", None, False))
        return last + 1

    try:
        states = alt(0)
    except Wrong:
        return None
    return (moves, states) if at == len(tokens) and states <= 1024 else None


def numbers(s):
    def move(m):
        return whole(m["to"], 2**32 - 1) and ident(m.get("edge", 0)) and whole(m.get("segment", 0), 2**32 - 1)

    return (all(ident(q[0]) and whole(q[1], 2**32 - 1) and is_cost(q[2]) for q in s["potentials"]) and ident(s["start"])
            and all(is_cost(t["cost"]) and all(map(ident, t["walk"])) for t in s["segments"])
            and all(is_cost(w["cost"]) and all(map(move, w["run"])) and all(map(ident, w["walk"])) for w in s["walks"]))


def rejected(s, nodes, edges, moves, states):
    """The first rule that does not hold, or None."""
    leaving, along, views = defaultdict(list), defaultdict(list), defaultdict(list)
    for m in moves:
        leaving[m[0]].append(m)
    for e, ((a, b), labels) in edges.items():
        along[a, False].append((b, e, labels))
        along[b, True].append((a, e, labels))
    for i, t in enumerate(s["segments"]):
        views[t["walk"][0], t["view"]].append((t["walk"][-1], i, int(t["cost"])))

    def steps(node, state):
        """All moves from a pair: the pair, what they cost, and by what they go."""
        for _, to, kind, name, back in leaving[state]:
            if kind == "skip" or kind == "test" and name in nodes[node]:
                yield (node, to), 0, {}
            elif kind == "edge":
                for end, e, labels in along[node, back]:
                    if name is None or name in labels:
                        yield (end, to), 1, {"edge": e}
            elif kind == "view":
                for end, i, cost in views[node, name]:
                    yield (end, to), cost, {"segment": i}

    pairs = [(q[0], q[1]) for q in s["potentials"]]
    if any(a >= b for a, b in zip(pairs, pairs[1:])) or any(n not in nodes or q >= states for n, q in pairs):
        return "K1"
    potential = {(n, q): int(c) for n, q, c in s["potentials"]}
    start = s["start"]
    if start not in nodes or potential.get((start, 0)) != 0:
        return "K2"
    led = [(p, q, cost) for p in pairs for q, cost, _ in steps(*p)]
    if any(q not in potential for _, q, _ in led):
        return "K3"
    if any(potential[q] > potential[p] + cost for p, q, cost in led):
        return "K4"
    paths = [t["walk"][1:] for t in s["segments"]]
    for w in s["walks"]:
        node, state, left = start, 0, w["walk"][1:]
        ok = w["walk"][0] == start
        for m in w["run"]:
            by = {k: v for k, v in m.items() if k != "to"}
            passed = [by["edge"], *left[1:2]] if "edge" in by else paths[by["segment"]] if by.get("segment", len(paths)) < len(paths) else []
            to = passed[-1] if passed else node
            ok = ok and left[:len(passed)] == passed and any(p == (to, m["to"]) and b == by for p, _, b in steps(node, state))
            if not ok:
                return "K5"
            node, state, left = to, m["to"], left[len(passed):]
        if not ok or left or (node, state) != (w["walk"][-1], states - 1):
            return "K5"
    for w in s["walks"]:
        cost = sum(1 if "edge" in m else int(s["segments"][m["segment"]]["cost"]) if "segment" in m else 0 for m in w["run"])
        if cost != int(w["cost"]) or potential.get((w["walk"][-1], states - 1)) != cost:
            return "K6"
    return None


def check(data):
    searches, told = read(data), []
    for i, s in enumerate(searches):
        g, a = graph(s["graph"]), automaton(s["expression"])
        need(g, f"C3 BadGraph search {i}")
        need(a, f"C4 BadExpression search {i}")
        need(numbers(s), f"C6 BadNumber search {i}")
        need(all(len(t["walk"]) > 1 and is_walk(t["walk"], *g) and word(t["view"]) and t["view"] not in RESERVED
                 and 1 <= int(t["cost"]) < 2**63 for t in s["segments"]), f"C5 BadSegment search {i}")
        told.append((s, *g, *a))
    for i, parts in enumerate(told):
        rule = rejected(*parts)
        need(rule is None, f"rejected search {i} {rule}")
    return len(searches)


if __name__ == "__main__":
    sys.setrecursionlimit(100000)
    try:
        print("accepted", check(open(sys.argv[1], "rb").read()))
    except Wrong as wrong:
        print(wrong)
        sys.exit(9)
