#!/usr/bin/env python3
"""The peers of `bench/peers` for the program sqlite3: prints the commands of a workload, which read the
graph file by SQLite's own JSON functions into two tables and print the answer.

    peers_sqlite.py WORKLOAD FILE [FILE] | sqlite3

Shortest and first walks are left out: a recursive query of SQL has no queue in order of cost.
"""
import sys

# The tables of a graph; the values of an element's properties are told as lists, in order of their names.
LOAD = """
CREATE TABLE {to}_node (id INTEGER PRIMARY KEY, labels TEXT, properties TEXT);
CREATE TABLE {to}_edge (id INTEGER PRIMARY KEY, source INTEGER, target INTEGER, labels TEXT, properties TEXT);
CREATE TEMP TABLE text AS SELECT readfile('{file}') AS graph;
INSERT INTO {to}_node SELECT value ->> 'id', value -> 'labels', value -> 'properties' FROM text, json_each(graph, '$.nodes') ORDER BY 1;
INSERT INTO {to}_edge SELECT value ->> 'id', value ->> 'from', value ->> 'to', value -> 'labels', value -> 'properties'
    FROM text, json_each(graph, '$.edges') ORDER BY 1;
DROP TABLE text;
"""
BY_SOURCE = "CREATE INDEX by_source ON g_edge (source, target);\n"
FREE = "(SELECT max(id) + 1 FROM (SELECT id FROM g_node UNION ALL SELECT id FROM g_edge))"
LISTS = "(SELECT json_group_object(key, json_array(value)) FROM (SELECT key, value FROM json_each({}) ORDER BY key))"
NODE = "json_object('id', n.id, 'labels', json(n.labels), 'properties', json(" + LISTS.format("n.properties") + "))"
EDGE = (
    "json_object('from', e.source, 'id', e.id, 'labels', json(e.labels), 'properties', json(" + LISTS.format("e.properties") + "), 'to', e.target)"
)
NEW_EDGE = "json_object('from', a, 'id', " + FREE + " + row_number() OVER (ORDER BY a, c) - 1, 'labels', json_array('{}'), 'properties', json('{{}}'), 'to', c)"
ANSWER = """SELECT '{{"edges":[' || coalesce((SELECT group_concat(t, ',') FROM ({edges})), '')
    || '],"gcore":1,"nodes":[' || coalesce((SELECT group_concat(t, ',') FROM ({nodes})), '') || '],"paths":[]}}';
"""
NONE = "SELECT 1 AS t WHERE 0"


def answer(nodes, edges=NONE):
    return ANSWER.format(nodes=nodes, edges=edges)


def has(label, of):
    return "EXISTS (SELECT 1 FROM json_each(%s.labels) WHERE value = '%s')" % (of, label)


def those(condition):
    return "SELECT %s AS t FROM g_node n WHERE %s ORDER BY n.id" % (NODE, condition)


def with_count(name, table):
    """Nodes with one more property, a count, in its place among the others by name."""
    lists = LISTS.format("json_set(n.properties, '$.%s', k.count)" % name)
    whole = NODE.replace(LISTS.format("n.properties"), lists)
    return "SELECT %s AS t FROM g_node n JOIN %s k ON k.id = n.id ORDER BY n.id" % (whole, table)


KNOWS = "CREATE TABLE knows AS SELECT source AS a, target AS b FROM g_edge e WHERE %s;\nCREATE INDEX from_a ON knows (a, b);\n" % has("knows", "e")
TWO = "FROM knows one JOIN knows two ON two.a = one.b"
REACHED = (
    "WITH RECURSIVE reached (id) AS (SELECT id FROM g_node WHERE properties ->> 'name' = 0 UNION SELECT e.target FROM reached JOIN g_edge e ON e.source = reached.id)"
)
ALL_REACHED = (
    "CREATE TABLE pair AS WITH RECURSIVE pair (a, c) AS (SELECT id, id FROM g_node UNION SELECT a, e.target FROM pair JOIN g_edge e ON e.source = c) SELECT a, c FROM pair;\n"
)

# What stands in both of two graphs is told label by label and value by value; an absent value is none.
VALUES = "(SELECT json_group_object(key, json(vs)) FROM (SELECT key, json_group_array(value) AS vs FROM ({}) GROUP BY key ORDER BY key))"
BOTH_LABELS = "(SELECT json_group_array(value) FROM (SELECT value FROM json_each(x.labels) {op} SELECT value FROM json_each(y.labels) ORDER BY 1))"
BOTH_VALUES = VALUES.format("SELECT key, value FROM json_each(x.properties) {op} SELECT key, value FROM json_each(y.properties) ORDER BY 1, 2")


def combined(kind, op):
    """The table of what a set operation gives of nodes or of edges, with values as lists."""
    ends = ", x.source, x.target" if kind == "edge" else ""
    alone = "SELECT x.id%s, x.labels, %s AS properties FROM {} x LEFT JOIN {} y ON y.id = x.id WHERE y.id IS NULL" % (ends, LISTS.format("x.properties"))
    ours, theirs = "g_" + kind, "h_" + kind
    meet = {"union": "UNION", "intersect": "INTERSECT"}.get(op, "")
    both = "SELECT x.id%s, %s AS labels, %s AS properties FROM %s x JOIN %s y ON y.id = x.id" % (
        ends, BOTH_LABELS.format(op=meet), BOTH_VALUES.format(op=meet), ours, theirs,
    )
    parts = {
        "union": [both, alone.format(ours, theirs), alone.format(theirs, ours)],
        "intersect": [both],
        "minus": [alone.format(ours, theirs)],
    }[op]
    return "CREATE TABLE r_%s AS %s;\n" % (kind, " UNION ALL ".join(parts))


def set_operation(op):
    node = "json_object('id', id, 'labels', json(labels), 'properties', json(properties))"
    edge = "json_object('from', source, 'id', id, 'labels', json(labels), 'properties', json(properties), 'to', target)"
    nodes = "SELECT %s AS t FROM r_node ORDER BY id" % node
    ends = "source IN (SELECT id FROM r_node) AND target IN (SELECT id FROM r_node)"
    edges = "SELECT %s AS t FROM r_edge WHERE %s ORDER BY id" % (edge, ends)
    return combined("node", op) + combined("edge", op) + "CREATE UNIQUE INDEX by_id ON r_node (id);\n" + answer(nodes, edges)


WORKLOADS = {
    "scan": answer(those(has("Person", "n"))),
    "join": "CREATE TABLE large AS SELECT properties ->> 'name' AS name FROM g_node n WHERE %s AND properties ->> 'size' > 50;\n" % has("City", "n")
    + answer(those(has("Person", "n") + " AND n.properties ->> 'city' IN (SELECT name FROM large)")),
    "pairs": KNOWS
    + "CREATE TABLE pair AS SELECT DISTINCT one.a AS a, two.b AS c %s;\n" % TWO
    + answer(those("n.id IN (SELECT a FROM pair UNION SELECT c FROM pair)"), "SELECT %s AS t FROM pair ORDER BY a, c" % NEW_EDGE.format("near")),
    "hops": KNOWS + "CREATE TABLE counted AS SELECT two.b AS id, count(*) AS count %s GROUP BY two.b;\n" % TWO + answer(with_count("hops", "counted")),
    "triangle": KNOWS
    + answer(those("n.id IN (SELECT one.a %s JOIN knows three ON three.a = two.b AND three.b = one.a)" % TWO)),
    "group": "CREATE TABLE counted AS SELECT properties ->> 'city' AS city, count(*) AS count FROM g_node n WHERE %s GROUP BY 1 ORDER BY 1;\n" % has("Person", "n")
    + answer(
        "SELECT json_object('id', " + FREE + " + rowid - 1, 'labels', json_array('Total'), 'properties', json_object('count', json_array(count))) AS t FROM counted ORDER BY rowid"
    ),
    "optional": KNOWS
    + "CREATE TABLE counted AS SELECT n.id AS id, count(knows.b) AS count FROM g_node n LEFT JOIN knows ON knows.a = n.id WHERE %s GROUP BY n.id;\n" % has("Person", "n")
    + answer(with_count("friends", "counted")),
    "reach": BY_SOURCE + REACHED + answer(those("n.id IN (SELECT id FROM reached)")),
    "all_pairs": BY_SOURCE + ALL_REACHED + answer(those("1"), "SELECT %s AS t FROM pair ORDER BY a, c" % NEW_EDGE.format("reaches")),
    "union": set_operation("union"),
    "intersect": set_operation("intersect"),
    "minus": set_operation("minus"),
}


def commands(workload, files):
    loads = "".join(LOAD.format(to=to, file=file) for to, file in zip("gh", files))
    return "PRAGMA temp_store = MEMORY;\n" + loads + WORKLOADS[workload]


if __name__ == "__main__":
    sys.stdout.write(commands(sys.argv[1], sys.argv[2:]))
