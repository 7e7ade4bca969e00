"""What a page asks for: a query, its graphs and a command, read from the body of a request."""
import json
import os
import re
from dataclasses import dataclass

from lib.repository import reserved_words
from play.runs import Refused

MOST_GRAPHS = 8
QUERY_BYTES = 1_048_576
GRAPH_BYTES = 33_554_432
BODY_BYTES = 2 * GRAPH_BYTES
WORD = re.compile(r"[A-Za-z][A-Za-z0-9_]{0,99}")
RUNS_A_SESSION = ("run", "explain", "cert")
COMMANDS = (*RUNS_A_SESSION, "check")


@dataclass
class Session:
    """A command with the text of its query (or certificate), and the names and texts of its graphs."""

    command: str
    query: str
    names: list
    graphs: list


def text_of(value, most, what):
    """A text of at most `most` bytes; Refused where it is none."""
    if not isinstance(value, str):
        raise Refused(400, "%s is no text" % what)
    try:
        size = len(value.encode("utf-8"))
    except UnicodeEncodeError:
        raise Refused(400, "%s has half a character" % what) from None
    if size > most:
        raise Refused(413, "%s has more than %d bytes" % (what, most))
    return value


def object_of(body, keys):
    """The JSON object of a body with exactly these keys; Refused where it is none."""
    try:
        value = json.loads(body)
    except (ValueError, RecursionError):
        raise Refused(400, "the body is no JSON") from None
    if not isinstance(value, dict) or set(value) != set(keys):
        raise Refused(400, "the body is no object with the keys %s" % ", ".join(keys))
    return value


def name_of(value, reserved):
    """The name of a graph; Refused where it is none."""
    if not isinstance(value, str) or not WORD.fullmatch(value) or value in reserved:
        raise Refused(400, "a graph's name is a letter, then letters, digits and _, and no reserved word")
    return value


def session_of(body):
    """The session that a body asks for; Refused where it asks for none."""
    asked = object_of(body, ("command", "query", "graphs"))
    if asked["command"] not in COMMANDS:
        raise Refused(400, "no such command")
    pairs = asked["graphs"]
    if not isinstance(pairs, list) or not 1 <= len(pairs) <= MOST_GRAPHS:
        raise Refused(400, "a session has 1 to %d graphs" % MOST_GRAPHS)
    if not all(isinstance(pair, dict) and set(pair) == {"name", "text"} for pair in pairs):
        raise Refused(400, "a graph is an object with the keys name, text")
    reserved = set(reserved_words())
    names = [name_of(pair["name"], reserved) for pair in pairs]
    if len(set(names)) < len(names):
        raise Refused(400, "two graphs have one name")
    most = QUERY_BYTES if asked["command"] in RUNS_A_SESSION else GRAPH_BYTES
    graphs = [text_of(pair["text"], GRAPH_BYTES, "graph %s" % name) for pair, name in zip(pairs, names)]
    return Session(asked["command"], text_of(asked["query"], most, "the query"), names, graphs)


def graph_text_of(body):
    """The text of the one graph that a body asks to look at."""
    return text_of(object_of(body, ("text",))["text"], GRAPH_BYTES, "the graph")


def write_file(folder, name, text):
    """Writes a text to a file of the folder."""
    with open(os.path.join(folder, name), "w", encoding="utf-8", newline="") as file:
        file.write(text)


def words_in(folder, session):
    """Writes the session's files under names of the server's own, and gives the words of the program."""
    if session.command not in RUNS_A_SESSION:
        write_file(folder, "c", session.query)
        return [session.command, "c"]
    write_file(folder, "q", session.query)
    pairs = []
    for number, (name, text) in enumerate(zip(session.names, session.graphs)):
        write_file(folder, "g%d" % number, text)
        pairs.append("%s=g%d" % (name, number))
    return [session.command, "q", *pairs]
