"""The examples of a page of documentation.

A page shows an example as a line that names it, its graph files and its files, then the query, then the answer:

    Example [by-label](../examples/language/by-label.gcore) on people = [people.json](../examples/language/people.json)

and behind it one block for the query and, where the answer is known, one for what the program writes: first what
goes to standard output, then the line on standard error, if there is one. The answer stands beside the query file,
in NAME.answer.
"""
import os
import re
from dataclasses import dataclass

from lib.repository import TOP, read

PAGES = (os.path.join(TOP, "docs", "LANGUAGE.md"), os.path.join(TOP, "examples", "tour", "README.md"))
LINE = re.compile(r"^Example \[([A-Za-z0-9-]+)\]\(([^)]+)\) on (.+)$")
GRAPH = re.compile(r"^([A-Za-z][A-Za-z0-9_]*) = \[[^\]]+\]\(([^)]+)\)$")


@dataclass
class Example:
    """One example: the title of its page with its section, its name, the paths of its files, and the blocks that the page shows."""

    section: str
    name: str
    query: str
    graphs: list
    shown: list

    def answer(self):
        """What the program has to write, or None where the file is missing."""
        path = self.query[: -len(".gcore")] + ".answer"
        return read(path) if os.path.isfile(path) else None


def graphs_of(text, folder):
    """The pairs of a name and a path of `NAME = [..](FILE), ..`."""
    pairs = []
    for part in text.split(", "):
        found = GRAPH.match(part)
        if not found:
            raise ValueError("no graph is named by: " + part)
        pairs.append((found[1], os.path.normpath(os.path.join(folder, found[2]))))
    return pairs


def block_from(lines, at):
    """The block that begins at line `at` or behind empty lines there, and the line behind it; or None and `at`."""
    while at < len(lines) and not lines[at]:
        at += 1
    if at == len(lines) or not lines[at].startswith("```"):
        return None, at
    end = lines.index("```", at + 1)
    return "".join(line + "\n" for line in lines[at + 1 : end]), end + 1


def blocks_from(lines, at):
    """The one or two blocks that follow line `at`."""
    blocks = []
    block, at = block_from(lines, at)
    while block is not None and len(blocks) < 2:
        blocks.append(block)
        block, at = block_from(lines, at)
    return blocks


def examples_of(page):
    """The examples of one page, in its order."""
    folder, lines, found = os.path.dirname(page), read(page).split("\n"), []
    title = section = lines[0].removeprefix("# ")
    for at, line in enumerate(lines):
        if line.startswith("## "):
            section = "%s: %s" % (title, line[3:])
        named = LINE.match(line)
        if named:
            query = os.path.normpath(os.path.join(folder, named[2]))
            graphs = graphs_of(named[3], folder)
            found.append(Example(section, named[1], query, graphs, blocks_from(lines, at + 1)))
    return found


def all_examples():
    """The examples of all pages."""
    return [example for page in PAGES if os.path.isfile(page) for example in examples_of(page)]
