"""Where the things of this repository stand."""
import os

TOP = os.path.dirname(os.path.dirname(os.path.dirname(os.path.abspath(__file__))))
PROGRAM = os.path.join(TOP, "crates", "gcore", "out", "gcore")
CODES = os.path.join(TOP, "docs", "CODES.md")
RESERVED_WORDS = os.path.join(TOP, "editors", "reserved-words.txt")
HOW_TO_BUILD = "(cd crates/gcore && rt run -- run ../../examples/persons.gcore people=../../examples/people.json)"


def read(path):
    """The text of a file."""
    with open(path, encoding="utf-8") as file:
        return file.read()


def reserved_words():
    """The words that are no names, from the one list of them."""
    return read(RESERVED_WORDS).split()


def built_program(path):
    """The whole path of the built program, or a line that says what to do; one of the two is None.

    `path` is the path that was asked for, or None for the place where the repository builds it.
    """
    program = os.path.abspath(path or PROGRAM)
    if os.path.isfile(program) and os.access(program, os.X_OK):
        return program, None
    return None, "no program at %s; this command, at the top of the repository, builds it:\n  %s" % (program, HOW_TO_BUILD)
