"""The tables of a program that answers several: each goes from its line `## NAME` to the next of these."""
from pathlib import Path

CRATES = Path(__file__).resolve().parent.parent / "crates"


def around(crate, name, file):
    """What a file of a program has before a table, the table, and what it has behind the table."""
    path = CRATES / crate / file
    text = path.read_text()
    start = text.index(f"## {name}\n") + len(f"## {name}\n")
    end = text.find("\n## ", start)
    end = len(text) if end < 0 else end
    return path, text[:start], text[start:end], text[end:]


def is_table(crate, name, file, table):
    """Whether this is the table in a file of a program."""
    return around(crate, name, file)[2] == table


def write_table(crate, name, file, table):
    """Puts a table into a file of a program, in place of the one that it has."""
    path, before, _, behind = around(crate, name, file)
    path.write_text(before + table + behind)
