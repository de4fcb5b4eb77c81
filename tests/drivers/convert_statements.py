#!/usr/bin/python3
"""Asks kbfeed-convert what statements of coverage say, and prints each answer that differs from a table.

convert_statements.py TABLE COUNT [SEED]

A line of the table has who writes a statement so, the statement, and what is wanted of it: its first lines say in which
form. The last line counts them.

Statements that differ in their numbers alone are parsed once. COUNT statements of the table, with other numbers, have
to be read as the parser reads each of them alone. How many were of a known shape is printed on standard error."""
import pathlib
import random
import re
import sys

sys.dont_write_bytecode = True
sys.path.insert(0, str(pathlib.Path(__file__).resolve().parent.parent.parent / "tools" / "convert"))
from kbfeed_convert import coverage, shapes


def shown(one):
    """Returns a range in the form of the table."""
    if not any(one):
        return "all"
    text = f"{one.first or '-'} to {one.last or '-'}"
    for sign, first, last in (("v", one.first_volume, one.last_volume), ("n", one.first_issue, one.last_issue)):
        text += f" {sign}{first}-{last}" if first or last else ""
    return text


def said(statement):
    """Returns what a statement says in the form of the table."""
    if not statement.ranges:
        return "not read"
    words = [", ".join(map(shown, statement.ranges)), statement.embargo, "partly" if statement.unread else ""]
    return " ".join(it for it in words if it)


def number(r, text):
    """Returns another number, or the same one: years are often near each other."""
    if r.random() < 0.3:
        return text
    if len(text) == 4:
        return str(r.choice([r.randrange(1300, 2300), r.randrange(1980, 2000), r.randrange(1990, 1994)]))
    return str(r.choice([r.randrange(13), r.randrange(1, 32), r.randrange(1, 400)]))


def compare(cells, count, r):
    """Reads statements with other numbers by their shapes and one by one."""
    known = 0
    for _ in range(count):
        cell = re.sub("[0-9]+", lambda it: number(r, it[0]), r.choice(cells))
        notation = r.choice(["", "dmy", "mdy"]), r.random() < 0.3, r.random() < 0.3
        shape = shapes.shape_of(cell)
        known += shape is not None and coverage.TEMPLATES.known.get(shape.key) is not None
        one = coverage.TEMPLATES.read(cell, lambda it: coverage.parsed(it, *notation))
        other = coverage.parsed(cell, *notation)
        assert one == other, f"{cell!r}: {one}, and by itself {other}"
    print(f"{known} of a known shape", file=sys.stderr)
    print(f"{count} statements with other numbers: the same")


def main():
    lines = pathlib.Path(sys.argv[1]).read_text(encoding="utf-8").split("\n")
    count = right = 0
    for who, cell, wanted in (it.split("\t") for it in lines if it and it[0] != "#"):
        found = said(coverage.read(cell.replace("\\n", "\n"), ""))
        count += 1
        right += found == wanted
        if found != wanted:
            print(f"{who} {cell!r}: {found!r}, wanted {wanted!r}")
    print(f"{right} of {count} statements")
    cells = [it.split("\t")[1].replace("\\n", "\n") for it in lines if it and it[0] != "#"]
    compare(cells, int(sys.argv[2]), random.Random(int(sys.argv[3]) if len(sys.argv) > 3 else 1))


if __name__ == "__main__":
    main()
