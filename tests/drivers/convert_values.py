#!/usr/bin/python3
"""Asks the rules of kbfeed-convert what they make of single cells, and prints each that differs from a table.

convert_values.py TABLE

A line of the table has a rule, a cell, and what is wanted of it. The last line counts them."""
import pathlib
import sys

sys.dont_write_bytecode = True
sys.path.insert(0, str(pathlib.Path(__file__).resolve().parent.parent.parent / "tools" / "convert"))
from kbfeed_convert import coverage, dates, identifiers, kinds, labels, names, record, statuses, values, volumes
from kbfeed_convert.faults import Refused
from kbfeed_convert.texts import folded


def date(cell, is_last, order):
    found = dates.read(cell, is_last, order).text
    return "not read" if found is None else found.strip()


def ranges(cell):
    found = coverage.read(cell.replace("\\n", "\n"), "").ranges
    return ", ".join(f"{it.first} to {it.last or '-'}" for it in found) or "not read"


def pair(cell):
    print_, online = ([it for it in side.split(",") if it] for side in cell.split(";"))
    return " ".join("/".join(it) for it in record.paired(print_, online, []))


def name(cell):
    try:
        return names.release(cell, "", "")
    except Refused as fault:
        return "no package" if "package" in str(fault) else "no date"


RULES = {
    "numbers": lambda cell: " ".join(it.text for it in identifiers.numbers(cell)),
    "first": lambda cell: date(cell, False, ""),
    "first dmy": lambda cell: date(cell, False, "dmy"),
    "first mdy": lambda cell: date(cell, False, "mdy"),
    "last": lambda cell: date(cell, True, ""),
    "coverage": ranges,
    "volume first": lambda cell: volumes.read(cell, False),
    "volume last": lambda cell: volumes.read(cell, True),
    "volumes": lambda cell: " to ".join(it or "-" for it in volumes.both(cell)),
    "embargo": values.embargo,
    "embargo in": lambda cell: coverage.read(cell, "").embargo,
    "embargo days": lambda cell: values.embargo(cell, "D"),
    "embargo months": lambda cell: values.embargo(cell, "M"),
    "embargo years": lambda cell: values.embargo(cell, "Y"),
    "title": values.title,
    "address": lambda cell: values.address(cell, {}),
    "depth": values.depth,
    "access": values.access,
    "held": statuses.verdict,
    "type": lambda cell: kinds.KINDS.get(folded(cell), "unknown"),
    "label": lambda cell: labels.label(cell) or "unknown",
    "pair": pair,
    "name": name,
}


def main():
    lines = pathlib.Path(sys.argv[1]).read_text(encoding="utf-8").split("\n")
    count = right = 0
    for rule, cell, wanted in (it.split("\t") for it in lines if it and it[0] != "#"):
        found = RULES[rule](cell) or "-"
        count += 1
        right += found == wanted
        if found != wanted:
            print(f"{rule} {cell!r}: {found!r}, wanted {wanted!r}")
    print(f"{right} of {count} cells")


if __name__ == "__main__":
    main()
