#!/usr/bin/env python3
"""Compares the places that `Holdings::with_issn` and `with_isbn` return with those of a plain search.

indexed_lists.py [NAME ROWS]

Each list is written to the file `list` in the current folder. test_lists reads it at once and in windows of some
sizes, and prints the places of some identifiers: of the first and the last row, of rows between them, and of none.
Prints a line for each list, and each line of test_lists that is not the one wanted. Fails if there is one. With
NAME and ROWS it only writes a list of so many rows, such as `ascending`, and prints the first and the last ISSN."""
import functools
import subprocess
import sys

import many_rows
from holdings import isbn_of_digits

# A run of the index has at most so many entries.
RUN = 65_536
issn = functools.cache(many_rows.issn)


@functools.cache
def isbn(number):
    return isbn_of_digits(f"978{number:09}")


# The identifiers of a row of each list, by its place and the number of rows.
LISTS = {
    "ascending": lambda row, rows: (issn(row), ""),
    "descending": lambda row, rows: ("", issn(rows - row)),
    "of one ISSN": lambda row, rows: (issn(7), ""),
    "with equal ISSNs": lambda row, rows: (issn(row % 1_000), issn(row % 1_000)),
    "with two ISSNs": lambda row, rows: (issn(row * 7_919 % 5_003), issn(5_000_000 + row % 3)),
    "with books": lambda row, rows: (isbn(row % 401), isbn(401 - row % 401)) if row % 2 else (issn(row % 401), ""),
}


def write_list(identifiers):
    with open("list", "w", encoding="ascii") as out:
        print(*many_rows.LABELS, "publication_type", sep="\t", file=out)
        out.writelines(f"T\t{first}\t{second}\t\t\t\t\t\t{'monograph' if len(first) == 13 else ''}\n"
                       for first, second in identifiers)


def places_of(wanted, identifiers):
    """Returns the line that test_lists has to print of each wanted identifier."""
    found = {it: ["places"] for it in wanted}
    for place, (first, second) in enumerate(identifiers):
        if first in found:
            found[first].append(str(place))
        if second in found and second != first:
            found[second].append(str(place))
    return {it: " ".join(places) for it, places in found.items()}


def check_list(name, rows, steps):
    identifiers = [LISTS[name](row, rows) for row in range(rows)]
    write_list(identifiers)
    asked = [row[0] or row[1] for row in identifiers[::rows // 5 + 1] + identifiers[-1:]]
    asked += [row[1] for row in identifiers[-1:] if row[1]] + [issn(9_999_999), isbn(999_999_999)]
    lines = [f"places {step} list {' '.join(asked)}\n" for step in steps]
    printed = subprocess.run(["test_lists"], input="".join(lines), capture_output=True, text=True, check=True)
    places = places_of(asked, identifiers)
    expected = [(step, it, places[it]) for step in steps for it in asked]
    wrong = [(step, it) for (step, it, want), got in zip(expected, printed.stdout.splitlines(), strict=True)
             if got != want]
    for step, it in wrong:
        print(f"{rows} rows {name}: places {step} list {it}")
    if not wrong:
        print(f"{rows} rows {name}")
    return not wrong


def write_one(name, rows):
    identifiers = [LISTS[name](row, rows) for row in range(rows)]
    write_list(identifiers)
    print(*[row[0] or row[1] for row in (identifiers[0], identifiers[-1])])


def main():
    if len(sys.argv) == 3:
        write_one(sys.argv[1], int(sys.argv[2]))
        return
    whole = 1 << 30
    good = [check_list(name, rows, [1, 100, whole]) for name in LISTS for rows in (1, 64, 130)]
    good += [check_list(name, rows, [131_072, whole]) for name in LISTS for rows in (RUN - 1, RUN, RUN + 1)]
    good += [check_list(name, rows, [131_072]) for name in LISTS for rows in (5 * RUN + 77,)]
    sys.exit(0 if all(good) else 1)


if __name__ == "__main__":
    main()
