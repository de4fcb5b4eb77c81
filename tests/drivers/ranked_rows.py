#!/usr/bin/env python3
"""Prints a good list whose rows have one ISSN and 21 ranks for a query for the year 2000.

ranked_rows.py ROWS ORDER

Each rank has ROWS rows. ORDER is `rising`, with the best rows at the end, or `falling`."""
import sys

from many_rows import LABELS, issn

# The first and the last day and the embargo of rows that fit a year ever better, and the depth and access of each.
FITS = [("2000-03-01", "2000-06-30", "P100Y"), ("1990", "2010", "P100Y"), ("", "", "odd"),
        ("2000-03-01", "2000-06-30", "odd"), ("1990", "2010", "odd"), ("2000-03-01", "2000-06-30", ""),
        ("1990", "2010", "")]
ACCESS = [("", "P"), ("fulltext", "P"), ("fulltext", "F")]


def main():
    count, order = int(sys.argv[1]), sys.argv[2]
    ranks = [(*fit, *access) for fit in FITS for access in ACCESS]
    print("\t".join([*LABELS, "embargo_info", "coverage_depth", "access_type"]))
    for first, last, embargo, depth, access in ranks if order == "rising" else ranks[::-1]:
        for _ in range(count):
            print("Title", issn(0), "", first, "", last, "", "https://a.example/", embargo, depth, access, sep="\t")


if __name__ == "__main__":
    main()
