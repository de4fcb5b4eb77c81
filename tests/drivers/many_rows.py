#!/usr/bin/env python3
"""Prints a good list.

many_rows.py ROWS TITLES

The list has ROWS rows, of TITLES titles in turn. The ISSN of a title is made of its number, from 0."""
import sys

sys.dont_write_bytecode = True
from holdings import issn_of_digits  # noqa: E402

LABELS = ["publication_title", "print_identifier", "online_identifier", "date_first_issue_online",
          "num_first_vol_online", "date_last_issue_online", "num_last_vol_online", "title_url"]


def issn(number):
    return issn_of_digits(f"{number:07}")


def main():
    rows, titles = map(int, sys.argv[1:])
    fronts = [f"Title {title}\t{issn(title)}\t\t" for title in range(min(rows, titles))]
    print("\t".join(LABELS))
    sys.stdout.writelines(
        f"{fronts[row % titles]}{first}\t{row % 40}\t{first + 9}\t{row % 40 + 9}\thttps://a.example/{row}\n"
        for row in range(rows) for first in [1900 + row // titles % 100])


if __name__ == "__main__":
    main()
