#!/usr/bin/env python3
"""Compares how kbfeed understands the queries of real sources with what is wanted of each.

openurl_sources.py TABLE

TABLE has one query a line, as `kbfeed openurl --json` gets it, with the identifiers, the date and the volume that are
wanted, and in a note the DOI, the PMID and the reason of a refusal. A query that names an author has to have one in its
citation, and one that names none must not. Prints each difference, and then the counts."""
import json
import re
import subprocess
import sys
from urllib.parse import parse_qsl

# The keys that name an author, after `rft.` or alone.
AUTHOR_KEYS = {"au", "aulast", "aufirst", "auinit", "auinit1", "creator"}


def noted(name, pattern, note):
    found = re.search(name + "=(" + pattern + ")", note)
    return found[1] if found else ""


def names_author(query):
    pairs = parse_qsl(query.replace("&amp;", "&").lstrip("?"), encoding="latin-1")
    return any(key.lower().removeprefix("rft.") in AUTHOR_KEYS and value.strip() for key, value in pairs)


def wanted_of(fields):
    identifiers, date, volume, note = fields[4:8]
    return {
        "identifiers": "" if identifiers == "none" else identifiers,
        "date": date,
        "volume": volume,
        "doi": noted("doi", r"10\.\d+/[\w.()-]*[\w)](?:;1<2>)?", note),
        "pmid": noted("pmid", r"\d+", note),
        "refused": noted("refused", r"\w+", note) or ("NoIssn" if identifiers == "none" else ""),
        "author": names_author(fields[3]),
    }


def understood(query):
    run = subprocess.run(["kbfeed", "openurl", "--json", query], capture_output=True, text=True)
    read = json.loads(run.stdout)
    if run.returncode != (1 if read["refused"] else 0):
        sys.exit(f"status {run.returncode}: {query}")
    return {
        "identifiers": ",".join(read["issns"] + read["isbns"]),
        "date": read["date"],
        "volume": read["volume"],
        "doi": read["citation"]["doi"],
        "pmid": read["citation"]["pmid"],
        "refused": read["refused"],
        "author": bool(read["citation"]["author"]),
    }


def main():
    with open(sys.argv[1], encoding="utf-8") as file:
        rows = [line.rstrip("\n").split("\t") for line in file][1:]
    differing = 0
    for row in rows:
        wanted, got = wanted_of(row), understood(row[3])
        if wanted != got:
            differing += 1
            print(row[0], {name: (wanted[name], got[name]) for name in got if wanted[name] != got[name]})
    print(f"{len(rows)} queries, {differing} not as wanted")


if __name__ == "__main__":
    main()
