#!/usr/bin/python3
"""Asks a node for months of each title of an export, and compares what it shows with a table.

library_days.py ADDR TABLE EXPORT

A line of the table has an export, an ISSN and the days that readers see of it. A month counts if its first day is one
of these, and if a hit is available then. Prints each title with other months, and then how many are right."""
import datetime
import json
import pathlib
import re
import sys
import urllib.request

sys.dont_write_bytecode = True
sys.path.insert(0, str(pathlib.Path(__file__).resolve().parent))
import convert_spoilt

# The months that are asked for: two of each year, and all of the last ones, where moving walls are.
YEARS = range(1934, datetime.date.today().year + 1)
MONTHS = [(year, month) for year in YEARS for month in (range(1, 13) if year > YEARS[-1] - 4 else (1, 7))]


def wanted(text, today):
    """Returns the months that a title of the table has."""
    convert_spoilt.TODAY = today
    wall = re.search(r" ([RP][0-9]+[DMY])$", text)
    ranges = [re.fullmatch(r"(\S+) to (\S+)", it.strip()) for it in re.sub(r" [RP][0-9]+[DMY]$", "", text).split(",")]
    years = [tuple(0 if year == "-" else int(year) for year in it.groups()) for it in ranges if it]
    days = convert_spoilt.days(years, wall[1] if wall else "")
    return {it for it in MONTHS if any(first <= datetime.date(*it, 1) <= last for first, last in days)}


def shown(address, issn):
    """Returns the months for which a node shows a title."""
    found = set()
    for year, month in MONTHS:
        url = f"http://{address}/resolve?rft.issn={issn}&rft.date={year}-{month:02}-01&format=json"
        with urllib.request.urlopen(url, timeout=60) as reply:
            hits = json.load(reply)["hits"]
        if any(it["availability"] == "available" for it in hits):
            found.add((year, month))
    return found


def main():
    address, table, export = sys.argv[1:4]
    today = datetime.datetime.now(datetime.timezone.utc).date()
    lines = pathlib.Path(table).read_text(encoding="utf-8").split("\n")
    count = right = 0
    for issn, text in (it.split("\t")[1:] for it in lines if it.startswith(f"{export}\t")):
        count += 1
        months, has = wanted(text, today), shown(address, issn)
        right += months == has
        if months != has:
            print(f"{export} {issn} {text}: too many {sorted(has - months)[:5]}, missing {sorted(months - has)[:5]}")
    print(f"{export}: {right} of {count} titles")


if __name__ == "__main__":
    main()
