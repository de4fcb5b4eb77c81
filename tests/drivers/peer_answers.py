#!/usr/bin/env python3
"""Compares what the Rust peer of the benchmark prints with the reference model, on random lists and queries.

peer_answers.py PEER [--lists N] [--seed N]

The rules are those of holdings.py. For each list PEER prints the check, and then the answers to a hundred queries, in
one replay. The peer knows serials alone, so no list has books, and no query an ISBN or the format of books. Prints the
first lines that differ, and how many lists have some. Fails if one has, or if some grade, reason or fault never
occurred."""
import argparse
import itertools
import pathlib
import random
import re
import subprocess
import sys
import tempfile
import urllib.parse

sys.dont_write_bytecode = True
from holdings import Record, grade_of, issn_of, query_days_of, volume_of  # noqa: E402

NAME, QUERIES, SHOWN = "Acme_Global_All_2024-01-01.txt", 100, 3
LABELS = ["publication_title", "print_identifier", "online_identifier", "date_first_issue_online",
          "num_first_vol_online", "date_last_issue_online", "num_last_vol_online", "title_url", "title_id",
          "embargo_info", "coverage_depth", "publication_type", "access_type"]
PRINTED = ["publication_title", "title_url", "title_id", "coverage_depth", "embargo_info", "access_type"]
ISSNS = ["2434-561X", "0317-8471", "1050-124X", "2049-3630"]
DATES = ["", "1995", "1995-01-01", "1995-12-31", "1996-02", "1996-02-29", "2001", "2001-07", "2001-07-31"]
VOLUMES = ["", "", "1", "007", "7", "12", "999999999", "1234567890", "XIV", "-1"]
VALUES = {
    "publication_title": ["Acta", 'A "b"', "", " Beta", "\u00e9tudes", "Gamma\\n"],
    "print_identifier": [*ISSNS, "2434561x", " 2434-561x ", "", "", "2434-5611", "24345-61X", "2434-561-X"],
    "online_identifier": ["", "", *ISSNS[:2], "x"],
    "date_first_issue_online": [*DATES, "", " 1995 ", "1995-13", "0000", "Winter"],
    "date_last_issue_online": [*DATES, "", "", "", "2024", "1995-02-29"],
    "num_first_vol_online": VOLUMES, "num_last_vol_online": VOLUMES,
    "title_url": ["http://a.example/", ""], "title_id": ["A1", ""], "embargo_info": ["", "P1Y"],
    "coverage_depth": ["", "fulltext"], "access_type": ["", "P", "F"],
    "publication_type": ["", "", "serial", "Serial ", "database"],
}
PAIRS = {
    "rft.issn": ["2434-561X", "2434561x", " 0317-8471 ", "1050-124X", "2434-5611", ""], "rft.eissn": [*ISSNS, "x"],
    "rft_id": ["urn:ISSN:2434-561X", "URN:issn:03178471", "urn:ISBN:9780306406157", "info:doi/10.5555/1"],
    "rft.date": [*DATES, "199602", "19960229", " 2001-07 ", " 200107 ", "200113", "Winter"],
    "rft.volume": [*VOLUMES, " 7 "], "Rft.issn": ISSNS, "rft.jtitle": ["Acta & co"],
    "url_ver": ["Z39.88-2004", "", "Z39.88-2004", "Z39.88-2003"], "ctx_ver": ["Z39.88-2004"],
    "rft_val_fmt": ["info:ofi/fmt:kev:mtx:journal", "", "info:ofi/fmt:kev:mtx:patent"],
}
# How often a query has each of them.
WEIGHTS = [8, 4, 2, 7, 5, 1, 1, 1, 1, 1]
# What has to occur in the answers.
WORDS = {"inside", "overlap", "untested", "OtherType", "NoIssn", "BadDate", "Reversed", "Version", "OtherFormat"}


class Query:
    """What a query asks for, or the fault for which it is refused."""

    def __init__(self, text):
        parts = [part.partition("=")[::2] for part in text.split("&") if part]
        pairs = [tuple(urllib.parse.unquote_plus(it, errors="surrogateescape") for it in pair) for pair in parts]
        ids = [value[9:] for key, value in pairs if key == "rft_id" and value[:9].lower() == "urn:issn:"]
        ids += [value for key, value in pairs if key in ("rft.issn", "rft.eissn")]
        self.identifiers = {issn_of(it) for it in ids} - {None}
        self.days = next(filter(None, (query_days_of(value) for key, value in pairs if key == "rft.date")), None)
        volumes = (volume_of(value) for key, value in pairs if key == "rft.volume")
        self.volume = next((it for it in volumes if it is not None), None)
        self.fault = None
        if any(value not in ("", "Z39.88-2004") for key, value in pairs if key in ("url_ver", "ctx_ver")):
            self.fault = "Version"
        elif any(value not in ("", "info:ofi/fmt:kev:mtx:journal") for key, value in pairs if key == "rft_val_fmt"):
            self.fault = "OtherFormat"
        elif not self.identifiers:
            self.fault = "NoIssn"


class List:
    """A random list: its text, and its records with their numbers. Empty lines have none."""

    def __init__(self, dice):
        made = [{label: dice.choice(values) for label, values in VALUES.items()} for _ in range(dice.randint(0, 30))]
        lines = ["\t".join(LABELS), *("\t".join(cells[label] for label in LABELS) for cells in made)]
        self.text = "".join(line + dice.choice(["\n", "\n", "\r\n", "\n\n"]) for line in lines)
        self.records = [(number, cells, Record(cells)) for number, cells in enumerate(made, 2)]

    def check(self):
        """Returns the lines of a check."""
        aside = [f"aside {number} {record.aside}" for number, _, record in self.records if record.aside]
        return [f"release {NAME}", f"rows {len(self.records) - len(aside)} aside {len(aside)}", *aside]

    def answer(self, text):
        """Returns the lines of the answer to a query."""
        query = Query(text)
        if query.fault:
            return [f"refused {query.fault}"]
        rows = [(number, cells, record) for number, cells, record in self.records if not record.aside]
        graded = [(number, grade_of(record, query), cells) for number, cells, record in rows]
        hits = ["\t".join([str(number), grade, *(cells[it] for it in PRINTED)])
                for number, grade, cells in graded if grade]
        return [f"release {NAME} hits {len(hits)}", *hits]


def query_of(dice):
    """Returns the text of a random query, of which some bytes are escaped."""
    pairs = [(key, dice.choice(PAIRS[key])) for key in dice.choices([*PAIRS], WEIGHTS, k=dice.randint(0, 5))]
    return "&".join(f"{key}={escaped(dice, value)}" for key, value in pairs)


def escaped(dice, text):
    """Returns a value in which the bytes that have a meaning are escaped, and some others."""
    space = dice.choice(["+", "%20"])
    return "".join(space if it == " " else f"%{ord(it):02x}" if it in "&+%" or dice.random() < 0.1 else it
                   for it in text)


def script_of(made, queries):
    """Returns a script of a replay that publishes a list, and asks."""
    text = re.sub(r"[\\\t\r\n]", lambda it: {"\\": "\\\\", "\t": "\\t", "\r": "\\r", "\n": "\\n"}[it[0]], made.text)
    lines = ["nodes 1", f"publish {NAME} {text}", f"offer 1 {NAME}", f"deliver 1 {NAME} 0 {len(made.text.encode())}"]
    return "".join(f"{line}\n" for line in [*lines, *(f"ask 1 Acme_Global_All {it}" for it in queries)])


def printed_by(peer, file, script):
    """Returns the lines that a check of a file and a replay of a script print."""
    runs = [subprocess.run([peer, *words], input=text.encode(), stdout=subprocess.PIPE, stderr=subprocess.STDOUT,
                           check=False) for words, text in [(["check", file], ""), (["replay"], script)]]
    return b"".join(it.stdout for it in runs).decode(errors="backslashreplace").split("\n")[:-1]


def difference(wanted, found):
    """Returns what differs first, or None."""
    for one, other in itertools.zip_longest(wanted, found):
        if one != other:
            return f"wanted {one!r}, printed {other!r}"
    return None


def main():
    asked = argparse.ArgumentParser(description=__doc__, formatter_class=argparse.RawDescriptionHelpFormatter)
    asked.add_argument("peer")
    asked.add_argument("--lists", type=int, default=50)
    asked.add_argument("--seed", type=int, default=1)
    given = asked.parse_args()
    dice, wrong, words = random.Random(given.seed), [], set()
    with tempfile.TemporaryDirectory() as folder:
        file = pathlib.Path(folder) / NAME
        for _ in range(given.lists):
            made, queries = List(dice), [query_of(dice) for _ in range(QUERIES)]
            file.write_text(made.text, encoding="utf-8", newline="")
            answers = [line for query in queries for line in made.answer(query)]
            wanted = [*made.check(), "published", "noted", "activated", *answers]
            words.update(re.findall(r"^(?:aside \d+|\d+|refused)[ \t](\w+)", "\n".join(wanted), re.M))
            wrong.append(difference(wanted, printed_by(given.peer, file, script_of(made, queries))))
    wrong, unmet = [it for it in wrong if it], sorted(WORDS - words)
    print("".join(f"{it}\n" for it in wrong[:SHOWN]), end="")
    print(f"{given.lists} lists with {QUERIES} queries each: {len(wrong)} differ"
          + (f"; never met: {', '.join(unmet)}" if unmet else ""))
    return 1 if wrong or unmet else 0


if __name__ == "__main__":
    sys.exit(main())
