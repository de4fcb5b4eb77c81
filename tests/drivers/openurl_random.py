#!/usr/bin/env python3
"""Holds how random queries are understood against what the core answers.

openurl_random.py COUNT SEED LIST

Makes queries of the keys of OpenURL 1.0 and 0.1, alone and mixed, with values that `kbfeed answer` reads and others.
What `kbfeed openurl` writes of each has to be accepted by `kbfeed answer` with the list, and understood as itself. If
the query is answered as it is, the answer to what is written lacks a row or has another grade only if nothing was
tested before, or a date and a volume are now: that is the law of OPENURL.md, as hits show it.
Prints each breach, and then the number of queries. Fails if fewer than one in twenty of them are answered as they are,
or only as they are understood, or if no row was graded anew."""
import json
import random
import subprocess
import sys
from urllib.parse import quote_plus

ISSNS = ["2434-561X", "2434561x", "1050-124X", "03178471", " 2434-561X ", "ISSN 0317-8471", "2434-561X, 1050-124X",
         "1050 124X", "2434-5611", "1050\u2013124X", "", "9780306406157", "2434-561X\r0317-8471"]
ISBNS = ["9780306406157", "0-306-40615-2", "1-84930-204-9", "9781849302043", "0 306 40615 2", "978-0-306-40615-3", "",
         "9780306406157;9781849302043", "ISBN-13: 978-0-306-40615-7", "2434-561X", "{isbn}"]
DATES = ["2001", "2001-03", "20010315", "200103", "2001-02-30", "2005/10/20", "20 Oct 2005", "Oct-Nov 2005",
         "1996-1997", "Spring 2004", "", " 1996 ", "x", "0000", "2004-21", "10/11/2005", "20050000",
         "2005-10-20T00:00Z"]
VOLUMES = ["7", "12", "365 (9453)", "Vol. 9", "12A", "XIV", "", " 3 ", "007", "12-13", "1234567890", "t. 12"]
FORMATS = ["info:ofi/fmt:kev:mtx:journal", "info:ofi/fmt:kev:mtx:book", "info:ofi/fmt:kev:mtx:patent", "",
           "INFO:OFI/fmt:kev:mtx:book"]
VERSIONS = ["Z39.88-2004", "Z39.88-2003", "", "z39.88-2004"]
NAMES = ["urn:ISSN:2434-561X", "URN:issn:0317-8471", "urn:ISBN:0306406152", "info:doi/10.5555/a.1",
         "info:pmid/99999901", "x"]
KEYS = {
    "rft.issn": ISSNS, "rft.eissn": ISSNS, "rft.isbn": ISBNS, "rft.date": DATES, "rft.volume": VOLUMES,
    "rft_val_fmt": FORMATS, "url_ver": VERSIONS, "ctx_ver": VERSIONS, "rft_id": NAMES, "issn": ISSNS, "eissn": ISSNS,
    "isbn": ISBNS, "date": DATES, "volume": VOLUMES, "id": NAMES, "Rft.issn": ISSNS, "ISBN": ISBNS, "rft.eisbn": ISBNS,
    "amp;rft.date": DATES, "?issn": ISSNS, "rft.au": ["Smith"], "atitle": ["On sand"], "sid": ["a"], "DATE": DATES,
}
FEWER = [key for key in KEYS if key not in ("rft_val_fmt", "url_ver", "ctx_ver")]


def query_of(rng):
    pairs = []
    for _ in range(rng.randint(1, 9)):
        key = rng.choice(list(KEYS) if rng.random() < 0.3 else FEWER)
        pairs.append(key + "=" + quote_plus(rng.choice(KEYS[key])))
    return rng.choice(["&", "&", "&&", "&amp;"]).join(pairs)


def understood(query):
    ran = subprocess.run(["kbfeed", "openurl", "--json", query], capture_output=True, text=True, check=False)
    return json.loads(ran.stdout)


def grades_of(query):
    """The grade of each row that `kbfeed answer` prints, by the number of its record; nothing for a refused query."""
    ran = subprocess.run(["kbfeed", "answer", sys.argv[3], query], capture_output=True, text=True, check=False)
    if ran.returncode != 0:
        return None
    return dict(line.split("\t")[:2] for line in ran.stdout.splitlines()[1:])


def is_kept(before, after, is_tested_by_both):
    """Whether a row has another grade or went only if a date or a volume is new that tests it."""
    return all(grade == "untested" or is_tested_by_both or after.get(record) == grade
               for record, grade in before.items())


def main():
    count, seed = int(sys.argv[1]), int(sys.argv[2])
    rng = random.Random(seed)
    answered = only = graded = 0
    for query in [query_of(rng) for _ in range(count)]:
        read = understood(query)
        before = grades_of(query)
        answered += before is not None
        if read["refused"]:
            if before is not None:
                print("refused", query)
            continue
        only += before is None
        after = grades_of(read["query"])
        if after is None:
            print("not accepted", query)
        elif before is not None:
            graded += before != after
            if not is_kept(before, after, read["date"] and read["volume"]):
                print("not kept", query, before, after)
        if understood(read["query"])["query"] != read["query"]:
            print("not itself", query)
    if min(answered, only) * 20 < count or not graded:
        sys.exit(f"{answered} answered as they are, {only} only as they are understood, {graded} graded anew")
    print(f"{count} queries")


if __name__ == "__main__":
    main()
