#!/usr/bin/env python3
"""Compares `kbfeed diff` with a plain program on pairs of random lists.

diff_random.py PAIRS SEED

Each pair is written as two files in the current folder. The plain program reads them by the rules of
docs/formats/KBART.md (holdings.py) and pairs their rows by search. It has to agree with `kbfeed diff --json` on
every member of the object, and on the status with random bounds. Prints each pair that differs, and then the number
of pairs. Fails if a pair differs, or if fewer than one in ten of the pairs has removed, changed and added rows, rows
paired by URL, and equal rows."""
import datetime
import json
import random
import subprocess
import sys

sys.dont_write_bytecode = True
from holdings import Record  # noqa: E402

OLD, NEW = "Acme_Global_All_2024-01-01.txt", "Acme_Global_All_2024-02-01.txt"
LABELS = ["publication_title", "print_identifier", "online_identifier", "date_first_issue_online",
          "num_first_vol_online", "date_last_issue_online", "num_last_vol_online", "title_url", "title_id",
          "embargo_info", "coverage_depth", "publication_type", "access_type"]
VALUES = {
    "publication_title": ["Acta", "Beta", "Gamma", "", " Acta", 'A "b"', "\u00e9tudes"],
    "print_identifier": ["2434-561X", "2434561x", "1050-124X", "", "9780306406157", "0-306-40615-2", "2434-5611"],
    "online_identifier": ["", "", "0317-8471", "978-1-84930-204-3", "x"],
    "date_first_issue_online": ["", "1995", "1995-01-01", "1995-01", "2001-13", "2003-02-28"],
    "num_first_vol_online": ["", "1", "007", "7", "XIV", "1234567890"],
    "date_last_issue_online": ["", "2001", "2001-12-31", "2001-12", "1994", "2003-02-28"],
    "num_last_vol_online": ["", "7", "3", "x"],
    "title_url": ["http://a.example/", "http://b.example/", ""],
    "title_id": ["A1", "B1", "", "C1"],
    "embargo_info": ["", "P1Y"],
    "coverage_depth": ["", "fulltext", "abstracts"],
    "publication_type": ["", "serial", "Serial ", "monograph", "database"],
    "access_type": ["", "P", "F"],
}
REASONS = ["OtherType", "NoIssn", "NoIsbn", "BadDate", "Reversed"]


def day_of(number):
    return None if number is None else datetime.date.fromordinal(number).isoformat()


def read_record(fields):
    """Returns the values of a row's columns, or the reason to skip the record."""
    record = Record(fields)
    return record.aside or dict(
        fields, publication_type=record.kind, print_identifier=record.print, online_identifier=record.online,
        date_first_issue_online=day_of(record.first), date_last_issue_online=day_of(record.last),
        num_first_vol_online=record.low, num_last_vol_online=record.high)


def read_list(records):
    """Returns the rows, each with its number, and how many records are skipped for each reason."""
    rows, aside = [], {}
    for number, fields in enumerate(records, 2):
        row = read_record(fields)
        if isinstance(row, str):
            aside[row] = aside.get(row, 0) + 1
        else:
            rows.append((number, row))
    return rows, {reason: aside[reason] for reason in REASONS if reason in aside}


def key_of(label, row):
    return [row[1][name] for name in (label, "publication_type", "print_identifier", "online_identifier")]


def pair_in_order(old, new, is_alike):
    """Pairs each row with the first one of the other list that is alike and free. Returns the pairs and the rest."""
    pairs, left_old, left_new = [], [], list(new)
    for row in old:
        found = next((other for other in left_new if is_alike(row, other)), None)
        if found is None:
            left_old.append(row)
        else:
            left_new.remove(found)
            pairs.append((row, found))
    return pairs, left_old, left_new


def compare(old, new):
    equal, old, new = pair_in_order(old, new, lambda one, other: one[1] == other[1])
    old_keys = [key_of("title_id", row) for row in old]
    new_keys = [key_of("title_id", row) for row in new]
    singles = [key for key in old_keys if old_keys.count(key) == 1 and new_keys.count(key) == 1]
    titles = [(old[old_keys.index(key)], new[new_keys.index(key)]) for key in singles]
    old = [row for row in old if key_of("title_id", row) not in singles]
    new = [row for row in new if key_of("title_id", row) not in singles]
    urls, old, new = pair_in_order(old, new, lambda one, other: key_of("title_url", one) == key_of("title_url", other))
    return equal, sorted(titles + urls, key=lambda pair: pair[0][0]), old, new, urls


def object_of(old, new, result):
    _, changed, removed, added, _ = result

    def items(rows):
        return [{"number": number, "title": row["publication_title"]} for number, row in rows]

    def change(before, after):
        fields = {label: {"old": before[1][label], "new": after[1][label]} for label in LABELS
                  if before[1][label] != after[1][label]}
        return {"old": before[0], "new": after[0], "title": before[1]["publication_title"], "fields": fields}

    return {
        "old": {"release": OLD, "rows": len(old[0]), "aside": old[1]},
        "new": {"release": NEW, "rows": len(new[0]), "aside": new[1]},
        "counts": {"removed": len(removed), "changed": len(changed), "added": len(added)},
        "removed": items(removed),
        "changed": [change(*pair) for pair in changed],
        "added": items(added),
    }


def random_record(rng):
    return {label: rng.choice(values if rng.random() < 0.6 else values[:2]) for label, values in VALUES.items()}


def random_pair(rng):
    old = [random_record(rng) for _ in range(rng.randint(0, 14))]
    if rng.random() < 0.2:
        return old, [random_record(rng) for _ in range(rng.randint(0, 14))]
    new = []
    for record in old:
        draw = rng.random()
        if draw < 0.15:
            continue
        changed = dict(record)
        if draw < 0.5:
            for label in rng.sample(LABELS, rng.randint(1, 2)):
                changed[label] = rng.choice(VALUES[label])
        new += [changed] * (2 if draw > 0.9 else 1)
    new += [random_record(rng) for _ in range(rng.randint(0, 3))]
    if rng.random() < 0.5:
        rng.shuffle(new)
    return old, new


def write_list(rng, path, records):
    labels = rng.sample(LABELS, len(LABELS))
    with open(path, "w", encoding="utf-8", newline="") as out:
        out.write("\t".join(labels) + "\n")
        out.writelines("\t".join(record[label] for label in labels) + "\n" for record in records)


def status_with(rows, count, percent):
    return 1 if count > -(-rows * percent // 100) else 0


def main():
    pairs, seed = map(int, sys.argv[1:])
    rng = random.Random(seed)
    differ, seen = 0, dict.fromkeys(["equal", "changed", "removed", "added", "urls"], 0)
    for at in range(pairs):
        records = random_pair(rng)
        write_list(rng, OLD, records[0])
        write_list(rng, NEW, records[1])
        old, new = map(read_list, records)
        result = compare(old[0], new[0])
        for name, part in zip(["equal", "changed", "removed", "added", "urls"], result):
            seen[name] += bool(part)
        removed, changed = rng.randint(0, 100), rng.randint(0, 100)
        ran = subprocess.run(["kbfeed", "diff", OLD, NEW, "--json", "--max-removed", str(removed), "--max-changed",
                              str(changed)], capture_output=True, text=True, check=False)
        rows = len(old[0])
        status = max(status_with(rows, len(result[2]), removed), status_with(rows, len(result[1]), changed))
        if ran.returncode != status or ran.stderr or json.loads(ran.stdout) != object_of(old, new, result):
            differ += 1
            print(f"pair {at} of seed {seed} differs: status {ran.returncode} for {status}")
            print(ran.stdout + ran.stderr + json.dumps(object_of(old, new, result)))
    print(f"{pairs} pairs")
    return 1 if differ or any(count * 10 < pairs for count in seen.values()) else 0


if __name__ == "__main__":
    sys.exit(main())
