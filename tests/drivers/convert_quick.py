#!/usr/bin/python3
"""Converts random lists by the short way and by the long way alone, and checks that both have the same bytes.

convert_quick.py COUNT [SEED]

The lists are those of convert_random.py and convert_spoilt.py, whose cells tempt the rules, and some of
convert_speed.py, whose records are usual. Prints how many lists were compared, and exits with 1 at the first that
differs. How many records went the short way is printed on standard error."""
import argparse
import pathlib
import random
import sys
import tempfile

sys.dont_write_bytecode = True
sys.path.insert(0, str(pathlib.Path(__file__).resolve().parent))
import convert_random
import convert_speed
import convert_spoilt
from kbfeed_convert import command, quick
from kbfeed_convert.faults import Refused


def converted(path, is_short):
    """Returns the rows and the report of a list, and how many records went the short way."""
    out, report, count = convert_spoilt.Collected(), convert_spoilt.Collected(), 0
    row = quick.Shortcut.row

    def counted(self, record):
        nonlocal count
        found = row(self, record) if is_short else None
        count += found is not None
        return found
    quick.Shortcut.row = counted
    try:
        command.convert(command.arguments([str(path)]), "", out, report)
    except Refused as fault:
        return str(fault), count
    finally:
        quick.Shortcut.row = row
    return b"".join(out.parts), "".join(report.parts), count


def usual_list(r):
    lines = ["\t".join(convert_speed.LABELS) + "\r\n", *[convert_speed.record(r) for _ in range(200)]]
    return "".join(lines).encode()


def stated_list(r):
    lines = ["\t".join(convert_speed.STATED_LABELS) + "\n", *[convert_speed.stated_record(r) for _ in range(50)]]
    return "".join(lines).encode()


def spoilt_list(r):
    """A list with statements or dates, of which half have something wrong."""
    header, records, _, is_statement, _ = convert_spoilt.random_list(r)
    if r.random() < 0.5:
        header, records, _ = convert_spoilt.spoilt(r, header, records, is_statement)
    return "\n".join("\t".join(it) for it in [header, *records]).encode()


LISTS = [usual_list, stated_list, spoilt_list, spoilt_list, spoilt_list]


def main():
    parser = argparse.ArgumentParser(description=__doc__, formatter_class=argparse.RawDescriptionHelpFormatter)
    parser.add_argument("count", type=int)
    parser.add_argument("seed", type=int, nargs="?", default=1)
    given = parser.parse_args()
    short = 0
    with tempfile.TemporaryDirectory() as name:
        path = pathlib.Path(name) / "L_2024-01-01.txt"
        for number in range(given.count):
            r = random.Random(given.seed * 1_000_003 + number)
            made = LISTS[number % 10] if number % 10 < len(LISTS) else convert_random.random_list
            path.write_bytes(made(r))
            *one, count = converted(path, True)
            *other, none = converted(path, False)
            assert one == other and not none, number
            short += count
    print(f"{short} records by the short way", file=sys.stderr)
    print(f"{given.count} lists: the same bytes")


if __name__ == "__main__":
    main()
