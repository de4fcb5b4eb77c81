#!/usr/bin/env python3
"""Damages the log of a database at places that are drawn from a seed.

damaged_log.py [-v] DATABASE FIRST SECOND TIMES

DATABASE has the release of the file FIRST in its file, and in its log the commits of a fetch of the later release
SECOND. Cuts copies of the log at TIMES places, and changes one byte of it at as many. After each, the database has to
open, with the first release active and a part of the second one that was kept after some commit, or with the second one
active; the answer has to be that of the active release, as of its file. The more of the log is whole, the more has to
be there. Prints what is wrong, and a summary; with -v, also how often each state was found."""
import collections
import pathlib
import random
import shutil
import subprocess
import sys

QUERY = "rft.issn=00000019&rft.date=1901"


def ran(*words):
    """The status of the program, and its standard output and standard error."""
    done = subprocess.run(["kbfeed", *words], capture_output=True, text=True, check=False)
    return done.returncode, done.stdout, done.stderr


class Damaged:
    """Copies of a database whose log is damaged."""

    def __init__(self, database, first, second):
        self.database, self.files = pathlib.Path(database), [pathlib.Path(first), pathlib.Path(second)]
        self.log = pathlib.Path(database + "-wal").read_bytes()
        # The zeros behind the last commit are room for the next ones.
        self.end = len(self.log.rstrip(b"\0"))
        self.package = self.files[0].name.rpartition("_")[0]
        self.answers = [ran("answer", str(file), QUERY) for file in self.files]
        self.found = collections.Counter()
        self.wrong = []

    def missing(self, log):
        """The bytes of the second release that are missing with this log, or None if the state is not allowed."""
        copy = pathlib.Path("copy.db")
        shutil.copy(self.database, copy)
        pathlib.Path("copy.db-wal").write_bytes(log)
        status, lines, faults = ran("status", str(copy))
        told = dict((line.split("\t")[0], line.split("\t")[1:]) for line in lines.splitlines())
        first, second = (told.get(file.name) for file in self.files)
        is_new = second is not None and second[0] == "active"
        if status != 0 or faults or (first is None) != is_new or not is_new and first[0] != "active":
            self.wrong.append(f"{status} {lines!r} {faults!r}")
            return None
        if ran("ask", str(copy), self.package, QUERY) != self.answers[is_new]:
            self.wrong.append(f"a wrong answer: {lines!r}")
        return 0 if is_new else int(second[2]) if second else self.files[1].stat().st_size

    def check(self, how, places, damage):
        """Damages the log at these places, in order: what is missing must not grow."""
        last = self.files[1].stat().st_size
        for at in sorted(places):
            missing = self.missing(damage(at))
            if missing is None:
                continue
            self.found[how, missing] += 1
            if missing > last:
                self.wrong.append(f"{how} at {at}: {missing} bytes are missing, and {last} with more damage")
            last = missing

    def changed(self, at):
        return self.log[:at] + bytes([self.log[at] ^ 1 << at % 8]) + self.log[at + 1:]


def main():
    words = [word for word in sys.argv[1:] if word != "-v"]
    it = Damaged(*words[:3])
    drawn, times = random.Random(7), int(words[3])
    it.check("cut", [drawn.randrange(it.end) for _ in range(times)], lambda at: it.log[:at])
    it.check("changed", [drawn.randrange(it.end) for _ in range(times)], it.changed)
    print(*it.wrong, sep="\n", end="\n" if it.wrong else "")
    if not it.wrong:
        print(f"{2 * times} logs: each database opened, as it was after an earlier commit")
    if "-v" in sys.argv:
        print(*sorted(it.found.items(), key=str), sep="\n")


if __name__ == "__main__":
    main()
