#!/usr/bin/env python3
"""Kills fetches at moments that are drawn from a seed.

fetch_killed.py [-v] ADDR FIRST SECOND KILLS

ADDR serves the releases of the files FIRST and SECOND; SECOND is the later release of the same package. In each of four
lanes a database gets the first release, then the second, and then another database begins. A fetch is killed (SIGKILL)
after a time between 0 and a little more than a whole fetch takes, and run again, until its release is active or the
fetch ends before the kill; the next fetch may finish. After each kill the database has to open, everything that a fetch
reported as kept has to be kept, and the answer has to be that of a whole release, as of its file, and never of an
earlier release than before. Prints what is wrong, and a summary; with -v, also how often no release, the first and the
second one answered after a kill."""
import collections
import concurrent.futures
import pathlib
import random
import re
import subprocess
import sys
import time

LANES = 4
QUERY = "rft.issn=00000019&rft.date=1901"
NO_RELEASE = (1, "", "kbfeed: NoRelease\n")


def ran(*words):
    """The status of the program, and its standard output and standard error."""
    done = subprocess.run(["kbfeed", *words], capture_output=True, text=True, check=False)
    return done.returncode, done.stdout, done.stderr


class Lane:
    """Databases that are filled one after another, by fetches that may be killed."""

    def __init__(self, number, address, files, kills):
        self.number, self.address, self.files, self.kills = number, address, files, kills
        self.drawn = random.Random(number)
        self.package = re.sub(r"_[0-9-]*\.txt$", "", files[0].name)
        self.answers = [NO_RELEASE, *(ran("answer", str(file), QUERY) for file in files)]
        self.databases = 0
        self.killed = collections.Counter()
        self.wrong = []

    def fetch(self, database, file, moment=None):
        """Fetches a file, with a time limit: the status, negative after a kill, and the lines."""
        words = ["kbfeed", "fetch", database, self.address, file.name, "--piece", "1000"]
        with subprocess.Popen(words, stdout=subprocess.PIPE, stderr=subprocess.STDOUT, text=True) as running:
            try:
                running.wait(moment)
            except subprocess.TimeoutExpired:
                running.kill()
            return running.wait(), running.stdout.read().splitlines()

    def begun(self):
        """The path of a new database."""
        self.databases += 1
        return f"lane{self.number}-{self.databases}.db"

    def whole_time(self):
        """The time of a fetch that may finish."""
        start = time.monotonic()
        self.check_end(*self.fetch(self.begun(), self.files[0]))
        return time.monotonic() - start

    def check_end(self, status, lines):
        if status != 0 or lines[-1:] not in (["activated"], ["known"]):
            self.wrong.append(f"a fetch ends with {status}: {lines}")

    def check_kill(self, database, file, lines, least):
        """Checks a database after a kill, and returns the release that answers."""
        status, told, faults = ran("status", database)
        if status != 0 or faults:
            self.wrong.append(f"status ends with {status}: {faults}")
        if missing_in(told, file.name) > missing_of(lines, file):
            self.wrong.append(f"what was kept is missing: {lines}, {told}")
        answer = ran("ask", database, self.package, QUERY)
        if answer not in self.answers:
            self.wrong.append(f"an answer of no release: {answer}")
            return least
        now = self.answers.index(answer)
        if "activated" in lines:
            least = 1 + self.files.index(file)
        if now < least:
            self.wrong.append(f"the answer goes back from {least} to {now}")
        self.killed[now] += 1
        return max(now, least)

    def fill(self, database, file, longest, least):
        """Kills fetches of a file until its release answers, and lets the next one finish."""
        done = 1 + self.files.index(file)
        while least < done and self.killed.total() < self.kills and not self.wrong:
            status, lines = self.fetch(database, file, self.drawn.uniform(0, longest))
            if status < 0:
                least = self.check_kill(database, file, lines, least)
            else:
                self.check_end(status, lines)
                least = done
        self.check_end(*self.fetch(database, file))
        return done

    def run(self):
        longest = 1.1 * min(self.whole_time() for _ in range(3))
        while self.killed.total() < self.kills and not self.wrong:
            database = self.begun()
            least = 0
            for file in self.files:
                least = self.fill(database, file, longest, least)
        return self


def missing_of(lines, file):
    """The greatest number of missing bytes that the lines of a fetch allow."""
    if "activated" in lines:
        return 0
    told = [int(line.removeprefix("stored missing ")) for line in lines if line.startswith("stored missing ")]
    return told[-1] if told else file.stat().st_size


def missing_in(told, name):
    """The number of missing bytes of a release by `kbfeed status`, or 0 if it is not listed."""
    for line in told.splitlines():
        if line.split("\t")[0] == name:
            return int(line.split("\t")[3])
    return 0


def main():
    words = [word for word in sys.argv[1:] if word != "-v"]
    files = [pathlib.Path(word) for word in words[1:3]]
    kills = int(words[3])
    lanes = [Lane(number, words[0], files, kills // LANES) for number in range(LANES)]
    with concurrent.futures.ThreadPoolExecutor(LANES) as pool:
        done = [*pool.map(Lane.run, lanes)]
    for lane in done:
        print(*lane.wrong, sep="\n", end="\n" if lane.wrong else "")
    killed = sum((lane.killed for lane in done), collections.Counter())
    if not any(lane.wrong for lane in done):
        print(f"{killed.total()} kills: each database opened, each answer was that of a whole release")
    if "-v" in sys.argv:
        print([killed[at] for at in range(3)], "on", sum(lane.databases for lane in done), "databases")


if __name__ == "__main__":
    main()
