#!/usr/bin/python3
"""Kills runs of kbfeed-collect at moments that are drawn from a seed.

collect_killed.py ADDRESS FOLDER KILLS

ADDRESS is that of vendors.py over FOLDER. In each of four lanes six packages have a list that changes each day. The
run of a day is killed (SIGKILL) after a time between 0 and a little more than a whole run takes. After each kill,
each list in the folder of the lane has to be one that kbfeed-convert makes of what the vendor had on its day. Each
line of the index has to have a list with its size and SHA-256. After five kills a run has to publish what is left.
Prints what is wrong, and a summary; with VERBOSE set, also how many of the six lists were published at each kill."""
import collections
import concurrent.futures
import datetime
import hashlib
import os
import pathlib
import random
import signal
import subprocess
import sys
import threading
import time

HERE = pathlib.Path(__file__).resolve().parent
LANES, PACKAGES, SEED = 4, 6, 20261128
# A run that is not killed follows so many that are.
WHOLE = 5
HEADER = "publication_title,print_identifier,date_first_issue_online,title_url\n"
BEGIN = datetime.date(2026, 1, 1)


class Lane:
    """A configuration, its folder, and what the lists of each day have to be."""

    def __init__(self, number, address, vendor, count):
        self.name, self.vendor, self.count = f"lane{number}", vendor, count
        self.random, self.wrong, self.published = random.Random(SEED + number), [], collections.Counter()
        self.lists = pathlib.Path(f"lists{number}").resolve()
        self.allowed, self.seconds = {}, 1.0
        text = f'folder = "{self.lists}"\n'
        for at in range(PACKAGES):
            text += f'[[source]]\npackage = "P{at}"\nurl = "{address}/plain/{self.name}"\nmax_removed = 100\n'
        self.config = pathlib.Path(f"sources{number}.toml")
        self.config.write_text(text, "ascii")

    def change(self, day):
        """Gives the vendor the list of a day, and records what is published of it."""
        rows = "".join(f"Title {row},2434-561X,{1900 + row % 99},a.example/{day}/{row}\n" for row in range(60))
        file = self.vendor / self.name
        file.write_text(HEADER + rows, "ascii")
        made = subprocess.run(["kbfeed-convert", file], stdout=subprocess.PIPE, stderr=subprocess.DEVNULL, check=True)
        self.allowed |= {f"P{at}_{day}.txt": hashlib.sha256(made.stdout).hexdigest() for at in range(PACKAGES)}

    def begin(self, day):
        words = [sys.executable, HERE / "collect_on.py", str(day), "--config", self.config]
        return subprocess.Popen(words, stdout=subprocess.PIPE, stderr=subprocess.STDOUT, start_new_session=True)

    def whole(self, day):
        """Runs to the end. Each package has to be in the index with the list of that day then."""
        began = time.monotonic()
        run = self.begin(day)
        said = run.communicate()[0].decode()
        self.seconds = time.monotonic() - began
        if run.returncode or len(self.index()) != PACKAGES or any(str(day) not in it for it in self.index()):
            self.wrong.append(f"{day}: {run.returncode} {said}")
        kept = (".lock", ".state.json", ".sources")
        if [it.name for it in self.lists.iterdir() if it.name[0] == "." and it.name not in kept]:
            self.wrong.append(f"{day}: files that are not whole are left")
        for file in (self.lists / ".sources").iterdir():
            if not (self.lists / f"{file.name.partition('.')[0]}.txt").exists():
                self.wrong.append(f"{day}: {file.name} is of no release")

    def kill(self, day):
        """Kills a run, with what it started, in the middle."""
        run = self.begin(day)
        time.sleep(self.random.random() * self.seconds * 1.1)
        os.killpg(run.pid, signal.SIGKILL)
        run.communicate()
        self.published[sum(str(day) in it for it in self.index())] += 1

    def index(self):
        file = self.lists / "index"
        return file.read_text("ascii").splitlines() if file.exists() else []

    def check(self, day):
        """Checks each list and each line of the index."""
        found = {it.name: it.read_bytes() for it in self.lists.glob("*.txt")}
        digests = {name: hashlib.sha256(data).hexdigest() for name, data in found.items()}
        self.wrong += [f"{day}: {name} is not whole" for name in found if digests[name] != self.allowed.get(name)]
        for line in self.index():
            name, size, digest = line.split(" ")
            if name not in found or len(found[name]) != int(size) or digests[name] != digest:
                self.wrong.append(f"{day}: the index has {line}")

    def run(self):
        day = BEGIN
        self.change(day)
        self.whole(day)
        for at in range(self.count):
            day += datetime.timedelta(days=1)
            self.change(day)
            self.kill(day)
            self.check(day)
            if at % WHOLE == WHOLE - 1:
                self.whole(day)
                self.check(day)
        return self


def main():
    address, vendor, kills = sys.argv[1], pathlib.Path(sys.argv[2]).resolve(), int(sys.argv[3])
    # Ends what a session that hangs would leave.
    threading.Timer(900, lambda: os._exit(1)).start()
    with concurrent.futures.ThreadPoolExecutor(LANES) as pool:
        lanes = list(pool.map(lambda at: Lane(at, address, vendor, kills // LANES).run(), range(LANES)))
    for lane in lanes:
        print(*lane.wrong, sep="\n", end="\n" if lane.wrong else "")
    published = sum((lane.published for lane in lanes), collections.Counter())
    if os.environ.get("VERBOSE"):
        print(sorted(published.items()))
    some = sum(count for number, count in published.items() if 0 < number < PACKAGES)
    print(f"{published.total()} kills, {'some' if some else 'none'} between two lists, "
          f"{sum(len(lane.wrong) for lane in lanes)} faults", flush=True)
    os._exit(0)


if __name__ == "__main__":
    main()
