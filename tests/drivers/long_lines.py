#!/usr/bin/env python3
"""Lists with one very long record, and a reader beside a node that fetches one.

long_lines.py list KIND MIB
long_lines.py watch ADDRESS TOKEN NAME PID MS MIB
long_lines.py ask ADDRESS TARGET MS

`list` prints a list of some MiB with a header or a row of that KIND: tabs, labels, row, title, spaces (of a label, an
ISSN and a date) or hyphens (of an ISBN). `watch` lets the node with that process number fetch the release NAME, and
meanwhile asks it for /status. It prints the last line of the fetch but one, whether each reply came within MS
milliseconds, and whether the node has taken at most MIB more memory than before; otherwise how long the longest took,
and how much. `ask` prints the first line of a reply, and whether the median of nine came within MS milliseconds."""
import http.client
import pathlib
import re
import statistics
import sys
import threading
import time

from many_rows import LABELS, issn

MIB = 1_048_576
HEADER = "\t".join(LABELS)


def row(title, identifier=issn(1), first=""):
    return "\t".join([title, identifier, "", first, "", "", "", "https://a.example/"])


def print_list(kind, size):
    header, last = HEADER, row("Acta")
    room = size * MIB - len(header) - len(last) - 2
    if kind == "tabs":
        header += "\t" * room
    elif kind == "labels":
        header += "\tpublication_titlf" * (room // 18)
    elif kind == "row":
        last += "\t" * room
    elif kind == "spaces":
        spaces = " " * (room // 4)
        header = spaces + header
        last = row("Acta", spaces + issn(1) + spaces, spaces + "1995")
    elif kind == "hyphens":
        header += "\tpublication_type"
        last = row("Acta", "978" + "-" * room + "0306406157") + "\tmonograph"
    else:
        last = row("T" * room)
    sys.stdout.write(f"{header}\n{last}\n")


def most_memory(process):
    """The most memory that a process has had, in MiB."""
    status = pathlib.Path(f"/proc/{process}/status").read_text(encoding="ascii")
    return int(re.search(r"VmHWM:\s+(\d+)", status)[1]) / 1_024


class Fetch(threading.Thread):
    """A fetch by a node, and its lines."""

    def __init__(self, address, token, name):
        super().__init__()
        self.address, self.token, self.name, self.lines = address, token, name, []

    def run(self):
        conn = http.client.HTTPConnection(self.address, timeout=600)
        conn.request("POST", f"/feed/{self.name}", headers={"Authorization": f"Bearer {self.token}"})
        self.lines = conn.getresponse().read().decode().splitlines()


def watch(address, token, name, process, most_ms, most_mib):
    before = most_memory(process)
    conn = http.client.HTTPConnection(address, timeout=600)
    fetch, longest = Fetch(address, token, name), 0
    fetch.start()
    while fetch.is_alive():
        began = time.perf_counter()
        conn.request("GET", "/status")
        conn.getresponse().read()
        longest = max(longest, time.perf_counter() - began)
        time.sleep(0.003)
    fetch.join()
    more = most_memory(process) - before
    print(fetch.lines[-2], "in time" if longest * 1e3 < most_ms else f"longest {longest * 1e3:.0f} ms",
          "in room" if more < most_mib else f"{more:.0f} MiB more")


def ask(address, target, most_ms):
    conn, times, text = http.client.HTTPConnection(address, timeout=600), [], b""
    for _ in range(9):
        began = time.perf_counter()
        conn.request("GET", target)
        text = conn.getresponse().read()
        times.append(time.perf_counter() - began)
    median = statistics.median(times) * 1e3
    print(text.decode().splitlines()[0], "in time" if median < most_ms else f"in {median:.0f} ms")


def main():
    if sys.argv[1] == "list":
        print_list(sys.argv[2], int(sys.argv[3]))
    elif sys.argv[1] == "ask":
        ask(sys.argv[2], sys.argv[3], float(sys.argv[4]))
    else:
        address, token, name, process, most_ms, most_mib = sys.argv[2:]
        watch(address, token, name, int(process), float(most_ms), float(most_mib))


if __name__ == "__main__":
    main()
