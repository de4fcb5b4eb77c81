#!/usr/bin/env python3
"""Writes a script of `kbfeed replay` to standard output, or queries, one a line.

make_script.py KIND [--lines N] [--bytes B] [--seed S]

KIND:
  large     one release of B bytes, delivered in order in pieces of 1 MiB, and N queries
  asks      the same with smaller defaults for the list and more queries
  world     16 nodes, and 8 packages of 4 releases of B bytes each, whose pieces arrive in any order; with repeats,
            losses, restarts, stops, reports and queries: N lines after the publications
  scatter   one release of B bytes, delivered in N pieces in random order
  restart   one release of B bytes, active, and N restarts
  releases  200 packages of one release of B bytes each, then N queries with reports and restarts
  queries   no script: N queries for a list of B bytes"""
import argparse
import random
import sys

import make_list

# For each kind the lines and the bytes.
DEFAULTS = {"large": (200, 12 << 20), "asks": (50_000, 4 << 20), "world": (60_000, 24_000),
            "scatter": (60_000, 1_200_000), "restart": (40, 4 << 20), "releases": (2_000, 40_000),
            "queries": (100, 1 << 20)}
DAYS = ["2024-01-01", "2024-02-01", "2024-03-01", "2024-04-01"]
NODES = 16


class Chance:
    """Random choices that are the same in each version of Python."""

    def __init__(self, seed):
        self.random = random.Random(seed).random

    def below(self, most):
        return int(self.random() * most)

    def shuffled(self, items):
        items = list(items)
        for place in range(len(items) - 1, 0, -1):
            other = self.below(place + 1)
            items[place], items[other] = items[other], items[place]
        return items


def list_of(size, seed):
    return b"".join(make_list.lines(size, seed))


def escaped(text):
    return text.replace(b"\\", b"\\\\").replace(b"\t", b"\\t").replace(b"\n", b"\\n").replace(b"\r", b"\\r")


def identifiers(text):
    """Returns the identifiers of a list, as they are in its fields."""
    rows = [line.split("\t") for line in text.decode().splitlines()[1:]]
    return [field for row in rows for field in row[1:3] if field and len(field) <= 9]


def query(chance, known):
    """Returns a query, mostly for a known ISSN, with or without a date and a volume."""
    kind = chance.below(100)
    text = "rft.issn=" + known[chance.below(len(known))].replace(" ", "+")
    if kind < 10:
        text = "rft_id=urn:ISSN:" + known[chance.below(len(known))].strip() + "&" + text
    elif kind < 20:
        text = "rft.eissn=2434-561X"
    if kind % 2:
        text = "url_ver=Z39.88-2004&rft_val_fmt=info%3Aofi%2Ffmt%3Akev%3Amtx%3Ajournal&" + text
    if kind % 3 == 0:
        text += f"&rft.date={1950 + chance.below(75)}"
    elif kind % 3 == 1:
        text += f"&rft.date={1950 + chance.below(75)}-{1 + chance.below(12):02}-{1 + chance.below(28):02}"
    if kind % 5 == 0:
        text += f"&rft.volume={1 + chance.below(80)}"
    return text


def queries(text, count, seed):
    """Returns queries for a list."""
    chance, known = Chance(seed), identifiers(text)
    return [query(chance, known) for _ in range(count)]


def publication(name, text):
    return f"publish {name} {escaped(text).decode()}"


def one_release(kind, count, size, seed):
    """Yields the lines of the kinds that have one release on one node."""
    chance, package = Chance(seed), "Bench_All"
    name, text = f"{package}_{DAYS[0]}.txt", list_of(size, seed)
    step = -(-size // count) if kind == "scatter" else 1 << 20
    places = range(0, size, step)
    yield from ["nodes 1", publication(name, text), f"offer 1 {name}"]
    for first in chance.shuffled(places) if kind == "scatter" else places:
        yield f"deliver 1 {name} {first} {min(step, size - first)}"
    yield f"report 1 {package}"
    if kind in ("large", "asks"):
        yield from [f"ask 1 {package} {it}" for it in queries(text, count, seed)]
    elif kind == "restart":
        yield from [*["restart 1"] * count, f"report 1 {package}"]


def many_releases(count, size, seed):
    """Yields the lines of the kind `releases`."""
    chance, text = Chance(seed), list_of(size, seed)
    packages = [f"Package{at:03}_All" for at in range(200)]
    names = [f"{package}_{DAYS[0]}.txt" for package in packages]
    known = identifiers(text)
    yield from ["nodes 1", *[publication(name, text) for name in names]]
    for name in names:
        yield from [f"offer 1 {name}", f"deliver 1 {name} 0 {size}"]
    for at in range(count):
        package = packages[chance.below(len(packages))]
        yield f"ask 1 {package} {query(chance, known)}"
        if at % 10 == 0:
            yield f"report 1 {package}"
        if at % 100 == 99:
            yield "restart 1"


def deliveries(chance, node, names, size):
    """Returns the offers and the deliveries of all releases to a node. Those of earlier days mostly come first."""
    order = sorted(chance.shuffled(range(len(names))), key=lambda at: at % len(DAYS) + chance.random() * 2)
    lines = []
    for at in order:
        lines.append(f"offer {node} {names[at]}")
        lines += [f"deliver {node} {names[at]} {first} {min(600, size - first)}"
                  for first in chance.shuffled(range(0, size, 600))]
    return lines


def stopped(line, before):
    """Returns the line of a stop in the middle of an offer or a delivery."""
    word, node, rest = line.split(" ", 2)
    return f"{'stop-before' if before else 'stop-after'} {node} {word} {rest}"


def world(count, size, seed):
    """Yields the lines of the kind `world`."""
    chance, lists = Chance(seed), {}
    for package in range(8):
        for at, day in enumerate(DAYS):
            lists[f"Package{package}_{day}.txt"] = list_of(size, seed * 100 + package * len(DAYS) + at)
    names, known = list(lists), [identifiers(text) for text in lists.values()]
    yield from [f"nodes {NODES}", *[publication(name, text) for name, text in lists.items()]]
    waiting = [deliveries(chance, node, names, size)[::-1] for node in range(1, NODES + 1)]
    for _ in range(count):
        node, at, kind = 1 + chance.below(NODES), chance.below(len(names)), chance.below(1000)
        first = chance.below(size - 1)
        length = 1 + chance.below(min(2000, size - first))
        package = names[at][:-15]
        if kind < 700 and waiting[node - 1]:
            line = waiting[node - 1].pop()
            yield stopped(line, kind == 0) if kind < 3 else line
        elif kind < 780:
            yield f"deliver {node} {names[at]} {first} {length}"
        elif kind < 800:
            yield f"lose {node} {names[at]}"
        elif kind < 803:
            yield f"restart {node}"
        elif kind < 850:
            yield f"report {node} {package}"
        else:
            yield f"ask {node} {package} {query(chance, known[at])}"


def main():
    parser = argparse.ArgumentParser(description=__doc__, formatter_class=argparse.RawDescriptionHelpFormatter)
    parser.add_argument("kind", choices=sorted(DEFAULTS), metavar="KIND")
    parser.add_argument("--lines", type=int, metavar="N")
    parser.add_argument("--bytes", type=int, metavar="B")
    parser.add_argument("--seed", type=int, default=1, metavar="S")
    args = parser.parse_args()
    count, size = DEFAULTS[args.kind]
    count = count if args.lines is None else args.lines
    size = size if args.bytes is None else args.bytes
    if args.kind == "queries":
        made = queries(list_of(size, args.seed), count, 5)
    elif args.kind == "releases":
        made = many_releases(count, size, args.seed)
    elif args.kind == "world":
        made = world(count, size, args.seed)
    else:
        made = one_release(args.kind, count, size, args.seed)
    sys.stdout.buffer.writelines(f"{line}\n".encode() for line in made)


if __name__ == "__main__":
    main()
