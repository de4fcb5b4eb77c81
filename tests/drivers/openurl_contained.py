#!/usr/bin/env python3
"""Holds the answers of a node to random queries against those of the core: no identifier of the core is lost.

openurl_contained.py list
openurl_contained.py ask COUNT SEED LIST ADDR

`list` prints the rows of a holdings list, one for each identifier, without dates and volumes, so that a row is a hit
exactly if its identifier is looked up. `ask` makes the queries of openurl_random.py. `kbfeed replay` gives the core's
answers with LIST, and the node at ADDR, which has the same list, gives its own over one connection. Prints each query
of which a row of the core is no hit of the node, and then the number of queries. Fails if fewer than one in twenty are
answered by the core, or if the node adds a row to fewer than one in a hundred of these."""
import http.client
import pathlib
import random
import re
import subprocess
import sys

from openurl_random import query_of

ISSNS, ISBNS = ["2434-561X", "0317-8471", "1050-124X"], ["9780306406157", "9781849302043"]


def print_list():
    for kind, names in (("serial", ISSNS), ("monograph", ISBNS)):
        for name in names:
            print(f"T\t{name}\t\t\t\t\t\thttp://a.example/{name}\t{kind}")


def answers_of(lines):
    """The records of each answer, or None for a refused query."""
    answers = []
    for line in lines:
        if line.startswith("refused "):
            answers.append(None)
        elif line.startswith("release "):
            answers.append(set())
        elif re.match(r"\d+\t", line):
            answers[-1].add(line.split("\t")[0])
    return answers


def of_core(queries, path):
    """The answers of a replay in which a node gets the list and is asked each query."""
    name, package = path.name, path.name.rpartition("_")[0]
    script = ["nodes 1", f"publish-file {name} {path}", f"offer 1 {name}", f"deliver 1 {name} 0 {path.stat().st_size}"]
    script += [f"ask 1 {package} {query}" for query in queries]
    run = subprocess.run(["kbfeed", "replay"], input="\n".join(script), capture_output=True, text=True, check=False)
    return answers_of(run.stdout.splitlines())


def of_node(queries, address):
    host, port = address.rsplit(":", 1)
    connection, answers = http.client.HTTPConnection(host, int(port), timeout=60), []
    for query in queries:
        connection.request("GET", "/resolve?" + query, headers={"Accept": "text/plain"})
        reply = connection.getresponse()
        lines = reply.read().decode().splitlines()
        answers.append(answers_of(lines)[0] if reply.status == 200 and lines[0].startswith("release ") else None)
    return answers


def ask(count, seed, path, address):
    rng = random.Random(seed)
    queries = [query_of(rng) for _ in range(count)]
    core, node = of_core(queries, path), of_node(queries, address)
    if len(core) != count:
        sys.exit(f"{len(core)} answers of the core")
    answered = added = 0
    for query, before, after in zip(queries, core, node):
        if before is None:
            continue
        answered += 1
        added += after is not None and after > before
        if after is None or not before <= after:
            print("lost", query, before, after)
    if answered * 20 < count or added * 100 < answered:
        sys.exit(f"{answered} answered by the core, {added} with another row")
    print(f"{count} queries")


if __name__ == "__main__":
    if sys.argv[1] == "list":
        print_list()
    else:
        ask(int(sys.argv[2]), int(sys.argv[3]), pathlib.Path(sys.argv[4]), sys.argv[5])
