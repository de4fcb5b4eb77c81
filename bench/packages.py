"""The benchmarks of a node with many packages, each beside one with few."""
import contextlib
import hashlib
import pathlib
import re
import shutil
import sqlite3
import subprocess
import time

from benchmarks import TOKEN, asked, figures_of, post_feed, remove_database, serving_node, started
from make_list import plain_issn, plain_list
from measuring import BENCH, KBFEED, MIB, Benchmark, Failed

MANY, SOME, FEW = 4_000, 1_000, 10
ROWS = 3_000_000
DAYS = ["2024-01-01", "2024-02-01"]
# The first of the days, as a number of days since 1970-01-01.
DAY = 19_723
TABLES = re.search("```sql\n(.*?)```", (BENCH.parent / "docs/formats/DATABASE.md").read_text(encoding="utf-8"), re.S)[1]
# The targets by the endings of benchmarks. The package and the ISSN are those of a list in the middle.
TARGETS = {"status": "/status", "of-one": "/resolve/{package}?issn={issn}", "of-all": "/resolve?issn={issn}",
           "titles": "/titles?q=Journal", "metrics": "/metrics", "front": "/", "feed": "/feed",
           "feed-json": "/feed?format=json"}
SWITCHES = 9
# A dear query: as many ISSNs as one may have, in each representation.
ASKED = 64
REPRESENTATIONS = ["text", "json", "html", "fragment", "sfx"]
# For what memory is allocated: the bytes and the rows of a list, the toolchain's SQLite, and all else of a node.
OWNERS = ["list", "sqlite", "beside"]


def lists_of(packages, rows, day=DAYS[0], issns=None):
    """Yields the names and the bytes of the lists of so many packages, which have so many rows together: each an ISSN
    of its own, or so many in turn."""
    for at in range(packages):
        numbers = range(rows * at // packages, rows * (at + 1) // packages)
        yield f"P{at:04}_{day}.txt", plain_list([it % issns for it in numbers] if issns else numbers)


def database_of(shop, packages, rows, issns=None):
    """Returns a database with an active release of each of so many packages, with so many ISSNs or one for each row.
    Python's sqlite3 makes it, in seconds."""
    def make():
        path = shop.fresh(".db")
        with contextlib.closing(sqlite3.connect(path)) as base:
            base.execute("PRAGMA journal_mode = WAL")
            base.executescript(f"{TABLES} INSERT INTO feed_layout VALUES (2);")
            for name, text in lists_of(packages, rows, issns=issns):
                base.execute("INSERT INTO feed_release VALUES (?, ?, ?, ?, 2)", (name, name[:-15], DAY, len(text)))
                base.executemany("INSERT INTO feed_piece VALUES (?, ?, ?)",
                                 [(name, first, text[first:first + MIB]) for first in range(0, len(text), MIB)])
            base.commit()
        return path
    return shop.once(("packages", packages, rows, issns), make)


def token_of(shop):
    def make():
        path = shop.fresh(".token")
        path.write_text(f"{TOKEN}\n")
        return path
    return shop.once("token", make)


@contextlib.contextmanager
def node_with(shop, packages, rows=None, issns=None, **started_as):
    """Runs a node over a copy of a database with so many packages, by default of a row each."""
    database = shop.fresh(".db")
    shutil.copy(database_of(shop, packages, rows or packages, issns), database)
    child, port = serving_node(shop, database, "--from", shop.shelf_address(), "--token", token_of(shop),
                               **started_as)
    try:
        yield child, port
    finally:
        shop.stop(child)
        remove_database(database)


def packages_open(shop):
    """A start over 3,000,000 rows in 1,000 packages, beside one over the same rows in 10."""
    units = {"": "ms, until it listens", "-answers": "ms", "-wait": "ms, longest wait"}
    runners = {who: lambda packages=packages: started(shop, database_of(shop, packages, ROWS))
               for who, packages in [(KBFEED, SOME), (f"{FEW} packages", FEW)]}
    yield from figures_of("packages-open", units, runners, ())


def commits(calls, since, until):
    """Returns the seconds of the commits of a fetch. The calls on files between two connections are those of one."""
    total, last = 0.0, None
    for name, begin, end, _ in calls:
        if since <= float(begin) <= until:
            total += 0.0 if name == "connect" else float(end) - (last or float(begin))
            last = None if name == "connect" else float(end)
    return total


def next_releases(shop, packages):
    """Puts the next releases of some of so many packages on the shelf, of a row each, and returns their names."""
    lists = dict(list(lists_of(packages, packages, DAYS[1]))[::packages // SWITCHES][:SWITCHES])
    for name, text in lists.items():
        (shop.shelf / name).write_bytes(text)
    return list(lists)


def switch_to(port, name):
    """Has a node fetch a release, and returns when that began and ended."""
    result, since = [], time.monotonic()
    post_feed(port, name, result)
    if result != ["status 0"]:
        raise Failed(f"the fetch ends with {result}")
    return since, time.monotonic()


def switches(shop, packages):
    """Has a node with so many packages fetch the next release of some of them. Returns the time of a fetch, as its
    client sees it, that of its commits, and that of all else, each the second shortest."""
    calls = shop.fresh(".calls")
    with node_with(shop, packages, calls=calls) as (_, port):
        spans = [switch_to(port, name) for name in next_releases(shop, packages)]
    lines = [line.split() for line in calls.read_text().splitlines()]
    times = [(until - since, commits(lines, since, until)) for since, until in spans]
    columns = [*zip(*times), [whole - commit for whole, commit in times]]
    return [{"value": sorted(column)[1] * 1e3} for column in columns]


def counted_switches(shop, packages):
    """Returns the instructions of the same fetches, each, in their commits and beside them, by valgrind's callgrind."""
    profile = shop.fresh(".profile")
    callgrind = ["valgrind", "-q", "--tool=callgrind", f"--callgrind-out-file={profile}"]
    with node_with(shop, packages, under=callgrind) as (child, port):
        subprocess.run(["callgrind_control", "-z", str(child.pid)], stdout=subprocess.DEVNULL, check=True)
        for name in next_releases(shop, packages):
            switch_to(port, name)
        subprocess.run(["callgrind_control", "-d", str(child.pid)], stdout=subprocess.DEVNULL, check=True)
    text = subprocess.run(["callgrind_annotate", "--inclusive=yes", "--threshold=100", f"{profile}.1"],
                          capture_output=True, text=True, check=True).stdout
    found = [re.search(rf"^ *([0-9,]+) \([^)]*\) +{what}", text, re.M) for what in
             ("PROGRAM TOTALS", r"\S*feed_releases::commit::commit")]
    if not all(found):
        raise Failed("callgrind does not name the commit")
    whole, commit = (int(it[1].replace(",", "")) / SWITCHES for it in found)
    return [{"value": it} for it in (commit, whole - commit)]


def packages_switch(shop):
    """The fetch of a list of a row that becomes active, on a node with 4,000 packages beside one with 10."""
    for units, measured, tools in [
            ({"": "ms", "-commits": "ms, both commits", "-beside": "ms, without them"}, switches, ()),
            ({"-commits-work": "instructions", "-beside-work": "instructions"}, counted_switches, ("valgrind",))]:
        runners = {who: lambda packages=packages, measured=measured: measured(shop, packages)
                   for who, packages in [(KBFEED, MANY), (f"{FEW} packages", FEW)]}
        yield from figures_of("packages-switch", units, runners, ("nginx", *tools), once=bool(tools))


def asked_among(shop, packages):
    """Returns the time of a request for each target, of a node with so many packages of a row each."""
    places = {"package": f"P{packages // 2:04}", "issn": plain_issn(packages // 2)}
    with node_with(shop, packages) as (_, port):
        return asked(port, [target.format(**places) for target in TARGETS.values()])


def packages_requests(shop):
    """Requests of one client to a node with 4,000 packages, beside one with 1,000 and one with 10."""
    units = {f"-{ending}": "ms" for ending in TARGETS}
    runners = {who: lambda packages=packages: asked_among(shop, packages)
               for who, packages in [(KBFEED, MANY), (f"{SOME} packages", SOME), (f"{FEW} packages", FEW)]}
    yield from figures_of("packages-requests", units, runners, ("nginx",))


def asked_dearly(shop, packages, rows):
    """Returns the time of a query with 64 ISSNs in each representation, of a node whose rows all have one of them."""
    query = "&".join(f"rft.issn={plain_issn(it)}" for it in range(ASKED))
    with node_with(shop, packages, rows, ASKED) as (_, port):
        return asked(port, [f"/resolve?format={it}&rft.date=1995&{query}" for it in REPRESENTATIONS])


def packages_dear(shop):
    """The dearest queries: 64 ISSNs, over a package with 5,000 rows, and over 4,000 packages that have all of them."""
    units = {f"-{it}": "ms" for it in REPRESENTATIONS}
    runners = {KBFEED: lambda: asked_dearly(shop, MANY, MANY * ASKED),
               "1 package": lambda: asked_dearly(shop, 1, 5_000)}
    yield from figures_of("packages-dear", units, runners, ("nginx",))


def resident(shop, packages, rows):
    """Returns the memory in bytes of a node that answers from so many packages, which have so many rows together."""
    with node_with(shop, packages, rows) as (child, _):
        status = pathlib.Path(f"/proc/{child.pid}/status").read_text()
    return [int(re.search(r"VmRSS:\s+(\d+)", status)[1]) * 1024]


def owner(function):
    """Returns for what a function allocates memory, or None if its caller decides that."""
    if re.match("feed_kbart::|feed_parts::|feed_store_read::pieces::", function):
        return "list"
    return "sqlite" if function.startswith("sqlite") else "beside" if re.match("feed_|node_|cmd_", function) else None


def allocated(shop, packages, rows):
    """Returns the bytes that such a node has allocated, by what they are for. A snapshot of massif, which has a tree
    of the callers of each function that allocates, says so."""
    total, above, heap = dict.fromkeys(OWNERS, 0), None, shop.fresh(".heap")
    massif = ["valgrind", "-q", "--tool=massif", "--depth=40", "--threshold=0", f"--massif-out-file={shop.fresh()}"]
    with node_with(shop, packages, rows, under=massif) as (child, _):
        subprocess.run(["vgdb", f"--pid={child.pid}", "detailed_snapshot", heap], capture_output=True, check=True)
    for indent, size, function in re.findall(r"^( *)n[0-9]+: ([0-9]+) 0x[0-9A-F]+: (\S+)", heap.read_text(), re.M):
        if above is None or len(indent) <= above:
            whose = owner(function)
            above = len(indent) if whose else None
            if whose:
                total[whose] += int(size)
    return list(total.values())


def packages_memory(shop):
    """The memory of a node for each package more: 4,000 packages of a row, and as many rows in 10 packages. What is
    resident, and what it has allocated for lists, for SQLite, and for all else."""
    def more(measured):
        return [{"value": (many - few) / (MANY - FEW)}
                for many, few in zip(measured(shop, MANY, MANY), measured(shop, FEW, MANY))]

    bench = Benchmark("packages-memory", "bytes a package")
    bench.add(KBFEED, "=", lambda: more(resident)[0], needs=("nginx",))
    yield bench
    units = {f"-{it}": "bytes a package" for it in OWNERS}
    yield from figures_of("packages-memory", units, {KBFEED: lambda: more(allocated)}, ("nginx", "valgrind"), once=True)


def fed(shop, *options):
    """Has kbfeed-feed offer 1,000 releases to a node that answers from them, and returns its figures."""
    names, nodes = shop.fresh(".names"), shop.fresh(".nodes")
    every = dict(lists_of(SOME, SOME))
    for name, text in every.items():
        (shop.shelf / name).write_bytes(text)
    names.write_text("".join(f"{name}\n" for name in every))
    with node_with(shop, SOME) as (_, port):
        nodes.write_text(f"127.0.0.1:{port}\n")
        figures = shop.timed(["sh", BENCH.parent / "samples/fleet/feed", *options, "--index", f"file://{names}",
                              token_of(shop), nodes])
    wanted = "".join(f"127.0.0.1:{port} {name} known\n" for name in every)
    if figures.pop("output") != hashlib.sha256(wanted.encode()).hexdigest():
        raise Failed("not every release is known")
    return figures


def packages_feed(shop):
    """The script kbfeed-feed over 1,000 releases that have not changed, without --all and with it."""
    for name, options in [("packages-feed", ()), ("packages-feed-all", ("--all",))]:
        bench = Benchmark(name, "ms, 1,000 releases")
        bench.add(KBFEED, "=", lambda options=options: fed(shop, *options), needs=("nginx", "curl"))
        yield bench


GROUPS = {"packages-open": packages_open, "packages-switch": packages_switch, "packages-requests": packages_requests,
          "packages-dear": packages_dear, "packages-memory": packages_memory, "packages-feed": packages_feed}
