"""The benchmarks by group: which commands of kbfeed are measured, and beside which peers."""
import hashlib
import http.client
import os
import re
import sqlite3
import subprocess
import sys
import threading
import time

import make_script
from measuring import (BENCH, BUILT, CALLS, KBFEED, MIB, PEER, PEERS, TIMED, Benchmark, Failed, free_port, is_listening,
                       usage_of)

TOKEN = "benchmark-of-kbfeed-on-127.0.0.1"
# The seconds between two requests of a reader whose waits are measured.
STEP = 0.005
ROUNDS = {"1M": 4, "256K": 2, "1K": 2}


def python(script, *args):
    return [sys.executable, "-X", f"pycache_prefix={BUILT / 'python'}", PEERS / script, *args]


def start(shop):
    """The cost of a command before it does anything: an empty script."""
    script = shop.fresh(".script")
    script.write_text("nodes 1\n")
    bench = Benchmark("start", "ms")
    bench.add(KBFEED, "=", shop.command(shop.program, "replay", stdin=script), needs=())
    bench.add("rust", "=", shop.command(PEER, "replay", stdin=script))
    yield bench


def check(shop):
    """Lists of several sizes, one whose records are all skipped, and one with a very wide record."""
    lists = [(f"check-{mib}", shop.list_of(mib)) for mib in shop.sizes]
    for name, path in [*lists, *[(f"check-{kind}", shop.odd_list(kind)) for kind in ("skipped", "wide")]]:
        bench = Benchmark(name, "ms")
        bench.add(KBFEED, "=", shop.command(shop.program, "check", path), needs=())
        bench.add("rust, rows kept", "=", shop.command(PEER, "check", path))
        bench.add("rust, one pass", "=", shop.command(PEER, "check-stream", path))
        bench.add("python csv", "=", shop.command(*python("check.py", path)), needs=(), once=True)
        yield bench


def diff(shop):
    """A list and its next release, beside the checks of both and an answer from the first."""
    for mib in shop.sizes:
        old, new = shop.list_of(mib), shop.edited_list(mib)
        bench = Benchmark(f"diff-{mib}", "ms")
        bench.add(KBFEED, "=", shop.command(shop.program, "diff", "--summary", old, new), needs=())
        bench.add("checks of both", "-", shop.command(shop.program, "check", "--summary", old, new), needs=())
        bench.add("answer", "-", shop.command(shop.program, "answer", old, "rft.issn=2434561x"), needs=())
        yield bench


def requested_ranges(shop, server, path, piece, rounds):
    """Starts a server, requests the ranges of a file one after another, and returns the figures of one request."""
    size, port = path.stat().st_size, free_port()
    requests = rounds * -(-size // piece)
    child, end = server(port, requests + 1)
    try:
        last = min(999 + piece, size - 1)
        got = subprocess.run(["curl", "-s", "--max-time", "20", "-H", "Connection: close", "-r", f"1000-{last}",
                              f"http://127.0.0.1:{port}/{path.name}"], capture_output=True, check=False).stdout
        with open(path, "rb") as file:
            file.seek(1_000)
            if got != file.read(last - 999):
                raise Failed("another body")
        figures = shop.timed([PEER, "ranges", f"127.0.0.1:{port}", path.name, size, piece, rounds])
        cpu, memory = end()
    finally:
        shop.stop(child)
    return {"value": figures["value"] * 1e3 / requests, "cpu": cpu * 1e3 / requests, "memory": memory}


def counting_server(shop, program):
    """Returns how to start a server that ends after a number of connections."""
    def server(port, count):
        report = shop.fresh(".time")
        with open(shop.fresh(".log"), "wb") as log:
            child = shop.start([TIMED, report, program, "serve", shop.shelf, f"127.0.0.1:{port}", "--count", count],
                               lambda: is_listening(port), stdout=log)

        def end():
            try:
                child.wait(20)
            except subprocess.TimeoutExpired as why:
                raise Failed("the server does not end after its count") from why
            _, user, system, peak, _, status = report.read_text().split()
            if status != "0":
                raise Failed(f"the server ends with {status}")
            return (float(user) + float(system)) * 1e3, int(peak) / 1024
        return child, end
    return server


def running_server(begin):
    """Returns how to start a server that runs until it is stopped."""
    def server(port, _):
        child = begin(port)
        return child, lambda: usage_of(child)
    return server


def serve(shop):
    """Ranges of a file, with one connection for each request."""
    def with_python(port):
        return shop.start(python("serve.py", shop.shelf, port), lambda: is_listening(port))

    servers = [(KBFEED, counting_server(shop, shop.program), ()),
               ("rust, read and write", counting_server(shop, PEER), ()),
               ("nginx, sendfile", running_server(lambda port: shop.nginx(port, shop.shelf)), ("nginx",)),
               ("nginx, no sendfile", running_server(lambda port: shop.nginx(port, shop.shelf, False)), ("nginx",)),
               ("python http.server", running_server(with_python), ())]
    big = max(shop.sizes)
    for label, mib, piece in [("1M", big, MIB), ("256K", big, 256 << 10), ("1K", 1, 1 << 10)]:
        bench = Benchmark(f"serve-{label}", "us a request")
        for who, server, needs in servers:
            bench.add(who, "=", lambda server=server, mib=mib, piece=piece, label=label:
                      requested_ranges(shop, server, shop.list_of(mib), piece, ROUNDS[label]),
                      needs=("kbpeer", "curl", *needs))
        yield bench


def remove_database(path):
    for suffix in ("", "-wal", "-shm", "-journal"):
        if os.path.exists(f"{path}{suffix}"):
            os.remove(f"{path}{suffix}")


def stored_bytes(database, name):
    connection = sqlite3.connect(database)
    try:
        pieces = connection.execute("SELECT bytes FROM feed_piece WHERE name = ? ORDER BY place", (name,))
        return b"".join(piece for piece, in pieces)
    finally:
        connection.close()


def fetched(shop, program, path, *options):
    """Returns a runner that downloads a list into a new database, and compares what the first run stored."""
    seen = []

    def go():
        database = shop.fresh(".db")
        try:
            figures = shop.timed([program, "fetch", database, shop.shelf_address(), path.name, *options])
            if not seen and stored_bytes(database, path.name) != path.read_bytes():
                raise Failed("other bytes are stored")
            seen.append(True)
            return figures
        finally:
            remove_database(database)
    return go


def downloaded(shop, path, piece):
    """Returns a runner of curl that downloads a list in ranges to a file."""
    size = path.stat().st_size
    parts = [f'url = "http://{shop.shelf_address()}/{path.name}"\nrange = {first}-{min(first + piece, size) - 1}\n'
             f'header = "Connection: close"\n' for first in range(0, size, piece)]
    config = shop.fresh(".curl")
    config.write_text("next\n".join(parts))

    def go():
        figures = shop.timed(["curl", "-s", "-K", config])
        if figures["output"] != hashlib.sha256(path.read_bytes()).hexdigest():
            raise Failed("other bytes arrived")
        return figures
    return go


def fetch(shop):
    """Downloads of a list from nginx into a database, in pieces."""
    big = max(shop.sizes)
    for label, mib, piece in [("1M", big, MIB), ("256K", big, 256 << 10), ("16K", min(4, big), 16 << 10)]:
        path, each = shop.list_of(mib), ("--piece", piece)
        bench = Benchmark(f"fetch-{label}", "ms")
        bench.add(KBFEED, "=", fetched(shop, shop.program, path, *each), needs=("nginx",))
        bench.add("rust, sqlite WAL", "=", fetched(shop, PEER, path, *each), needs=("kbpeer", "nginx"))
        bench.add("rust, sqlite DELETE", "=", fetched(shop, PEER, path, *each, "--journal", "delete"),
                  needs=("kbpeer", "nginx"))
        bench.add("curl, ranges to a file", "-", lambda path=path, piece=piece: downloaded(shop, path, piece)(),
                  needs=("curl", "nginx"))
        yield bench


def store(shop):
    """The floor of a fetch: the pieces of a file are stored, by the peers alone."""
    path = shop.list_of(max(shop.sizes))

    def into(command):
        def go():
            database = shop.fresh(".db")
            try:
                return shop.timed([database if word == "DB" else word for word in command])
            finally:
                remove_database(database)
        return go

    for label, piece in [("1M", MIB), ("256K", 256 << 10)]:
        bench = Benchmark(f"store-{label}", "ms")
        for journal in ("wal", "delete"):
            bench.add(f"rust, sqlite {journal.upper()}", "=",
                      into([PEER, "store", "DB", path, "--piece", piece, "--journal", journal]))
            bench.add(f"python, sqlite {journal.upper()}", "=", into(python("store.py", "DB", path, piece, journal)),
                      needs=())
        yield bench


def database_with(shop, program, path):
    """Returns a database into which this program has fetched a list."""
    def make():
        database = shop.fresh(".db")
        shop.timed([program, "fetch", database, shop.shelf_address(), path.name, "--piece", MIB])
        return database
    return shop.once(("database", program, path), make)


def database_of(shop, program, mib):
    return database_with(shop, program, shop.list_of(mib))


def package_of(path):
    return path.name[:-len("_2024-01-01.txt")]


def query_for(path):
    """Returns a query with an ISSN of a list."""
    known = [it for it in make_script.identifiers(path.read_bytes()) if re.fullmatch(r"\d{4}-\d{3}[\dX]", it)]
    return f"rft.issn={known[len(known) // 2]}"


def ask(shop):
    """From the start of a process to the answer, and the load of a database."""
    for mib in shop.sizes:
        path = shop.list_of(mib)
        words = ["ask", None, package_of(path), query_for(path)]
        bench = Benchmark(f"ask-{mib}", "ms")
        for who, program, needs in [(KBFEED, shop.program, ()), ("rust", PEER, ("kbpeer",))]:
            bench.add(who, "=", lambda program=program, words=words, mib=mib: shop.timed(
                [program, *[database_of(shop, program, mib) if word is None else word for word in words]]),
                needs=("nginx", *needs))
        yield bench
    big = max(shop.sizes)
    bench = Benchmark(f"load-{big}", "ms")
    bench.add(KBFEED, "=", lambda: {**shop.timed([shop.program, "status", database_of(shop, shop.program, big)]),
                                    "output": None}, needs=("nginx",))
    bench.add("rust", "=", lambda: {**shop.timed([PEER, "load", database_of(shop, PEER, big)]), "output": None},
              needs=("kbpeer", "nginx"))
    bench.add("python, bytes alone", "-", lambda: shop.timed(
        python("store.py", "--load", database_of(shop, shop.program, big))), needs=("nginx",))
    yield bench


def replay(shop):
    """Scripts of worlds of nodes."""
    for kind in ("large", "asks", "world", "scatter", "restart", "releases"):
        script = shop.script(kind)
        bench = Benchmark(f"replay-{kind}", "ms")
        bench.add(KBFEED, "=", shop.command(shop.program, "replay", stdin=script), needs=())
        bench.add("rust", "=", shop.command(PEER, "replay", stdin=script))
        if kind == "scatter":
            bench.add("rust, sorted vector", "=", shop.command(PEER, "replay", "--segments", "list", stdin=script))
        yield bench


def started_node(shop, database, *options, calls=None, under=()):
    """Starts a node that writes its calls to a file, if there is one, under a program, if it is given one. Returns its
    process and its port."""
    port = free_port()
    log = open(shop.fresh(".log"), "wb")
    with log:
        command = [*under, shop.program, "node", database, f"127.0.0.1:{port}", *options]
        env = {**os.environ, "LD_PRELOAD": str(CALLS), "CALLS": str(calls)} if calls else None
        return shop.start(command, lambda: is_listening(port), stdout=log, env=env), port


def serving_node(shop, database, *options, **started_as):
    """Starts a node, and waits until it answers readers."""
    child, port = started_node(shop, database, *options, **started_as)
    until_it_answers(port)
    return child, port


def until_it_answers(port):
    """Waits until a node answers readers. Returns the longest wait of a client for a response meanwhile, in seconds."""
    longest, status = 0.0, 503
    while status == 503:
        began = time.monotonic()
        connection = http.client.HTTPConnection("127.0.0.1", port, timeout=60)
        connection.request("GET", "/status")
        reply = connection.getresponse()
        reply.read()
        connection.close()
        status, longest = reply.status, max(longest, time.monotonic() - began)
        time.sleep(max(0.0, began + STEP - time.monotonic()))
    return longest


def started(shop, database):
    """Starts a node. Returns the times until it listens and until it answers readers, with its memory then, and the
    longest wait for a response in between."""
    began = time.monotonic()
    child, port = started_node(shop, database)
    listens = time.monotonic() - began
    try:
        longest = until_it_answers(port)
        answers = time.monotonic() - began
        cpu, memory = usage_of(child)
    finally:
        shop.stop(child)
    return [{"value": value * 1e3, "cpu": cpu, "memory": memory} for value in (listens, answers, longest)]


def figures_of(name, units, runners, needs, once=False):
    """Returns a benchmark for each of the figures that one run measures, by the endings of their names and their units.
    The first has each of the runners make its runs, and the others take their figures from these."""
    kept = {(who, ending): [] for who in runners for ending in units}

    def figure(who, ending):
        if not kept[who, ending]:
            for key, value in zip(units, runners[who]()):
                kept[who, key].append(value)
        return kept[who, ending].pop(0)

    for ending, unit in units.items():
        bench = Benchmark(f"{name}{ending}", unit)
        for who in runners:
            bench.add(who, "=", lambda who=who, ending=ending: figure(who, ending), needs=needs, once=once)
        yield bench


def node_start(shop):
    """From the start of a node to its listening socket and to its first answer, with the memory that it then has, and
    the longest wait for a response in between."""
    units = {"": "ms", "-answers": "ms", "-wait": "ms, longest wait"}
    lists = [(str(mib), lambda mib=mib: shop.list_of(mib)) for mib in shop.sizes]
    big = max(shop.sizes)
    for label, made in [*lists, (f"short-{big}", lambda: shop.short_list(big))]:
        name = f"node-start-{label}"
        runner = {KBFEED: lambda made=made: started(shop, database_with(shop, shop.program, made()))}
        for bench in figures_of(name, units, runner, ("nginx",)):
            if bench.name == name:
                bench.add("rust, opens and loads", "-",
                          lambda made=made: shop.timed([PEER, "load", database_with(shop, PEER, made())]),
                          needs=("kbpeer", "nginx"))
            yield bench


def rate(shop, clients, url, *options):
    """Returns the requests a second of wrk."""
    threads = min(clients, max(1, (os.cpu_count() or 2) // 2))
    run = subprocess.run(["wrk", "-t", str(threads), "-c", str(clients), "-d", f"{shop.seconds}s", *options, url],
                         capture_output=True, text=True, check=False)
    found = re.search(r"Requests/sec:\s+([0-9.]+)", run.stdout)
    if run.returncode or not found or "Non-2xx" in run.stdout:
        raise Failed(f"wrk: {(run.stderr or run.stdout).strip()[-200:]}")
    return float(found[1])


def target_of(shop):
    """Returns the target that is asked for: a title of the smallest list."""
    return f"resolve?{query_for(shop.list_of(min(shop.sizes)))}"


def rate_of_node(shop, clients, options):
    child, port = serving_node(shop, database_of(shop, shop.program, min(shop.sizes)))
    try:
        value = rate(shop, clients, f"http://127.0.0.1:{port}/{target_of(shop)}", *options)
        return {"value": value, "memory": usage_of(child)[1]}
    finally:
        shop.stop(child)


def site_of(shop):
    """Returns a folder with a file that has the bytes of a node's response."""
    child, port = serving_node(shop, database_of(shop, shop.program, min(shop.sizes)))
    try:
        connection = http.client.HTTPConnection("127.0.0.1", port, timeout=30)
        connection.request("GET", f"/{target_of(shop)}")
        body = connection.getresponse().read()
    finally:
        shop.stop(child)
    folder = shop.fresh(".site")
    folder.mkdir()
    (folder / "answer").write_bytes(body)
    return folder


def rate_of_nginx(shop, clients, options):
    port, folder = free_port(), shop.once("site", lambda: site_of(shop))
    child = shop.nginx(port, folder, log=shop.fresh(".log"))
    try:
        value = rate(shop, clients, f"http://127.0.0.1:{port}/answer", *options)
        return {"value": value, "memory": usage_of(child)[1]}
    finally:
        shop.stop(child)


def node_requests(shop):
    """Requests a second of a node, and of nginx with a file of the same bytes. Both write a log."""
    for label, options in [("requests", []), ("closing", ["-H", "Connection: close"])]:
        for clients in (1, 16, 256):
            bench = Benchmark(f"node-{label}-{clients}", "requests a second", is_rate=True)
            for who, runner in [(KBFEED, rate_of_node), ("nginx, one worker", rate_of_nginx)]:
                bench.add(who, "=", lambda runner=runner, clients=clients, options=options:
                          runner(shop, clients, options), needs=("nginx", "wrk"))
            yield bench


def seconds_of(connection, target):
    """Sends a request with the token, and returns the time to the end of its response."""
    began = time.monotonic()
    connection.request("GET", target, headers={"Authorization": f"Bearer {TOKEN}"})
    reply = connection.getresponse()
    reply.read()
    if reply.status != 200:
        raise Failed(f"{target}: {reply.status}")
    return time.monotonic() - began


def asked(port, targets):
    """Returns for each target the second shortest time of seven requests of one client."""
    connection = http.client.HTTPConnection("127.0.0.1", port, timeout=60)
    return [{"value": sorted(seconds_of(connection, it) for _ in range(7))[1] * 1e3} for it in targets]


def asked_of(shop, path, targets):
    """The same of a node with a list."""
    child, port = serving_node(shop, database_with(shop, shop.program, path))
    try:
        return asked(port, targets)
    finally:
        shop.stop(child)


def node_hits(shop):
    """Responses with many hits, from a list whose 300,000 rows have one ISSN; searches for titles in 341,857 rows."""
    hits = {f"-{kind}": f"/resolve?rft.issn=0000-0000&format={kind}" for kind in ("text", "json", "html")}
    titles = {"-titles": "/titles?q=title", "-titles-none": "/titles?q=none"}

    def measured():
        of_hits, of_titles = shop.list_of_rows(300_000, 1), shop.list_of_rows()
        return asked_of(shop, of_hits, hits.values()) + asked_of(shop, of_titles, titles.values())

    yield from figures_of("node-hits", dict.fromkeys([*hits, *titles], "ms"), {KBFEED: measured}, ("nginx",))


def waits(port, target, is_done):
    """Returns the begin and the end of requests, one each 5 ms, until `is_done`."""
    connection, times = http.client.HTTPConnection("127.0.0.1", port, timeout=60), []
    while not times or not is_done():
        began = time.monotonic()
        connection.request("GET", f"/{target}")
        reply = connection.getresponse()
        reply.read()
        if reply.status != 200:
            raise Failed(f"a reader gets {reply.status}")
        times.append((began, time.monotonic()))
        time.sleep(max(0.0, began + STEP - time.monotonic()))
    return times


def last_commit(path):
    """Returns the begin and the end of the last commit of a node, and the seconds of its syncs, from the node's calls.
    The calls on files after the last connection to the knowledge base are those of the commit of the last piece."""
    calls = [line.split() for line in path.read_text().splitlines()]
    last = max(at for at, call in enumerate(calls) if call[0] == "connect")
    commit = calls[last + 1:]
    if not commit:
        raise Failed("no call on a file follows the last connection")
    syncs = sum(float(call[2]) - float(call[1]) for call in commit if call[0] in ("fsync", "fdatasync"))
    return float(commit[0][1]), float(commit[-1][2]), syncs


def post_feed(port, name, result):
    """Has a node fetch a release, and appends the last line of the response."""
    connection = http.client.HTTPConnection("127.0.0.1", port, timeout=600)
    connection.request("POST", f"/feed/{name}", headers={"Authorization": f"Bearer {TOKEN}"})
    result.append(connection.getresponse().read().decode().strip().split("\n")[-1])


def switched(shop, old, new):
    """Has a node switch from a list to its next release. Returns the longest wait of a reader meanwhile, the next
    longest one, the commit of the last piece, its syncs alone, and the wait at this commit without it."""
    database, token, calls, result = shop.fresh(".db"), shop.fresh(".token"), shop.fresh(".calls"), []
    token.write_text(f"{TOKEN}\n")
    target = f"resolve?{query_for(old)}"
    child, port = serving_node(shop, database, "--from", shop.shelf_address(), "--token", token, calls=calls)
    try:
        post_feed(port, old.name, result)
        feeding = threading.Thread(target=post_feed, args=(port, new.name, result))
        feeding.start()
        times = waits(port, target, lambda: not feeding.is_alive())
        begin, end, syncs = last_commit(calls)
        memory = usage_of(child)[1]
    finally:
        shop.stop(child)
        remove_database(database)
    if result != ["status 0", "status 0"]:
        raise Failed(f"the fetches end with {result}")
    lengths = sorted(till - since for since, till in times)
    at_commit = max((till - since for since, till in times if since < end and begin < till), default=0.0)
    values = (lengths[-1], lengths[-2] if len(lengths) > 1 else 0.0, end - begin, syncs,
              max(0.0, at_commit - (end - begin)))
    return [{"value": value * 1e3, "memory": memory} for value in values]


def node_switch(shop):
    """The waits of a reader while a node takes in the next release of a list and switches to it, and the commit."""
    units = {"": "ms, longest wait", "-next": "ms, next longest wait", "-commit": "ms, last commit",
             "-sync": "ms, syncs of it", "-beside": "ms, wait at it without it"}
    lists = [(str(mib), lambda day, mib=mib: shop.list_of(mib, day)) for mib in shop.sizes]
    for label, made in [*lists, ("rows", lambda day: shop.list_of_rows(day=day))]:
        def measured(made=made):
            return switched(shop, made("2024-01-01"), made("2024-02-01"))

        yield from figures_of(f"node-switch-{label}", units, {KBFEED: measured}, ("nginx",))


def counted(shop, tool, form):
    """Returns the numbers in what a tool that needs valgrind prints."""
    command = [sys.executable, "-B", BENCH / tool, "--program", shop.program]
    run = subprocess.run(command, capture_output=True, text=True, check=False)
    if run.returncode:
        raise Failed(run.stderr.strip()[-200:])
    return [{"value": float(it.replace(",", ""))} for it in re.findall(form, run.stdout, re.M)]


def instructions(shop):
    """The instructions of a node for a request."""
    units = {f"-{it}": "instructions" for it in ("status", "text", "json", "page")}
    runner = {KBFEED: lambda: counted(shop, "instructions", r"^ *([0-9,]+)  \w+$")}
    yield from figures_of("instructions", units, runner, ("valgrind",), once=True)


def copies(shop):
    """How often a byte of a list is copied in memory by three commands."""
    units = {f"-{it}": "copies of a byte" for it in ("fetch", "status", "check")}
    runner = {KBFEED: lambda: counted(shop, "copies", r"^kbfeed \w+: ([0-9.]+)$")}
    yield from figures_of("copies", units, runner, ("valgrind",), once=True)


def convert(shop):
    """`kbfeed-convert` of a list of the largest size, with a report."""
    def measured():
        tools = BENCH.parent / "tools/convert"
        run = subprocess.run([BENCH.parent / "tests/drivers/convert_speed.py", str(size * MIB), "100000", "100000"],
                             env={**os.environ, "PATH": f"{shop.program.parent}:{tools}:{os.environ['PATH']}"},
                             capture_output=True, text=True, check=False)
        found = re.search(r"([0-9.]+) s, ([0-9]+) MB$", run.stderr.strip())
        if run.returncode or not found or "all rows" not in run.stdout:
            raise Failed((run.stderr or run.stdout).strip()[-200:])
        return {"value": float(found[1]), "memory": float(found[2])}

    size = max(shop.sizes)
    bench = Benchmark(f"convert-{size}", "s of a processor")
    bench.add(KBFEED, "=", measured, needs=(), once=True)
    yield bench


GROUPS = {"start": start, "check": check, "diff": diff, "convert": convert, "serve": serve, "fetch": fetch,
          "store": store, "ask": ask, "load": ask, "replay": replay, "node-start": node_start,
          "node-requests": node_requests, "node-closing": node_requests, "node-hits": node_hits,
          "node-switch": node_switch, "instructions": instructions, "copies": copies}
