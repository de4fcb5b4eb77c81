"""Runs programs and servers of the benchmark, and keeps their figures."""
import hashlib
import os
import pathlib
import re
import shutil
import socket
import statistics
import subprocess
import sys
import time

BENCH = pathlib.Path(__file__).resolve().parent
BUILT = BENCH.parent / "out" / "bench"
PEER = BUILT / "kbpeer"
TIMED = BUILT / "timed"
CALLS = BUILT / "calls.so"
PEERS = BENCH / "peers"
MIB = 1 << 20
KBFEED = "kbfeed"
# The figures of the last measurement, and the columns behind the benchmark and who.
FIGURES = BENCH / "figures.tsv"
COLUMNS = ["value", "unit", "cpu", "memory", "ratio"]
# Seconds for one command, and for a server to listen, which takes minutes under valgrind.
LONGEST = 1_800
STARTING = 600


class Failed(Exception):
    """Why a program could not be measured."""


class Benchmark:
    """A benchmark: its runners by name, and the figures of each repetition.

    A runner returns a dict with `value` and, if they are known, `cpu` (milliseconds), `memory` and `written` (MiB) and
    `output` (a digest). Its mark is `=` if it does the same work as kbfeed, `-` if it does less."""

    def __init__(self, name, unit, is_rate=False):
        self.name, self.unit, self.is_rate = name, unit, is_rate
        self.runners, self.figures, self.faults, self.lacking = [], {}, {}, set()

    def add(self, who, mark, runner, needs=("kbpeer",), once=False):
        """Adds a runner, unless a program that it needs is missing. With `once` it runs once, since it is slow."""
        lacking = missing(["timed", *needs])
        self.lacking.update(lacking)
        if not lacking:
            self.runners.append((who, mark, runner, once))

    def run(self, repetitions, report):
        """Runs all runners in turn, and each repetition begins with another one."""
        for turn in range(repetitions):
            shift = turn % max(1, len(self.runners))
            for who, _, runner, once in self.runners[shift:] + self.runners[:shift]:
                if who in self.faults or (once and who in self.figures):
                    continue
                report(f"{self.name}: repetition {turn + 1} of {repetitions}, {who}")
                try:
                    self.figures.setdefault(who, []).append(runner())
                except Failed as why:
                    self.faults[who] = str(why)
        self.compare_outputs()

    def compare_outputs(self):
        """Records a fault of each runner that does the same work and printed something else than the first peer."""
        outputs = {who: self.figures[who][0].get("output") for who, mark, _, _ in self.runners
                   if mark == "=" and self.figures.get(who)}
        wanted = next((output for who, output in outputs.items() if who != KBFEED and output), None)
        for who, output in outputs.items():
            if wanted and output and output != wanted:
                self.faults[who] = "another output than the first peer"

    def median(self, who, key="value"):
        values = [it[key] for it in self.figures.get(who, []) if it.get(key) is not None]
        return statistics.median(values) if values else None

    def ratio(self, who):
        """Returns the median, the least and the greatest ratio of kbfeed's figure over that of a peer."""
        ours, theirs = ([it["value"] for it in self.figures.get(name, [])] for name in (KBFEED, who))
        if not ours or not theirs or KBFEED in self.faults or who in self.faults:
            return None
        pairs = [x / y for x, y in zip(ours, theirs * (len(ours) if len(theirs) == 1 else 1)) if y > 0]
        return (statistics.median(pairs), min(pairs), max(pairs)) if pairs else None

    def best_peer(self):
        """Returns the fastest peer that does the same work."""
        found = [(self.median(who), who) for who, mark, _, _ in self.runners
                 if mark == "=" and who != KBFEED and who not in self.faults and self.figures.get(who)]
        return (max if self.is_rate else min)(found)[1] if found else None


class Workshop:
    """The folder of a run with its inputs, and the servers that it started."""

    def __init__(self, folder, program, sizes, seconds):
        self.folder, self.program, self.sizes, self.seconds = pathlib.Path(folder), program, sizes, seconds
        self.shelf = self.folder / "shelf"
        self.shelf.mkdir()
        self.made, self.count, self.children, self.shelf_at = {}, 0, [], None

    def fresh(self, suffix=""):
        """Returns a path that no one has used."""
        self.count += 1
        return self.folder / f"{self.count}{suffix}"

    # Inputs.

    def once(self, key, make):
        """Returns what `make` returned for this key, and calls it the first time."""
        if key not in self.made:
            self.made[key] = make()
        return self.made[key]

    def generated(self, path, script, *args):
        with open(path, "wb") as file:
            subprocess.run([sys.executable, "-B", BENCH / script, *map(str, args)], stdout=file, check=True)
        return path

    def list_of(self, mib, day="2024-01-01"):
        """Returns a list of so many MiB on the shelf."""
        path = self.shelf / f"Bench{mib}_All_{day}.txt"
        args = ["--bytes", mib * MIB, "--seed", mib * 31 + int(day[5:7])]
        return self.once(path, lambda: self.generated(path, "make_list.py", *args))

    def list_of_rows(self, rows=341_857, titles=100_000, day="2024-01-01"):
        """Returns a list of so many rows, of some titles in turn, on the shelf: by default one of 21.6 MB."""
        path = self.shelf / f"Rows{rows}_All_{day}.txt"
        script = BENCH.parent / "tests/drivers/many_rows.py"
        return self.once(path, lambda: self.generated(path, script, rows, titles))

    def edited_list(self, mib):
        """Returns the list of so many MiB with edits: of 200 rows one is replaced, and two have another URL."""
        path = self.shelf / f"Edited{mib}_All_2024-02-01.txt"
        if not path.exists():
            with open(self.list_of(mib), "rb") as old, open(self.list_of(1, "2024-02-01"), "rb") as other:
                rows, new_rows = iter(old), iter(other)
                lines = [next(rows)]
                next(new_rows)
                for number, row in enumerate(rows):
                    if number % 200 == 100:
                        lines.append(next(new_rows))
                    else:
                        lines.append(row.replace(b"https://", b"http://", 1) if number % 100 == 1 else row)
                path.write_bytes(b"".join(lines))
        return path

    def odd_list(self, kind):
        """Returns a list of a million short records, which are all skipped, or of one record with 16 million fields."""
        path = self.shelf / f"Odd{kind}_All_2024-01-01.txt"
        if not path.exists():
            with open(self.list_of(1), "rb") as file:
                head = file.readline()
            path.write_bytes(head + (b"a\n" * MIB if kind == "skipped" else b"a" + b"\t" * (16 * MIB) + b"\n"))
        return path

    def short_list(self, mib):
        """Returns a list of so many MiB with the shortest rows: an ISSN alone, in the first column."""
        path = self.shelf / f"Short{mib}_All_2024-01-01.txt"
        if not path.exists():
            with open(self.list_of(1), "rb") as file:
                labels = file.readline().strip().split(b"\t")
            head = b"\t".join([b"print_identifier", *[it for it in labels if it != b"print_identifier"]]) + b"\n"
            row = b"2434561X\n"
            path.write_bytes(head + row * ((mib * MIB - len(head)) // len(row)))
        return path

    def script(self, kind, *args):
        return self.once((kind, *args), lambda: self.generated(self.fresh(".script"), "make_script.py", kind, *args))

    # Commands.

    def timed(self, command, stdin=None):
        """Runs a command to its end, and returns its figures."""
        out, report, err = self.fresh(".out"), self.fresh(".time"), self.fresh(".err")
        with open(out, "wb") as printed, open(err, "wb") as faults, open(stdin or os.devnull, "rb") as given:
            try:
                subprocess.run([TIMED, report, *map(str, command)], stdin=given, stdout=printed, stderr=faults,
                               timeout=LONGEST, check=False)
            except subprocess.TimeoutExpired as why:
                raise Failed(f"no end in {LONGEST} s") from why
        wall, user, system, peak, written, status = report.read_text().split()
        if status != "0":
            raise Failed(f"status {status}: {err.read_text(errors='replace').strip()[:200]}")
        digest = hashlib.sha256(out.read_bytes()).hexdigest()
        for path in (out, report, err):
            path.unlink()
        return {"value": float(wall) * 1e3, "cpu": (float(user) + float(system)) * 1e3, "memory": int(peak) / 1024,
                "written": int(written) / MIB, "output": digest}

    def command(self, *command, stdin=None):
        """Returns a runner of a command."""
        return lambda: self.timed(command, stdin)

    # Servers.

    def start(self, command, is_ready, **streams):
        child = subprocess.Popen(list(map(str, command)), stdin=subprocess.DEVNULL, **streams)
        self.children.append(child)
        end = time.monotonic() + STARTING
        while time.monotonic() < end and child.poll() is None:
            if is_ready():
                return child
            time.sleep(0.0005)
        self.stop(child)
        raise Failed("the server does not start")

    def stop(self, child):
        if child.poll() is None:
            child.terminate()
            try:
                child.wait(10)
            except subprocess.TimeoutExpired:
                child.kill()
                child.wait()
        if child in self.children:
            self.children.remove(child)

    def end(self):
        for child in list(self.children):
            self.stop(child)

    def nginx(self, port, root, sendfile=True, log="off"):
        """Starts nginx with one worker over a folder."""
        base = self.fresh(".nginx")
        base.mkdir()
        temporary = " ".join(f"{kind}_temp_path {base}/{kind};" for kind in
                             ("client_body", "proxy", "fastcgi", "uwsgi", "scgi"))
        (base / "nginx.conf").write_text(
            f"daemon off; master_process off; worker_processes 1; pid {base}/pid; error_log stderr crit;\n"
            f"events {{ worker_connections 1024; }}\n"
            f"http {{ access_log {log}; keepalive_requests 1000000; sendfile {'on' if sendfile else 'off'};"
            f" tcp_nopush on; output_buffers 2 512k; default_type application/octet-stream; {temporary}\n"
            f"server {{ listen 127.0.0.1:{port}; root {root}; }} }}\n")
        command = [shutil.which("nginx", path=f"{os.environ['PATH']}:/usr/sbin") or "nginx",
                   "-e", "stderr", "-p", base, "-c", base / "nginx.conf"]
        return self.start(command, lambda: is_listening(port), stdout=subprocess.DEVNULL, stderr=subprocess.DEVNULL)

    def shelf_address(self):
        """Returns the address of one nginx, from which all fetches download."""
        if self.shelf_at is None:
            port = free_port()
            self.nginx(port, self.shelf)
            self.shelf_at = f"127.0.0.1:{port}"
        return self.shelf_at


def read_figures():
    """Returns the columns of each line of figures.tsv, by its benchmark and who."""
    rows = [line.split("\t") for line in FIGURES.read_text(encoding="utf-8").splitlines()]
    return {(row[0], row[1]): dict(zip(COLUMNS, row[2:])) for row in rows}


def free_port():
    with socket.socket() as probe:
        probe.bind(("127.0.0.1", 0))
        return probe.getsockname()[1]


def is_listening(port):
    """Whether a socket listens on a port. It makes no connection, which a server would count."""
    with open("/proc/net/tcp", encoding="ascii") as file:
        rows = [line.split() for line in file.readlines()[1:]]
    return any(int(row[1].split(":")[1], 16) == port and row[3] == "0A" for row in rows)


def usage_of(child):
    """Returns the processor time (milliseconds) and the peak of the memory (MiB) of a running process."""
    fields = pathlib.Path(f"/proc/{child.pid}/stat").read_text().rsplit(")", 1)[1].split()
    status = pathlib.Path(f"/proc/{child.pid}/status").read_text()
    cpu = (int(fields[11]) + int(fields[12])) * 1_000 / os.sysconf("SC_CLK_TCK")
    return cpu, int(re.search(r"VmHWM:\s+(\d+)", status)[1]) / 1024


def missing(programs):
    """Returns the programs that are not installed, and the peers that are not built."""
    path = f"{os.environ['PATH']}:/usr/sbin"
    peers = {"kbpeer": PEER, "timed": TIMED}
    return [it for it in programs if not (peers[it].exists() if it in peers else shutil.which(it, path=path))]
