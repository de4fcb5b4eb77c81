#!/usr/bin/env python3
"""Runs a command once for each of its requests for memory, and refuses this request in the run: the first, the second,
and so on, to the last. Prints how the runs ended, and with --count how many requests were refused.

refused_allocations.py [--count] [--every N] [--least N] [--copy FILE] [--then LINE] [--or FILE] [--steps]
                       [--again] [--server ADDR] INPUT COMMAND ..

Standard input is the file INPUT. In COMMAND and LINE, `{}` is a folder that is empty before each run, but for links to
the files of the current folder; COMMAND then runs there. The C compiler cc compiles refusing.c, which refuses the
requests. The runs share what comes before their refusals: the command runs once, and at each request it is copied, with
its folder, and the copy is refused. A run begins anew if a socket was open at its request, and with --server.

A run ends as

  right      its output and its status are those of the run without a refusal
  fault      it ends with a fault that says that memory ran out. Its output is the first lines of the output of a run
             that ends otherwise
  refused    a fetch ends with status 3, and its last line is `refused Memory`
  counted    its output is compared line by line, and some lines are about memory
  again      with --again: one of two calls met the refusal

The lines of an answer (`release NAME hits N`) count as one. In a run that is `counted`, each line is the same as in the
run without a refusal, or one of these:

  refused Memory          in place of any line. The event has no effect: each later line is what the program prints,
                          with all memory, for INPUT without that event
  Memory, Write           from a driver, in place of any line. A text after it is the beginning of that line's text
  down Memory             in place of `restarted` or `stopped`, by a node that is not opened again. The event has its
                          effect. Up to the node's next restart, `refused Down` is the line of each of its events, and
                          these have no effect

A run that ends otherwise is printed with the number of the request.

--every N      refuses only every N-th request
--least N      refuses only requests of at least N bytes
--copy FILE    copies FILE, a database, into the folder before each run, with its write-ahead log if there is one
--then LINE    runs LINE in the shell, with all memory, after each run; it has to print the same as after the run
               without a refusal. It runs once for all runs that leave the same files in the folder
--or FILE      a run may also do what it does with the input FILE, which is reported as `other`
--steps        each line of INPUT is a step, whose words are the last arguments of COMMAND
--again        the command makes a call twice, and prints `again` between. At most one of the two prints something else
               than in the run without a refusal
--server ADDR  the command serves one connection at ADDR: INPUT is sent there, and the reply is checked as output"""
import argparse
import concurrent.futures
import functools
import hashlib
import os
import pathlib
import re
import shutil
import socket
import subprocess
import sys
import tempfile
import time

sys.dont_write_bytecode = True
from rising_limits import KNOWN, outcome

SOURCE = pathlib.Path(__file__).with_name("refusing.c")
SECONDS = 60
ENDS = [*KNOWN[1:], "again", "other"]
# The files with the output of a copied process, in its folder.
OUTPUT = ["out", "err"]
# The output of a server that had no memory for its one connection.
UNSERVED = b"listening\nfault Memory\n"
# A fetch prints this before a fault of its reply, which is a loss to the feed.
LOST = b"nothing\n"
# The first words of input lines that print nothing. The line of `queue EVENT` is printed by `run`.
SILENT = [b"", b"nodes", b"file", b"record", b"keep", b"close", b"run"]
# Further ones among the steps.
SILENT_STEPS = [b"restart"]
# The messages of a driver that ran out of memory for its input, a file, a name or a query, or for the feed that it was
# to open.
DRIVERS = re.compile(rb"[Mm]emory|AllocError|AllocFailed|error: Write|cannot read or write|a read or a print failed"
                     rb"|input or output failed|a file is not readable|a name is wrong|not the name of a release"
                     rb"|a query is wrong|no feed is open|the feed does not open")
ABOUT_MEMORY = re.compile(rb"refused Memory\n|down Memory\n|(?:Memory|Write)(?: (.*))?\n")


class Run:
    """A run of the command: how it ended, its reply, what LINE printed after it, and how many requests there were."""

    def __init__(self, given, path, library, refused):
        with a_folder() as folder:
            fill(given, folder)
            words = {"LD_PRELOAD": str(library), "REFUSED": str(refused)}
            process, counted = begin(given, path, words, folder, subprocess.PIPE, subprocess.PIPE)
            self.reply = replied(process, given.server, pathlib.Path(path).read_bytes()) if given.server else b""
            out, err = process.communicate(timeout=SECONDS)
            with os.fdopen(counted) as count:
                self.requests = int(count.read() or 0)
            self.done = subprocess.CompletedProcess(given.command, process.returncode, out, err)
            self.then = given.after.printed(folder)


class Copy:
    """A run that was copied from another one at its request: how it ended, and what LINE printed after it."""

    reply = b""

    def __init__(self, given, folder, status):
        out, err = (pathlib.Path(folder, name).read_bytes() for name in OUTPUT)
        self.done = subprocess.CompletedProcess(given.command, status, out, err)
        self.then = given.after.printed(folder)
        shutil.rmtree(folder)


def a_folder():
    """A new folder, in memory if there is such a place, which is removed at the end."""
    memory = "/dev/shm" if os.access("/dev/shm", os.W_OK) else None
    return tempfile.TemporaryDirectory(prefix="kbfeed-refused-", dir=memory)


def has_folder(given):
    """Returns whether the command works in the folder of its run."""
    return any("{}" in word for word in given.command)


def fill(given, folder):
    """Makes the files that are in the folder before a run."""
    if not has_folder(given):
        return
    copied = [name for name in [given.copy, f"{given.copy}-wal"] if given.copy and os.path.exists(name)]
    for name in copied:
        shutil.copy(name, folder)
    for name in sorted({*os.listdir()} - {*map(os.path.basename, copied), *OUTPUT}):
        os.symlink(os.path.abspath(name), os.path.join(folder, name))


def begin(given, path, words, folder, out, err, *passed):
    """Begins the command, and returns the process and the end of a pipe to which the count of its requests goes."""
    reader, writer = os.pipe()
    steps = pathlib.Path(path).read_text(encoding="utf-8").split() if given.steps else []
    command = [it.replace("{}", ".") for it in given.command + steps]
    with open(os.devnull if given.steps else path, "rb") as text:
        process = subprocess.Popen(command, stdin=text, stdout=out, stderr=err, pass_fds=[writer, *passed],
                                   cwd=folder if has_folder(given) else None,
                                   env={**os.environ, **words, "REFUSED_COUNT": str(writer),
                                        "REFUSED_LEAST": given.least})
    os.close(writer)
    return process, reader


class After:
    """Runs LINE on the folder of a run, once for all folders with the same files."""

    def __init__(self, line):
        self.line, self.known = line, {}

    def printed(self, folder):
        """What LINE prints, None without LINE."""
        if not self.line:
            return None
        files = [it for it in sorted(pathlib.Path(folder).iterdir()) if not it.is_symlink() and it.name not in OUTPUT]
        state = b"".join(it.name.encode() + hashlib.sha256(it.read_bytes()).digest() for it in files)
        if state not in self.known:
            line = self.line.replace("{}", folder)
            done = subprocess.run(["sh", "-c", line], capture_output=True, timeout=SECONDS, check=False)
            self.known[state] = (done.returncode, done.stdout, done.stderr)
        return self.known[state]


def copies(given, library, whole, copied):
    """Runs the command once, with a copy at each request. Yields each request with the status of its copy, None where
    there is none. The copies work in folders of the folder `copied`."""
    with a_folder() as folder:
        fill(given, folder)
        done, writer = os.pipe()
        words = {"LD_PRELOAD": str(library), "REFUSED_EVERY": str(given.every), "REFUSED_DONE": str(writer),
                 "REFUSED_JOBS": str(os.cpu_count() or 1), "REFUSED_FOLDER": os.path.realpath(folder),
                 "REFUSED_COPIES": copied}
        out, err = (open(os.path.join(folder, name), "wb") for name in OUTPUT)
        with out, err:
            process, counted = begin(given, given.input, words, folder, out, err, writer)
        os.close(writer)
        with os.fdopen(done) as ended, os.fdopen(counted) as count:
            for line in ended:
                request, status = line.split()
                yield int(request), None if status == "open" else int(status)
            requests = int(count.read() or 0)
        if (process.wait(), requests, pathlib.Path(folder, "out").read_bytes()) != whole:
            sys.exit(f"the run that is copied differs: {requests} requests, status {process.returncode}")


def replied(process, address, request):
    """The reply of a server to a request, as soon as it listens; empty if it has ended before."""
    host, port = address.rsplit(":", 1)
    while process.poll() is None:
        try:
            with socket.create_connection((host, int(port)), timeout=SECONDS) as peer:
                peer.sendall(request)
                return b"".join(iter(lambda: peer.recv(65_536), b""))
        except ConnectionError:
            time.sleep(0.001)
    return b""


def blocks_of(text):
    """The lines of an output. Those of an answer are one."""
    lines, blocks = text.splitlines(keepends=True), []
    while lines:
        answer = re.fullmatch(rb"release \S+ hits (\d+)\n", lines[0])
        count = 1 + int(answer[1]) if answer else 1
        blocks.append(b"".join(lines[:count]))
        del lines[:count]
    return blocks


def printing(lines, silent):
    """The places of the input lines that print something."""
    return [at for at, line in enumerate(lines) if line.split(b" ")[0] not in silent]


def node_of(line):
    """The number of the node in a line of a script."""
    return line.split(b" ")[1:2]


class Oracle:
    """Says of an output with lines about memory what the other lines have to be."""

    def __init__(self, given, library, whole):
        self.given, self.library, self.whole = given, library, whole
        self.lines = pathlib.Path(given.input).read_bytes().removesuffix(b"\n").split(b"\n")

    @functools.lru_cache(maxsize=None)
    def without(self, dropped):
        """What the program prints, with all memory, for the input without these lines."""
        with tempfile.NamedTemporaryFile(prefix="kbfeed-refused-") as file:
            kept = [line for at, line in enumerate(self.lines) if at not in dropped]
            file.write(b"".join(line + b"\n" for line in kept))
            file.flush()
            return blocks_of(Run(self.given, file.name, self.library, 0).done.stdout)

    def wrong(self, text):
        """What is wrong in an output, None if nothing is."""
        silent = SILENT + SILENT_STEPS if self.given.steps else SILENT
        places, blocks = printing(self.lines, silent), blocks_of(text)
        right = blocks_of(self.whole.done.stdout)
        if not len(places) == len(right) == len(blocks):
            return f"{len(blocks)} lines for {len(places)} events"
        dropped, down = set(), set()
        for place, block, usual in zip(places, blocks, right):
            line = self.lines[place]
            word, node = line.split(b" ")[0], tuple(node_of(line))
            about = ABOUT_MEMORY.fullmatch(block)
            if node in down and word != b"restart" and word != b"publish":
                if block != b"refused Down\n":
                    return f"{block!r} by a node that is down"
                dropped.add(place)
            elif block == b"down Memory\n":
                if usual not in (b"restarted\n", b"stopped\n"):
                    return f"{block!r} in place of {usual!r}"
                down.add(node)
            elif about:
                if about[1] is not None and not usual.split(b" ", 1)[-1].startswith(about[1]):
                    return f"{block!r} in place of {usual!r}"
                dropped.add(place)
            elif word == b"restart":
                down.discard(node)
        if not dropped and b"down Memory\n" not in blocks:
            return f"another output: {text!r}"
        wanted = iter(self.without(frozenset(dropped)))
        for place, block in zip(places, blocks):
            right = block if place in dropped else next(wanted, None)
            if block != right and block != b"down Memory\n":
                return f"{block!r} in place of {right!r}"
        return None


def before_fault(done):
    """The output before a fault and the line that belongs to it."""
    unopened = done.stderr.endswith(b"no feed is open\n")
    return done.stdout.removesuffix(b"refused Memory\n" if unopened else LOST)


def end_of_two(done, whole):
    """How a run of two calls ended, compared with the run without a refusal."""
    calls, right = (it.stdout.partition(b"again\n") for it in (done, whole))
    is_right = [call == usual for call, usual in zip(calls, right)]
    return "again" if is_right.count(False) == 1 and is_right[1] and done.returncode == whole.returncode else None


def end_of(run, whole, oracle):
    """How a run ended, compared with the run without a refusal."""
    done, first = run.done, whole.done.stdout
    if oracle.given.again and done.stdout != first:
        two = end_of_two(done, whole.done)
        if two:
            return two
    came_to = outcome(done, whole.done)
    if (done.returncode, done.stdout, done.stderr) == (0, UNSERVED, b""):
        came_to = "fault"
    elif came_to not in KNOWN and done.returncode == whole.done.returncode and done.stderr == whole.done.stderr:
        came_to = "counted"
    elif came_to not in KNOWN and done.returncode in (1, 2) and DRIVERS.search(done.stderr):
        came_to = "fault"
    if came_to == "counted":
        wrong = oracle.wrong(done.stdout)
        came_to = f"counted, but {wrong}" if wrong else came_to
    elif came_to == "fault" and done.stdout != UNSERVED and not first.startswith(before_fault(done)):
        return f"another answer before a fault: {done.stdout!r}"
    if run.reply != whole.reply and not (came_to == "fault" and whole.reply.startswith(run.reply)):
        return f"{came_to}, and another reply: {run.reply!r}"
    return came_to


def runs_of(given, library, whole):
    """Yields each refused request and its run, in order."""
    jobs = 1 if given.server else os.cpu_count() or 1
    with a_folder() as copied, concurrent.futures.ThreadPoolExecutor(jobs) as pool:
        if given.server:
            ended = ((number, None) for number in range(1, whole.requests + 1, given.every))
        else:
            ended = copies(given, library, (whole.done.returncode, whole.requests, whole.done.stdout), copied)
        runs = {}
        for number, status in ended:
            if status is None:
                runs[number] = pool.submit(Run, given, given.input, library, number)
            else:
                runs[number] = pool.submit(Copy, given, os.path.join(copied, str(number)), status)
        for number in sorted(runs):
            yield number, runs[number].result()


def main():
    asked = argparse.ArgumentParser(description=__doc__, formatter_class=argparse.RawDescriptionHelpFormatter)
    asked.add_argument("--count", action="store_true")
    asked.add_argument("--or", dest="other")
    asked.add_argument("--every", type=int, default=1)
    asked.add_argument("--least", default="0")
    asked.add_argument("--copy")
    asked.add_argument("--then")
    asked.add_argument("--steps", action="store_true")
    asked.add_argument("--again", action="store_true")
    asked.add_argument("--server")
    asked.add_argument("input")
    asked.add_argument("command", nargs=argparse.REMAINDER)
    given = asked.parse_args()
    given.after = After(given.then)
    with tempfile.TemporaryDirectory(prefix="kbfeed-refused-") as folder:
        library = pathlib.Path(folder, "refusing.so")
        subprocess.run(["cc", "-shared", "-fPIC", "-O2", "-o", library, SOURCE], check=True)
        whole = Run(given, given.input, library, 0)
        other = Run(given, given.other, library, 0).done if given.other else None
        oracle = Oracle(given, library, whole)
        met = ["right"]
        for number, run in runs_of(given, library, whole):
            came_to = end_of(run, whole, oracle)
            if other and outcome(run.done, other) == "right" != came_to:
                came_to = "other"
            if run.then != whole.then:
                came_to = f"{came_to}, and then {run.then}"
            if came_to not in ENDS:
                print(number, came_to)
            met.append(came_to)
    print(", ".join(name for name in ENDS if name in met) + (f"; refused {len(met) - 1}" if given.count else ""))


if __name__ == "__main__":
    main()
