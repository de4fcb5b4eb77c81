"""Runs the toolchain's gate, `rt ci`, over the crates of a folder, and reports how far it is.

The gate proves each crate over the statements of the crates below it, as many at once as there are processors, the
longest chain first. Kits of the toolchain that keep what they proved, by the checksums of all that the proof read,
take it over, and then a run that was interrupted resumes."""
import os
import pathlib
import re
import signal
import subprocess
import sys
import threading
import time

# The program that is the gate.
PROVING = pathlib.Path(__file__).with_name("toolchain.py")
# The seconds between two lines about what is running, and between two looks at it.
REPORT, LOOK = 30, 0.5
# The gate's lines about a mutant, and their meanings.
MUTANT = re.compile(r"rt: must-fail (\w+)/([\w.-]+)\.edit: (refused|NOT REFUSED|NOT TRIED|BAD EDIT)(.*)")
BAD_NAME = re.compile(r"rt: crates/(\w+)/must-fail/(\S+): (BAD EDIT)(.*)")
REJECTED, PASSES, UNTRIED = "rejected", "NOT REJECTED", "NOT TRIED"
BAD, BY_NAME = "CANNOT BE APPLIED", "ONLY A NAME IS GONE"
MEANINGS = {"refused": REJECTED, "NOT REFUSED": PASSES, "NOT TRIED": UNTRIED, "BAD EDIT": BAD}


def say(text):
    print(text, file=sys.stderr, flush=True)


class Mutant:
    """What the gate found of a mutant: the crate, its name, the verdict, and the goal that is open or a reason."""

    def __init__(self, found):
        self.crate, self.name, self.verdict = found[1], found[2], MEANINGS[found[3]]
        if "only because a proof file names what the edit took away" in found[4]:
            self.verdict = BY_NAME
        self.why = re.sub(r"^(, as it must be)?:? ?", "", found[4])

    def line(self):
        return f"{self.crate}/{self.name}: {self.verdict}{': ' if self.why else ''}{self.why}"


def count_of(mutants):
    """Returns a line with the numbers of mutants by their verdicts."""
    rejected = sum(it.verdict == REJECTED for it in mutants)
    others = [f"{number} {kind.lower()}" for kind in (PASSES, UNTRIED, BAD, BY_NAME)
              if (number := sum(it.verdict == kind for it in mutants))]
    return f"mutants: {len(mutants)} tried, {rejected} rejected, {len(mutants) - rejected} not" + \
        (f" ({', '.join(others)})" if others else "")


def running(folder, gate):
    """Returns the crates below a folder that a process of the toolchain is working on. With names of crates the gate
    works on a copy, whose path has the gate's number."""
    found = set()
    for place in pathlib.Path("/proc").glob("[0-9]*"):
        try:
            top = pathlib.Path(os.readlink(place / "cwd")).parent
            if top == folder / "crates" or (top.name == "crates" and f"/rt-copy-{gate}-" in str(top)):
                found.update(re.findall(rb"--crate-name\0(\w+)", (place / "cmdline").read_bytes()))
        except OSError:
            continue
    return {it.decode() for it in found}


class Progress:
    """Which crates are left, which are running, and since when."""

    def __init__(self, crates, folder):
        self.folder, self.left, self.began, self.since = folder, list(crates), time.monotonic(), {}
        # The number of the gate's process, once it has begun.
        self.gate = None
        sources = {it: (folder / "crates" / it / "src").rglob("*.rt") for it in crates}
        self.weight = {it: sum(len(file.read_bytes()) for file in files) for it, files in sources.items()}
        self.ended = threading.Event()

    def watch(self):
        """Records when each crate begins, and reports what is running, until the gate ends."""
        reported = time.monotonic()
        while not self.ended.wait(LOOK):
            now = time.monotonic()
            at_work = running(self.folder, self.gate)
            for crate in at_work:
                self.since.setdefault(crate, now)
            if now - reported >= REPORT:
                reported = now
                self.report(now, at_work)

    def report(self, now, at_work):
        shown = [f"{it} {now - self.since[it]:.0f} s" for it in self.left if it in at_work]
        left = sum(self.weight[it] for it in self.left) * 100 // max(sum(self.weight.values()), 1)
        what = f"{len(self.left)} of {len(self.weight)} crates left, {left} % of the source"
        what = f"at work on {', '.join(shown) or 'nothing'}; {what}" if self.left else "at work on mutants and programs"
        say(f"{now - self.began:.0f} s: {what}")

    def proved(self, crate, how):
        if crate in self.left:
            self.left.remove(crate)
        since = self.since.get(crate)
        seconds = f", {time.monotonic() - since:.0f} s" if since else ""
        say(f"{crate}: {how}{seconds}")


class Gate:
    """A run of the gate over the crates of a folder, on some processors or on all. If `is_quiet`, it reports only what
    fails. With names of crates it proves these and those below them, without mutants and without runs of programs."""

    def __init__(self, folder, crates, variables=None, is_quiet=False, processors=None, names=()):
        self.folder, self.crates, self.is_quiet, self.processors = folder, crates, is_quiet, processors
        self.words = [sys.executable, "-B", str(PROVING), *names]
        self.variables = {**os.environ, **(variables or {})}
        self.mutants, self.failed, self.last, self.process = [], [], "", None

    def read(self, lines, progress):
        """Reads what the gate prints, and reports each crate as it is proved."""
        section, printed = [], []
        for line in lines:
            printed.append(line)
            section = [line] if line.startswith("== ") else [*section, line]
            if found := MUTANT.match(line) or BAD_NAME.match(line):
                self.mutants.append(Mutant(found))
            elif found := re.match(r"rt: (\w+) proved$", line):
                progress.proved(found[1], "proved")
            elif found := re.match(r"rt: (\w+) is kept", line):
                progress.proved(found[1], "was proved before")
            elif found := re.match(r"rt: (\w+) NOT PROVED", line):
                self.failed.append("".join(section))
                say(f"{found[1]}: not proved")
            elif re.match(r"rt: .*(ended with status|had not ended|FAILED|is not what its file|was stopped)", line):
                say(line[4:].rstrip("\n"))
            elif re.match(r"\d+ passed, \d+ failed", line):
                self.last = line.rstrip("\n")
        if not self.failed:
            self.failed = ["".join(printed[-40:])]

    def run(self):
        """Runs the gate, and returns whether it passes. Shows the errors of what fails last."""
        progress = Progress(self.crates, self.folder)
        if self.is_quiet:
            progress.proved = progress.report = lambda *_: None
        words = ["taskset", "-c", ",".join(map(str, self.processors))] if self.processors else []
        self.process = subprocess.Popen([*words, *self.words], cwd=self.folder, stdin=subprocess.DEVNULL,
                                        stdout=subprocess.PIPE, env=self.variables, stderr=subprocess.STDOUT, text=True,
                                        errors="replace", start_new_session=True)
        progress.gate = self.process.pid
        watcher = threading.Thread(target=progress.watch, daemon=True)
        watcher.start()
        try:
            self.read(self.process.stdout, progress)
            status = self.process.wait()
        except BaseException:
            self.stop()
            self.process.wait()
            raise
        finally:
            progress.ended.set()
            watcher.join()
        if status:
            self.show_errors()
        return status == 0

    def stop(self):
        """Asks the gate to end. It ends its own processes."""
        if self.process and self.process.poll() is None:
            os.killpg(self.process.pid, signal.SIGTERM)

    def show_errors(self):
        """Shows what the gate printed of the crates that failed, without the lines about the modules of libraries."""
        lines = "".join(self.failed).splitlines(True)
        shown = "".join(it for it in lines if not it.startswith(("statements ", "logic ")))
        say(shown.replace(f"{self.folder}/", "").rstrip("\n"))
