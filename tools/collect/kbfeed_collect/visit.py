"""A visit to a source, in a process of its own: its list is downloaded, converted, checked and compared."""
import dataclasses
import gzip
import json
import os
import pathlib
import shutil
import subprocess
import sys
import tempfile
from typing import Any, BinaryIO, Iterator, NamedTuple

from kbfeed_convert import command as converter, ending
from kbfeed_convert.faults import BYTES, Refused, WrongArguments
from kbfeed_convert.files import Output, ReportOutput
from kbfeed_convert.report import Report

from .configuration import Source
from .download import Validators, download
from .keys import Key
from .processes import Limits

# A list with so many more rows than its newest release is never held for that.
ADDED = 100
# The bytes of a row that no reader wants.
LONG = 16_384
# The files that a release was made of, in the folder of its visit: as downloaded, and the report of its conversion.
PIECE, OVERLAP = 1 << 20, 1 << 16
DOWNLOAD, REPORT = "download", "report.json.gz"


@dataclasses.dataclass
class Outcome:
    """What a visit found and did. Numbers that are not known are None, and `status` is the exit status."""
    package: str
    found: str = "nothing"
    rows: int | None = None
    dropped: int | None = None
    added: int | None = None
    removed: int | None = None
    changed: int | None = None
    outcome: str = ""
    published: str = ""
    status: int = 0
    warnings: list[str] = dataclasses.field(default_factory=list)


class Task(NamedTuple):
    """What a visit needs: its source with the key, what the last one found, the newest release or an empty path, where
    to put files, the name of the release, and whether the bounds count."""
    source: Source
    key: Key | None
    known: Validators
    newest: str
    folder: pathlib.Path
    name: str
    is_accepted: bool


@dataclasses.dataclass
class Found:
    """What a visit found: `kind` is same if nothing differs, list if one is to be published, and fault otherwise. The
    clock of the host is `ahead` of this machine's by so many seconds, if that is known."""
    outcome: Outcome
    kind: str = "fault"
    validators: list[str] | None = None
    host: str = ""
    ahead: float | None = None

    @staticmethod
    def read(given: dict[str, Any]) -> "Found":
        """Returns what a process reported."""
        found = Found(**given)
        found.outcome = Outcome(**given["outcome"])
        return found


class KeptReport(ReportOutput):
    """The report of a conversion, packed. It is dropped if it is longer than a list may be, or cannot be written."""

    def __init__(self, path: pathlib.Path):
        """Begins a file."""
        self.target, self.left = path, BYTES
        self.packed = gzip.open(path, "wt", compresslevel=1, encoding="utf-8", errors="replace")

    def write_text(self, text: str) -> None:
        """Appends a text."""
        self.left -= len(text)
        if self.left > 0:
            try:
                self.packed.write(text)
            except OSError:
                self.left = 0

    def end(self) -> None:
        """Writes what is left."""
        try:
            self.packed.close()
        except OSError:
            self.left = 0
        if self.left <= 0:
            self.target.unlink()


def visit(task: Task, limits: Limits) -> dict[str, Any]:
    """Visits a source. An error is its outcome."""
    found = Found(Outcome(task.source.package))
    # The converter unpacks files on the disk of the lists.
    tempfile.tempdir = str(task.folder)
    try:
        collect(task, limits, found)
    except MemoryError:
        limits.relax()
        found.outcome.status = 1
        found.outcome.outcome = f"the conversion needs more than {limits.size} bytes of memory (max_convert_bytes)"
    except Exception as error:
        found.outcome.status, found.outcome.outcome = ending.fault(error)
    if task.key:
        outcome = found.outcome
        outcome.outcome, outcome.found = task.key.hidden(outcome.outcome), task.key.hidden(outcome.found)
        outcome.warnings = [task.key.hidden(it) for it in outcome.warnings]
    return dataclasses.asdict(found)


def collect(task: Task, limits: Limits, found: Found) -> None:
    """Downloads the list of a source, and has it converted, checked and compared."""
    source, outcome = task.source, found.outcome
    given, whole = task.folder / DOWNLOAD, task.folder / task.name
    with open(given, "wb") as file:
        reply = download(source.url, task.key, task.known, file, source.max_bytes, source.max_seconds, source.inside)
    limits.begin_conversion()
    found.host, found.ahead = reply.host, reply.ahead
    if not reply.validators:
        found.kind, outcome.found, outcome.outcome = "same", "not modified", "nothing new"
        return
    found.validators = list(reply.validators)
    outcome.found = "a file"
    report = convert(source, given, whole, outcome)
    outcome.found = "a list"
    read_lines(whole, task.key, outcome)
    check(whole, outcome)
    if task.newest and not differs(task, whole, outcome):
        found.kind, outcome.outcome = "same", "no row differs"
        return
    hold(task, report)
    keep_parts(task, outcome)
    found.kind = "list"


def hold(task: Task, report: Report) -> None:
    """Refuses a list whose coverage may be wider than its source, and one with addresses that a library has to fill."""
    package = task.source.package
    if task.is_accepted:
        return
    if text := report.unfilled():
        raise Refused(f"{text}: replace in its source fills it, or --accept {package} publishes it once")
    if task.source.widened == "hold" and (text := report.doubt()):
        raise Refused(f"{text}. --accept {package} publishes it once, and widened = \"warn\" each time")


def convert(source: Source, given: pathlib.Path, whole: pathlib.Path, outcome: Outcome) -> Report:
    """Converts a list, and returns its report. What was dropped is in the outcome, also if no row is left."""
    out = Output(str(whole), whole.name)
    report_out = KeptReport(whole.parent / REPORT)
    try:
        options = [f"--package={source.package}", *source.options]
        report = converter.convert(converter.arguments([*options, str(given)]), whole.name, out, report_out)
        outcome.rows, outcome.dropped = report.rows, report.lost()
        outcome.warnings = [report.counts(), *report.warnings]
        if not report.rows:
            raise Refused("no record is a row: such a release would hide its package")
        out.finish()
        out.place()
        return report
    finally:
        out.remove()
        report_out.end()


def keep_parts(task: Task, outcome: Outcome) -> None:
    """Keeps the vendor's file and the report of its conversion, unless one of them has the key."""
    given, report = task.folder / DOWNLOAD, task.folder / REPORT
    files: list[BinaryIO | gzip.GzipFile] = [open(given, "rb"), *([gzip.open(report)] if report.exists() else [])]
    if task.key and any(task.key.is_in(it) for file in files for it in pieces(file)):
        outcome.warnings.append("the vendor's file has the key, and is not kept")
        given.unlink()
        report.unlink(missing_ok=True)


def pieces(file: BinaryIO | gzip.GzipFile) -> Iterator[str]:
    """Yields a file in pieces that overlap, so that a key is whole in one of them."""
    before = b""
    while piece := file.read(PIECE):
        yield (before + piece).decode("latin-1")
        before = piece[-OVERLAP:]


def read_lines(whole: pathlib.Path, key: Key | None, outcome: Outcome) -> None:
    """Refuses a list that has the key, which readers would get. Warns of long rows."""
    long = first = 0
    with open(whole, encoding="utf-8", errors="replace") as lines:
        for number, line in enumerate(lines, 1):
            if key and key.is_in(line):
                raise Refused("the key is in the list: the vendor has it in links or texts")
            if len(line) * 4 > LONG and len(line.encode()) > LONG:
                long, first = long + 1, first or number
    if long:
        outcome.warnings.append(f"rows of more than {LONG} bytes: {long}, the first is row {first}")


def check(whole: pathlib.Path, outcome: Outcome) -> None:
    """Checks a list by the reader of the nodes, which counts its rows."""
    run = program("check", "--summary", whole.name, folder=whole.parent)
    words = run.stdout.split()
    if run.returncode or words[1:2] != ["rows"]:
        raise Refused(f"kbfeed check: {said(run)}")
    outcome.rows = int(words[2])
    if not outcome.rows:
        raise Refused("the list has no rows: such a release would hide its package")


def differs(task: Task, whole: pathlib.Path, outcome: Outcome) -> bool:
    """Returns whether a list has other rows than the newest release. Refuses it if a bound is passed."""
    source, newest = task.source, os.path.basename(task.newest)
    bounds = ["--max-removed", str(source.max_removed), "--max-changed", str(source.max_changed)]
    run = program("diff", "--json", "--summary", *bounds, task.newest, str(whole))
    if not run.stdout:
        raise Refused(f"{newest} and the list cannot be compared: {said(run)}")
    found = json.loads(run.stdout)
    counts, rows = found["counts"], found["old"]["rows"]
    outcome.added, outcome.removed, outcome.changed = (counts[it] for it in ("added", "removed", "changed"))
    if not task.is_accepted:
        accept = f"--accept {source.package} publishes it once"
        if run.returncode:
            raise Refused(f"{newest} stays: of its {rows} rows {outcome.removed} are removed "
                          f"(max_removed {source.max_removed} %) and {outcome.changed} changed "
                          f"(max_changed {source.max_changed} %). {accept}")
        # After a list without rows each row is added.
        if rows and counts["added"] > ADDED and counts["added"] * 100 > rows * source.max_added:
            raise Refused(f"{newest} stays: beside its {rows} rows {outcome.added} are added "
                          f"(max_added {source.max_added} %). {accept}")
    return any(counts.values())


def program(*words: str, folder: pathlib.Path | None = None) -> subprocess.CompletedProcess[str]:
    """Runs kbfeed, which is beside this program or on the path."""
    beside = pathlib.Path(sys.argv[0]).resolve().parent / "kbfeed"
    found = str(beside) if os.access(beside, os.X_OK) else shutil.which("kbfeed")
    if not found:
        raise WrongArguments("kbfeed is neither beside this program nor on the path")
    return subprocess.run([found, *words], cwd=folder, stdin=subprocess.DEVNULL, capture_output=True, encoding="utf-8",
                          errors="replace", check=False)


def said(run: subprocess.CompletedProcess[str]) -> str:
    """Returns what kbfeed says is wrong."""
    lines = (run.stderr or run.stdout).strip().splitlines()
    return lines[0].removeprefix("kbfeed: ") if lines else f"it ended with {run.returncode}"
