"""The arguments, the two passes over a list, and the exit statuses."""
import argparse
import os
import re

from . import ending, library, mapping, names, quick, reading, strict, unused
from .faults import BYTES, Refused, WrongArguments
from .files import Output, ReportOutput, standard_output
from .parsing import Parser
from .record import Cells
from .report import Report

PROGRAM = "kbfeed-convert"
DESCRIPTION = "Converts a vendor's holdings list to a KBART list that kbfeed reads."
EPILOG = """The list is text of any usual encoding and separator, a spreadsheet (.xlsx, .ods), a table of HTML (.xls)
or JSON, also inside ZIP or gzip.
The status is 0 if the list was written, 1 if it is refused, or with --strict if a record was dropped, 2 for wrong
arguments, and 3 if a file cannot be read or written."""


def arguments(given: list[str] | None = None) -> argparse.Namespace:
    """Parses the arguments."""
    parser = Parser(prog=PROGRAM, description=DESCRIPTION, epilog=EPILOG, allow_abbrev=False)
    parser.hint = ": it converts one list at a time"
    parser.add_argument("file", metavar="FILE", help="the list; - is standard input")
    parser.add_argument("--into", metavar="DIR", help="write DIR/NAME and print NAME, in place of standard output")
    parser.add_argument("--name", metavar="NAME", help="the file name to take the package and the day from")
    parser.add_argument("--package", metavar="PACKAGE", default="", help="the package of the release, always the same")
    parser.add_argument("--date", metavar="DAY", default="", help="the day of the release, as 2024-01-31")
    parser.add_argument("--type", choices=["serial", "monograph"], default="", help="of records without a type")
    parser.add_argument("--encoding", metavar="NAME", default="", help="of a text, as cp1252")
    parser.add_argument("--sheet", metavar="NAME", default="", help="of a spreadsheet")
    parser.add_argument("--map", metavar="FILE", help="what is particular to a vendor, in TOML")
    parser.add_argument("--profile", choices=list(mapping.PROFILES), default="",
                        help="the product that exported the list; without it, its header decides")
    parser.add_argument("--replace", metavar="PLACEHOLDER=VALUE", action="append", default=[],
                        help="a text to replace in addresses, as [SITE_ID]=4711")
    parser.add_argument("--library", metavar="FOLDER",
                        help="of an export with selections: a list for each package, and the files of a site")
    parser.add_argument("--report", metavar="FILE", help="write what was done with each record, in JSON")
    parser.add_argument("--strict", action="store_true",
                        help="exit with 1 if a record is dropped, or coverage may be wider than the source")
    parser.add_argument("-v", "--verbose", action="store_true", help="print all warnings, and not only ten lines")
    return parser.parse_args(given)


def convert(given: argparse.Namespace, name: str, out: Output, report_out: ReportOutput | None) -> Report:
    """Converts a list in two passes: the first finds the header and the order of day and month, the second writes."""
    opened = reading.opened(given, name)
    report = Report(report_out.write_text if report_out else None, opened.head, opened.warnings)
    converter = opened.converter()
    left_over = unused.Unused(opened.columns, converter.uses, converter.said_held)
    shortcut = quick.Shortcut(converter)
    line = ("\t".join(strict.LABELS) + "\n").encode()
    out.write(line)
    left = BYTES - len(line)
    for record in opened.records():
        if left_over.columns:
            left_over.look(record.cells)
        if shortcut.is_open and (found := shortcut.row(record)):
            for cells in found.rows:
                line = ("\t".join(cells) + "\n").encode()
                left -= len(line)
                if left < 0:
                    raise Refused(f"the list would have more than {BYTES} bytes")
                out.write(line)
            report.quick(record, found.changes, found.rules, found.reads)
            continue
        outcome = converter.convert(record)
        for row, _ in outcome.rows:
            line = row_line(row)
            left -= len(line)
            if left < 0:
                raise Refused(f"the list would have more than {BYTES} bytes")
            out.write(line)
        report.record(record, outcome)
    report.end(left_over.suspects(), left_over.categories(), "" if report.rows else "no record is a row")
    return report


def row_line(row: Cells) -> bytes:
    """Returns a row as a line. A separator or a line end inside a cell is a space, as no cell can be quoted."""
    line = "\t".join(row.values())
    if line.count("\t") != len(strict.LABELS) - 1 or "\n" in line or "\r" in line:
        line = "\t".join(re.sub("[\t\r\n]", " ", it) for it in row.values())
    return (line + "\n").encode("utf-8", "replace")


def run(given: argparse.Namespace) -> int:
    """Converts a list, writes the files, and returns the exit status."""
    return run_list(given) if given.library is None else run_library(given)


def run_library(given: argparse.Namespace) -> int:
    """Makes the files of a library, and returns the exit status."""
    if given.into is not None or given.package:
        raise WrongArguments("--library: the packages and their folder are those of the export")
    day = names.release(given.name or given.file, "P", given.date)[2:-4]
    check_paths(given, "")
    report_out = ReportOutput(given.report) if given.report else None
    try:
        report, lines = library.run(
            given, day, lambda head, warnings: Report(report_out.write_text if report_out else None, head, warnings),
            row_line)
        if report_out:
            report_out.finish()
            report_out.close()
        for line in lines:
            print_line(line)
        return status_of(given, report)
    finally:
        if report_out:
            report_out.remove()


def status_of(given: argparse.Namespace, report: Report) -> int:
    """Prints the summary, and returns the exit status."""
    for line in report.summary(given.verbose, given.strict):
        ending.say(PROGRAM, line)
    if not report.rows:
        raise Refused("no record is a row: such a release would hide its package")
    if given.strict and (doubt := report.doubt()):
        ending.say(PROGRAM, f"--strict: {doubt}")
        return 1
    return 1 if given.strict and report.lost() else 0


def run_list(given: argparse.Namespace) -> int:
    """Converts one list, and returns the exit status."""
    name = release_name(given)
    check_paths(given, name)
    out = report_out = None
    try:
        report_out = ReportOutput(given.report) if given.report else None
        path = os.path.join(given.into, name) if given.into is not None else None
        out = Output(path, path or "a temporary file")
        report = convert(given, name, out, report_out)
        out.finish()
        if report_out:
            report_out.finish()
        if report.rows:
            if path:
                out.place()
                print_line(name)
            else:
                out.copy(standard_output(), "standard output")
        if report_out:
            report_out.close()
        return status_of(given, report)
    finally:
        for it in (out, report_out):
            if it:
                it.remove()


def release_name(given: argparse.Namespace) -> str:
    """Returns the name of the release. On standard output a list needs none."""
    try:
        return names.release(given.name or given.file, given.package, given.date)
    except Refused:
        if given.into is not None:
            raise
        return ""


def print_line(line: str) -> None:
    """Prints the name of a release. An error has the name of the device."""
    try:
        print(line, flush=True)
    except BrokenPipeError:
        raise
    except OSError as error:
        error.filename = "standard output"
        raise


def check_paths(given: argparse.Namespace, name: str) -> None:
    """Refuses a report that would replace the list, the map or the release."""
    if given.report and os.path.isfile(given.report):
        others = [given.file, given.map or "", os.path.join(given.into, name) if given.into is not None else ""]
        if any(it and os.path.exists(it) and os.path.samefile(given.report, it) for it in others):
            raise WrongArguments(f"--report: {given.report} is another file of this run")


def main() -> int:
    """Runs the program, and returns the exit status."""
    return ending.status_of(PROGRAM, lambda: run(arguments()))
