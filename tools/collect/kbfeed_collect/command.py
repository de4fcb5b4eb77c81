"""The arguments, a run over all sources, and the exit statuses."""
import argparse
import contextlib
import datetime
import os
import pathlib
import tempfile
from typing import Iterator

from kbfeed_convert import ending
from kbfeed_convert.faults import Stopped, WrongArguments
from kbfeed_convert.parsing import Parser

from . import clock, configuration, table
from .clock import Clock
from .configuration import Configuration, Source
from .download import opener
from .folder import Folder
from .keys import Key
from .processes import Processes
from .publishing import HEADER, NO_SOURCE, Visits, day_of, key_of
from .undoing import roll_back
from .visit import Outcome, visit

PROGRAM = "kbfeed-collect"
CONFIGURATION = "/etc/kbfeed/sources.toml"
DESCRIPTION = "Collects holdings lists from vendors, checks them, and publishes them in a folder that nodes fetch from."
EPILOG = """A run visits each source that is due, and prints a table of what it found and published. The status is 0 if
all is well, 1 if a list was not published for a reason that the table has, 2 for a wrong argument or configuration, and
3 if a device failed."""


def arguments(given: list[str] | None = None) -> argparse.Namespace:
    """Parses the arguments."""
    parser = Parser(prog=PROGRAM, description=DESCRIPTION, epilog=EPILOG, allow_abbrev=False)
    parser.hint = ": --config FILE names the sources, and --only PACKAGE a package"
    parser.add_argument("--config", metavar="FILE", default=CONFIGURATION,
                        help=f"the sources; {CONFIGURATION} by default")
    parser.add_argument("--only", metavar="PACKAGE", action="append", default=[],
                        help="visit the source of this package alone, also if it is not due")
    parser.add_argument("--accept", metavar="PACKAGE", action="append", default=[],
                        help="as --only, and publish its list whatever bounds it passes")
    parser.add_argument("--withdraw", metavar="PACKAGE", action="append", default=[],
                        help="publish a list without rows for a package that has no source any more")
    parser.add_argument("--rollback", metavar="PACKAGE",
                        help="publish the release before the newest of this package under the next free day")
    parser.add_argument("--to", metavar="DAY", help="of --rollback: the day of the release to go back to")
    parser.add_argument("--pin", action="store_true",
                        help="of --rollback: visit the source, but publish nothing of it until --unpin")
    parser.add_argument("--unpin", metavar="PACKAGE", action="append", default=[],
                        help="as --only, and publish the source's lists again")
    parser.add_argument("--dry-run", action="store_true", help="publish nothing, and say what would be published")
    parser.add_argument("--check", action="store_true", help="read the configuration, keys and maps, and print ok")
    parser.add_argument("--json", action="store_true", help="print a JSON object in place of the table")
    return parser.parse_args(given)


def run(given: argparse.Namespace) -> int:
    """Reads the configuration, visits the sources, prints the table, and returns the exit status."""
    found, faults = configuration.read(given.config)
    if given.check:
        faults += configuration.file_faults(found.sources)
    for it in faults:
        ending.say(PROGRAM, f"{given.config}: {it}")
    if faults:
        return 2
    if given.check:
        return check_days(Folder(found.folder))
    chosen = chosen_sources(given, found)

    def prepare() -> None:
        drop_rights(found.folder)
        opener()
    # It begins before the keys are read.
    with Processes(prepare, visit) as processes:
        keys = {it.package: key_of(it) for it in chosen}
        drop_rights(found.folder)
        return run_over(given, found, chosen, keys, processes)


def check_days(folder: Folder) -> int:
    """Prints the releases in the folder that are of a day in the future, or ok. Returns the exit status."""
    today = clock.now().date()
    ahead = [it.name() for releases in folder.releases().values() for it in releases if it.day > today]
    for name in ahead:
        ending.say(PROGRAM, f"{folder.path}: {name} is of a day in the future: nodes take no earlier one of it")
    if not ahead:
        print("ok")
    return 1 if ahead else 0


def run_over(given: argparse.Namespace, found: Configuration, chosen: list[Source],
             keys: dict[str, Key | Exception | None], processes: Processes) -> int:
    """Visits sources, prints the table, and returns the exit status."""
    folder = Folder(found.folder)
    outcomes: list[Outcome] = []
    with room(folder, given.dry_run) as work:
        here = Clock(clock.now().date(), known_days(folder))
        visits = Visits(folder, work, here, keys, given.accept, given.dry_run, processes)
        due = [it for it in chosen if is_named(given) or visits.is_due(it)]
        counts = table.Counts(len(found.sources), len(chosen) - len(due))
        ahead = [it.package for it in due if (last := visits.last_visit(it)) and last > here.today]
        for package in ahead:
            ending.say(PROGRAM, f"{package}: its last visit is of a day in the future: a clock was wrong")
        if given.unpin and not given.dry_run:
            folder.write_pins(folder.pins() - set(given.unpin))
        notes: list[str] = []
        if given.rollback:
            outcome, notes = roll_back(visits, given.rollback, day_of(given.to), given.pin)
            outcomes.append(outcome)
        try:
            outcomes += [visits.withdraw(it) for it in given.withdraw]
            outcomes += visits.visit_all(due)
        except Stopped:
            print(table.text(outcomes, counts))
            raise
        finally:
            visits.save()
        places = {it.package: at for at, it in enumerate(due)}
        outcomes.sort(key=lambda it: places.get(it.package, -1))
        if visits.fault:
            outcomes.append(Outcome("-", outcome=visits.fault, status=3))
        if not is_named(given):
            outcomes += without_source(folder, found)
        if not given.dry_run:
            folder.remove_old(here.today)
    if here.is_wrong():
        ending.say(PROGRAM, here.doubt())
    status = max([1 if ahead or here.is_wrong() else 0, *[it.status for it in outcomes]])
    print(table.as_json(outcomes, counts, here.today, status) if given.json else table.text(outcomes, counts))
    for note in notes:
        ending.say(PROGRAM, note)
    return status


def is_named(given: argparse.Namespace) -> bool:
    """Returns whether the arguments name the packages that the run is for."""
    return bool(given.only or given.accept or given.withdraw or given.unpin or given.rollback)


def known_days(folder: Folder) -> list[datetime.date]:
    """Returns the days of the releases in the index, and of the visits that the state has."""
    days = [name[-14:-4] for name in folder.index()] + [it.get("day") for it in folder.state.values()]
    return [it for it in map(day_of, days) if it]


def drop_rights(folder: pathlib.Path) -> None:
    """Continues as the owner of the folder if root runs this by hand. The service can then replace what is written, and
    root reads no vendor's file. Keys are read before."""
    if os.geteuid() == 0 and folder.is_dir() and folder.stat().st_uid:
        owner = folder.stat()
        os.setgroups([owner.st_gid])
        os.setgid(owner.st_gid)
        os.setuid(owner.st_uid)


def chosen_sources(given: argparse.Namespace, found: Configuration) -> list[Source]:
    """Returns the sources that the arguments name, or all. Raises `WrongArguments` for a package that is not there."""
    known = {it.package for it in found.sources}
    for option in ("only", "accept"):
        for package in getattr(given, option):
            if package not in known and not (option == "accept" and package in (*given.withdraw, given.rollback)):
                raise WrongArguments(f"--{option}: {given.config} has no source {package}")
    for package in given.withdraw:
        if package in known:
            raise WrongArguments(f"--withdraw: {package} has a source, which would publish it again: remove that first")
    pinned = Folder(found.folder).pins() if given.unpin else set()
    for package in given.unpin:
        if package not in pinned:
            raise WrongArguments(f"--unpin: {package} is not pinned")
    if given.to and not day_of(given.to):
        raise WrongArguments(f"--to: {given.to} is not a day, as 2024-01-31")
    if (given.to or given.pin) and not given.rollback:
        raise WrongArguments("--to and --pin are of --rollback, which is missing")
    if given.rollback and (given.only or given.withdraw or given.unpin):
        raise WrongArguments("--rollback is for one package, and no other is visited in its run")
    named = {*given.only, *given.accept, *given.unpin}
    return [it for it in found.sources if not given.rollback and (it.package in named or not is_named(given))]


@contextlib.contextmanager
def room(folder: Folder, is_dry: bool) -> Iterator[pathlib.Path]:
    """Yields a folder for what is not whole yet. A run that publishes holds the lock, and mends the index first."""
    if is_dry:
        with tempfile.TemporaryDirectory(prefix="kbfeed-collect-") as temporary:
            yield pathlib.Path(temporary)
    else:
        with folder.locked() as work:
            folder.write_index()
            yield work


def without_source(folder: Folder, found: Configuration) -> list[Outcome]:
    """Returns an outcome for each package in the folder that the configuration does not have."""
    outcomes, known = [], {it.package for it in found.sources}
    for package, releases in folder.releases().items():
        if package not in known:
            is_withdrawn = (folder.path / releases[0].name()).stat().st_size == len(HEADER)
            why = "withdrawn" if is_withdrawn else f"its lists stay; --withdraw {package} publishes one without rows"
            outcomes.append(Outcome(package, NO_SOURCE, outcome=why))
    return outcomes


def main() -> int:
    """Runs the program, and returns the exit status."""
    return ending.status_of(PROGRAM, lambda: run(arguments()))
