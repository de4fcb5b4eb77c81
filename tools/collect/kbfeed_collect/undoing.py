"""The way back: an earlier release is published under a later day, and its source is pinned until it is right again."""
import datetime
import pathlib
import shutil

from kbfeed_convert import ending
from kbfeed_convert.faults import Refused

from .folder import Folder, Release, sha256
from .publishing import Visits
from .visit import Outcome, program, said


# The word of the table for a release that was there.
EARLIER = "a release"


def roll_back(visits: Visits, package: str, day: datetime.date | None, has_pin: bool) -> tuple[Outcome, list[str]]:
    """Publishes an earlier release of a package under the next free day: the one before the newest, or that of a day.

    Returns the outcome, and what the operator has to know beside it."""
    outcome, notes = Outcome(package, EARLIER), []
    try:
        old, newest = earlier(visits.folder, package, day)
        release = Release(package, max(visits.today, newest.day + datetime.timedelta(days=1)))
        doubt = visits.clock.doubt()
        if doubt and not visits.is_accepted(package):
            raise Refused(f"{doubt}. --accept {package} beside it publishes it")
        outcome.rows, before = rows(visits.folder, old), rows(visits.folder, newest)
        whole = visits.temporary / release.name()
        shutil.copyfile(visits.folder.path / old.name(), whole)
        visits.publish(whole, release, outcome)
        outcome.outcome += f", with the rows of {old.name()}"
        if not visits.is_dry:
            # The source is compared at its next visit, whatever it had.
            visits.folder.state.pop(package, None)
            if has_pin:
                visits.folder.write_pins(visits.folder.pins() | {package})
        notes = notes_on(release, visits.today, outcome.rows, before, has_pin)
    except Exception as error:
        outcome.status, outcome.outcome = ending.fault(error)
    return outcome, notes


def earlier(folder: Folder, package: str, day: datetime.date | None) -> tuple[Release, Release]:
    """Returns the release to go back to, and the newest one. Raises `Refused` if there is none, or it is the same."""
    releases = folder.releases(package).get(package, [])
    days = ", ".join(str(it.day) for it in releases[1:])
    wanted = [it for it in releases[1:] if day in (None, it.day)]
    if not wanted:
        raise Refused(f"no earlier release of that day: {days}" if days else "no earlier release is there")
    old, newest = wanted[0], releases[0]
    if sha256(folder.path / old.name()) == sha256(folder.path / newest.name()):
        raise Refused(f"{newest.name()} has the same bytes as {old.name()}: --to gives another day"
                      + (f", of {days}" if days else ""))
    return old, newest


def rows(folder: Folder, release: Release) -> int:
    """Returns the number of rows of a release."""
    run = program("check", "--summary", release.name(), folder=pathlib.Path(folder.path))
    words = run.stdout.split()
    if run.returncode or words[1:2] != ["rows"]:
        raise Refused(f"kbfeed check: {said(run)}")
    return int(words[2])


def notes_on(release: Release, today: datetime.date, count: int, before: int, has_pin: bool) -> list[str]:
    """Returns what an operator has to know of a release that was published again."""
    notes = []
    if release.day > today:
        notes.append(f"{release.name()} is of a day in the future: changes of the vendor wait until that day is over")
    if count < before:
        lacks = -(-100 * (before - count) // before)
        notes.append(f"it lacks {lacks} % of the rows before: if nodes with --max-shrink hold it, run "
                     f"kbfeed-feed --accept {release.name()} /etc/kbfeed/token /etc/kbfeed/nodes")
    if not has_pin:
        notes.append(f"the next visit of {release.package} publishes the vendor's list again, if it has not changed: "
                     "--pin holds it")
    return notes
