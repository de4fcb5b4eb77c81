"""What becomes of what a visit found: it is published if the clock, the days and the pins permit it, and remembered."""
import dataclasses
import datetime
import pathlib
import shutil
import tempfile
from typing import Any, Iterator

from kbfeed_convert import ending, strict
from kbfeed_convert.faults import Refused, WrongArguments
from kbfeed_convert.files import Output

from .clock import Clock
from .configuration import Source
from .download import Validators
from .folder import Folder, Release
from .keys import Key
from .processes import Limits, Processes
from .visit import DOWNLOAD, REPORT, Found, Outcome, Task

# The configuration lacks the package.
NO_SOURCE = "no source"
# A list without rows.
HEADER = ("\t".join(strict.LABELS) + "\n").encode()


@dataclasses.dataclass
class Visits:
    """What all visits of a run share. With `is_dry` nothing is published and remembered."""
    folder: Folder
    temporary: pathlib.Path
    clock: Clock
    keys: dict[str, Key | Exception | None]
    accepted: list[str]
    is_dry: bool
    processes: Processes
    # Why the state was not written, or nothing.
    fault: str = ""

    @property
    def today(self) -> datetime.date:
        """Returns the day of what this run publishes."""
        return self.clock.today

    def visit_all(self, sources: list[Source]) -> Iterator[Outcome]:
        """Visits sources, the one that waits longest first, and yields their outcomes. A list is published later in the
        run if the clock is confirmed only then."""
        waiting = []
        for source in sorted(sources, key=lambda it: str(self.state(it).get("tried", ""))):
            # If a run is ended in a visit, the next one begins with the others.
            self.folder.state.setdefault(source.package, {})["tried"] = str(self.today)
            self.save()
            found, whole = self.visited(source)
            if found.kind == "list" and self.clock.is_unconfirmed() and not self.is_accepted(source.package):
                waiting.append((source, found, whole))
                continue
            yield self.decided(source, found, whole)
        for source, found, whole in waiting:
            yield self.decided(source, found, whole)
        self.save()

    def save(self) -> None:
        """Writes what the visits found. The run goes on without it."""
        try:
            if not self.is_dry:
                self.folder.save_state()
            self.fault = ""
        except OSError as error:
            self.fault = f"the next run downloads again: {error.strerror}"

    def state(self, source: Source) -> dict[str, Any]:
        """Returns what the last visit of a source found."""
        return self.folder.state.get(source.package, {})

    def is_accepted(self, package: str) -> bool:
        """Returns whether the bounds and the clock do not count for a package."""
        return package in self.accepted

    def visited(self, source: Source) -> tuple[Found, pathlib.Path]:
        """Visits a source in a process of its own. Returns what it found, and its list, if there is one."""
        work = pathlib.Path(tempfile.mkdtemp(dir=self.temporary))
        newest, name = self.folder.newest(source.package), Release(source.package, self.today).name()
        found, key = Found(Outcome(source.package)), self.keys[source.package]
        try:
            if isinstance(key, Exception):
                raise key
            place = str(self.folder.path / newest.name()) if newest else ""
            known = self.validators(source) if newest else Validators()
            task = Task(source, key, known, place, work, name, self.is_accepted(source.package))
            limits = Limits(source.max_convert_bytes, source.max_convert_seconds, source.max_seconds)
            found = Found.read(self.processes.run(task, limits))
        except Exception as error:
            found.outcome.status, found.outcome.outcome = ending.fault(error)
        # The files of all visits would take up more room than the lists.
        for file in work.iterdir():
            if file.name not in (name, DOWNLOAD, REPORT) or found.kind != "list":
                file.unlink()
        self.clock.hear(found.host, found.ahead)
        return found, work / name

    def decided(self, source: Source, found: Found, whole: pathlib.Path) -> Outcome:
        """Publishes a list that may be, remembers a source without a new one, and returns the outcome."""
        outcome = found.outcome
        try:
            if found.kind == "fault":
                raise Refused(outcome.outcome)
            if found.kind == "list":
                self.publish_new(source, found, whole)
            # A day that is in doubt would confirm itself on the next one.
            if outcome.published or found.kind == "same" and not self.clock.doubt(found.host, found.ahead):
                self.remember(source, Validators(*found.validators) if found.validators else self.validators(source))
        except Exception as error:
            status, outcome.outcome = ending.fault(error)
            outcome.status = outcome.status or status
            # The next run tries again, and asks for what differs from the newest release.
            self.folder.state.get(source.package, {}).pop("day", None)
        shutil.rmtree(whole.parent)
        return outcome

    def publish_new(self, source: Source, found: Found, whole: pathlib.Path) -> None:
        """Publishes the list of a source under the day of this run."""
        package = source.package
        newest = self.folder.newest(package)
        if newest and package in self.folder.pins():
            found.outcome.outcome = f"pinned: {newest.name()} stays. --unpin {package} publishes the list"
            return
        doubt = self.clock.doubt(found.host, found.ahead)
        if doubt and not self.is_accepted(package):
            raise Refused(f"{doubt}. --accept {package} publishes it once")
        if newest and newest.day == self.today:
            raise Refused(f"{newest.name()} is of today: the change waits for tomorrow")
        if newest and newest.day > self.today:
            raise Refused(f"{newest.name()} is of a later day")
        release = Release(package, self.today)
        self.publish(whole, release, found.outcome)
        if not self.is_dry:
            self.keep_source(release, whole.parent, found.outcome)

    def keep_source(self, release: Release, work: pathlib.Path, outcome: Outcome) -> None:
        """Keeps what a release was made of. It is published also without."""
        files = {"source": work / DOWNLOAD, "json.gz": work / REPORT}
        try:
            self.folder.keep_source(release, {ending: it for ending, it in files.items() if it.exists()})
        except OSError as error:
            outcome.warnings.append(f"the vendor's file is not kept: {error.strerror}")

    def publish(self, whole: pathlib.Path, release: Release, outcome: Outcome) -> None:
        """Publishes a list, and says so."""
        if self.is_dry:
            outcome.outcome = f"would be published as {release.name()}"
            return
        self.folder.publish(whole, release)
        outcome.published, outcome.outcome = release.name(), f"published {release.name()}"

    def validators(self, source: Source) -> Validators:
        """Returns what the last visit found, if it was read with the same settings."""
        state = self.state(source)
        if state.get("digest") != source.digest():
            return Validators()
        return Validators(*[str(state.get(it, "")) for it in Validators._fields])

    def remember(self, source: Source, got: Validators) -> None:
        """Remembers that the newest release has what the source has. A list that waits is downloaded again."""
        if not self.is_dry:
            day = str(self.today)
            self.folder.state[source.package] = {"digest": source.digest(), "day": day, "tried": day, **got._asdict()}

    def last_visit(self, source: Source) -> datetime.date | None:
        """Returns the day of the last visit that found what is published, or None."""
        return day_of(self.state(source).get("day"))

    def is_due(self, source: Source) -> bool:
        """Returns whether the last visit is long ago, failed, had other settings, or is of a day that has not been."""
        last = self.last_visit(source)
        is_over = not last or last > self.today or last + datetime.timedelta(days=source.every_days) <= self.today
        return is_over or self.state(source).get("digest") != source.digest()

    def withdraw(self, package: str) -> Outcome:
        """Publishes a list of the header alone, by which nodes answer nothing from a package."""
        outcome = Outcome(package, NO_SOURCE)
        release = Release(package, self.today)
        try:
            newest = self.folder.newest(package)
            if not newest:
                raise Refused("no list of this package is published")
            if newest.day >= self.today:
                raise Refused(f"{newest.name()} is of today or later: withdraw it on a later day")
            doubt = self.clock.doubt()
            if doubt and not self.is_accepted(package):
                raise Refused(f"{doubt}. --accept {package} beside it withdraws it")
            whole = self.temporary / release.name()
            out = Output(str(whole), str(whole))
            out.write(HEADER)
            out.finish()
            out.place()
            self.publish(whole, release, outcome)
        except Exception as error:
            outcome.status, outcome.outcome = ending.fault(error)
        return outcome


def day_of(text: object) -> datetime.date | None:
    """Returns the day of a text of the state, or None."""
    try:
        return datetime.date.fromisoformat(str(text))
    except ValueError:
        return None


def key_of(source: Source) -> Key | Exception | None:
    """Returns the key of a source, or why it cannot be read: that is the outcome of the source."""
    try:
        return source.key()
    except WrongArguments as error:
        return error
