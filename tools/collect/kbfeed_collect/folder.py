"""The folder of published lists: their names, the index, what is kept, and one run at a time.

A list is whole before it gets its name, and its name is in the index only after that. Both are renamed into place, so a
stop between any two steps leaves a good folder."""
import contextlib
import datetime
import fcntl
import hashlib
import json
import os
import pathlib
import shutil
from typing import Any, Iterator, NamedTuple

from kbfeed_convert import strict
from kbfeed_convert.faults import Refused
from kbfeed_convert.names import RELEASE

INDEX = "index"
# Files of the program, which no web server shows.
STATE, LOCK, WORK = ".state.json", ".lock", ".work"
# The packages whose releases stay, and what each release was made of. A damaged state loses neither.
PINS, SOURCES = ".pins", ".sources"
# The releases of a package that stay, and how long any stays that the index named.
KEPT = 3
NAMED = datetime.timedelta(days=7)


class Release(NamedTuple):
    """A release in the folder: its package and its day."""
    package: str
    day: datetime.date

    def name(self) -> str:
        """Returns the name of its file."""
        return f"{self.package}_{self.day}.txt"


class Folder:
    """A folder of lists, and what the visits to their sources found. Who writes to it holds its lock."""

    def __init__(self, path: pathlib.Path):
        """Reads what earlier visits found. If that is missing or damaged, each list is downloaded again."""
        self.path = path
        self.state: dict[str, dict[str, Any]] = {}
        with contextlib.suppress(OSError, ValueError, AttributeError):
            found = json.loads((path / STATE).read_text(encoding="utf-8"))
            self.state = {key: value for key, value in found.items() if isinstance(value, dict)}

    @contextlib.contextmanager
    def locked(self) -> Iterator[pathlib.Path]:
        """Holds the lock, and yields an empty folder for what is not whole yet. Makes the folder if only its last part
        is missing. Raises `Refused` if another run has the lock."""
        self.path.mkdir(mode=0o755, exist_ok=True)
        with open(self.path / LOCK, "w", encoding="ascii") as lock:
            try:
                fcntl.flock(lock, fcntl.LOCK_EX | fcntl.LOCK_NB)
            except BlockingIOError as error:
                raise Refused("another run is under way") from error
            work = self.path / WORK
            # A run that was killed leaves it.
            shutil.rmtree(work, ignore_errors=True)
            work.mkdir(mode=0o700)
            try:
                yield work
            finally:
                shutil.rmtree(work, ignore_errors=True)

    def releases(self, wanted: str = "") -> dict[str, list[Release]]:
        """Returns the releases of each package, or of one, the newest first."""
        found: dict[str, list[Release]] = {}
        for name in os.listdir(self.path) if self.path.is_dir() else []:
            parts = RELEASE.fullmatch(name) if name.startswith(wanted) else None
            if parts and wanted in ("", parts[1]) and strict.date(parts[2]) and (self.path / name).is_file():
                release = Release(parts[1], datetime.date.fromisoformat(parts[2]))
                found.setdefault(release.package, []).append(release)
        return {package: sorted(found[package], key=lambda it: it.day, reverse=True) for package in sorted(found)}

    def newest(self, package: str) -> Release | None:
        """Returns the newest release of a package."""
        return next(iter(self.releases(package).get(package, [])), None)

    def publish(self, whole: pathlib.Path, release: Release) -> None:
        """Gives a whole file the name of a release, and then names it in the index. No name is published twice."""
        place = self.path / release.name()
        if os.path.lexists(place):
            raise Refused(f"{release.name()} exists with other bytes, and is not replaced")
        os.chmod(whole, 0o644)
        os.rename(whole, place)
        sync(self.path)
        self.write_index()

    def index(self) -> dict[str, tuple[int, str]]:
        """Returns the names in the index, each with its size and its SHA-256."""
        lines = []
        with contextlib.suppress(FileNotFoundError):
            lines = (self.path / INDEX).read_text(encoding="utf-8", errors="replace").splitlines()
        parts = [line.split(" ") for line in lines]
        return {it[0]: (int(it[1]), it[2]) for it in parts if len(it) == 3 and it[1].isdecimal()}

    def write_index(self) -> None:
        """Writes the newest release of each package into the index, if it differs. Lines that are right are kept, since
        a file does not change under its name."""
        old, lines = self.index(), []
        for package, releases in self.releases().items():
            name = releases[0].name()
            size = (self.path / name).stat().st_size
            known_size, known = old.get(name, (-1, ""))
            lines.append(f"{name} {size} {known if known_size == size else sha256(self.path / name)}\n")
        text = "".join(lines)
        place = self.path / INDEX
        if (lines or place.exists()) and not (place.is_file() and place.read_bytes() == text.encode()):
            self.replace(place, text, 0o644)

    def remove_old(self, today: datetime.date) -> None:
        """Removes old releases. The last three of a package stay, and for a week any that the index named: one was in
        it until the day of its successor."""
        for releases in self.releases().values():
            for newer, release in zip(releases[KEPT - 1:], releases[KEPT:]):
                if today - newer.day > NAMED:
                    (self.path / release.name()).unlink()
        kept = {it.name() for releases in self.releases().values() for it in releases}
        for file in (self.path / SOURCES).iterdir() if (self.path / SOURCES).is_dir() else []:
            if file.name.partition(".txt")[0] + ".txt" not in kept:
                file.unlink()

    def keep_source(self, release: Release, files: dict[str, pathlib.Path]) -> None:
        """Keeps files that a release was made of, each under the name of the release and an ending."""
        place = self.path / SOURCES
        place.mkdir(mode=0o700, exist_ok=True)
        for ending, file in files.items():
            os.chmod(file, 0o600)
            os.rename(file, place / f"{release.name()}.{ending}")

    def pins(self) -> set[str]:
        """Returns the packages that are pinned."""
        try:
            return set((self.path / PINS).read_text(encoding="utf-8").split())
        except FileNotFoundError:
            return set()

    def write_pins(self, packages: set[str]) -> None:
        """Writes the packages that are pinned."""
        self.replace(self.path / PINS, "".join(f"{it}\n" for it in sorted(packages)), 0o600)

    def save_state(self) -> None:
        """Writes what the visits found. It has no keys."""
        # A line for each source: with an indent, JSON is written by Python itself, which takes ten times as long.
        lines = [f"{json.dumps(key)}: {json.dumps(self.state[key], sort_keys=True)}" for key in sorted(self.state)]
        self.replace(self.path / STATE, "{" + ",\n".join(lines) + "}\n", 0o600)

    def replace(self, place: pathlib.Path, text: str, mode: int) -> None:
        """Replaces a file by a text, atomically."""
        beside = self.path / WORK / place.name
        with open(beside, "w", encoding="utf-8") as file:
            os.fchmod(file.fileno(), mode)
            file.write(text)
            file.flush()
            os.fsync(file.fileno())
        os.rename(beside, place)
        sync(self.path)


def sync(folder: pathlib.Path) -> None:
    """Waits until the names of a folder are on the disk."""
    number = os.open(folder, os.O_RDONLY | os.O_DIRECTORY)
    try:
        os.fsync(number)
    finally:
        os.close(number)


def sha256(file: pathlib.Path) -> str:
    """Returns the SHA-256 of a file."""
    with open(file, "rb") as opened:
        return hashlib.file_digest(opened, "sha256").hexdigest()
