"""The files that a library brings over from its old resolver: lists for everybody, its own site and holdings files.

Each value of the column of packages is a list. It has all titles, with the dates that everybody has. The holdings file
says by title ids what this library has of them. The few titles whose coverage no line can say, since it has gaps or an
embargo of its own, are in a list of their own for each package."""
import argparse
import array
import collections
import hashlib
import json
import os
import tempfile
from typing import Any, Callable, NamedTuple

from . import mapping, names, reading, strict, unused
from .faults import BYTES, Refused
from .files import Output
from .form import Record
from .record import DATES, NUMBERS, Cells, Outcome
from .report import Report
from .texts import counted, folded, word_set, words

# The limits of a node for a site file and a holdings file, with room for what a librarian adds.
SITE, HOLDINGS = 60_000, 16 * 1024 * 1024
PACKAGES = 10_000
NOTE = 500
YES_NO = words("yes_no")
# The labels of a column of packages, if no map and no profile names it.
PACKAGE = word_set("packages", "labels")
OPEN_FIRST, OPEN_LAST = (0, 0, 0), (9999, 12, 31)
Days = tuple[strict.Day, strict.Day, str]


class Title:
    """What the rows of a title say: to everybody, and to the library."""

    def __init__(self) -> None:
        self.shared: list[Days] = []
        self.own: list[Days] = []
        # The rows that the library has, by their places in the spool.
        self.rows: list[int] = []
        self.dates: dict[strict.Day, str] = {}
        self.note = ""


class Package:
    """A package of the export: its name as a release, its titles, and which of its rows go where."""

    def __init__(self, value: str):
        self.value, self.name = value, ""
        self.titles: dict[str, Title] = {}
        self.rows = array.array("Q")
        self.proxies: collections.Counter[str] = collections.Counter()

    def held(self) -> int:
        """Returns how many titles the library has."""
        return sum(bool(it.own) for it in self.titles.values())


class Line(NamedTuple):
    """What a holdings file says of a title: from which day to which the library has it."""
    first: str
    last: str


class Spool:
    """A temporary file of rows: each is found again by its place."""

    def __init__(self) -> None:
        self.file = tempfile.TemporaryFile()
        self.size = 0

    def add(self, line: bytes) -> int:
        """Appends a row, and returns its place."""
        place = self.size
        self.file.write(line)
        self.size += len(line)
        if self.size > BYTES:
            raise Refused(f"the lists would have more than {BYTES} bytes")
        return place

    def line(self, place: int) -> bytes:
        """Returns the row at a place."""
        self.file.seek(place)
        return self.file.readline()


class Library:
    """Collects the packages of an export, and writes the files."""

    def __init__(self, opened: reading.Opened, row_line: Callable[[Cells], bytes]):
        self.opened, self.row_line = opened, row_line
        rules, header = opened.rules, opened.shape.header
        self.package = self.place(rules.library.get("package", [])) if "package" in rules.library else next(
            (at for at, cell in enumerate(header) if folded(cell) in PACKAGE), -1)
        if self.package < 0:
            raise Refused("--library: no column has the packages. A map names it: [library] package = [\"COLUMN\"]")
        self.notes = [at for it in rules.library.get("note", []) if (at := mapping.place_of(header, it)) >= 0]
        self.proxy = self.place(rules.library.get("proxy", []))
        self.hidden = [(at, {folded(it) for it in values}) for column, values in rules.library.get("hidden", {}).items()
                       if (at := mapping.place_of(header, column)) >= 0]
        self.packages: dict[str, Package] = {}
        self.spool = Spool()
        self.prefixes: collections.Counter[str] = collections.Counter()
        self.addresses = 0

    def place(self, columns: list[str]) -> int:
        """Returns the place of the first of some columns that the export has, or -1."""
        return next((at for it in columns if (at := mapping.place_of(self.opened.shape.header, it)) >= 0), -1)

    @staticmethod
    def cell(record: Record, place: int) -> str:
        """Returns a cell of a record."""
        return record.cells[place].strip() if 0 <= place < len(record.cells) else ""

    def add(self, record: Record, shared: Outcome, own: Outcome) -> None:
        """Adds a record: what its rows say to everybody, and to the library."""
        value = self.cell(record, self.package)
        if value not in self.packages and len(self.packages) == PACKAGES:
            raise Refused(f"--library: more than {PACKAGES} packages")
        package = self.packages.setdefault(value, Package(value))
        is_hidden = any(folded(self.cell(record, at)) in values for at, values in self.hidden)
        if proxy := self.cell(record, self.proxy):
            package.proxies[YES_NO.get(folded(proxy), "")] += 1
        self.look_at_address(record)
        note = next((text for at in self.notes if (text := self.cell(record, at))), "")
        for row, read in shared.rows:
            title = self.title(package, row)
            title.shared.append(days_of(row, read))
            package.rows.append(self.spool.add(self.row_line(row)))
        for row, read in [] if is_hidden else own.rows:
            title = self.title(package, row)
            title.own.append(days_of(row, read))
            title.rows.append(self.spool.add(self.row_line(row)))
            title.note = title.note or note
            first, last, _ = days_of(row, read)
            title.dates.update({first: row[DATES[0]].strip(), last: row[DATES[1]].strip()})

    def title(self, package: Package, row: Cells) -> Title:
        """Returns the title of a row, by its id. A row without one gets an identifier for it."""
        key = row["title_id"].strip() or next(row[it].strip() for it in reversed(NUMBERS) if row[it].strip())
        row["title_id"] = key
        return package.titles.setdefault(key, Title())

    def look_at_address(self, record: Record) -> None:
        """Counts what is before an address that goes through a proxy."""
        for place in self.opened.columns.places.get("title_url", ()):
            text = self.cell(record, place)
            self.addresses += bool(text)
            head, sign, rest = text.partition("url=http")
            if sign and head.startswith("http") and rest:
                self.prefixes[head + "url="] += 1

    def name_packages(self) -> None:
        """Gives each package its name. If two would have one name, each gets a digest behind it, always the same."""
        found: dict[str, list[Package]] = {}
        for package in self.packages.values():
            found.setdefault(names.package(package.value) or "Package", []).append(package)
        for name, many in found.items():
            for package in many:
                digest = hashlib.sha256(package.value.encode("utf-8", "replace")).hexdigest()[:6]
                package.name = name if len(many) == 1 else f"{name[:names.LONGEST - 7]}_{digest}"

    def write(self, folder: str, day: str, name: str) -> list[str]:
        """Writes the lists, the site file and the holdings file, and returns a line for each list."""
        self.name_packages()
        os.makedirs(os.path.join(folder, "lists"), exist_ok=True)
        lines: list[str] = []
        sections: list[str] = []
        titles: list[tuple[str, str, Line, str]] = []
        held: list[tuple[str, str, str, str]] = []
        for package in sorted(self.packages.values(), key=lambda it: it.name):
            is_whole, own_rows, said = self.decided(package)
            release = f"{package.name}_{day}.txt"
            self.write_list(os.path.join(folder, "lists", release), package.rows)
            lines.append(f"{release} rows {len(package.rows)} titles {len(package.titles)} held {package.held()} "
                         f"{json.dumps(package.value, ensure_ascii=False)}")
            if package.held():
                sections.append(self.section(package, package.name, is_whole))
            held += [] if is_whole else [(package.name, key, *line) for key, line in said.items()]
            own_name = f"{package.name[:names.LONGEST - 4]}_own"
            titles += [(package.name if key in said else own_name, key, said.get(key, Line("", "")), it.note)
                       for key, it in package.titles.items() if it.note and it.own]
            if own_rows:
                self.write_list(os.path.join(folder, "lists", f"{own_name}_{day}.txt"), own_rows)
                lines.append(f"{own_name}_{day}.txt rows {len(own_rows)}, "
                             "for titles with a coverage of this library alone")
                sections.append(self.section(package, own_name, True))
        site, notes = self.site(name, sections, titles)
        holdings = "package\ttitle_id\tfirst\tlast\theld\n" + "".join(
            "\t".join([package, key, first, last, "yes"]) + "\n" for package, key, first, last in held)
        if len(holdings.encode()) > HOLDINGS:
            raise Refused(f"--library: the holdings file would have more than {HOLDINGS} bytes")
        write_text(os.path.join(folder, "titles.tsv"), holdings)
        write_text(os.path.join(folder, "site.toml"), site)
        if notes:
            lines.append(f"{counted(notes, 'note')} not carried over: a site file has at most 65,536 bytes")
        return lines

    def decided(self, package: Package) -> tuple[bool, list[int], dict[str, Line]]:
        """Returns whether the library has all of a package as everybody has it, the rows that have to be in a list of
        its own, and the lines of the other titles."""
        said: dict[str, Line] = {}
        own_rows: list[int] = []
        is_whole = True
        for key, title in package.titles.items():
            if not title.own:
                is_whole = False
                continue
            line = line_of(title)
            if line is None:
                own_rows += title.rows
                is_whole = False
            else:
                said[key] = line
                is_whole = is_whole and line == Line("", "")
        return is_whole, own_rows, said

    def write_list(self, path: str, places: Any) -> None:
        """Writes a list of rows of the spool."""
        out = Output(path, path)
        try:
            out.write(("\t".join(strict.LABELS) + "\n").encode())
            for place in places:
                out.write(self.spool.line(place))
            out.finish()
            out.place()
        finally:
            out.remove()

    def section(self, package: Package, name: str, is_whole: bool) -> str:
        """Returns the section of a package in the site file."""
        lines = ["[[package]]", f"id = {quoted(name)}", f"name = {quoted(package.value[:200] or name)}"]
        if not is_whole:
            lines.append("held = false")
        if package.proxies["no"] and not package.proxies["yes"]:
            lines.append("proxy = false")
        return "\n".join(lines) + "\n"

    def site(self, name: str, sections: list[str],
             titles: list[tuple[str, str, Line, str]]) -> tuple[str, int]:
        """Returns the site file, and how many notes have no room in it."""
        head = ["[library]", f"name = {quoted(name)}", "held = false", "holdings = \"titles.tsv\""]
        prefix, count = next(iter(self.prefixes.most_common(1)), ("", 0))
        if 2 * count > self.addresses:
            encode = ["encode = true"] if prefix.endswith("qurl=") else []
            head += ["", "[proxy]", f"prefix = {quoted(prefix)}", *encode]
        text = "\n".join(head) + "\n\n" + "\n".join(sections)
        if len(text.encode()) > SITE:
            raise Refused(f"--library: the site file would have more than {SITE} bytes: give a file of fewer packages")
        left = 0
        for package, key, line, note in titles:
            section = ["[[title]]", f"package = {quoted(package)}", f"id = {quoted(key)}",
                       f"note = {quoted(note[:NOTE // 4])}"]
            section += [f"{end} = {quoted(day)}" for end, day in zip(("first", "last"), line) if day]
            more = "\n" + "\n".join(section) + "\n"
            if len((text + more).encode()) > SITE:
                left += 1
            else:
                text += more
        return text, left


def days_of(row: Cells, read: strict.Row) -> Days:
    """Returns the days of a row, whose open ends are before and behind all days, and its embargo."""
    return read.first_day or OPEN_FIRST, read.last_day or OPEN_LAST, row["embargo_info"].strip(" ").upper()


def line_of(title: Title) -> Line | None:
    """Returns the line that makes of everybody's days those of the library, or None if no line does."""
    if sorted(title.own) == sorted(title.shared):
        return Line("", "")
    first, last = min(it[0] for it in title.own), max(it[1] for it in title.own)
    cut = [(max(it[0], first), min(it[1], last), it[2]) for it in title.shared]
    if sorted(it for it in cut if it[0] <= it[1]) != sorted(title.own):
        return None
    shared_first, shared_last = min(it[0] for it in title.shared), max(it[1] for it in title.shared)
    return Line(title.dates.get(first, "") if first != shared_first else "",
                title.dates.get(last, "") if last != shared_last else "")


def quoted(text: str) -> str:
    """Returns a text as a string of TOML, which has the escapes of JSON."""
    return json.dumps(text, ensure_ascii=False).replace("\x7f", "\\u007f")


def write_text(path: str, text: str) -> None:
    """Writes a file, unless one with other bytes is there."""
    out = Output(path, path)
    try:
        out.write(text.encode("utf-8", "replace"))
        out.finish()
        out.place()
    finally:
        out.remove()


def run(given: argparse.Namespace, day: str, report: Callable[..., Report],
        row_line: Callable[[Cells], bytes]) -> tuple[Report, list[str]]:
    """Makes the files of a library in the folder of --library, and returns the report and a line for each list."""
    folder = given.library
    if os.path.isdir(folder) and os.listdir(folder):
        raise Refused(f"--library: {folder} is not empty")
    opened = reading.opened(given, "")
    made = report(opened.head, opened.warnings)
    library = Library(opened, row_line)
    shared, own = opened.converter(is_shared=True), opened.converter()
    left_over = unused.Unused(opened.columns, own.uses, own.said_held)
    for record in opened.records():
        outcome, mine = shared.convert(record), own.convert(record)
        left_over.look(record.cells)
        made.record(record, outcome)
        made.own(mine)
        library.add(record, outcome, mine)
    made.end(left_over.suspects(), left_over.categories(), "" if made.rows else "no record is a row")
    lines = library.write(folder, day, os.path.basename(os.path.normpath(folder))) if made.rows else []
    return made, lines
