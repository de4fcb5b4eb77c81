"""A workbook (.xlsx): its sheets, and their rows as texts. It is read in parts, and within limits."""
import array
import datetime
import posixpath
import re
import zipfile
import zlib
from typing import IO, Callable, Iterator, NamedTuple
from xml.parsers.expat import ExpatError

from . import markup
from .faults import COLUMNS, FIELD, LINE, Refused
from .linked import Linked

# The limits of a workbook. No program writes more rows, and few write more than some hundred sheets.
ROWS = 1_048_576
SHEETS = 1_000
STYLES = 100_000
LINKS = 100_000
# The rows that are merged with one at most.
MERGED = 1_000
# Formats of dates that have no code in the file, by their number: which of year, month and day they show.
BUILT_IN = {**dict.fromkeys([14, 22, *range(27, 32), 36, *range(50, 59)], "ymd"), 15: "ymd", 16: "md", 17: "ym",
            **dict.fromkeys([*range(18, 22), *range(32, 36), 45, 46, 47], "")}
PLACE = re.compile("([A-Za-z]{1,3})[0-9]*")
REFERENCE = re.compile("([A-Za-z]{1,3})([0-9]{1,7})")
ESCAPED = re.compile("_x([0-9A-Fa-f]{4})_")
# A longer number than this is a text.
DIGITS = 400
FLOAT = re.compile(r"[-+]?(?:[0-9]+\.?[0-9]*|\.[0-9]+)(?:[eE][-+]?[0-9]{1,3})?")
# The day from which dates are counted, and the one of 1904. To programs 1900 has a 29 February, which is day 60.
FIRST, FIRST_1904, LEAP = datetime.datetime(1899, 12, 30), datetime.datetime(1904, 1, 1), 60
DAY = 86_400
# A damaged workbook raises one of these.
DAMAGED = (ExpatError, zipfile.BadZipFile, zlib.error, EOFError, LookupError, ValueError, NotImplementedError,
           RuntimeError)


class Cell(NamedTuple):
    """A cell as it is in the file: its column, its type, its style and its text."""
    column: int
    kind: str
    style: str
    text: str


class Strings:
    """The shared strings of a workbook. They take little more memory than their bytes."""

    def __init__(self) -> None:
        """Begins without a string."""
        self.bytes, self.ends = bytearray(), array.array("Q", [0])

    def add(self, text: str) -> None:
        """Appends a string."""
        self.bytes += text.encode("utf-8", "replace")
        self.ends.append(len(self.bytes))

    def __getitem__(self, at: int) -> str:
        """Returns a string by its number. Raises `IndexError` if there is none."""
        if at < 0:
            raise IndexError(at)
        return self.bytes[self.ends[at]:self.ends[at + 1]].decode("utf-8")


class Collected:
    """The text between tags, up to one character more than a cell may have: what is cut is refused later."""

    def __init__(self) -> None:
        """Begins empty, and not collecting."""
        self.parts: list[str] = []
        self.size, self.is_open = 0, False

    def add(self, text: str) -> None:
        """Appends a text, if it is inside an element whose text counts."""
        if self.is_open and self.size <= FIELD:
            self.parts.append(text[:FIELD + 1 - self.size])
            self.size += len(self.parts[-1])

    def take(self) -> str:
        """Returns the text, and begins anew."""
        text = self.parts[0] if len(self.parts) == 1 else "".join(self.parts)
        self.parts, self.size, self.is_open = [], 0, False
        return text


class Workbook:
    """A workbook that is open. `sheets` has the names of its sheets, in their order."""

    def __init__(self, file: IO[bytes]):
        """Reads all but the sheets. Raises `Refused` past a limit, and one of `DAMAGED` if it cannot be read."""
        self.zip = zipfile.ZipFile(file)
        book = next((place for kind, place in self.related("").values() if kind == "officeDocument"), "")
        if book.endswith(".bin"):
            raise Refused("not a list: a spreadsheet of the binary form (.xlsb): save it as .xlsx or as text")
        related = self.related(book)
        self.places: dict[str, str] = {}
        self.is_1904 = False
        self.read_book(book, {name: place for name, (kind, place) in related.items() if kind == "worksheet"})
        if len(set(self.places.values())) < len(self.places):
            raise Refused("a spreadsheet with two sheets in one place")
        places = {kind: place for kind, place in related.values()}
        self.strings = Strings()
        self.styles: list[str | None] = []
        if "sharedStrings" in places:
            self.read_strings(places["sharedStrings"])
        if "styles" in places:
            self.read_styles(places["styles"])

    @property
    def sheets(self) -> list[str]:
        """Returns the names of the sheets."""
        return list(self.places)

    def related(self, part: str) -> dict[str, tuple[str, str]]:
        """Returns the kind and the place of each part that a part names, by its number there."""
        folder, name = posixpath.split(part)
        found: dict[str, tuple[str, str]] = {}

        def start(tag: str, given: markup.Attributes) -> None:
            if tag == "Relationship" and given.get("TargetMode") != "External":
                place = posixpath.normpath(posixpath.join("/", folder, given["Target"])).lstrip("/")
                found[given["Id"]] = (given["Type"].rpartition("/")[2], place)
                if len(found) > 2 * SHEETS:
                    raise Refused(f"a spreadsheet with more than {SHEETS} sheets")
        self.read(posixpath.join(folder, "_rels", name + ".rels"), start)
        return found

    def read(self, part: str, start: Callable[[str, markup.Attributes], None]) -> None:
        """Reads the tags of a part."""
        with self.zip.open(part) as file:
            for _ in markup.events(file, start, lambda _: None, lambda _: None):
                pass

    def read_book(self, part: str, places: dict[str, str]) -> None:
        """Reads the names of the sheets, and from which day dates are counted."""
        count = 0

        def start(tag: str, given: markup.Attributes) -> None:
            nonlocal count
            if tag == "workbookPr":
                self.is_1904 = given.get("date1904", "0") in ("1", "true", "on")
            elif tag == "sheet":
                count += 1
                if count > SHEETS:
                    raise Refused(f"a spreadsheet with more than {SHEETS} sheets")
                number = next((value for name, value in given.items() if markup.local(name) == "id"), "")
                if number in places:
                    self.places[given["name"]] = places[number]
        self.read(part, start)

    def read_strings(self, part: str) -> None:
        """Reads the shared strings. The text of phonetic signs is not part of one."""
        got, is_phonetic = Collected(), False

        def start(tag: str, _given: markup.Attributes) -> None:
            nonlocal is_phonetic
            if tag == "rPh":
                is_phonetic = True
            got.is_open = tag == "t" and not is_phonetic

        def end(tag: str) -> None:
            nonlocal is_phonetic
            got.is_open = False
            if tag == "rPh":
                is_phonetic = False
            elif tag == "si":
                self.strings.add(got.take())
        with self.zip.open(part) as file:
            for _ in markup.events(file, start, end, got.add):
                pass

    def read_styles(self, part: str) -> None:
        """Reads which styles are those of dates."""
        codes: dict[str, str | None] = {}
        kinds: list[str] = []
        is_within = False

        def start(tag: str, given: markup.Attributes) -> None:
            nonlocal is_within
            if tag == "numFmt" and len(codes) < STYLES:
                codes[given.get("numFmtId", "")] = shown_parts(given.get("formatCode", "")[:255])
            elif tag in ("cellXfs", "cellStyleXfs"):
                is_within = tag == "cellXfs"
            elif tag == "xf" and is_within:
                kinds.append(given.get("numFmtId", "0"))
                if len(kinds) > STYLES:
                    raise Refused(f"a spreadsheet with more than {STYLES} styles")
        self.read(part, start)
        self.styles = [codes[it] if it in codes else BUILT_IN.get(int(it)) for it in kinds]

    def rows(self, sheet: str) -> Iterator[list[str]]:
        """Yields the texts of each row of a sheet, with empty rows where it has none.

        A row has at most `COLUMNS` cells: what is behind them is left out. Raises `Refused` past a limit."""
        number = 0
        links, merged = self.links(self.places[sheet]), self.merged(self.places[sheet])
        # The text of each cell that is merged with those below, by its column, and the last row of these.
        below: dict[int, tuple[int, str]] = {}
        for given, cells in self.raw_rows(self.places[sheet]):
            for _ in range(given - number - 1):
                yield []
            number = given
            row: list[str] = []
            left = LINE
            for cell in cells:
                text = self.text(cell)
                left -= len(text) + 1
                if left <= 0:
                    raise Refused(f"row {number} has more than {LINE - 1} characters")
                row += [""] * (cell.column + 1 - len(row))
                link = links.get((number, cell.column), "") if links else ""
                row[cell.column] = Linked(text, link) if link else text
            for column, (last, text) in below.items():
                if number <= last and not "".join(row[column:column + 1]):
                    row += [""] * (column + 1 - len(row))
                    row[column] = text
            below.update({column: (last, row[column]) for column, last in merged.get(number, ()) if column < len(row)})
            yield row

    def merged(self, part: str) -> dict[int, list[tuple[int, int]]]:
        """Returns the cells that are merged with those below, by their row: the column, and the last row. They are at
        the end of a sheet, which is read for them only if it has some."""
        found: dict[int, list[tuple[int, int]]] = {}
        count = 0

        def start(tag: str, given: markup.Attributes) -> None:
            nonlocal count
            places = [REFERENCE.fullmatch(it) for it in given.get("ref", "").split(":")] if tag == "mergeCell" else []
            if len(places) == 2 and places[0] and places[1] and count < LINKS:
                first, last = int(places[0][2]), int(places[1][2])
                if first < last <= first + MERGED and (column := column_of(places[0][0])) < COLUMNS:
                    count += 1
                    found.setdefault(first, []).append((column, last))
        with self.zip.open(part) as file:
            before = b""
            while chunk := file.read(1 << 16):
                if b"mergeCell " in before + chunk:
                    self.read(part, start)
                    break
                before = chunk[-20:]
        return found

    def links(self, part: str) -> dict[tuple[int, int], str]:
        """Returns the addresses behind cells, by row and column. They are at the end of a sheet."""
        folder, name = posixpath.split(part)
        targets: dict[str, str] = {}
        found: dict[tuple[int, int], str] = {}

        def start(tag: str, given: markup.Attributes) -> None:
            if tag == "Relationship" and given.get("TargetMode") == "External" and len(targets) < LINKS:
                targets[given.get("Id", "")] = given.get("Target", "")
            elif tag == "hyperlink" and len(found) < LINKS:
                number = next((value for key, value in given.items() if markup.local(key) == "id"), "")
                if (place := REFERENCE.fullmatch(given.get("ref", "").partition(":")[0])) and number in targets:
                    found[int(place[2]), column_of(place[0])] = targets[number]
        related = posixpath.join(folder, "_rels", name + ".rels")
        if related in self.zip.namelist():
            self.read(related, start)
        if targets:
            self.read(part, start)
        return found

    def raw_rows(self, part: str) -> Iterator[tuple[int, list[Cell]]]:
        """Yields the number and the cells of each row that has one."""
        found: list[tuple[int, list[Cell]]] = []
        got = Collected()
        cells: list[Cell] = []
        number = column = 0
        is_data = is_phonetic = False
        kind = style = ""

        def start(tag: str, given: markup.Attributes) -> None:
            nonlocal number, column, cells, is_data, is_phonetic, kind, style
            got.is_open = False
            if not is_data:
                is_data = tag == "sheetData"
            elif tag == "c":
                place = given.get("r")
                column = column_of(place) if place else column + 1
                kind, style = given.get("t", "n"), given.get("s", "")
                got.take()
            elif tag == "v" or tag == "t" and not is_phonetic:
                got.is_open = True
            elif tag == "rPh":
                is_phonetic = True
            elif tag == "row":
                number = max(number + 1, int(given.get("r", 0)))
                if number > ROWS:
                    raise Refused(f"a spreadsheet with a row behind row {ROWS}")
                column, cells = -1, []

        def end(tag: str) -> None:
            nonlocal is_data, is_phonetic
            got.is_open = False
            if tag == "c" and is_data:
                text = got.take()
                if text and column < COLUMNS:
                    cells.append(Cell(column, kind, style, text))
                    if len(cells) > COLUMNS:
                        raise ValueError(f"row {number} has a cell twice")
            elif tag == "row" and cells:
                found.append((number, cells))
            elif tag == "rPh":
                is_phonetic = False
            elif tag == "sheetData":
                is_data = False
        with self.zip.open(part) as file:
            for _ in markup.events(file, start, end, got.add):
                yield from found
                found.clear()

    def text(self, cell: Cell) -> str:
        """Returns the text of a cell. A date has the parts that its format shows: 1995-01 is stored as 1 January."""
        if cell.kind == "s":
            return unescaped(self.strings[int(cell.text)])
        if cell.kind in ("inlineStr", "str"):
            return unescaped(cell.text)
        if cell.kind == "b":
            return "yes" if cell.text.strip() not in ("0", "false") else "no"
        if cell.kind == "e":
            return ""
        style = int(cell.style or 0)
        parts = self.styles[style] if style < len(self.styles) else None
        text = cell.text.strip()
        if cell.kind == "d":
            return date_text(datetime.datetime.fromisoformat(text.removesuffix("Z")), parts or "ymd")
        return number_text(text) if parts is None else serial_text(text, parts, self.is_1904)


def column_of(place: str) -> int:
    """Returns the column of a place as `B7`, from 0."""
    found = PLACE.fullmatch(place)
    if not found:
        raise ValueError(place)
    column = 0
    for letter in found[1].upper():
        column = 26 * column + ord(letter) - 64
    return column - 1


def unescaped(text: str) -> str:
    """Returns a text whose characters that XML cannot have are no longer written as `_x000D_`."""
    return ESCAPED.sub(lambda it: chr(int(it[1], 16)), text) if "_x" in text else text


def shown_parts(code: str) -> str | None:
    """Returns which of year, month and day a format shows, or None if it is not one of dates. Minutes are no months."""
    code = re.sub(r'"[^"]*"|\[[^\]]*\]|[\\_].', "", code.partition(";")[0].lower())
    if not re.search("[dmhys]", code):
        return None
    is_time = re.search("[hs]", code) and not re.search("[yd]", code)
    return "" if is_time else "".join(it for it in "ymd" if it in code)


def number_text(text: str) -> str:
    """Returns the text of a number, without a fraction that is zero."""
    if len(text) > DIGITS or not FLOAT.fullmatch(text):
        return text
    if not re.search("[.eE]", text):
        return str(int(text))
    value = float(text)
    return str(int(value)) if value.is_integer() and abs(value) < 1e15 else str(value)


def serial_text(text: str, parts: str, is_1904: bool) -> str:
    """Returns the text of a date that is the number of its day, or the number if there is no such day."""
    if len(text) > DIGITS or not FLOAT.fullmatch(text):
        return text
    value = float(text)
    if not is_1904 and value < LEAP:
        value += 1
    try:
        return date_text((FIRST_1904 if is_1904 else FIRST) + datetime.timedelta(seconds=round(value * DAY)), parts)
    except OverflowError:
        return number_text(text)


def date_text(day: datetime.datetime, parts: str) -> str:
    """Returns the parts of a date that its format shows, or its time if it shows none."""
    if not parts:
        return f"{day:%H:%M:%S}"
    month = f"-{day.month:02}" if "m" in parts or "d" in parts else ""
    return f"{day.year:04}{month}" + (f"-{day.day:02}" if "d" in parts else "")
