"""An OpenDocument spreadsheet (.ods): its sheets, and their rows as texts. It is read in parts, and within limits."""
import zipfile
from typing import IO, Iterator

from . import markup
from .faults import COLUMNS, LINE, Refused
from .linked import Linked
from .workbook import ROWS, SHEETS, Collected, number_text

CONTENT = "content.xml"


class OpenDocument:
    """A spreadsheet that is open. `sheets` has the names of its sheets, in their order."""

    def __init__(self, file: IO[bytes]):
        """Reads the names of the sheets."""
        self.zip = zipfile.ZipFile(file)
        self.sheets: list[str] = []

        def start(tag: str, given: markup.Attributes) -> None:
            if tag == "table":
                self.sheets.append(attribute(given, "name"))
                if len(self.sheets) > SHEETS:
                    raise Refused(f"a spreadsheet with more than {SHEETS} sheets")
        with self.zip.open(CONTENT) as content:
            for _ in markup.events(content, start, lambda _: None, lambda _: None):
                pass

    def rows(self, sheet: str) -> Iterator[list[str]]:
        """Yields the texts of each row of a sheet. Empty rows at its end are left out, however often they repeat."""
        reader = Rows(self.sheets.index(sheet))
        empty = count = 0
        with self.zip.open(CONTENT) as content:
            for _ in markup.events(content, reader.start, reader.end, reader.got.add):
                for row, repeated in reader.found:
                    if not row:
                        empty += repeated
                        continue
                    count += empty + repeated
                    if count > ROWS:
                        raise Refused(f"a spreadsheet with a row behind row {ROWS}")
                    for _ in range(empty):
                        yield []
                    for _ in range(repeated):
                        yield row
                    empty = 0
                reader.found.clear()


class Rows:
    """Collects the rows of one table from the tags of a document, each with how often it repeats."""

    def __init__(self, number: int):
        self.number, self.table = number, -1
        self.found: list[tuple[list[str], int]] = []
        self.got = Collected()
        self.row: list[str] = []
        self.repeated = self.times = 1
        self.value = self.link = ""
        self.is_cell = self.has_paragraph = False
        self.left = LINE

    def start(self, tag: str, given: markup.Attributes) -> None:
        """Reads the beginning of an element."""
        if tag == "table":
            self.table += 1
        elif self.table != self.number:
            return
        elif tag == "table-row":
            self.row, self.left = [], LINE
            self.repeated = max(1, int(attribute(given, "number-rows-repeated") or 1))
        elif tag in ("table-cell", "covered-table-cell"):
            self.times = max(1, int(attribute(given, "number-columns-repeated") or 1))
            self.is_cell, self.has_paragraph, self.link = tag == "table-cell", False, ""
            kind = attribute(given, "value-type")
            self.value = {"float": number_text(attribute(given, "value")),
                          "date": attribute(given, "date-value").removesuffix("T00:00:00"),
                          "boolean": "yes" if attribute(given, "boolean-value") == "true" else "no"}.get(kind, "")
            self.got.take()
        elif tag == "annotation":
            self.is_cell = self.got.is_open = False
        elif tag == "p" and self.is_cell:
            self.got.is_open = True
            if self.has_paragraph:
                self.got.add(" ")
            self.has_paragraph = True
        elif tag == "a" and self.is_cell:
            self.link = self.link or attribute(given, "href")
        elif tag in ("s", "tab", "line-break"):
            self.got.add(" ")

    def end(self, tag: str) -> None:
        """Reads the end of an element."""
        if self.table != self.number:
            return
        if tag == "p":
            self.got.is_open = False
        elif tag == "annotation":
            self.is_cell = True
        elif tag in ("table-cell", "covered-table-cell"):
            self.add_cell()
        elif tag == "table-row":
            while self.row and not self.row[-1]:
                self.row.pop()
            self.found.append((self.row, self.repeated))

    def add_cell(self) -> None:
        """Adds a cell to the row, as often as it repeats there."""
        shown = self.got.take()
        text: str = self.value or shown
        if self.link:
            text = Linked(text, self.link)
        times = min(self.times, COLUMNS - len(self.row))
        self.left -= times * (len(text) + 1)
        if self.left <= 0:
            raise Refused(f"a row has more than {LINE - 1} characters")
        self.row += [text] * max(times, 0)


def attribute(given: markup.Attributes, name: str) -> str:
    """Returns an attribute by its name without the prefix, or nothing."""
    return next((value for key, value in given.items() if markup.local(key) == name), "")
