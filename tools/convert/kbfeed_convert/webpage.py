"""Tables of a page in HTML, as some programs write them into files that end in `.xls`. A page is read in parts."""
import html.parser
import io
from typing import IO, Iterator

from . import encoding
from .faults import COLUMNS, FIELD, LINE, Refused
from .linked import Linked
from .texts import with_signs

CHUNK = 1 << 16
# The characters of a tag or a comment that has no end.
OPEN = 1 << 20


def number(text: str | None) -> int:
    """Returns how many columns or rows a cell has."""
    return min(int(text), COLUMNS) if text and text.isascii() and text.isdigit() and len(text) < 5 and int(text) else 1


class Parser(html.parser.HTMLParser):
    """Collects the rows of all tables of a page."""

    def __init__(self) -> None:
        super().__init__(convert_charrefs=True)
        self.found: list[list[str]] = []
        self.row: list[str] | None = None
        self.parts: list[str] | None = None
        self.size = self.left = 0
        self.link = ""
        self.span = self.depth = 1
        # The cells of rows above that reach into this row, and those that reach into the next one: the rows and the
        # text by their column.
        self.deep: dict[int, tuple[int, str]] = {}
        self.below: dict[int, tuple[int, str]] = {}

    def handle_starttag(self, tag: str, attrs: list[tuple[str, str | None]]) -> None:
        """Begins a row or a cell."""
        if tag == "tr":
            self.end_row()
            self.row, self.left = [], LINE
            self.fill()
        elif tag in ("td", "th") and self.row is not None:
            self.end_cell()
            given = dict(attrs)
            self.parts, self.size, self.link = [], 0, ""
            self.span, self.depth = number(given.get("colspan")), number(given.get("rowspan"))
        elif tag == "table":
            self.deep, self.below = {}, {}
        elif tag == "a" and self.parts is not None:
            self.link = self.link or dict(attrs).get("href") or ""
        elif tag in ("br", "p", "div") and self.parts is not None:
            self.parts.append("\n")

    def handle_endtag(self, tag: str) -> None:
        """Ends a cell or a row."""
        if tag in ("td", "th"):
            self.end_cell()
        elif tag in ("tr", "table"):
            self.end_row()

    def handle_data(self, data: str) -> None:
        """Adds a text to the cell, up to one character more than a cell may have: it is refused later."""
        if self.parts is not None and self.size <= FIELD:
            self.parts.append(data[:FIELD + 1 - self.size].replace("\n", " ").replace("\r", " "))
            self.size += len(self.parts[-1])

    def end_cell(self) -> None:
        """Ends the cell, if one is open. Its further columns are empty."""
        if self.parts is None or self.row is None:
            return
        text = " ".join(with_signs("".join(self.parts)).split())
        self.left -= len(text) + self.span
        if self.left <= 0:
            raise Refused(f"a row has more than {LINE - 1} characters")
        cell = Linked(text, self.link) if self.link else text
        if self.depth > 1:
            self.below.update({len(self.row) + it: (self.depth - 1, "" if it else cell) for it in range(self.span)})
        self.row += [cell, *[""] * (self.span - 1)][:COLUMNS - len(self.row)]
        self.parts = None
        self.fill()

    def fill(self) -> None:
        """Adds the cells of rows above that reach into this one at its place."""
        while self.row is not None and len(self.row) < COLUMNS and (found := self.deep.pop(len(self.row), None)):
            rows, cell = found
            if rows > 1:
                self.below[len(self.row)] = rows - 1, cell
            self.row.append(cell)

    def end_row(self) -> None:
        """Ends the row, if one is open."""
        self.end_cell()
        if self.row is not None:
            self.found.append(self.row)
            self.deep, self.below = self.below, {}
        self.row = None


class WebPage:
    """A page that is open. All its tables are one sheet."""
    sheets = ["tables"]

    def __init__(self, file: IO[bytes]):
        self.file = file
        self.encoding = encoding.detect(file)

    def rows(self, _sheet: str) -> Iterator[list[str]]:
        """Yields the texts of each row."""
        self.file.seek(0)
        text = io.TextIOWrapper(self.file, encoding=self.encoding.name, errors=self.encoding.errors)
        parser = Parser()
        try:
            while chunk := text.read(CHUNK):
                parser.feed(chunk)
                if len(parser.rawdata) > OPEN:
                    raise Refused(f"a page of HTML with a tag of more than {OPEN} characters")
                yield from parser.found
                parser.found.clear()
            parser.close()
            parser.end_row()
            yield from parser.found
        finally:
            text.detach()
