"""A spreadsheet as tab-separated text, so that what follows has one form to read.

All sheets that have a header are one list, each by its own header. The address behind a cell counts if its text is
none."""
import contextlib
import io
import re
import tempfile
from typing import IO, Callable, Iterable, Iterator, NamedTuple, Protocol

from .faults import BYTES, COLUMNS, Refused
from .labels import has_numbers_below, with_second
from .linked import link_of
from .texts import folded, with_signs, word_set
from .workbook import DAMAGED

# The rows in which the header of a sheet is looked for.
SEARCHED = 60
# The label that a header means, if it is known.
Labels = Callable[[str], str | None]
ADDRESS = re.compile(r"[a-z][a-z0-9+.-]*://|www\.", re.I)
# The header of the addresses behind titles, if no other column has addresses.
BEHIND = "URL behind the title"
# The words in the names of sheets whose titles are no longer there.
GONE = word_set("sheets", "gone")


class Book(Protocol):
    """What has sheets."""

    @property
    def sheets(self) -> list[str]:
        """Returns the names of the sheets, in their order."""

    def rows(self, sheet: str, /) -> Iterator[list[str]]:
        """Yields the texts of each row of a sheet."""


class Text(NamedTuple):
    """A list as text, the names of the sheets that are in it, and warnings about others."""
    file: IO[bytes]
    sheet: str
    warnings: list[str]


class Part(NamedTuple):
    """A sheet with a header: its name, the number of that row, its cells, and whether the row above is in them, too."""
    name: str
    row: int
    header: list[str]
    is_joined: bool = False


@contextlib.contextmanager
def reading() -> Iterator[None]:
    """Refuses a spreadsheet that is damaged. A full disk stays what it is."""
    try:
        yield
    except DAMAGED as error:
        raise Refused("a spreadsheet that is damaged") from error


def as_text(opened: Callable[[], Book], wanted: str, label: Labels, least: int, refusal: str = "") -> Text:
    """Returns the text of a book: of the wanted sheet, or of all that have a header with so many labels at least.
    `refusal` is why a book without one is refused."""
    with reading():
        book = opened()
        names = ", ".join(book.sheets)
        if not names:
            raise Refused("a spreadsheet that is damaged")
        if wanted and wanted not in book.sheets:
            raise Refused(f"no sheet {wanted!r}: it has {names}")
        if wanted:
            found = part_of(book, wanted, label, least)[0] or Part(wanted, 0, [])
            return Text(written(whole(book, found, label)), wanted, [])
        parts, left_out, gone = [], [], [it for it in book.sheets if GONE & {*folded(it).split()}]
        for name in book.sheets:
            if name in gone and len(gone) < len(book.sheets):
                continue
            part, is_filled = part_of(book, name, label, least)
            if part:
                parts.append(part)
            elif is_filled:
                left_out.append(name)
        if not parts:
            raise Refused(refusal or f"no sheet has a header: {names}")
        warnings = [f"the sheet {name!r} has no header, and is left out" for name in left_out]
        if len(gone) < len(book.sheets):
            warnings += [f"the sheet {name!r} has titles that are gone by its name, and is left out: --sheet reads it"
                         for name in gone]
        if len(parts) == 1:
            return Text(written(whole(book, parts[0], label)), parts[0].name, warnings)
        names = ", ".join(it.name for it in parts)
        return Text(written(joined(book, parts, label)), names, [f"the sheets {names} are one list", *warnings])


def known(row: list[str], label: Labels) -> int:
    """Returns how many different labels a row has."""
    return len({it for it in map(label, row) if it})


def part_of(book: Book, name: str, label: Labels, least: int) -> tuple[Part | None, bool]:
    """Returns the header of a sheet, if it has one, and whether the sheet has any text."""
    is_filled, above = False, Part(name, 0, [])
    for number, row in zip(range(1, SEARCHED + 1), book.rows(name)):
        is_filled = is_filled or any(row)
        # One row after the other: all of them could be larger than the memory.
        if has_numbers_below([label(it) for it in above.header], row):
            return above, True
        header = with_second(above.header, row, label) if above.row == number - 1 else []
        if known(header, label) >= least:
            return Part(name, number, header, True), True
        if known(above.header, label) >= least:
            return above, True
        above = Part(name, number, row) if any(row) else above
    return above if known(above.header, label) >= least else None, is_filled


def whole(book: Book, part: Part, label: Labels) -> Iterator[list[str]]:
    """Yields the rows of one sheet as they are, with the addresses behind cells behind its header."""
    for number, row in enumerate(book.rows(part.name), 1):
        if number == part.row:
            yield with_column(part.header, label)
        elif number == part.row - 1 and part.is_joined:
            # Its cells are in the header.
            yield []
        else:
            yield with_links(row, part.header if number > part.row else [], label)


def with_column(header: list[str], label: Labels) -> list[str]:
    """Returns a header with a column for the addresses behind titles, if it has none for addresses."""
    return header if any(label(it) == "title_url" for it in header) else [*header, BEHIND]


def with_links(row: list[str], header: list[str], label: Labels) -> list[str]:
    """Returns a row in which addresses that are behind texts are cells."""
    if not any(map(link_of, row)):
        return row
    labels = [label(it) for it in header]
    if "title_url" in labels:
        return [link_of(cell) if labels[at:at + 1] == ["title_url"] and link_of(cell) and not ADDRESS.match(cell)
                else cell for at, cell in enumerate(row)]
    behind = next((link_of(cell) for at, cell in enumerate(row) if labels[at:at + 1] == ["publication_title"]), "")
    return [*row[:len(header)], *[""] * (len(header) - len(row)), behind]


def joined(book: Book, parts: list[Part], label: Labels) -> Iterator[list[str]]:
    """Yields one header, and then the rows of several sheets. Columns of one header, or of one label, are one."""
    header: list[str] = []
    places: list[list[int]] = []
    for part in parts:
        own: list[int] = []
        for cell in with_column(part.header, label):
            text = cell.strip()
            at = next((at for at, it in enumerate(header) if it.strip() == text and text and at not in own), -1)
            if at < 0 and (meant := label(cell)):
                at = next((at for at, it in enumerate(header) if label(it) == meant and at not in own), -1)
            if at < 0:
                at = len(header)
                header.append(cell)
            own.append(at)
        if len(header) > COLUMNS:
            raise Refused(f"the header has more than {COLUMNS} columns")
        places.append(own)
    yield header
    before: set[int] = set()
    for part, own in zip(parts, places):
        now: set[int] = set()
        for number, row in enumerate(book.rows(part.name), 1):
            if number > part.row and row:
                placed = [""] * len(header)
                for at, cell in zip(own, with_links(row, part.header, label)):
                    placed[at] = cell
                # A sheet of new titles repeats rows of that of all titles.
                if (mark := hash(tuple(placed))) not in before:
                    now.add(mark)
                    yield placed
        before |= now


def written(rows: Iterable[list[str]]) -> IO[bytes]:
    """Returns a temporary file with the rows of a sheet."""
    raw = tempfile.TemporaryFile()
    out = io.TextIOWrapper(raw, encoding="utf-8", errors="replace", newline="\n")
    size = 0
    for row in rows:
        # An empty row is a record of empty cells, as an empty line would have no number.
        line = "\t".join(map(quoted, row)).rstrip("\t") or "\t"
        size += len(line.encode("utf-8", "replace")) + 1
        if size > BYTES:
            raise Refused(f"as text it has more than {BYTES} bytes")
        out.write(line + "\n")
    out.flush()
    out.detach()
    raw.seek(0)
    return raw


def quoted(text: str) -> str:
    """Returns a cell of tab-separated text."""
    text = re.sub(r"[\t\r\n]+", " ", with_signs(text))
    return '"' + text.replace('"', '""') + '"' if '"' in text else text
