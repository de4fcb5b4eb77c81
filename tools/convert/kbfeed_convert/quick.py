"""A short way for the records that most lists have: serials whose cells are good, or are changed by one rule each, with
dates in columns or a statement that reads as a whole.

The cells that repeat (dates, volumes, types, embargoes, statements, notes) are converted once. Whatever is unusual goes
the long way, by `record`, which makes the same of it: a test compares the two."""
import functools
import operator
import re
from typing import Any, Callable, NamedTuple

from . import beside, coverage, dates, kinds, labels, statuses, strict, values, volumes
from .form import Record
from .record import (DATE, DATES, FURTHER, IN_PAIRS, ISSUES, LONG, NUMBERS, PUBLISHED, SIGNS, VOLUMES, WIDENING,
                     Converter, has_number_beside, has_year_beside)
from .report import change_text
from .texts import SIZE, folded

# An address that needs no change and no warning: without a placeholder and a byte in percent.
ADDRESS = re.compile(r"https?://[!#&-;=?-Z\\^_a-z|~]*").fullmatch
# Labels of ours whose columns a record reads besides those of the standard, and the one that may have a statement.
OWN, COVERAGE = labels.OWN, "coverage"
# The access of a title that a cell says to be free.
FREE_CHANGE, FREE_RULE = change_text("access_type", "", "F", "the access in words"), "access_type: the access in words"
# The most ranges of a statement.
MOST_RANGES = 50


class Cell(NamedTuple):
    """A cell as it becomes: its text, the change for the report and its rule if it is another text, and what the reader
    takes from it."""
    text: str
    change: str
    rule: str
    read: strict.Day | int | None


class Stated(NamedTuple):
    """What a statement makes of a row without dates: for each range its cells and what the reader takes from them, its
    embargo, and the changes with their rules."""
    ranges: list[tuple[coverage.Range, tuple[Any, ...]]]
    embargo: str
    changes: list[str]
    rules: list[str]


class Quick(NamedTuple):
    """The rows of a record, its changes with their rules, and what the reader takes from each row."""
    rows: list[list[str]]
    changes: list[str]
    rules: list[str]
    reads: list[strict.Row]


Rule = Callable[[str], Any]


class Memo(dict[str, Any]):
    """What a rule makes of the cells of a column. None is a cell for the long way."""

    def __init__(self, rule: Rule):
        super().__init__()
        self.rule = rule

    def __missing__(self, cell: str) -> Any:
        """Asks the rule, and keeps its answer unless there are too many."""
        if len(self) >= SIZE:
            self.clear()
        found = self[cell] = self.rule(cell)
        return found


@functools.cache
def issn_sums() -> tuple[dict[str, int], dict[str, int]]:
    """Returns what the first four digits of an ISSN, and the rest with its hyphen, add to the sum of the check."""
    first = {f"{it:04}": sum(int(digit) * weight for digit, weight in zip(f"{it:04}", (8, 7, 6, 5)))
             for it in range(10_000)}
    rest = {}
    for it in range(1_000):
        digits = f"{it:03}"
        weighed = sum(int(digit) * weight for digit, weight in zip(digits, (4, 3, 2)))
        rest.update({f"-{digits}{check}": weighed + value for value, check in enumerate("0123456789X")})
    return first, rest


def changed(label: str, old: str, new: str, rule: str, read: strict.Day | int | None = None) -> Cell:
    """Returns a cell, with its change if it is another text."""
    return Cell(new, "" if old == new else change_text(label, old, new, rule), f"{label}: {rule}", read)


class Shortcut:
    """Converts the usual records of one list. `is_open` says whether the list may have such records at all."""

    def __init__(self, converter: Converter):
        settings, places = converter.settings, converter.columns.places
        self.is_open = not (
            converter.several or converter.cited or converter.columns.marks or converter.numbered
            or converter.columns.is_free or settings.has_quarters or settings.constants or settings.replaced
            or settings.unwrapped or converter.chooser.choices
            or any(it in places for it in OWN if it != COVERAGE)
            or COVERAGE in places and (converter.is_kbart or len(places[COVERAGE]) > 1))
        self.converter, self.width = converter, converter.width
        # What is beside the coverage: for each column whether a cell says something of it.
        self.beside = [(it, Memo(functools.partial(self.says_something, header)))
                       for it, header in converter.beside_columns]
        self.note = Memo(functools.partial(self.says_something, "notes"))
        self.held = sorted(converter.said_held)
        self.has_where = bool(converter.chooser.where)
        self.coverage = places[COVERAGE][0] if COVERAGE in places else -1
        self.statement = Memo(self.stated)
        self.first_cell = converter.header[0] if converter.header else ""
        at = {label: place for place, label in enumerate(strict.LABELS)}
        self.url, self.embargo, self.notes = at["title_url"], at["embargo_info"], at["notes"]
        self.issues, self.numbers = [at[it] for it in ISSUES], [at[it] for it in (*DATES, *VOLUMES, *ISSUES)]
        self.access = at["access_type"]
        self.texts = operator.itemgetter(*(at[it] for it in ("publication_title", *NUMBERS)))
        self.is_standard = converter.header == list(strict.LABELS)
        self.first, self.rest = issn_sums()
        order = settings.order
        self.memos: list[tuple[int, Memo]] = [
            (at["embargo_info"], Memo(embargo)), (at["coverage_depth"], Memo(depth)),
            (at["access_type"], Memo(self.accessed)),
            (at["publication_type"], Memo(functools.partial(kind, settings.kind, converter.is_kbart))),
            *[(at[label], Memo(functools.partial(date, label, bool(end), order))) for end, label in enumerate(DATES)],
            *[(at[label], Memo(functools.partial(volume, label, bool(end)))) for end, label in enumerate(VOLUMES)],
            *[(at[label], Memo(functools.partial(published, label, order))) for label in PUBLISHED
              if label in places and not converter.is_kbart]]

    def row(self, record: Record) -> Quick | None:
        """Returns the rows of a record, or None if it has to go the long way."""
        _, given, _, lines, size = record
        missing = self.width + 1 - len(given)
        if missing <= 0 or lines > 1 or size > LONG or given[0] == self.first_cell:
            return None
        cells = given if self.is_standard and missing == 1 else list(self.converter.cells_of(given + [""] * missing))
        if not self.converter.is_kbart and not values.NOTHING.isdisjoint(cells):
            return None
        title, print_, online = self.texts(cells)
        if not title or "<" in title or "&" in title and values.REFERENCE.search(title):
            return None
        if not title.isascii() and values.TWICE.search(title) or not ADDRESS(cells[self.url]):
            return None
        if print_ == online or not "".join(given).isprintable():
            return None
        try:
            if (print_ and (self.first[print_[:4]] + self.rest[print_[4:]]) % 11
                    or online and (self.first[online[:4]] + self.rest[online[4:]]) % 11):
                return None
        except KeyError:
            return None
        changes: list[str] = []
        rules: list[str] = []
        read: list[Any] = []
        behind = 0
        for place, memo in self.memos:
            found = memo[cells[place]]
            if found is None:
                return None
            text, change, rule, taken = found
            if text != cells[place]:
                if cells is given:
                    cells = given.copy()
                cells[place] = text
            if change:
                changes.append(change)
                rules.append(rule)
            read.append(taken)
            if place == self.access:
                # Of the texts that a record changes the access is the last one.
                behind = len(changes)
        said = self.said(given)
        if said == "no":
            return None
        if said == "free" and not cells[self.access]:
            cells = cells.copy() if cells is given else cells
            cells[self.access] = "F"
            changes.insert(behind, FREE_CHANGE)
            rules.insert(behind, FREE_RULE)
        for place, says in self.beside:
            if (cell := given[place:place + 1]) and cell[0] and says[cell[0]]:
                return None
        if (note := cells[self.notes]) and not self.converter.is_kbart and self.note[note]:
            return None
        ids = print_ or None, online or None
        if self.coverage >= 0 and self.coverage < len(given) and given[self.coverage].strip():
            return self.with_statement(given[self.coverage], cells, changes, rules, ids)
        first, last, one, two = read[4:8]
        if not first and cells[self.embargo][:1] in ("R", "r"):
            return None
        if not first and (self.beside or self.coverage >= 0 or self.converter.printed
                          or not last and any(has_year_beside(cells[it]) for it in self.issues)):
            return None
        if first and last and first > last or one is not None and two is not None and one > two:
            return None
        return Quick([cells], changes, rules, [strict.Row("serial", *ids, first, last, one, two)])

    def says_something(self, label: str, cell: str) -> bool:
        """Returns whether a cell beside the coverage says something of it."""
        settings = self.converter.settings
        return beside.may_say(cell) and beside.said(label, cell, settings.order, settings.has_volumes) != beside.NOTHING

    def accessed(self, cell: str) -> Cell | None:
        """Reads the access. One that says something of the days goes the long way."""
        return None if not self.converter.is_kbart and self.says_something("access_type", cell) else access(cell)

    def said(self, given: list[str]) -> str:
        """Returns `no` if a cell says that the title is not held, `free` if one says that it is free, or nothing."""
        if self.has_where and self.converter.chooser.not_held(given):
            return "no"
        found = ""
        for at in self.held:
            for cell in given[at:at + 1]:
                if cell and (verdict := statuses.verdict(cell)) in ("no", "free"):
                    if verdict == "no":
                        return "no"
                    found = "free"
        return found

    def with_statement(self, cell: str, cells: list[str], changes: list[str], rules: list[str],
                       ids: tuple[str | None, str | None]) -> Quick | None:
        """Returns the rows of a record whose coverage is a statement, or None if it has dates or numbers, too."""
        found = self.statement[cell]
        if found is None or any(cells[it] for it in self.numbers) or found.embargo and cells[self.embargo]:
            return None
        rows, reads = [], []
        for one, read in found.ranges:
            row = cells.copy()
            for place, text in zip(self.numbers, one):
                row[place] = text
            if found.embargo:
                row[self.embargo] = found.embargo
            rows.append(row)
            reads.append(strict.Row("serial", *ids, *read))
        return Quick(rows, changes + found.changes, rules + found.rules, reads)

    def stated(self, cell: str) -> Stated | None:
        """Reads a statement that has a first date in each range, and no part that is not read."""
        found = self.converter.read(cell)
        if not found.ranges or found.unread or found.is_undecided or len(found.ranges) > MOST_RANGES:
            return None
        ranges: list[tuple[coverage.Range, tuple[Any, ...]]] = []
        changes = [change_text("coverage", cell, coverage.shown(found.ranges), "a range in one cell")]
        rules = ["coverage: a range in one cell"]
        if found.embargo:
            changes.append(change_text("embargo_info", "", found.embargo, "an embargo in a coverage"))
            rules.append("embargo_info: an embargo in a coverage")
        for at, it in enumerate(found.ranges):
            first, last = strict.date(it.first), strict.date(it.last)
            if not first or it.last and not last or last and first[0] > last[1]:
                return None
            one, two = strict.volume(it.first_volume), strict.volume(it.last_volume)
            if one is not None and two is not None and one > two:
                one = two = None
            ranges.append((it, (first[0], last and last[1], one, two)))
            if at:
                changes.append(change_text("coverage", "", coverage.shown([it]), FURTHER))
                rules.append(f"coverage: {FURTHER}")
        return Stated(ranges, found.embargo, changes, rules)


def embargo(cell: str) -> Cell | None:
    """Reads an embargo. One that is not read may widen the row."""
    new = values.embargo(cell) if cell else cell
    return changed("embargo_info", cell, new, "an embargo in words") if not new or values.is_embargo(new) else None


def depth(cell: str) -> Cell:
    """Reads the depth of coverage."""
    return changed("coverage_depth", cell, values.depth(cell), "the depth in words")


def access(cell: str) -> Cell | None:
    """Reads the access. One with a year may widen the row, and one may be a depth."""
    if has_year_beside(cell) or values.depth(cell) == "abstracts" or statuses.is_negated(cell):
        return None
    return changed("access_type", cell, values.access(cell), "the access in words")


def kind(default: str, is_kbart: bool, cell: str) -> Cell | None:
    """Reads the type of a record that has ISSNs alone."""
    found, rule = kinds.read(cell, True, False, default)
    if found != "serial":
        return None
    if not cell.strip() and not is_kbart:
        return Cell(found, "", "", None)
    return changed("publication_type", cell, cell if (strict.lower(cell) or "serial") == "serial" else found, rule)


def date(label: str, is_last: bool, order: str, cell: str) -> Cell | None:
    """Reads a date, if the reader takes the same from it as before, or took nothing."""
    if len(cell) > DATE or SIGNS.search(cell):
        return None
    found = dates.read(cell, is_last, order)
    text = found.text or ""
    old, new = strict.date(cell), strict.date(text)
    if has_number_beside(cell, found.rule) or found.rule in IN_PAIRS:
        return None
    if found.rule in WIDENING or new is None and text.strip(" ") or coverage.wall(cell, is_last) and not new:
        return None
    day, old_day = new and new[is_last], old and old[is_last]
    if old and old_day != day and not (is_last and day is None and old[1][0] == 9999):
        return None
    return changed(label, cell, text, found.rule, day)


def published(label: str, order: str, cell: str) -> Cell:
    """Reads a date of publication."""
    return changed(label, cell, cell and dates.published(cell, order), "a date of publication")


def volume(label: str, is_last: bool, cell: str) -> Cell | None:
    """Reads a volume. One with a year beside it may widen the row."""
    if has_year_beside(cell) or cell and folded(cell) in dates.NONE:
        return None
    text = volumes.read(cell, is_last)
    return changed(label, cell, text, "a volume with words", strict.volume(text))
