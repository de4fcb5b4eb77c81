"""The columns that are not used although they look like dates, an embargo or a status, so that rows may have too much.

A column looks so by its label or by its cells. A map that gives it no label says that it may be left out."""
import re
from typing import Any, Callable

from . import coverage, dates, statuses, values
from .labels import Columns
from .texts import SIZE, counted, folded, remembered, word_set, words
from .tokens import MEANINGS, NONE

KINDS = ("dates", "embargo", "status")
SHOWN = {"dates": "dates", "embargo": "an embargo", "status": "a status"}
LABELS = {kind: word_set("suspects", kind) for kind in KINDS}
# Those of scripts without spaces, which are anywhere in a label.
WRITTEN = {kind: [it for it in many if it >= "\u3000" and kind == "status"] for kind, many in LABELS.items()}
HARMLESS, TO_READERS, ABOUT = (word_set("suspects", it) for it in ("harmless", "access", "about"))
STATUS = word_set("suspects", "status_cells")
HELD, NOT_HELD, HELD_LABELS, HELD_COLUMNS = (word_set("held", it) for it in ("yes", "no", "labels", "columns"))
# Words of titles that still appear: one that is not among them has ceased.
PUBLISHED = word_set("held", "published")
NOT_LABELS = word_set("held", "not_labels")
PRINT, ONLINE = word_set("words", "print"), word_set("words", "online")
# The year in `Subscribed 2026`.
YEAR_BEHIND = re.compile(" [0-9]{4}$")
UNITS = frozenset(it for it, unit in words("units").items() if len(it) > 3 and unit in ("D", "M", "W"))
# The share of the cells that have to look like one kind, and how many different ones the report has.
MOST = 0.5
CELLS = 5
# The most different values of a category, and the characters of each.
VALUES, SHORT = 4, 24
# The characters of a cell that is not kept.
LONG = 500
# Of that many characters one may be a letter in a long cell of dates.
FEW = 4
# The beginnings of a list of lists or of objects in JSON, which is not used.
NESTED = ("[{", "[[")


@remembered
def cell_kind(cell: str) -> str:
    """Returns what a cell looks like, or nothing."""
    text = folded(cell)
    if cell.startswith(NESTED) and dates.YEARS.search(cell):
        return "nested"
    if text in STATUS or statuses.verdict(cell) in ("no", "cancelled"):
        return "status"
    if text in dates.OPEN:
        return "open"
    if dates.YEARS.search(cell) or re.search("[0-9]", cell):
        if (found := coverage.read(cell, "")) and not found.unread:
            return "embargo" if found.embargo and not found.ranges[0].has_dates() else "dates"
        if dates.YEARS.search(cell) and dates.read(cell, False, "").rule != dates.NOT_READ and is_short(cell):
            return "dates"
        if values.is_embargo(values.embargo(cell)):
            return "embargo"
    return ""


def is_short(cell: str) -> bool:
    """Returns whether a cell has little but its dates: few characters, or few letters among them."""
    return len(cell) < 20 or FEW * sum(map(str.isalpha, cell)) <= len(cell)


def is_statement(header: str, cell: str) -> bool:
    """Returns whether a cell is a whole statement of coverage: a range, an open beginning or end, several dates, or a
    moving wall.

    A column such as `Held` has a status by its label, but no status is a range."""
    if label_kind(header) == "harmless":
        return False
    found = coverage.read(cell, "")
    return bool(found and not found.unread and (found.embargo or len(found.ranges) > 1
                                                or any(it.first != it.last for it in found.ranges)))


def is_dated(header: str, cell: str) -> bool:
    """Returns whether a cell is a statement that has a date, and no embargo alone."""
    return is_statement(header, cell) and any(it.has_dates() for it in coverage.read(cell, "").ranges)


def is_date(header: str, cell: str) -> bool:
    """Returns whether a cell is one date, or an open end in words."""
    is_suspect = label_kind(header) not in ("harmless", "status") and cell_kind(cell) in ("dates", "open")
    return is_suspect and not is_statement(header, cell)


def is_embargo(header: str, cell: str) -> bool:
    """Returns whether a cell is an embargo in words, or has a label of one."""
    if cell.startswith(NESTED):
        return False
    kind = label_kind(header)
    return kind == "embargo" or kind not in ("harmless", "status") and cell_kind(cell) == "embargo"


def is_dated_issue(cell: str) -> bool:
    """Returns whether a cell of a column of issues is the date of one, as `No. 1, March 1999`, or an open end."""
    return folded(cell) in dates.OPEN or dates.YEARS.search(cell) is not None and not cell.strip().isdecimal()


def range_of(header: str) -> tuple[str, str] | None:
    """Returns the first and the last date of a header that is a range, perhaps in brackets, or None."""
    inside = re.search(r"\(([^()]*[0-9]{4}[^()]*)\)", header)
    found = coverage.read(inside[1] if inside else header, "")
    one = found.ranges[0] if len(found.ranges) == 1 and not found.unread and not found.embargo else None
    return (one.first, one.last) if one and one.has_dates() else None


def is_mark(cell: str) -> bool:
    """Returns whether a cell says yes or no by a sign or a word. A digit may be a count."""
    return folded(cell) in values.YES_NO and not cell.strip().isdecimal()


def is_range(first: str, last: str) -> bool:
    """Returns whether the years of a first and a last date may be those of a range."""
    begins, ends = dates.YEARS.findall(first), dates.YEARS.findall(last)
    return not begins or not ends or min(begins) <= max(ends)


def may_be_held(header: str) -> bool:
    """Returns whether the cells of a column may say that a title is held, by its label."""
    said = folded(header).split()
    return label_kind(header) == "status" or any(it in HELD_COLUMNS or it.endswith("status") for it in said)


def is_understood(cell: str) -> bool:
    """Returns whether a cell says, as a whole, whether a title is held."""
    text = folded(cell)
    return not text or bool(statuses.verdict(cell)) or text in STATUS or text in values.YES_NO


def are_held(cells: set[str]) -> bool:
    """Returns whether at least as many cells of a column say something of a status as do not."""
    return bool(negated(cells)) or 2 * sum(map(is_understood, cells)) >= len(cells)


def not_held(cells: set[str]) -> set[str]:
    """Returns the cells of a column that say that a title is not held."""
    return {it for it in cells if statuses.verdict(it) == "no"} | negated(cells)


def negated(cells: set[str]) -> set[str]:
    """Returns the cells of a column that are another one with a word as `not`, as `не активна` beside `активна`."""
    said = {it: [word for word in it.split() if "not" not in MEANINGS.get(word, NONE)] for it in cells}
    return {it for it, words in said.items() if words and " ".join(words) != it and " ".join(words) in cells
            and " ".join(words) not in PUBLISHED}


def held_values(header: str, cells: set[str]) -> set[str]:
    """Returns the cells of a column that say that a title is held, if all say that or the opposite, and some each."""
    label = YEAR_BEHIND.sub("", folded(header))
    says_yes_no = label in HELD_LABELS or any(" " in it and f" {it} " in f" {label} " for it in HELD_LABELS)
    if says_yes_no and len(cells) == 2 and "" in cells and values.YES_NO.get(max(cells)) == "yes":
        # A mark, or nothing.
        return {max(cells)}
    said = {it: "yes" if it in HELD else "no" if it in NOT_HELD else values.YES_NO.get(it, "") if says_yes_no else ""
            for it in cells}
    return {it for it in cells if said[it] == "yes"} if {*said.values()} == {"yes", "no"} else set()


def not_deleted(header: str, cells: set[str]) -> set[str]:
    """Returns the cells of a column as `Deleted` that are not `yes`, if some are, or nothing."""
    said = {it: values.YES_NO.get(it) for it in cells} if folded(header) in NOT_LABELS else {}
    return {it for it in cells if said[it] != "yes"} if "yes" in said.values() else set()


def says_held(header: str) -> bool:
    """Returns whether the label of a column says that its cells may say by yes or no which titles are held."""
    return YEAR_BEHIND.sub("", folded(header)) in HELD_LABELS | NOT_LABELS


def is_printed(header: str) -> bool:
    """Returns whether a column has the coverage in print, by its label: an online one is not there."""
    tokens = {*folded(header).split()}
    return bool(tokens & PRINT and tokens & LABELS["dates"]) and not tokens & ONLINE


def label_kind(header: str) -> str:
    """Returns what a column looks like by its label, or nothing; `harmless` if its dates are not those of a title."""
    tokens = set(folded(header).split())
    if tokens & HARMLESS and not tokens & TO_READERS:
        return "harmless"
    if tokens and tokens <= UNITS:
        # `Months`, of which nobody knows what they are
        return "embargo"
    return next((kind for kind in ("embargo", "status", "dates") if tokens & LABELS[kind]
                 or any(it in token for it in WRITTEN[kind] for token in tokens)), "harmless" if tokens & ABOUT else "")


class Column:
    """A column that is not used, with counts of what its cells look like."""

    def __init__(self, place: int, header: str, says_held: bool):
        self.place, self.header, self.kind = place, header, "status" if says_held else label_kind(header)
        self.is_about = bool(ABOUT & {*folded(header).split()})
        self.filled = self.held = 0
        self.counts = dict.fromkeys((*KINDS, "open"), 0)
        self.cells: dict[str, None] = {}
        # The different cells, or more than a category has.
        self.different: dict[str, str] = {}

    def look(self, cell: str, count: int) -> None:
        """Counts a cell that is not empty, and that so many records have."""
        self.filled += count
        self.held += count * (statuses.verdict(cell) == "yes")
        kind = cell_kind(cell)
        if not kind and self.kind == "dates" and dates.YEARS.search(cell):
            # Its label says what it has, though nobody reads it.
            kind = "dates"
        if kind:
            self.counts["dates" if kind == "nested" else kind] += count
        if len(self.cells) < CELLS:
            self.cells[cell[:100]] = None
        if len(self.different) <= VALUES:
            self.different.setdefault(folded(cell[:100]), cell[:100])

    def may_be_suspect(self) -> bool:
        """Returns whether the cells of the column matter: its label does not say that it is harmless."""
        return self.kind != "harmless" or self.is_about

    def suspect(self) -> str:
        """Returns what the column looks like, or nothing."""
        if not self.filled or self.kind == "harmless":
            # A category may have `dropped`.
            return "status" if self.counts["status"] and self.is_about else ""
        if self.kind and (self.kind != "dates" or self.counts["dates"] or self.counts["embargo"]):
            return self.kind
        if self.counts["status"] or self.filled > self.held >= MOST * self.filled:
            # One title that is not held is enough, and a value that nobody understands beside some that are.
            return "status"
        kind = max(KINDS, key=lambda it: self.counts[it])
        # `present` is a date beside other dates.
        count = self.counts[kind] + (self.counts["open"] if kind == "dates" and self.counts[kind] else 0)
        return kind if count >= MOST * self.filled else ""

    def is_category(self, records: int) -> bool:
        """Returns whether a column that looks like nothing has a few short values that repeat, or a mark in some
        records: one of them may say that a title is not held."""
        is_mark = self.filled < records and all(not it or values.YES_NO.get(it) == "yes" for it in self.different)
        return (not self.kind and 2 <= len(self.different) + is_mark <= VALUES and self.filled > len(self.different)
                and all(len(it) <= SHORT and not re.search("[0-9]", it) for it in self.different))


class Unused:
    """Looks at the columns of a list that are not used. `uses` says of a place and a cell whether that is used, and
    `held` has the places of the columns that say which titles are held."""

    def __init__(self, columns: Columns, uses: Callable[[int, str], bool], held: set[int]):
        self.uses = uses
        self.columns = [Column(place, header.strip(), place in held) for place, header in columns.left_over()]
        # How many records have each cell of a column that may be a suspect: those that repeat are looked at once.
        self.cells: list[tuple[Column, dict[str, int]]] = [(it, {}) for it in self.columns if it.may_be_suspect()]
        self.records = 0

    def look(self, cells: list[str]) -> None:
        """Counts the cells of a record."""
        self.records += 1
        width = len(cells)
        for column, counts in self.cells:
            if column.place < width and (cell := cells[column.place]):
                if cell in counts:
                    counts[cell] += 1
                else:
                    counts[cell] = 1
                    if len(counts) == SIZE or len(cell) > LONG:
                        self.look_at(column, counts)

    def look_at(self, column: Column, counts: dict[str, int]) -> None:
        """Looks at the cells that were counted."""
        for cell, count in counts.items():
            if (text := cell.strip()) and not self.uses(column.place, text):
                column.look(text, count)
        counts.clear()

    def end(self) -> None:
        """Looks at all cells that were counted and not looked at."""
        for column, counts in self.cells:
            self.look_at(column, counts)

    def suspects(self) -> list[dict[str, Any]]:
        """Returns each column that looks like one that counts, with the number of its cells and some of them."""
        self.end()
        return [{"column": it.header, "looks_like": kind, "filled": it.filled, "cells": list(it.cells)}
                for it in self.columns if (kind := it.suspect())]

    def categories(self) -> list[str]:
        """Returns a warning of the columns that may be categories, or none."""
        found = [f"{it.header!r} ({', '.join(map(repr, it.different.values()))})" for it in self.columns
                 if not it.suspect() and it.is_category(self.records)]
        return [f"columns with few values are not used, and may say which titles are held: {'; '.join(found)}"] \
            if found else []


def warning(suspect: dict[str, Any]) -> str:
    """Returns a suspect in words."""
    cells = ", ".join(map(repr, suspect["cells"][:3]))
    return (f"the column {suspect['column']!r} looks like {SHOWN[suspect['looks_like']]} and is not used: "
            f"{counted(suspect['filled'], 'cell')}, as {cells}")
