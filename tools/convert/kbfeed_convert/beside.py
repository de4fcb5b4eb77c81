"""What the cells beside a coverage say of its days: notes, accesses, statuses, and the columns that no label names.

Each of them makes a row's days fewer, says nothing of them, or is named in the report: none is left out in silence."""
import re
from typing import NamedTuple

from . import coverage, dates, statuses, unused, values
from .coverage import Range
from .texts import TABLES, folded, plain, remembered, word_set
from .tokens import CJK, MEANINGS, NONE, tokens

# The characters of the longest cell that is looked at, and the ranges that a record has at most.
LONGEST, MOST = 1_000, 1_000
# The words of an access that is free: what it says of years is not what else the library has.
FREE = word_set("access", "F")
# The meanings of words by which a cell takes something away.
LESS = {"not", "except", "missing", "embargo", "recent", "ended", "only"}
# Words of time and of access.
TIMES = {"unit", "recent", "available", "embargo"}
LIMITING = frozenset(it for it, many in MEANINGS.items() if many & {"recent", "embargo", "available"} and len(it) > 3)
# A script without spaces between words.
WRITTEN_TOGETHER = re.compile(f"[{CJK}]")
# A volume or an issue that is missing: nobody knows its year.
NUMBERED = re.compile(r"\d")
# Words of units as they are written, those of one character, and what is between words.
UNITS = frozenset(it.casefold() for many in TABLES["units"].values() for it in many)
WRITTEN = frozenset(it for it in UNITS if len(it) == 1 and not it.isascii())
APART = re.compile(r"[\s,.;:()/-]+")
# A range of years, or an open one, inside a text: `JSTOR: 1990-2004`.
RANGE = re.compile(rf"(?<![0-9]){dates.YEAR}\)? ?[-–—~～] ?(?:[^\W\d]{{1,4}}[. ]{{0,2}}[0-9]{{0,4}} ?\()?"
                   rf"(?:{dates.YEAR}(?![0-9])|$|[;,)]|(?:{'|'.join(dates.OPEN - {''})})\b)", re.I)
# Four characters that may have been a year, as `19?9`.
ALMOST = re.compile(r"(?<![\w?])(?=(?:[^\d\s]*\d){2})[\w?]{4}(?![\w?])")


# Words by which a text is about the history of a title, and no part of its coverage.
HISTORY = word_set("suspects", "history")
EARLIER = word_set("suspects", "earlier")
# Words for an end in a header.
ENDS = word_set("suspects", "ends")
# Words by which a title has gone to another place, as in `transferred to Acme in 2010`.
GONE = word_set("suspects", "gone")


class Said(NamedTuple):
    """What a cell says: an embargo, what is missing, the ranges outside which nothing is there, and whether something
    that is not read may take days away. `years` are those of a text that nobody knows."""
    embargo: str = ""
    gaps: tuple[Range, ...] = ()
    limits: tuple[Range, ...] = ()
    is_unread: bool = False
    years: tuple[str, ...] = ()
    is_cancelled: bool = False

    def is_used(self, is_limit: bool) -> bool:
        """Returns whether it takes days away. `is_limit` says that a range there is what the library has."""
        return bool(self.embargo or self.gaps or self.limits and (is_limit or is_end(self.limits)))

    def may_lessen(self, held: list[Range]) -> bool:
        """Returns whether something that is not read may be about the days of some ranges."""
        return self.is_unread or any(coverage.within(it, Range(year, year)) for it in held for year in self.years)


NOTHING = Said()


def may_say(cell: str) -> bool:
    """Returns whether a cell may say something of a coverage: it has a digit or a word as `year`, or is `cancelled`."""
    if NUMBERED.search(cell) or statuses.verdict(cell) in ("cancelled", "no"):
        return True
    words = APART.split(cell.casefold())
    return len(cell) > 1 and (not UNITS.isdisjoint(words) or not LIMITING.isdisjoint(words)
                              or not WRITTEN.isdisjoint(cell))


def is_last(header: str) -> bool:
    """Returns whether the dates below a header are the last ones, as of `Discontinued`, `Rights until` and `End`."""
    words = folded(header).split()
    means = {it for word in words if len(word) > 2 for it in MEANINGS.get(word, NONE)}
    return unused.label_kind(header) not in ("embargo", "harmless") and bool(
        means & {"to", "ended"} or {*words} & ENDS)


@remembered
def said(header: str, cell: str, order: str, has_volumes: bool) -> Said:
    """Returns what a cell beside a coverage says. `order` is that of day and month."""
    years = tuple(dict.fromkeys(dates.YEARS.findall(plain(cell[:LONGEST]))))
    if any("missing" in MEANINGS.get(it, NONE) for it in folded(header).split()):
        found = coverage.read(cell[:LONGEST + 1], order, has_volumes)
        gaps = tuple(it for it in (*found.ranges, *found.gaps) if it.has_dates())
        return Said(gaps=gaps, is_unread=not gaps or found.unread not in ("", coverage.NO_DATE))
    if years and is_last(header) and (end := dates.read(cell, True, order).text or ""):
        return Said(limits=(Range("", end),))
    if (verdict := statuses.verdict(cell)) in ("cancelled", "no"):
        return Said(is_cancelled=verdict == "cancelled", is_unread=verdict == "no")
    words = folded(cell[:LONGEST]).split()
    if WRITTEN_TOGETHER.search(cell):
        words += [it.text for it in tokens(cell[:LONGEST]) if it.kind == "word"]
    # `No. 5` is an issue.
    means = {it for word in words for it in MEANINGS.get(word, NONE) if "issue" not in MEANINGS.get(word, NONE)}
    is_less = bool(means & LESS) or "to" in means and ALMOST.search(cell) is not None
    if not years and not (is_less and (means & TIMES or NUMBERED.search(cell))):
        return NOTHING
    if {*words[:1]} & EARLIER:
        # `Formerly: Dock (until 1965)`
        return NOTHING
    found = coverage.read(cell[:LONGEST + 1], order, has_volumes)
    is_whole = not found.unread and len(cell) <= LONGEST
    dated = [it for it in found.ranges if it.has_dates()]
    if found.gaps:
        return Said(gaps=found.gaps, is_unread=found.unread != coverage.NO_DATE)
    if is_whole and found.embargo and not dated:
        return Said(embargo=found.embargo)
    if is_whole and any(it.first != it.last for it in dated) and not FREE & {*words}:
        return Said(found.embargo, limits=found.ranges)
    if dated and is_end(tuple(dated)) and not FREE & {*words}:
        # `Through 2011; abstracts thereafter`
        return Said(found.embargo, limits=tuple(dated), is_unread=not is_whole)
    if "ended" in means and years and not is_whole:
        # `Cancelled in the end of 2015, ..`
        return Said(limits=(Range("", max(years)),), is_unread=True)
    if {*words} & GONE and len(years) == 1:
        return Said(limits=(Range("", str(int(years[0]) - 1)),))
    if is_whole or {*words} & (FREE | HISTORY):
        return NOTHING
    return Said(is_unread=is_less, years=years)


def within(held: list[Range], limits: tuple[Range, ...]) -> list[Range] | None:
    """Returns the days of some ranges that are in one of the limits, or None if there are none, or too many parts."""
    if len(held) * len(limits) > MOST:
        return None
    return [part for it in held for limit in limits if (part := coverage.within(it, limit))] or None


def without(held: list[Range], gaps: tuple[Range, ...]) -> list[Range]:
    """Returns some ranges without the days of the gaps."""
    for gap in gaps:
        held = [part for it in held for part in coverage.without(it, gap)] if gap.has_dates() else held
    return held


def is_end(limits: tuple[Range, ...]) -> bool:
    """Returns whether ranges say when something ends, and not when it begins."""
    return bool(limits) and all(not it.first and it.last for it in limits)


def is_dated(header: str, cell: str) -> bool:
    """Returns whether a cell of a column that is not used has dates of the coverage, by itself or by its header."""
    kind = unused.label_kind(header)
    return kind != "harmless" and (unused.cell_kind(cell) in ("dates", "nested")
                                   or kind == "dates" and dates.YEARS.search(cell) is not None
                                   or RANGE.search(cell) is not None and not HISTORY & {*folded(cell).split()})


def says_no(cell: str) -> bool:
    """Returns whether a cell says that there is nothing."""
    return folded(cell) in dates.NONE or values.YES_NO.get(folded(cell)) == "no"
