"""Statements that differ in their numbers alone, as `v.1 (1990)-` and `v.7 (1985)-`: one of each shape is parsed.

A shape has all that decides how a statement is parsed: the text between its numbers, what each number may be (a year, a
day, a number of one, two or three digits), which of them are equal, and which years are greater, or follow each other.
Numbers in another form, as `12/1990` and `1995-06`, have no shape. What a shape makes of its numbers is learned from
one statement, and counts only if it makes the same of other numbers as the parser does."""
import itertools
import re
from typing import Any, Callable, Generic, NamedTuple, Sequence, TypeVar

from .texts import CACHES, SIZE, remembered
from .tokens import MEANINGS, MONTHS, NONE

DIGITS, SPLIT = re.compile("[0-9]+"), re.compile("([0-9]+)")
# The most numbers of a statement, and its most characters.
MOST, LONGEST = 12, 300
# What is between two numbers of which each may be a part of a date, and what is always.
DASHES, JOINING = frozenset("-‐‑‒–—―−"), frozenset("./\\")
# A letter of a quarter, as in `Q1`.
QUARTER = re.compile("[qQ]$")
WORDS = re.compile(r"[^\W\d_]+")
DATE = re.compile("([0-9]{4})(-[0-9]{2})?(?:-([0-9]{2}))?")
NUMBERED = re.compile(r"([^\W\d_]+) ?[.:]? ?$")
# The classes of numbers: years, and others by their last one, which differ in their digits. Beside a month a number may
# be a day, unless a word for a volume or an issue is before it: those days that not all months have are classes, too.
YEAR = 0
CLASSES, DAY_CLASSES = (9, 99, 999), (9, 28, 29, 30, 31, 99, 999)
YEARS = {str(it): it for it in range(1400, 2200)}
CLASS_OF = {str(it): next(high for high in CLASSES if it <= high) for it in range(1, 1000)}
DAY_CLASS_OF = {str(it): -next(high for high in DAY_CLASSES if it <= high) for it in range(1, 1000)}
# The 29th, whose month may lack it in one year alone.
LEAP = -29
# The first year by which a shape is tried.
TRIED = 1823

Part = str | int | tuple[Any, ...]
# What a parser makes of a statement.
Found = TypeVar("Found", bound=Any)


class Shape(NamedTuple):
    """A statement as its shape, and its numbers."""
    key: tuple[Any, ...]
    between: tuple[str, ...]
    numbers: list[str]


class Between(NamedTuple):
    """The text between the numbers: which of them may be days, and the places of dashes between two of one kind."""
    may_be_days: list[bool]
    dashes: list[int]


def shape_of(cell: str) -> Shape | None:
    """Returns the shape of a statement, or None if it has none."""
    if len(cell) > LONGEST:
        return None
    pieces = SPLIT.split(cell)
    numbers, between = pieces[1::2], tuple(pieces[::2])
    known = known_between(between)
    if known is None:
        return None
    years: list[int] = []
    days: list[int] = []
    others: list[str] = []
    classes: list[int] = []
    for text, may_be_day in zip(numbers, known.may_be_days):
        if text in YEARS:
            years.append(YEARS[text])
            classes.append(YEAR)
            continue
        kind = (DAY_CLASS_OF if may_be_day else CLASS_OF).get(text)
        if kind is None or kind == LEAP:
            return None
        classes.append(kind)
        others.append(text)
        if may_be_day:
            days.append(int(text))
    if not years:
        return None
    for at in known.dashes:
        if (classes[at] == YEAR) != (classes[at + 1] == YEAR):
            return None
    key = (between, tuple(classes), order_of(years, True), order_of(days, False), tuple(map(others.index, others)))
    return Shape(key, between, numbers)


@remembered
def known_between(between: tuple[str, ...]) -> Between | None:
    """Returns what the text between numbers says of them, or None if they are in a form without a shape."""
    text = "0".join(between)
    if not 1 < len(between) <= MOST + 1 or not text.isascii() and any(
            it.isnumeric() and not it.isascii() for it in text) or any(map(QUARTER.search, between)):
        return None
    # A word with an accent may be a month.
    has_months = not text.isascii() or not MONTHS.keys().isdisjoint(WORDS.findall(text.lower()))
    signs = [it.strip() for it in between[1:-1]]
    if any(not it or it in JOINING for it in signs):
        return None
    return Between([has_months and not is_numbered(it) for it in between[:-1]],
                   [at for at, it in enumerate(signs) if it in DASHES])


def is_numbered(before: str) -> bool:
    """Returns whether a text ends with a word for a volume or an issue."""
    found = NUMBERED.search(before)
    return found is not None and bool(MEANINGS.get(found[1].lower(), NONE) & {"volume", "issue"})


def order_of(numbers: list[int], is_near: bool) -> tuple[int, ...]:
    """Returns the ranks of some numbers. With `is_near` those that follow each other have ranks that do so, too."""
    if len(numbers) < 2:
        return ()
    if len(numbers) == 2 and not is_near:
        return (numbers[0] > numbers[1], numbers[0] < numbers[1])
    different = sorted(set(numbers))
    ranks = {different[0]: 0}
    for before, it in itertools.pairwise(different):
        ranks[it] = ranks[before] + (1 if is_near and it - before == 1 else 2)
    return tuple(ranks[it] for it in numbers)


def other_numbers(shape: Shape) -> list[str]:
    """Returns other numbers of the same shape."""
    classes, years = shape.key[1:3]
    found: dict[str, str] = {}
    for kind in {*classes} - {YEAR}:
        high = abs(kind)
        low = max((it for it in (DAY_CLASSES if kind < 0 else CLASSES) if it < high), default=0) + 1
        inside = sorted({int(text) for text, it in zip(shape.numbers, classes) if it == kind})
        for at, it in enumerate(inside):
            # Those in the middle of the class, in the same order.
            found.setdefault(str(it), str(low + ((2 * at + 1) * (high - low + 1)) // (2 * len(inside))))
    # Years that do not follow each other are nine apart.
    years = years or (0,)
    ranks = iter(years)
    different = sorted(set(years))
    places = {different[0]: TRIED}
    for before, rank in itertools.pairwise(different):
        places[rank] = places[before] + (1 if rank - before == 1 else 9)
    return [str(places[next(ranks)]) if kind == YEAR else found[text] for text, kind in zip(shape.numbers, classes)]


class Templates(Generic[Found]):
    """What the parser makes of each shape. None is a shape whose statements are parsed one by one."""

    def __init__(self, range_type: Callable[..., Any], statement_type: Callable[..., Found]):
        self.range, self.statement = range_type, statement_type
        self.known: dict[tuple[Any, ...], tuple[Any, ...] | None] = {}
        CACHES.append(self.known.clear)

    def read(self, cell: str, parse: Callable[[str], Found]) -> Found:
        """Returns what a statement says, as the parser does."""
        shape = shape_of(cell)
        if shape is None:
            return parse(cell)
        if shape.key in self.known:
            template = self.known[shape.key]
            return parse(cell) if template is None else self.filled(template, shape.numbers)
        found = parse(cell)
        if len(self.known) >= SIZE:
            self.known.clear()
        self.known[shape.key] = self.learned(shape, found, parse)
        return found

    def learned(self, shape: Shape, found: Found, parse: Callable[[str], Found]) -> tuple[Any, ...] | None:
        """Returns the template of a shape, or None if what is made of it is more than its numbers."""
        if DIGITS.search(found.unread):
            return None
        used: set[str] = set()
        ranges = [[part_of(text, shape.numbers, used) for text in it] for it in (*found.ranges, *found.gaps)]
        embargo = pieces_of(found.embargo, shape.numbers, used)
        if None in embargo or any(None in it for it in ranges) or {*shape.numbers} - used:
            return None
        template = (ranges, len(found.ranges), embargo, found.unread, found.is_undecided)
        if self.filled(template, shape.numbers) != found:
            return None
        other = other_numbers(shape)
        cell = "".join(it for pair in zip(shape.between, [*other, ""]) for it in pair)
        tried = shape_of(cell)
        is_same = tried is not None and tried.key == shape.key and self.filled(template, other) == parse(cell)
        return template if is_same else None

    def filled(self, template: tuple[Any, ...], numbers: Sequence[str]) -> Found:
        """Returns a template with its numbers."""
        ranges, count, embargo, unread, is_undecided = template
        made = [self.range(*(it if type(it) is str else numbers[it] if type(it) is int else joined(it, numbers)
                             for it in parts)) for parts in ranges]
        return self.statement(tuple(made[:count]), joined(embargo, numbers) if embargo else "", unread,
                              tuple(made[count:]), is_undecided)


def part_of(text: str, numbers: list[str], used: set[str]) -> Part | None:
    """Returns a part of a range as a place of the numbers, as several pieces, or as it is if it has no number."""
    if not text:
        return text
    if text in numbers:
        used.add(text)
        return numbers.index(text)
    found = DATE.fullmatch(text)
    if not found or found[1] not in numbers:
        return None
    used.add(found[1])
    pieces: list[Part] = [numbers.index(found[1]), found[2] or ""]
    if found[3]:
        day = found[3].lstrip("0")
        if day not in numbers:
            return None
        used.add(day)
        pieces += ["-", (numbers.index(day),)]
    return tuple(pieces)


def pieces_of(text: str, numbers: list[str], used: set[str]) -> tuple[Part | None, ...]:
    """Returns the pieces of an embargo."""
    pieces: list[Part | None] = []
    for it in re.findall("[0-9]+|[^0-9]+", text):
        if it[0].isdigit():
            used.add(it)
            pieces.append(numbers.index(it) if it in numbers else None)
        else:
            pieces.append(it)
    return tuple(pieces)


def joined(pieces: tuple[Any, ...], numbers: Sequence[str]) -> str:
    """Returns pieces as a text. A place in a tuple of its own is a day, of two digits."""
    return "".join(it if type(it) is str else numbers[it] if type(it) is int else numbers[it[0]].zfill(2)
                   for it in pieces)
