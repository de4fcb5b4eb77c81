"""Statements of coverage: `Available from 1936 volume: 1 until 1938 volume: 3. Available from 1946`.

A statement has ranges, of which each has two points with a date, a volume and an issue, and moving walls. What it says
is never replaced by something wider: of two readings the narrower one counts, and a part that does not read gives no
range. A word that nobody knows leaves the range beside it, and the statement counts as partly read."""
import datetime
import itertools
import re
from typing import Iterable, NamedTuple

from . import dates, shapes, strict, thresholds
from .texts import remembered, with_signs, word_set
from .tokens import MONTHS, NUMBERS, UNITS, Token, tokens

# The characters of the longest statement, and the tokens that are looked at ahead.
LONGEST = 10_000
AHEAD = 60
# The brackets inside each other that may have a range of their own.
DEPTH = 3
DATES = {"ymd", "dmy", "cjk", "compact", "ym", "my", "year"}
# The meanings of words around the length of a moving wall, and which of them make it one of what is not there.
WALL = {"recent", "current", "not", "available", "except", "embargo", "ago", "filler", "number", "missing"}
HIDDEN = {"not", "except", "embargo", "missing"}
# Units that are one without a number, as in `last year not available`.
ONE = word_set("single", "units")
# The tokens that a wall has at each side of its length.
WALL_SIDE = 8
SEPARATORS = ";|"
# The part that is not read, if a statement has no range.
NO_DATE = "no date"
# The other signs that change nothing, as in `1995?`.
KNOWN = "()[]{}.,:=&+-~/?!*#@_\"'`°«»…"
DAY = datetime.timedelta(days=1)
FILLER = frozenset({"filler"})


class Range(NamedTuple):
    """The two ends of a range. An end without a date is open."""
    first: str
    last: str
    first_volume: str = ""
    last_volume: str = ""
    first_issue: str = ""
    last_issue: str = ""

    def has_dates(self) -> bool:
        """Returns whether an end has a date."""
        return bool(self.first or self.last)

    def has_numbers(self) -> bool:
        """Returns whether an end has a volume or an issue."""
        return any(self[2:])

    def is_reversed(self) -> bool:
        """Returns whether it ends before it begins."""
        first, last = strict.date(self.first), strict.date(self.last)
        return bool(first and last and first[0] > last[1])


class Statement(NamedTuple):
    """What a statement says: its ranges, its embargo in the form of KBART, and what of it is not read.

    `gaps` are the ranges that are missing of something that the statement does not say. `is_undecided` says that the
    order of a day and a month is not known, so that the narrower one counts."""
    ranges: tuple[Range, ...]
    embargo: str
    unread: str
    gaps: tuple[Range, ...] = ()
    is_undecided: bool = False


class Piece(NamedTuple):
    """A range as it was read, whether it is one that is missing, and whether only `from` leaves its end open."""
    range: Range
    is_missing: bool
    is_from: bool = False


@remembered
def read(cell: str, order: str, has_volumes: bool = False, has_quarters: bool = False) -> Statement:
    """Returns what a statement says. `order` is that of day and month, empty if the list does not decide it.

    `has_volumes` says that `1.1990` is a volume and its year all over the list, and no month, and `has_quarters` that
    `1990/4` may be a quarter."""
    if len(cell) > LONGEST:
        return Statement((), "", f"a statement of more than {LONGEST} characters")
    return TEMPLATES.read(cell, lambda it: parsed(it, order, has_volumes, has_quarters))


def parsed(cell: str, order: str, has_volumes: bool, has_quarters: bool) -> Statement:
    """Parses a statement."""
    if not order:
        decided = dates.Order()
        decided.look([cell])
        order = str(decided)
    reader = Reader(tokens(with_signs(thresholds.written_out(cell))), order, has_volumes, has_quarters)
    reader.run()
    return reader.statement()


# A statement with a shape has no date whose parts may be in another order.
TEMPLATES = shapes.Templates(Range, Statement)


def wall(cell: str, is_last: bool) -> str:
    """Returns the embargo that the cell of a first or a last date says, as `1 year ago`, or nothing."""
    found = read(f"to {cell}" if is_last else f"{cell} to present", "")
    return "" if found.unread else found.embargo


def shown(ranges: Iterable[Range]) -> str:
    """Returns the days of ranges for people."""
    return "; ".join(f"{it.first or 'the beginning'} to {it.last or 'the present'}" for it in ranges)


def is_within(ranges: Iterable[Range], whole: Range) -> bool:
    """Returns whether all days of some ranges are days of another one."""
    first, last = strict.date(whole.first), strict.date(whole.last)
    for it in ranges:
        begin, end = strict.date(it.first), strict.date(it.last)
        if first and (not begin or begin[0] < first[0]) or last and (not end or end[1] > last[1]):
            return False
    return True


class Point:
    """One end of a range, as its tokens are read."""

    def __init__(self) -> None:
        # How many tokens it has, short words and full stops not counted, the place of its date and of its months, and
        # whether these are in brackets.
        self.count = 0
        self.date_at = 0
        self.month_at: list[int] = []
        self.is_month_inside = False
        self.dates: list[tuple[str, str]] = []
        self.months: list[int] = []
        # Bare numbers with their place, and whether they are in brackets.
        self.bare: list[tuple[str, int, bool]] = []
        self.volume: list[str] = []
        self.issue: list[str] = []
        self.notation: tuple[int, int] | None = None
        # The word before the date says that the date itself is outside.
        self.is_after = self.is_before = False

    def is_empty(self) -> bool:
        """Returns whether it has nothing yet."""
        return not (self.dates or self.months or self.bare or self.volume or self.issue)

    def has_date(self) -> bool:
        """Returns whether it has a date with a year."""
        return bool(self.dates)


class End(NamedTuple):
    """One end of a range: its date as a first and as a last one, volumes and issues, and `1.1990` as two numbers."""
    first: str
    last: str
    volume: list[str]
    issue: list[str]
    notation: tuple[int, int] | None


NOWHERE = End("", "", [], [], None)


def end_of(point: Point) -> End | None:
    """Returns the end that a point is, or None if its numbers contradict each other."""
    if len(point.dates) > 1 or len(point.volume) > 2 or len(point.issue) > 2:
        return None
    bare = list(point.bare)
    day = 0
    if point.months:
        for number in bare:
            beside = number[1] in (point.month_at[0] - 1, point.month_at[-1] + 1)
            is_apart = number[2] and not point.is_month_inside
            if beside and not is_apart and 1 <= int(number[0]) <= 31 and len(point.months) == 1:
                day, bare = int(number[0]), [it for it in bare if it is not number]
                break
    volume, issue = list(point.volume), list(point.issue)
    if len(bare) == 2 and not volume and not issue and bare[0][1] > point.date_at > 0:
        # `1996, 100(12)`
        volume, issue, bare = [bare[0][0]], [bare[1][0]], []
    for text, place, _ in bare:
        if not volume and not issue and not (point.dates and place > point.date_at):
            volume = [text]
        elif not issue:
            issue = [text]
        else:
            return None
    if not point.dates:
        return End("", "", volume, issue, None) if not point.months else None
    first, last = point.dates[0]
    if point.months:
        if len(first) != 4 or len(last) != 4:
            return None
        first = dates.date_text(int(first), point.months[0], day)
        last = dates.date_text(int(last), point.months[-1], day)
    if point.is_after or point.is_before:
        found = dates.outside(last, True) if point.is_after else dates.outside(first, False)
        # The volume of a date that is outside is outside, too.
        return End(found, found, [], [], None) if found else None
    return End(first, last, volume, issue, point.notation)


class Reader:
    """Reads the tokens of one statement from left to right."""

    def __init__(self, many: list[Token], order: str, has_volumes: bool, has_quarters: bool):
        self.order, self.has_quarters = order, has_quarters
        # One statement has one notation: where 16.1940 is a volume and its year, so is 1.1990.
        self.has_volumes = has_volumes or any(it.kind == "my" and month_of(it.text) > 12 for it in many)
        self.is_undecided = False
        self.walls: list[tuple[str, int, str]] = []
        self.unread: list[str] = []
        self.pieces: list[Piece] = []
        # Whether something unknown hides a part of all ranges.
        self.is_hidden = False
        self.tokens = self.without_walls(joined_lengths(many))
        # Where the piece began that a separator or a bracket ends, and whether it is one that is missing.
        self.piece = 0
        self.is_missing = self.is_negated = self.is_lesser = self.is_only = self.is_all = self.is_broken = False
        self.left: Point | None = None
        self.point = Point()
        # A word or a dash connects the two ends, or only a word behind the first date.
        self.is_from = self.is_to = self.is_open = self.is_between = self.is_spoilt = False
        self.depth = 0

    # Moving walls.

    def without_walls(self, many: list[Token]) -> list[Token]:
        """Notes the moving walls, and returns the other tokens. A wall that ends a range is an open end there."""
        left: list[Token] = []
        at = 0
        while at < len(many):
            token = many[at]
            if token.kind == "code":
                self.walls.append((token.text[0].upper(), int(token.text[1:-1]), token.text[-1].upper()))
            elif "unit" in token.meanings and (end := self.wall(many, left, at)):
                at = end
                continue
            else:
                left.append(token)
            at += 1
        return left

    def wall(self, many: list[Token], left: list[Token], at: int) -> int:
        """Reads the wall whose unit is at a place, and returns the place behind it, or 0 if it is none.

        Removes from the tokens before it those that are its own."""
        unit = UNITS[many[at].text]
        before = len(left)
        if before > 1 and left[-1].text == "-" and left[-2].kind == "int":
            # `a 12-month embargo`
            before -= 1
        while before and len(left) - before < WALL_SIDE and self.is_of_wall(left[before - 1]):
            if left[before - 1].kind == "int" and any(it.kind == "int" for it in left[before:]):
                # `volume 1 most recent 6 months`
                break
            before -= 1
        behind = at + 1
        while behind < len(many) and behind - at <= WALL_SIDE and self.is_of_wall(many[behind]):
            behind += 1
        around = left[before:] + many[at + 1:behind]
        said = {meaning for it in around for meaning in self.wall_meanings(it)}
        is_alone = not before and not (behind < len(many) and self.is_connector(many[behind]))
        is_one = "current" in said and (is_alone or bool(said & HIDDEN))
        is_one = is_one or many[at].text in ONE and "recent" in said and bool(said & HIDDEN)
        length = wall_length(left[before:], is_one)
        sign = left[before - 1].text if before and left[before - 1].text in ("+", "-") else ""
        is_begin = before == 1 or before > 1 and left[before - 2].text in (*SEPARATORS, ":", "(")
        if length is None:
            # `5 zork years` may be a wall.
            self.is_hidden = self.is_hidden or any(it.kind == "int" for it in left[-3:])
            return 0
        if "ago" in said:
            kind = "P"
            start = before
            is_end = start > 0 and self.is_connector(left[start - 1])
            if not is_end:
                is_from = start > 0 and "from" in left[start - 1].meanings
                start -= is_from
                if not (is_from or behind < len(many)
                        and (self.is_connector(many[behind]) or "open" in many[behind].meanings)):
                    self.is_hidden = True
                    return 0
                kind = "R"
            del left[start:]
            left.append(Token("word", "", frozenset({"open" if is_end else "wall"}), True))
        elif said & {"recent", "embargo"} or "current" in said:
            kind = "P" if said & HIDDEN else "R"
            if kind == "R" and any("lesser" in it.meanings for it in many):
                # `last 12 months only in print`: nobody has them online.
                if not any("only" in it.meanings for it in many):
                    self.is_hidden = True
                    return 0
                kind = "P"
                for tokens_of in (many, left):
                    tokens_of[:] = [it._replace(meanings=FILLER) if "lesser" in it.meanings else it for it in tokens_of]
            del left[before:]
            rest = list(itertools.dropwhile(self.is_connector, many[behind:behind + 2]))
            if kind == "R" and not before and rest and "open" in rest[0].meanings:
                # `last 3 years to present`
                behind = many.index(rest[0], behind) + 1
        elif sign and is_begin:
            kind = "R" if sign == "+" else "P"
            before -= 1
            while before and (left[before - 1].text == ":" or "embargo" in left[before - 1].meanings):
                before -= 1
            del left[before:]
        else:
            # A length, and nobody knows of what.
            self.is_hidden = True
            return 0
        # A word that nobody knows may be `not`.
        beside = many[behind:behind + 1] + left[-1:]
        self.is_hidden = self.is_hidden or any(it.kind == "word" and not it.meanings for it in beside)
        if length:
            self.walls.append((kind, length * (7 if unit == "W" else 1), "D" if unit == "W" else unit))
        return behind

    @staticmethod
    def wall_meanings(token: Token) -> Iterable[str]:
        """Returns the meanings of a word beside a length: `no` is not a number there."""
        return token.meanings - {"open", "issue", "volume", "unit"} or token.meanings

    @staticmethod
    def is_of_wall(token: Token) -> bool:
        """Returns whether a token may be part of a wall."""
        if token.kind == "word":
            return bool(token.meanings & WALL) and not ("to" in token.meanings and "filler" not in token.meanings)
        return token.kind == "int" and len(token.text) <= 4 or token.kind == "sign" and token.text == ":"

    # Ranges.

    def run(self) -> None:
        """Reads all tokens."""
        at = 0
        while at < len(self.tokens):
            at = self.step(at)
        self.end_piece()

    def step(self, at: int) -> int:
        """Reads the token at a place, and returns the next place."""
        token = self.tokens[at]
        if token.text != "." and token.meanings != {"filler"}:
            self.point.count += 1
        if token.kind == "sign":
            return self.sign(at)
        if token.kind in DATES:
            self.date(token, at)
        elif token.kind == "quarter":
            quarter = int(token.text[1])
            self.point.months += [quarter * 3 - 2, quarter * 3]
            self.point.month_at.append(self.point.count)
        elif token.kind in ("int", "pair"):
            self.point.bare.append((token.text, self.point.count, self.depth > 0))
        elif token.kind == "word":
            return self.word(at)
        else:
            self.leave(token)
        return at + 1

    def date(self, token: Token, at: int) -> None:
        """Reads a date in numbers."""
        found = date_of(token, self.order)
        if self.has_quarters and (both := dates.quarter_or_month(token.text)):
            found = both
        self.is_undecided = self.is_undecided or (
            (token.kind == "dmy" and not self.order or token.kind == "ym" and self.has_quarters)
            and found is not None and found[0] != found[1])
        point = self.point
        if found is None:
            self.leave(token)
            self.is_spoilt = True
            return
        if self.is_behind_numbers(at):
            # `v.1-v.10 1990-1999`
            self.end_range()
            self.date(token, at)
            return
        if token.kind == "my":
            parts = re.split("[./-]", token.text)
            number, year, last = int(parts[0]), parts[1], found[1][:4]
            if point.volume == [""] or point.issue == [""]:
                # `Vol. 1.1990` and `Heft 1/1995`.
                self.number(str(number))
                found = (year, last)
            elif (number > 12 or len(parts) > 2 or self.has_volumes and "." in token.text
                  or self.has_issue_behind(at) or self.left and self.left.volume):
                point.volume.append(str(number))
                found = (year, last)
            else:
                point.notation = (number, int(year))
        if point.dates and len(point.dates[0][0]) == 4 and at and self.tokens[at - 1].text == "/":
            # `Winter 1999/2000`.
            point.dates[0] = (point.dates[0][0], found[1])
            return
        if point.has_date() and self.left is None and not self.is_to:
            self.is_spoilt = True
        elif point.has_date() and self.left is not None and self.left.has_date() and not self.is_spoilt:
            # `1995-1999 2001-2004`
            self.end_range()
            self.date(token, at)
            return
        if point.volume == [""] or point.issue == [""]:
            # `Jahrgang 1995` is a year.
            (point.volume if point.volume == [""] else point.issue).clear()
        point.dates.append(found)
        point.date_at = point.count

    def is_behind_numbers(self, at: int) -> bool:
        """Returns whether the range of dates that begins at a place is behind one of numbers, as in `v.1-10 1990-1999`
        and `v.5- 2001-`."""
        rest = self.tokens[at + 1:at + 3]
        is_range = bool(rest) and self.is_connector(rest[0]) and (
            len(rest) == 1 or rest[1].kind in DATES or "open" in rest[1].meanings)
        has_numbers = bool(self.point.volume or self.point.bare) or self.point.is_empty() and self.tokens[at].is_apart
        return (self.left is not None and not self.left.has_date() and bool(self.left.volume)
                and not self.point.has_date() and has_numbers and self.depth == 0 and is_range)

    def has_issue_behind(self, at: int) -> bool:
        """Returns whether an issue follows a date, as in `1.1990,2`: the number before the year is a volume."""
        rest = self.tokens[at + 1:at + 3]
        return len(rest) == 2 and rest[0].text == "," and rest[1].kind == "int"

    def number(self, text: str) -> None:
        """Gives a number to the volume or the issue whose word was before it."""
        for many in (self.point.volume, self.point.issue):
            if many and many[-1] == "":
                many[-1] = text

    def word(self, at: int) -> int:
        """Reads a word by what it means here."""
        token, point = self.tokens[at], self.point
        means = token.meanings
        self.is_only = self.is_only or "only" in means
        following = self.number_at(at + 1)
        if following and means & {"volume", "issue"}:
            number = self.tokens[following]
            is_issue = "issue" in means and ("volume" not in means or bool(point.volume))
            target = point.issue if is_issue else point.volume
            if number.kind in ("int", "pair"):
                self.put(target, number.text)
                return following + 1
            target.append("")
            return following
        if means & {"volume_behind", "issue_behind"} or means & {"volume", "issue"}:
            if point.bare and point.bare[-1][1] == point.count - 1:
                text = point.bare.pop()[0]
                self.put(point.volume if means & {"volume", "volume_behind"} else point.issue, text)
                return at + 1
        if "wall" in means:
            # `5 years ago to present` begins at the wall.
            self.left, self.is_to, self.is_open = Point(), True, True
        elif "season" in means:
            # Of a range the first month begins, and the last one ends.
            first = dates.SEASONS[token.text]
            point.months += [first, (first + 1) % 12 + 1]
            point.month_at.append(point.count)
        elif "month" in means:
            point.months.append(int(MONTHS[token.text]))
            point.month_at.append(point.count)
            point.is_month_inside = self.depth > 0
        elif means & {"except", "missing"}:
            self.missing(at)
        elif "all" in means:
            self.is_all = True
        elif "from_behind" in means and point.has_date():
            self.is_open = True
            if "から" == token.text or "부터" == token.text:
                self.connect(at)
        elif "to_behind" in means and point.has_date():
            if self.left is None:
                self.left, self.is_to = Point(), True
        elif "between" in means:
            self.is_between = True
        elif "and" in means and self.is_between and point.has_date() and self.left is None:
            self.connect(at)
        elif "and" in means and point.has_date() and (self.has_date_ahead(at + 1) or self.is_month_next(at + 1)):
            self.end_piece()
        elif means & {"after", "before"}:
            if point.is_empty() and self.is_date_next(at + 1):
                self.exclusive("after" in means, at)
            else:
                self.leave(token)
        elif "open" in means and (self.is_to or point.has_date()) and not (self.is_to and not point.is_empty()):
            self.open_end()
        elif "ended" in means and self.left is None and point.has_date() and not self.has_date_ahead(at + 1):
            # `2012 ceased`
            self.left = Point()
            self.end_range()
        elif "ended" in means and self.left is not None and point.has_date() and not self.has_date_ahead(at + 1):
            # `1990-2012, ceased`
            self.end_range()
        elif "to" in means and ("filler" not in means or point.has_date()):
            self.connect(at)
        elif "from" in means:
            if point.has_date():
                self.end_piece()
            self.is_from = True
        elif means == {"filler"} and len(token.text) == 1 and at and not token.is_apart \
                and self.tokens[at - 1].kind in ("int", "pair"):
            # `193O` is not a number.
            self.leave(token)
        elif "not" in means and self.left is not None and point.has_date() and self.is_date_next(at + 1):
            # `1990 to 1999 without 1995`
            self.end_range()
            self.is_missing = True
        elif "not" in means:
            self.is_negated = True
        elif "lesser" in means:
            self.lesser()
        elif "current" in means and at + 1 < len(self.tokens) and self.tokens[at + 1].text == ":":
            # `Archive: 1950-1996, current: 1997-`
            pass
        elif not means or means <= {"open", "number", "unit", "recent", "current", "ago", "embargo", "volume", "issue"}:
            self.leave(token)
        return at + 1

    def is_month_next(self, at: int) -> bool:
        """Returns whether a month is at a place, and its day and its year are behind it: `and January 1, 2003`."""
        rest = [it for it in self.tokens[at:at + 5] if it.text not in (".", ",")]
        return len(rest) > 2 and "month" in rest[0].meanings and rest[1].kind == "int" and rest[2].kind == "year"

    def is_date_next(self, at: int) -> bool:
        """Returns whether a date is at a place, perhaps behind a day and a month."""
        following = self.tokens[at:at + 3]
        before = list(itertools.takewhile(lambda it: it.kind not in DATES, following))
        return len(before) < len(following) and all(it.kind == "int" or "month" in it.meanings for it in before)

    def exclusive(self, is_after: bool, at: int) -> None:
        """Notes a word as `after` or `before`, by which the date behind it is itself outside."""
        if is_after and self.left is None:
            self.is_from = self.point.is_after = True
        elif not is_after and not self.is_from and (self.left is None or not self.left.is_empty()):
            if self.left is None:
                self.connect(at)
            self.point.is_before = True
        else:
            # `from before 1990` and `to after 1990`: the named date is the narrower one.
            self.unread.append("after" if is_after else "before")

    def put(self, target: list[str], text: str) -> None:
        """Adds a volume or an issue to the point."""
        target.append(text)

    def number_at(self, at: int) -> int:
        """Returns the place of the number that is at a place, perhaps behind a sign, or 0."""
        for place in (at, at + 1):
            if place < len(self.tokens):
                if self.tokens[place].kind in ("int", "pair", "my", "year"):
                    return place
                if self.tokens[place].text not in (".", ":", "°"):
                    return 0
        return 0

    def sign(self, at: int) -> int:
        """Reads a sign: one that separates, connects or brackets."""
        token, text = self.tokens[at], self.tokens[at].text
        if text in SEPARATORS or text == "/" and token.is_apart or text in ",=:&" and self.is_separator(at):
            self.end_piece()
        elif text == ".":
            if self.is_sentence_end(at):
                self.end_piece()
        elif text in "-~":
            self.connect(at)
        elif text in "([{":
            if self.depth < DEPTH and self.is_own_group(at):
                self.end_piece()
            self.depth += 1
        elif text in ")]}":
            self.depth = max(0, self.depth - 1)
            if self.is_missing or self.left is not None and self.left.is_empty():
                self.end_piece()
        elif text == "/" and self.is_cut_date(at):
            self.leave(token)
            self.is_spoilt = True
        elif text == "+" and self.point.has_date():
            if self.left is not None and self.left.has_date() and not token.is_apart:
                # `2000-2005+` has come to 2005, and goes on.
                self.point = Point()
            self.open_end()
        elif text not in KNOWN and not self.is_paired(at):
            # `>1995` is not 1995.
            self.leave(token)
            self.is_spoilt = True
        return at + 1

    def is_cut_date(self, at: int) -> bool:
        """Returns whether a slash is between a day and a month and a year that does not read, as in `12/31/196?`."""
        around = self.tokens[max(at - 1, 0):at + 2]
        return (len(around) == 3 and around[0].kind == "pair" and around[2].kind == "int" and not around[1].is_apart
                and not around[2].is_apart)

    def is_paired(self, at: int) -> bool:
        """Returns whether a sign is one of the brackets in `<2001>`."""
        around = "".join(it.text for it in self.tokens[max(at - 2, 0):at + 3])
        return self.tokens[at].text in "<>" and re.search("<[0-9/-]*>", around) is not None

    def ahead(self, at: int, stops: str) -> list[Token]:
        """Returns the tokens from a place to the next of some signs. A dash stands for any word that connects."""
        found = []
        for token in self.tokens[at:at + AHEAD]:
            if token.kind == "sign" and token.text in stops or "-" in stops and self.is_connector(token):
                break
            found.append(token)
        return found

    @staticmethod
    def is_connector(token: Token) -> bool:
        """Returns whether a token connects two ends of a range."""
        return token.kind == "sign" and token.text in "-~" or "to" in token.meanings and "filler" not in token.meanings

    def has_date_ahead(self, at: int) -> bool:
        """Returns whether a date follows before the next separator."""
        return any(it.kind in DATES for it in self.ahead(at, ",;|"))

    def is_separator(self, at: int) -> bool:
        """Returns whether a comma or such a sign ends a range: what is before it is whole, and a date follows."""
        if self.tokens[at].text == ":" and self.point.is_empty():
            return False
        if self.point.has_date() and self.is_month_next(at + 1):
            return True
        following = self.ahead(at + 1, ",;|&")
        if any(is_negation(it) for it in following[:4]) and self.has_date_ahead(at + 1):
            return True
        has_date = any(it.kind in DATES for it in self.ahead(at + 1, ",;|&-"))
        if not has_date:
            # `1990-1999, vol. 1-10`
            return (self.left is not None and self.left.has_date() and any(map(self.is_connector, following))
                    and not self.left.volume)
        if self.point.has_date():
            return True
        return self.is_to and self.left is not None and not self.left.has_date() and not self.point.volume

    def is_sentence_end(self, at: int) -> bool:
        """Returns whether a full stop ends a sentence, and no short word or ordinal."""
        following = self.tokens[at + 1] if at + 1 < len(self.tokens) else None
        if not following:
            return True
        before = self.tokens[at - 1] if at else None
        if before and before.meanings & {"filler", "volume", "issue", "month"}:
            return False
        if self.is_connector(following) and self.point.has_date() and self.left is None:
            # `1990. - 1999.`, as Croatian and Hungarian write years.
            return False
        if following.meanings & {"available", "from", "recent", "embargo", "to"}:
            return True
        return before is not None and (before.kind in DATES or "open" in before.meanings) and following.is_apart

    def is_own_group(self, at: int) -> bool:
        """Returns whether brackets have a range of their own, or one that is missing."""
        inside = self.ahead(at + 1, ")]")
        has_date = any(it.kind in DATES for it in inside)
        if any(it.meanings & {"except", "missing"} for it in inside):
            return True
        has_range = any(map(self.is_connector, inside))
        return has_range and (has_date or self.point.has_date()) or has_date and self.point.has_date()

    def connect(self, at: int) -> None:
        """Notes that the second end of a range follows."""
        is_begin = self.left is not None and self.left.is_empty() and self.point.has_date()
        if self.left is not None and not (is_begin and self.has_date_ahead(at + 1)):
            if not self.point.is_empty():
                self.is_spoilt = True
            return
        # Of `access to 1995 - 2001`, the first date begins.
        self.left, self.point, self.is_to = self.point, Point(), True

    def open_end(self) -> None:
        """Ends a range whose second end is open."""
        if self.left is None:
            self.left, self.point = self.point, Point()
        self.is_to = self.is_open = True
        self.end_range()

    def missing(self, at: int) -> None:
        """Notes that a range is missing: the one that follows, or the one before in the same piece."""
        self.end_range()
        following = self.ahead(at + 1, ",;|)]")
        if any(it.meanings & {"volume", "issue"} for it in following):
            # `lacks v.3, 1968`
            following = self.ahead(at + 1, ";|)]")
        if any(it.kind in DATES for it in following):
            self.is_missing = True
        elif any(it.meanings & {"volume", "issue"} for it in following):
            # `lacks v.3-5`: nobody knows their dates.
            self.leave(self.tokens[at])
            self.is_broken = True
        elif self.piece < len(self.pieces) and (self.piece or at and "filler" not in self.tokens[at - 1].meanings):
            # `v.5 (1994) missing`, and not `1990-2000 with gaps`
            self.pieces[self.piece:] = [it._replace(is_missing=True) for it in self.pieces[self.piece:]]
        else:
            self.leave(self.tokens[at])

    def lesser(self) -> None:
        """Notes that a piece is about something less than the text online: it has no range, or one that is missing if
        only that is there."""
        self.is_lesser = True
        if self.is_only:
            self.pieces[self.piece:] = [it._replace(is_missing=True) for it in self.pieces[self.piece:]]
        elif self.pieces[self.piece:]:
            del self.pieces[self.piece:]
            self.unread.append("a range of something else")

    def leave(self, token: Token) -> None:
        """Notes a token that is not read."""
        self.unread.append(token.text)
        # A wall of an unknown length hides something of every range.
        self.is_hidden = self.is_hidden or bool(token.meanings & {"recent", "embargo", "ago"})
        if self.left is not None and not self.point.has_date() and not self.is_open:
            # `1995 to soon`: the second end is not known.
            self.point, self.left, self.is_to, self.is_from = self.left, None, False, False
            self.break_off()
        elif self.left is None and self.is_from and self.point.has_date() and not self.is_open:
            # `from 1995 untl 2001` may have an end.
            self.is_from = False
            self.break_off()

    def break_off(self) -> None:
        """Ends a range at a word that nobody knows: what follows in its piece is not read."""
        self.end_range()
        self.is_broken = True

    def end_piece(self) -> None:
        """Ends a range, and what belongs to it."""
        self.end_range()
        if self.is_negated and self.piece == len(self.pieces):
            # `not available` without what is not.
            self.unread.append("not")
            self.is_hidden = True
        self.is_missing = self.is_negated = self.is_lesser = self.is_only = self.is_broken = False
        self.piece = len(self.pieces)

    def end_range(self) -> None:
        """Ends a range, and keeps it if it reads."""
        left, point = self.left, self.point
        is_to, is_open, is_from, is_spoilt = self.is_to, self.is_open, self.is_from, self.is_spoilt
        self.left, self.point = None, Point()
        self.is_from = self.is_to = self.is_open = self.is_between = self.is_spoilt = False
        if (left is None or left.is_empty()) and point.is_empty():
            if is_to and is_open:
                self.is_all = True
            return
        one = end_of(point if left is None else left)
        two = end_of(point) if left is not None else None
        if self.is_negated:
            # `1995-2001, not 1997`, and `1997 not available` in a note.
            self.is_missing = True
        elif self.is_lesser and self.is_only:
            self.is_missing = True
        elif self.is_lesser:
            is_spoilt = True
        if is_spoilt or self.is_broken or one is None or left is not None and two is None:
            self.unread.append("a range")
            return
        if two is None or left is None:
            self.keep(one, NOWHERE if is_from or is_open else one, is_from and not is_open)
        elif left.is_empty():
            self.keep(self.begun(two), two)
        elif point.is_empty():
            self.keep(one, two)
        elif bool(one.first) == bool(two.last):
            self.keep(one, two)
        elif not one.first and int(two.last[:4]) - int(two.first[:4]) > 1:
            # `v. 1-29 (1966-94)`
            self.keep(one._replace(first=two.first), two)
        else:
            # One end has a date, and the other one only a number: that one is not known.
            self.unread.append("an end without a date")
            known = one if one.first else two
            self.keep(known, known)

    def begun(self, end: End) -> End:
        """Returns the beginning of the range before, and removes that, if only its end is said here: `Began with 1990;
        ceased with 1999`."""
        before = self.pieces[-1] if self.pieces else None
        if before is None or not before.is_from or before.is_missing or self.is_missing:
            return NOWHERE
        begin = before.range
        if begin._replace(last=end.last).is_reversed():
            return NOWHERE
        del self.pieces[-1]
        self.piece = min(self.piece, len(self.pieces))
        return End(begin.first, begin.last, [it for it in (begin.first_volume,) if it],
                   [it for it in (begin.first_issue,) if it], None)

    def keep(self, one: End, two: End, is_from: bool = False) -> None:
        """Keeps a range, unless its end is before its beginning."""
        first_volume, last_volume = number_of(one.volume, 0), number_of(two.volume, -1)
        if one.notation and two.notation and one is not two:
            # `1.1990 - 12.2001` is a month or a volume: a volume for each year is one.
            if two.notation[0] - one.notation[0] == two.notation[1] - one.notation[1]:
                first_volume, last_volume = str(one.notation[0]), str(two.notation[0])
        found = Range(one.first, two.last, first_volume, last_volume, number_of(one.issue, 0), number_of(two.issue, -1))
        if found.is_reversed():
            self.unread.append("a range whose end is before its beginning")
            return
        self.pieces.append(Piece(found, self.is_missing, is_from))

    def statement(self) -> Statement:
        """Returns what was read."""
        held: list[Range] = []
        gaps: list[Range] = []
        # From the beginning to the end of what was held before the first gap: a range inside, as in `missing 1997 and
        # 1998`, is one more gap.
        whole: Range | None = None
        for piece in merged(self.pieces):
            if not held and (piece.is_missing or gaps and piece.range.first and piece.range.last
                             and not any(is_within([it], piece.range) for it in gaps)):
                # `lacks 1975, 1981-1982`
                gaps.append(piece.range)
            elif piece.is_missing or whole and piece.range.has_dates() and is_within([piece.range], whole):
                whole = whole or hull(held)
                held = [it for one in held for it in without(one, piece.range)]
            elif piece.range.has_dates() and self.unread and held and is_within([piece.range], held[-1]):
                # Of `1966-1994 [1970 incomplete]`, a part that does not read may be missing.
                held[-1:] = without(held[-1], piece.range)
            elif piece.range.has_dates():
                held.append(piece.range)
            else:
                self.unread.append("numbers without a date")
        for gap in gaps:
            held = [it for one in held for it in without(one, gap)]
        if not held and (self.is_all or self.walls) and not self.unread and not self.pieces:
            held = [Range("", "")]
        if held and all(it.last for it in held) and any(kind == "R" for kind, _, _ in self.walls):
            self.unread.append("the most recent issues beside a range that has an end")
        unread = " ".join(dict.fromkeys(self.unread))
        if not held or self.is_hidden:
            return Statement((), "", unread or NO_DATE, tuple(it for it in gaps if it.has_dates()))
        return Statement(tuple(held), embargo_of(self.walls), unread, is_undecided=self.is_undecided)


def month_of(text: str) -> int:
    """Returns the number before the full stop of `12.1995`, or 0."""
    number, sign, _ = text.partition(".")
    return int(number) if sign else 0


def is_negation(token: Token) -> bool:
    """Returns whether a word says that what follows is missing. `no` before a number is an issue."""
    return bool(token.meanings & {"except", "missing", "not"}) and "issue" not in token.meanings


def joined_lengths(many: list[Token]) -> list[Token]:
    """Returns tokens in which `1 year 6 months` is a number of months."""
    found: list[Token] = []
    for token in many:
        found.append(token)
        last = found[-4:]
        if (len(last) == 4 and last[0].kind == last[2].kind == "int" and UNITS.get(last[1].text) == "Y"
                and UNITS.get(last[3].text) == "M"):
            found[-4:] = [last[0]._replace(text=str(int(last[0].text) * 12 + int(last[2].text))), last[3]]
    return found


def wall_length(before: list[Token], is_current: bool) -> int | None:
    """Returns the number before a unit, or None. `is_current` says that the current year is one."""
    for token in reversed(before):
        if token.kind == "int":
            return int(token.text)
        if "number" in token.meanings:
            return int(NUMBERS[token.text])
    return 1 if is_current else None


def number_of(many: list[str], place: int) -> str:
    """Returns the first or the last number of a volume or an issue, of which `12/13` has two."""
    return many[place].split("/")[place] if many else ""


def date_of(token: Token, order: str) -> tuple[str, str] | None:
    """Returns a date of numbers as a first and as a last one. If day and month are not decided, it is the narrower."""
    text = token.text
    if token.kind == "cjk":
        parts = [int(it) for it in re.findall(r"\d+", text)]
        found = dates.date_text(*parts)
        return (found, found) if dates.YEARS.match(text) else None
    if token.kind == "dmy" and not order:
        both = [dates.by_numbers(text, False, it) for it in ("dmy", "mdy")]
        days = sorted(it.text for it in both if it and it.text and strict.date(it.text))
        return (days[-1], days[0]) if len(days) == 2 else None
    if token.kind == "ym" and (end := dates.second_year(int(text[:4]), int(text[5:]))) and dates.YEARS.match(text):
        return text[:4], str(end)
    if token.kind == "my" and (year := text.partition("." if "." in text else "/")[2]) and "/" in year:
        # `1.1998/99` is a volume of two years.
        text = year
    one, two = dates.by_numbers(text, False, order), dates.by_numbers(text, True, order)
    if one is None and token.kind == "year":
        return text, text
    if one is None and token.kind == "my" and dates.YEARS.match(text[-4:]):
        return text[-4:], text[-4:]
    return (one.text, two.text) if one and two and one.text and two.text else None


def merged(pieces: list[Piece]) -> list[Piece]:
    """Returns pieces of which a range of volumes and the range of their dates beside it are one."""
    found: list[Piece] = []
    for piece in pieces:
        before = found[-1] if found else None
        if before and not before.is_missing and not piece.is_missing:
            for dated, numbered in ((before.range, piece.range), (piece.range, before.range)):
                is_alike = (dated.first == dated.last) == (numbered[2::2] == numbered[3::2])
                if is_alike and dated.has_dates() and not dated.has_numbers() and not numbered.has_dates():
                    found[-1] = Piece(Range(*dated[:2], *numbered[2:]), False)
                    break
            else:
                found.append(piece)
        else:
            found.append(piece)
    return found


def without(held: Range, missing: Range) -> list[Range]:
    """Returns a range without the days of another: none, one or two ranges."""
    gap_first, gap_last = strict.date(missing.first), strict.date(missing.last)
    first, last = strict.date(held.first), strict.date(held.last)
    if last and gap_first and last[1] < gap_first[0] or first and gap_last and gap_last[1] < first[0]:
        return [held]
    parts = []
    if gap_first and (not first or first[0] < gap_first[0]):
        before = datetime.date(*gap_first[0]) - DAY
        parts.append(held._replace(last=shortest(before, (12, 31)), last_volume="", last_issue=""))
    if gap_last and (not last or gap_last[1] < last[1]):
        behind = datetime.date(*gap_last[1]) + DAY
        parts.append(held._replace(first=shortest(behind, (1, 1)), first_volume="", first_issue=""))
    return parts


def hull(many: list[Range]) -> Range:
    """Returns the range from the beginning of the first of some ranges to the end of the last one."""
    firsts, lasts = [it.first for it in many], [it.last for it in many]
    return Range(min(firsts) if all(firsts) else "", max(lasts) if all(lasts) else "")


def within(held: Range, limit: Range) -> Range | None:
    """Returns the days of a range that are in another one too, or None if there are none."""
    found = held
    first, last, begin, end = map(strict.date, (held.first, held.last, limit.first, limit.last))
    if begin and (not first or first[0] < begin[0]):
        found = found._replace(first=limit.first, first_volume="", first_issue="")
    if end and (not last or end[1] < last[1]):
        found = found._replace(last=limit.last, last_volume="", last_issue="")
    return None if found.is_reversed() else found


def are_apart(many: Iterable[Statement]) -> bool:
    """Returns whether no day is in two of some statements."""
    return not any(within(a, b) for one, two in itertools.combinations(many, 2) for a in one.ranges for b in two.ranges)


def common(many: list[Statement]) -> Statement:
    """Returns what all of some statements say, as one that is only partly read if they differ."""
    ranges, embargo = many[0].ranges, many[0].embargo
    for one in many[1:]:
        ranges = tuple(both for a in ranges for b in one.ranges if (both := within(a, b)))
        embargo = combined(embargo, one.embargo)
    is_same = all(it.ranges == ranges and it.embargo == embargo for it in many)
    return Statement(ranges, embargo, "" if is_same else "statements that differ")


def shortest(day: datetime.date, turn: tuple[int, int]) -> str:
    """Returns a day as the year or the month that begins, or ends, with it, if that is one."""
    if (day.month, day.day) == turn:
        return f"{day.year:04}"
    is_month = day.day == 1 if turn == (1, 1) else (day + DAY).day == 1
    return day.isoformat()[:7] if is_month else day.isoformat()


DAYS = {"D": 1, "M": 30, "Y": 365}


def embargo_of(walls: Iterable[tuple[str, int, str]]) -> str:
    """Returns walls as an embargo of KBART: of two of a kind the one that leaves less."""
    found: dict[str, tuple[int, str]] = {}
    for kind, count, unit in walls:
        old = found.get(kind)
        days = count * DAYS[unit]
        if old is None or (days > old[0] * DAYS[old[1]]) == (kind == "P"):
            found[kind] = count, unit
    return ";".join(f"{kind}{found[kind][0]}{found[kind][1]}" for kind in "RP" if kind in found)


def window(embargo: str, today: datetime.date) -> str:
    """Returns when the most recent issues begin that an embargo leaves, or nothing if it leaves others too.

    A reader does not compare a row without dates with its embargo. The wall only moves on, so this date stays right."""
    found = re.search("R([0-9]{1,4})([DMY])", embargo)
    if not found:
        return ""
    count, unit = int(found[1]), found[2]
    if unit == "D":
        return (today - (count - 1) * DAY).isoformat()
    if unit == "Y":
        return f"{max(today.year - count + 1, 1):04}"
    months = today.year * 12 + today.month - count
    return f"{months // 12:04}-{months % 12 + 1:02}"


def combined(one: str, other: str) -> str:
    """Returns two embargoes of KBART as one that leaves what both leave."""
    walls = [(it[0], int(it[1:-1]), it[-1]) for it in f"{one};{other}".upper().split(";") if it]
    return embargo_of(walls)
