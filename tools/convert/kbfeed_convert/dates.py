"""Dates. A date is read in the widest way that cannot be wrong, and never gets a part that its text lacks.

`read` tries in this order: what the reader takes, words for an open end, numbers, a year with names of months or with
a quarter, and the years of any other text, of which the earliest begins and the latest ends."""
import calendar
import datetime
import re
from typing import Iterable, NamedTuple

from . import strict
from .texts import TABLES, folded, plain, remembered, word_set, words

YEAR = r"(1[4-9][0-9]{2}|20[0-9]{2}|21[0-9]{2})"
YEARS = re.compile(rf"(?<![0-9]){YEAR}(?![0-9])")
TWO_YEARS = re.compile(rf"{YEAR}\s*[/-]\s*([0-9]{{2}})(?![0-9]|[/-][0-9])")
# A date of numbers inside a text.
INSIDE = re.compile(r"(?<![0-9])(?:[0-9]{4}([-/.])[0-9]{1,2}\1[0-9]{1,2}"
                    r"|[0-9]{1,2}([-/.])[0-9]{1,2}\2[0-9]{4})(?![0-9])")
TIME = re.compile(r"[tT ][0-9]{1,2}:[0-9]{2}(:[0-9]{2}(\.[0-9]+)?)?( ?[aApP][mM])?(Z|[+-][0-9]{2}:?[0-9]{2})?$")
DAY_FIRST = re.compile(rf"(?<![0-9])([0-9]{{1,2}})([/.\- ])([0-9]{{1,2}})\2{YEAR}(?![0-9])")
# The parts of a date, in the order of the groups.
FORMS = [
    ("ymd", re.compile(rf"{YEAR}([/.\- ]?)([0-9]{{2}})\2([0-9]{{2}})")),
    ("ymd", re.compile(rf"{YEAR}([/.\- ])([0-9]{{1,2}})\2([0-9]{{1,2}})")),
    ("ym", re.compile(rf"{YEAR}([/.\- ]?)([0-9]{{2}})")),
    ("ym", re.compile(rf"{YEAR}([/.\-])([0-9])")),
    ("my", re.compile(rf"([0-9]{{1,2}})[/.\- ]{YEAR}")),
]
# Spaces inside a date of numbers, as in `1995. 3. 1.`.
APART = re.compile(r"(?<=[0-9])([./-]) (?=[0-9])")
# A month in a script that names its parts, which are no two years.
CJK_MONTH = re.compile(rf"{YEAR}\s*[年년]\s*([0-9]{{1,2}})\s*[月월](?:\s*([0-9]{{1,2}})\s*[日일号號])?")
# The number of an issue or a volume behind such a year, as in `2002年3号`, which is no month.
CJK_NUMBER = re.compile(rf"{YEAR}\s*[年년]\s*(?:[第제]\s*)?[0-9]{{1,4}}\s*[期号號호巻卷권輯집册冊]")
CJK_PART = re.compile(r"\s*[年月년월]\s*")
CJK_DAY = re.compile("[日일도号號]")
OPEN = word_set("dates", "open")
NONE = word_set("dates", "none")
FILLERS = word_set("dates", "fillers")
QUARTERS = word_set("dates", "quarter")
# The first month of each season.
SEASONS = {word: int(month) for word, month in words("seasons").items()}
MONTHS = words("months")
TO = sorted(TABLES["dates"]["to"], key=len, reverse=True)
TO_APART = "|".join(re.escape(it) for it in TO if it < "\u0250")
TO_BESIDE = "|".join(it for it in TO if it >= "\u0250")
# The text between the two dates of a range. Words of scripts without spaces may touch others.
RANGE = re.compile(rf"\s*(?:-+|[~〜～]|(?<![^\W\d])(?:{TO_APART})(?![^\W\d])|{TO_BESIDE})\s*", re.I)
# The rest of a date behind its year, whose hyphens do not connect two dates.
REST = re.compile(r"-[0-9]{1,2}-[0-9]{1,2}(?![0-9])|-(?:0?[1-9]|1[0-2])(?=\s*(?:[-~〜～]|$|\s))")

# A word as `after` or `before` at the beginning of a cell.
OUTSIDE = [re.compile(rf"(?:{'|'.join(sorted(TABLES['dates'][it], key=len, reverse=True))}) +(?=\S)", re.I)
           for it in ("after", "before")]
# A volume and its year, with a number above those of months.
VOLUME_NOTATION = re.compile(rf"(?<![0-9./-])(?:1[3-9]|[2-9][0-9]|[1-9][0-9][0-9])\.{YEAR}(?![0-9./])")
DAY = datetime.timedelta(days=1)
# The number of a day in a spreadsheet: those of 1927 to 2036 have five digits.
SERIAL = re.compile("[1-4][0-9]{4}")
FIRST_SERIAL = datetime.date(1899, 12, 30)

# Years of two digits: behind an apostrophe, a month or the numbers of a day, and in a range of their own.
SHORT_YEAR = re.compile(r"['’]\s?[0-9]{2}(?![0-9])|(?<![0-9])[0-9]{2}(?![0-9])")
SHORT_END = r"(?=$|[\s,;:)\]|]|-(?![0-9?]))"
APOSTROPHE = re.compile(rf"(?<![^\W_])['’]([0-9]{{2}}){SHORT_END}")
SHORT_DATE = re.compile(rf"(?<![0-9/.-])([0-9]{{1,2}}[/.][0-9]{{1,2}}[/.])([0-9]{{2}}){SHORT_END}")
SHORT_RANGE = re.compile(r"([0-9]{2})(?:/([0-9]{2}))? ?[-‐‑–—] ?([0-9]{2})(?:/([0-9]{2}))?")
MONTH_SHORT = re.compile(r"(?<![^\W_])(?<![0-9] )(?<![0-9]-)([^\W\d_]{3,9})\.?(?:[/-]| ?['’])"
                         rf"([0-9]{{2}}){SHORT_END}")
# `5-Jan-90`, as spreadsheets write days.
DAY_SHORT = re.compile(r"(?<![^\W_])(0?[1-9]|[12][0-9]|3[01]) ?[/-] ?([^\W\d_]{3,9})\.? ?[/-] ?"
                       rf"([0-9]{{2}}){SHORT_END}")
# A number from one to four behind a year, which may be a quarter.
QUARTER = re.compile(rf"{YEAR}/([1-4])")
QUARTERS_IN = re.compile(rf"(?<![0-9/.-]){YEAR}/([0-9]{{1,2}})(?![0-9/.-])")

NOT_READ = "not read: the other date counts alone"
UNDECIDED = "day and month are not decided: the narrower"


class Order:
    """Whether the day or the month comes first, and whether `1.1990` is a volume and its year. All date columns of a
    list decide it together."""

    def __init__(self, fixed: str = ""):
        self.fixed = fixed
        self.seen: set[str] = set()
        self.has_volumes = self.is_needed = False
        # The numbers behind a year and a slash: `1990/4` is a quarter, or a month.
        self.numbers: set[int] = set()

    def look(self, cells: Iterable[str]) -> None:
        """Notes the orders that the cells prove, and whether a cell needs one."""
        for cell in cells:
            if cell and not cell[:4].isdigit():
                for found in DAY_FIRST.finditer(plain(cell)):
                    one, two = int(found[1]), int(found[3])
                    if one > 12:
                        self.seen.add("dmy")
                    if two > 12:
                        self.seen.add("mdy")
                    self.is_needed = self.is_needed or one != two

    def look_elsewhere(self, cells: Iterable[str]) -> None:
        """Notes the orders that dates of something else prove, as the day of the last change."""
        self.look(it for it in cells if DAY_FIRST.fullmatch(TIME.sub("", plain(it))))

    def look_for_volumes(self, cells: Iterable[str]) -> None:
        """Notes whether a statement has a volume and its year, as `16.1940`."""
        self.has_volumes = self.has_volumes or any(VOLUME_NOTATION.search(it) for it in cells)

    def look_for_quarters(self, cells: Iterable[str]) -> None:
        """Notes the numbers behind a year and a slash."""
        for cell in cells:
            if "/" in cell:
                self.numbers |= {int(it[1]) if it[1][0] != "0" else 12 for it in QUARTERS_IN.findall(cell)}

    def has_quarters(self) -> bool:
        """Returns whether no number behind a year is above those of quarters."""
        return bool(self.numbers) and max(self.numbers) <= 4

    def __str__(self) -> str:
        """`dmy`, `mdy`, or nothing if the list does not decide it."""
        return self.fixed or (min(self.seen) if len(self.seen) == 1 else "")


class Read(NamedTuple):
    """What a cell says, and the rule that read it. The text is empty if that end is open, None if nothing is read."""
    text: str | None
    rule: str


def long_years(text: str) -> str:
    """Returns a text in which years of two digits have four, if its signs or words say that they are years."""
    if YEARS.search(text) or not SHORT_YEAR.search(text):
        return text
    if found := SHORT_RANGE.fullmatch(text.strip()):
        years = [int(it) for it in found.groups() if it]
        # `95-01`, `88/89-92/93`, and no volumes as `12-15`.
        if found[2] or found[4] or years[0] > years[-1] and whole_year(found[1]) < whole_year(found[3]):
            return re.sub("[0-9]{2}", lambda it: whole_year(it[0]), text)
    text = APOSTROPHE.sub(lambda it: whole_year(it[1]), text)
    text = SHORT_DATE.sub(lambda it: it[1] + whole_year(it[2]), text)
    text = DAY_SHORT.sub(lambda it: f"{it[1]} {it[2]} {whole_year(it[3])}" if folded(it[2]) in MONTHS else it[0], text)
    return MONTH_SHORT.sub(lambda it: f"{it[1]} {whole_year(it[2])}" if folded(it[1]) in MONTHS else it[0], text)


def whole_year(digits: str) -> str:
    """Returns the year of two digits: the last one that is not after the next year."""
    now = datetime.date.today().year + 1
    return str(now - (now - int(digits)) % 100)


def quarter_or_month(text: str) -> tuple[str, str] | None:
    """Returns the narrower first and last date of `1990/4`, which may be a quarter or a month, or None."""
    found = QUARTER.fullmatch(text)
    if not found:
        return None
    year, number = int(found[1]), int(found[2])
    return date_text(year, 3 * number - 2), date_text(year, number)


def date_text(year: int, month: int = 0, day: int = 0) -> str:
    """Returns a date as far as it is real: an unknown or impossible month or day is left out."""
    if not 1 <= month <= 12:
        return f"{year:04}"
    if not 1 <= day <= calendar.monthrange(year, month)[1]:
        return f"{year:04}-{month:02}"
    return f"{year:04}-{month:02}-{day:02}"


def outside(date: str, is_after: bool) -> str:
    """Returns the date behind a date, or before it: a year, a month or a day, as that is. Nothing if there is none."""
    days = strict.date(date)
    try:
        day = datetime.date(*days[1]) + DAY if days and is_after else datetime.date(*days[0]) - DAY if days else None
    except OverflowError:
        day = None
    return day.isoformat()[:len(date)] if day else ""


@remembered
def read(cell: str, is_last: bool, order: str) -> Read:
    """Reads the date of a cell, as a first or as a last one. `order` is that of day and month, empty if undecided."""
    bare = cell.strip(" ")
    now = APART.sub(r"\1", re.sub(r"\.0+$", "", TIME.sub("", plain(long_years(cell)))))
    if is_last and re.search(r"(?<![0-9])9999", now):
        return Read("", "9999 is an open end")
    if not bare or strict.date(bare):
        return Read(cell, "as it is")
    if folded(now) in NONE:
        return Read("", "no date")
    if is_last and folded(now) in OPEN:
        return Read("", "an open end in words")
    if named := CJK_MONTH.fullmatch(now.strip()):
        return parts(int(named[1]), int(named[2]), int(named[3]) if named[3] else None)
    if numbered := CJK_NUMBER.match(now.strip("[]() ")):
        return Read(numbered[1], "a year in a text")
    now = CJK_DAY.sub("", CJK_PART.sub("-", now)).strip("-[]()?.,;* ")
    if found := by_numbers(now, is_last, order) or by_names(now, is_last):
        return found
    if (word := OUTSIDE[is_last].match(now)) and (text := read(now[word.end():], is_last, order).text):
        return Read(outside(text, not is_last), "a date that is outside")
    sides = range_sides(now)
    if sides and all(YEARS.search(it) for it in sides):
        rule = "two years in a date" if all(YEARS.fullmatch(it) for it in sides) else "a range in one cell"
        side = sides[is_last].strip("-[]()?.,;* ")
        found = by_numbers(side, is_last, order) or by_names(side, is_last) or by_years(side, is_last)
        return found._replace(rule=rule)
    whole = INSIDE.search(now)
    if whole and (found := by_numbers(whole[0], is_last, order)) and len(YEARS.findall(now)) == 1:
        return found if found.rule == UNDECIDED else found._replace(rule="a date in a text")
    return by_years(now, is_last)


def published(cell: str, order: str) -> str:
    """Returns a date of publication. If day and month are not decided it is the year."""
    found = read(cell, False, order)
    return (found.text or "")[:4 if found.rule == UNDECIDED else None]


def by_numbers(now: str, is_last: bool, order: str) -> Read | None:
    """Reads a date of numbers alone."""
    if SERIAL.fullmatch(now):
        return Read((FIRST_SERIAL + int(now) * DAY).isoformat(), "a day as a number of a spreadsheet")
    if found := DAY_FIRST.fullmatch(now):
        one, sign, two, year = int(found[1]), found[2], int(found[3]), int(found[4])
        if sign == "." or one > 12 >= two or one == two:
            order = "dmy"
        elif two > 12 >= one:
            order = "mdy"
        if not order:
            # The later day of the two begins, and the earlier one ends.
            return Read((min if is_last else max)(date_text(year, one, two), date_text(year, two, one)), UNDECIDED)
        return parts(year, two, one) if order == "dmy" else parts(year, one, two)
    for form, pattern in FORMS:
        if found := pattern.fullmatch(now):
            if form == "my":
                return parts(int(found[2]), int(found[1]))
            year, month = int(found[1]), int(found[3])
            if form == "ym" and (end := second_year(year, month)):
                return Read(date_text(end if is_last else year), "two years in a date")
            return parts(year, month, int(found[4]) if form == "ymd" else None)
    return None


def second_year(year: int, two: int) -> int:
    """Returns the year that two digits behind a year mean, or 0.

    `1995/96`, `1999/00`, `1995-99` and `2001/02` have one. Other numbers up to 12 are months."""
    if two == (year + 1) % 100:
        return year + 1
    return year - year % 100 + two if two > 12 and two > year % 100 else 0


def parts(year: int, month: int, day: int | None = None) -> Read:
    """Returns the date of a year, a month and perhaps a day, any of which may be impossible."""
    found = date_text(year, month, day or 0)
    is_whole = len(found) == (7 if day is None else 10)
    return Read(found, "a date in another form" if is_whole else "an impossible month or day is left out")


def by_names(now: str, is_last: bool) -> Read | None:
    """Reads a year with the name of a month or two, or with a quarter. A day counts only if nothing else is there."""
    years = {int(it) for it in YEARS.findall(now)}
    if len(years) != 1:
        return None
    year = years.pop()
    tokens = re.findall(r"[0-9]+|[^\W\d]+", folded(now))
    months = [int(MONTHS[it]) for it in tokens if it in MONTHS]
    others = [it for it in tokens if it not in MONTHS and it not in FILLERS and it != str(year)]
    if months:
        day = int(others[0]) if len(months) == len(others) == 1 and re.fullmatch("[0-9]{1,2}", others[0]) else 0
        return Read(date_text(year, months[-1] if is_last else months[0], day), "the name of a month")
    if len(others) == 2 and QUARTERS & set(others) and (digit := next((it for it in others if it in "1234"), "")):
        return Read(date_text(year, int(digit) * 3 if is_last else int(digit) * 3 - 2), "a quarter")
    if others and all(it in SEASONS for it in others):
        return Read(season(year, others, is_last), "a season")
    return None


def season(year: int, names: list[str], is_last: bool) -> str:
    """Returns the first or the last month of seasons: of a winter the December, or the February, of its year."""
    first = SEASONS[names[-1 if is_last else 0]]
    return date_text(year, (first + 1) % 12 + 1 if is_last else first)


def by_years(now: str, is_last: bool) -> Read:
    """Reads the years of any text: the earliest begins, and the latest ends."""
    found = [int(it) for it in YEARS.findall(now)]
    for match in TWO_YEARS.finditer(now):
        if int(match[2]) <= 12 and re.search("[0-9]", now[match.end():]):
            # `1911-12 x 31` is a month.
            continue
        found += filter(None, [second_year(int(match[1]), int(match[2]))])
    if not found:
        return Read(None, NOT_READ)
    rule = "two years in a date" if len(found) > 1 else "a year in a text"
    year = max(found) if is_last else min(found)
    named = [it for it in re.findall(r"[^\W\d]+", folded(now)) if it in SEASONS]
    return Read(season(year, named, is_last) if named else date_text(year), rule)


def range_sides(now: str) -> tuple[str, str] | None:
    """Returns the two sides of a range: what is before and behind the first connection that follows a year."""
    first = YEARS.search(now)
    if not first:
        return None
    rest = REST.match(now, first.end())
    found = RANGE.search(now, rest.end() if rest else first.end())
    # `1995-99` is a date with two years.
    if not found or re.fullmatch(r"[0-9]{2}", now[found.end():].strip()):
        return None
    return now[:found.start()].strip(), now[found.end():].strip()
