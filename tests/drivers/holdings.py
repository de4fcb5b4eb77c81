"""The rules of lists, queries and answers as a plain program, by the pages KBART and OPENURL of docs/formats/.

This is the reference model of the drivers: it shares no code with the crates, and is written for reading. Days are
ordinals, as of datetime.date.toordinal(). An identifier, a date or a volume that is invalid is None."""
import calendar
import datetime
import re

SERIAL, BOOK = "serial", "monograph"
EVER = (datetime.date.min.toordinal(), datetime.date.max.toordinal())


def issn_of_digits(digits):
    """Returns the ISSN with seven digits."""
    check = -sum(int(digit) * (8 - at) for at, digit in enumerate(digits)) % 11
    return f"{digits[:4]}-{digits[4:]}{'X' if check == 10 else check}"


def isbn_of_digits(digits):
    """Returns the ISBN of thirteen digits with twelve of them."""
    return digits + str(-sum(int(digit) * (3 if at % 2 else 1) for at, digit in enumerate(digits)) % 10)


def issn_of(text):
    """Returns the ISSN of a text."""
    digits = text.strip(" ").replace("-", "", 1).upper()
    if not re.fullmatch(r" *[0-9]{4}-?[0-9]{3}[0-9Xx] *", text):
        return None
    issn = issn_of_digits(digits[:7])
    return issn if issn[-1] == digits[-1] else None


def isbn_of(text):
    """Returns the ISBN of thirteen digits of a text, which may have one of ten characters."""
    digits = text.strip(" ").replace("-", "").upper()
    if re.fullmatch(r"97[89][0-9]{10}", digits):
        return digits if isbn_of_digits(digits[:12]) == digits else None
    if not re.fullmatch(r"[0-9]{9}[0-9X]", digits):
        return None
    total = sum((10 if digit == "X" else int(digit)) * (10 - at) for at, digit in enumerate(digits))
    return isbn_of_digits(f"978{digits[:9]}") if total % 11 == 0 else None


def days_of(text):
    """Returns the first and the last day of a date of a list."""
    found = re.fullmatch(r"([0-9]{4})(?:-([0-9]{2})(?:-([0-9]{2}))?)?", text.strip(" "))
    if not found:
        return None
    year, month, day = (int(part) if part else None for part in found.groups())
    try:
        first = datetime.date(year, month or 1, day or 1)
        last = datetime.date(year, month or 12, day or calendar.monthrange(year, month or 12)[1])
    except (ValueError, IndexError):
        return None
    return first.toordinal(), last.toordinal()


def query_days_of(text):
    """Returns the days of a date of a query, which may lack its hyphens."""
    text = text.strip(" ")
    if re.fullmatch(r"[0-9]{6}|[0-9]{8}", text):
        text = "-".join(it for it in (text[:4], text[4:6], text[6:]) if it)
    return days_of(text)


def volume_of(text):
    text = text.strip(" ")
    return int(text) if re.fullmatch(r"[0-9]{1,9}", text) else None


class Record:
    """A record of a list, from its cells by their labels. It is a row unless `aside` has the reason to skip it."""

    def __init__(self, cells):
        kind = cells["publication_type"].strip(" ").lower()
        self.kind = BOOK if kind == BOOK else SERIAL
        read = isbn_of if self.kind == BOOK else issn_of
        self.print, self.online = read(cells["print_identifier"]), read(cells["online_identifier"])
        self.identifiers = {self.print, self.online} - {None}
        self.first = self.last = self.low = self.high = self.aside = None
        if kind not in ("", SERIAL, BOOK):
            self.aside = "OtherType"
        elif not self.identifiers:
            self.aside = "NoIsbn" if self.kind == BOOK else "NoIssn"
        elif self.kind == SERIAL:
            self.read_coverage(cells)

    def read_coverage(self, cells):
        first, last = (cells[f"date_{it}_issue_online"].strip(" ") for it in ("first", "last"))
        if any(text and not days_of(text) for text in (first, last)):
            self.aside = "BadDate"
            return
        self.first, self.last = days_of(first)[0] if first else None, days_of(last)[1] if last else None
        if first and last and self.first > self.last:
            self.aside = "Reversed"
        low, high = (volume_of(cells[f"num_{it}_vol_online"]) for it in ("first", "last"))
        # A reversed pair of volumes counts as none.
        if low is None or high is None or low <= high:
            self.low, self.high = low, high

    def coverage(self):
        return (EVER[0] if self.first is None else self.first, EVER[1] if self.last is None else self.last)

    def has_dates(self):
        return self.first is not None or self.last is not None


def meet(one, other):
    return max(one[0], other[0]) <= min(one[1], other[1])


def lies_in(one, other):
    return other[0] <= one[0] and one[1] <= other[1]


def grade_of(row, query):
    """Returns the grade of a row, or None if it does not match. A query has `identifiers`, `days` and `volume`."""
    if not row.identifiers & query.identifiers:
        return None
    if row.kind == BOOK:
        return "untested"
    tests_date = query.days is not None and row.has_dates()
    if tests_date and not meet(query.days, row.coverage()):
        return None
    tests_volume = query.volume is not None and (row.low is not None or row.high is not None)
    if tests_volume:
        low, high = 0 if row.low is None else row.low, 10**9 if row.high is None else row.high
        if not low <= query.volume <= high:
            return None
    if not tests_date and not tests_volume:
        return "untested"
    return "overlap" if tests_date and not lies_in(query.days, row.coverage()) else "inside"


def dated_grade_of(row, query):
    """Returns the grade of a serial's row by the date, if that is covered and the volume is not; otherwise None."""
    if row.kind == BOOK or not row.identifiers & query.identifiers or query.days is None or not row.has_dates():
        return None
    if grade_of(row, query) or not meet(query.days, row.coverage()):
        return None
    return "inside" if lies_in(query.days, row.coverage()) else "overlap"


def months_before(day, months):
    """Returns the first day of the month that is so many months before that of a day."""
    at = day.year * 12 + day.month - 1 - months
    return datetime.date(at // 12, at % 12 + 1, 1)


def open_days(text, today):
    """Returns the days that an embargo leaves open on a day, or None if it has another form."""
    if not text:
        return EVER
    kinds, days = [], EVER
    for part in text.split(";"):
        found = re.fullmatch(r"([RP])([0-9]{1,9})([DMY])", part)
        if not found or int(found[2]) == 0:
            return None
        count = int(found[2])
        if found[3] == "D":
            edge = today - datetime.timedelta(days=count - 1)
        elif found[3] == "M":
            edge = months_before(today, count - 1)
        else:
            edge = datetime.date(today.year - count + 1, 1, 1)
        kinds.append(found[1])
        part = (edge.toordinal(), EVER[1]) if found[1] == "R" else (EVER[0], edge.toordinal() - 1)
        days = (max(days[0], part[0]), min(days[1], part[1]))
    return days if len(set(kinds)) == len(kinds) <= 2 else None
