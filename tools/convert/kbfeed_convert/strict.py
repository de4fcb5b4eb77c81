"""What the proved reader takes from a list, rule by rule (docs/formats/KBART.md). Nothing here mends anything.

A row is written only if these rules read it, so `kbfeed check` skips no row of the output. A test compares them with
the proved reader on random lists."""
import calendar
import re
from typing import NamedTuple

from .texts import remembered

REQUIRED = ("publication_title", "print_identifier", "online_identifier", "date_first_issue_online",
            "num_first_vol_online", "date_last_issue_online", "num_last_vol_online", "title_url")
OPTIONAL = ("title_id", "embargo_info", "coverage_depth", "publication_type", "access_type")
# The 25 columns of KBART Phase II, in the standard's order.
LABELS = ("publication_title", "print_identifier", "online_identifier", "date_first_issue_online",
          "num_first_vol_online", "num_first_issue_online", "date_last_issue_online", "num_last_vol_online",
          "num_last_issue_online", "title_url", "first_author", "title_id", "embargo_info", "coverage_depth", "notes",
          "publisher_name", "publication_type", "date_monograph_published_print", "date_monograph_published_online",
          "monograph_volume", "monograph_edition", "first_editor", "parent_publication_title_id",
          "preceding_publication_title_id", "access_type")

Day = tuple[int, int, int]


class Row(NamedTuple):
    """What the reader takes from a record, except texts."""
    kind: str
    print_identifier: str | None
    online_identifier: str | None
    first_day: Day | None
    last_day: Day | None
    first_volume: int | None
    last_volume: int | None


def lower(text: str) -> str:
    """Returns a text without spaces at its ends, and in lower case if all of it is ASCII."""
    return text.strip(" ").lower() if text.isascii() else text.strip(" ")


@remembered
def kind_of(cell: str) -> str:
    """Returns the kind of a record by its type: `serial`, `monograph`, or nothing if the reader skips it."""
    kind = lower(cell) or "serial"
    return kind if kind in ("serial", "monograph") else ""


def columns(header: list[str]) -> dict[str, int] | None:
    """Returns the place of each label that the reader uses, or None if it would refuse the header."""
    found: dict[str, int] = {}
    for place, field in enumerate(header):
        label = lower(field)
        if label in REQUIRED or label in OPTIONAL:
            if label in found:
                return None
            found[label] = place
    return found if all(label in found for label in REQUIRED) else None


ISSN = re.compile(r"([0-9]{4})-?([0-9]{3}[0-9Xx])")
ISBN10 = re.compile(r"[0-9]{9}[0-9Xx]")
ISBN13 = re.compile(r"97[89][0-9]{10}")
DATE = re.compile(r"([0-9]{4})(?:-([0-9]{2})(?:-([0-9]{2}))?)?")
VOLUME = re.compile(r"[0-9]{1,9}")


def check13(twelve: str) -> str:
    """Returns the check digit of an ISBN-13."""
    return str(-sum(int(it) * (1, 3)[at % 2] for at, it in enumerate(twelve)) % 10)


@remembered
def issn(text: str) -> str | None:
    """Returns an ISSN in its kept form, 2434-561X."""
    found = ISSN.fullmatch(text.strip(" "))
    if not found:
        return None
    first, second = found.groups()
    a, b, c, d, e, f, g = map(int, first + second[:3])
    check = 10 if second[3] in "Xx" else int(second[3])
    if (8 * a + 7 * b + 6 * c + 5 * d + 4 * e + 3 * f + 2 * g + check) % 11:
        return None
    return f"{first}-{second.upper()}"


@remembered
def isbn(text: str) -> str | None:
    """Returns an ISBN in its kept form, of thirteen digits."""
    digits = text.strip(" ").replace("-", "")
    if ISBN13.fullmatch(digits):
        return digits if check13(digits[:12]) == digits[12] else None
    if not ISBN10.fullmatch(digits):
        return None
    check = 10 if digits[9] in "Xx" else int(digits[9])
    is_right = (sum(int(it) * (10 - at) for at, it in enumerate(digits[:9])) + check) % 11 == 0
    return "978" + digits[:9] + check13("978" + digits[:9]) if is_right else None


@remembered
def date(text: str) -> tuple[Day, Day] | None:
    """Returns the first and the last day of a date."""
    found = DATE.fullmatch(text.strip(" "))
    if not found:
        return None
    year, month, day = (int(it) if it else None for it in found.groups())
    if not year or month is not None and not 1 <= month <= 12:
        return None
    if month is None:
        return (year, 1, 1), (year, 12, 31)
    days = calendar.monthrange(year, month)[1]
    if day is None:
        return (year, month, 1), (year, month, days)
    return ((year, month, day), (year, month, day)) if 1 <= day <= days else None


@remembered
def volume(text: str) -> int | None:
    """Returns the number of a volume."""
    text = text.strip(" ")
    return int(text) if VOLUME.fullmatch(text) else None


def row(cells: dict[str, str]) -> Row | str:
    """Returns the row of a record, or the reason for which the reader skips it."""
    kind = kind_of(cells.get("publication_type", ""))
    if not kind:
        return "OtherType"
    number = issn if kind == "serial" else isbn
    both = number(cells["print_identifier"]), number(cells["online_identifier"])
    if both == (None, None):
        return "NoIssn" if kind == "serial" else "NoIsbn"
    if kind == "monograph":
        return Row(kind, *both, None, None, None, None)
    dates = []
    for label in ("date_first_issue_online", "date_last_issue_online"):
        days = date(cells[label])
        if days is None and cells[label].strip(" "):
            return "BadDate"
        dates.append(days)
    first, last = dates[0] and dates[0][0], dates[1] and dates[1][1]
    if first and last and first > last:
        return "Reversed"
    one, two = volume(cells["num_first_vol_online"]), volume(cells["num_last_vol_online"])
    if one is not None and two is not None and one > two:
        one = two = None
    return Row(kind, *both, first, last, one, two)


def keeps(old: Row, new: Row | str) -> bool:
    """Returns whether all that the reader took from the old row is in the new one.

    A last day in 9999 may become an open end. Identifiers and volumes may be added."""
    if not isinstance(new, Row) or old.kind != new.kind or old.first_day != new.first_day:
        return False
    if old.last_day != new.last_day and (new.last_day or not old.last_day or old.last_day[0] != 9999):
        return False
    return all(a is None or a == b for a, b in zip(old[1:3] + old[5:], new[1:3] + new[5:]))
