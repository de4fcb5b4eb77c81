"""KBART files of serials, parsed by Python's csv module."""
import csv
import datetime
import re

LABELS = ["publication_title", "print_identifier", "online_identifier", "date_first_issue_online",
          "num_first_vol_online", "date_last_issue_online", "num_last_vol_online", "title_url", "title_id",
          "embargo_info", "coverage_depth", "publication_type", "access_type"]
# The first labels are required.
REQUIRED = 8
LIMIT = 268_435_456
ISSN = re.compile(r"([0-9]{4})-?([0-9]{3})([0-9Xx])", re.ASCII)
DATE = re.compile(r"([0-9]{4})(?:-([0-9]{2})(?:-([0-9]{2}))?)?", re.ASCII)

csv.field_size_limit(LIMIT)


class Bad(Exception):
    """The reason why a file is bad."""


def is_issn(text):
    """Whether a field is an ISSN with the right check character."""
    found = ISSN.fullmatch(text.strip(" "))
    if not found:
        return False
    total = sum(int(digit) * weight for digit, weight in zip(found[1] + found[2], (8, 7, 6, 5, 4, 3, 2)))
    return (total + (10 if found[3] in "Xx" else int(found[3]))) % 11 == 0


def days_of(text):
    """Returns the first and the last day that a date names, or None if it is invalid."""
    found = DATE.fullmatch(text)
    try:
        if not found:
            return None
        year = int(found[1])
        if found[2] is None:
            return datetime.date(year, 1, 1), datetime.date(year, 12, 31)
        first = datetime.date(year, int(found[2]), int(found[3] or 1))
        if found[3] is not None:
            return first, first
        later = datetime.date(year + first.month // 12, first.month % 12 + 1, 1)
        return first, later - datetime.timedelta(days=1)
    except (ValueError, OverflowError):
        return None


def records(path):
    """Yields the records of a file, the header first, after a check of the whole file for UTF-8."""
    with open(path, "rb") as file:
        raw = file.read(LIMIT + 1)
    if len(raw) > LIMIT:
        raise Bad("TooLong")
    try:
        raw.decode("utf-8")
    except UnicodeDecodeError as why:
        raise Bad("NotUtf8") from why
    with open(path, encoding="utf-8", newline="") as file:
        mark = file.read(2)
        if mark == "\ufeff\ufeff":
            raise Bad("TwoMarks")
        file.seek(3 if mark.startswith("\ufeff") else 0)
        yield from (record for record in csv.reader(file, delimiter="\t", quoting=csv.QUOTE_NONE) if record)


def columns_of(header):
    """Returns the column of each label that the header has."""
    names = [field.strip(" ").lower() for field in header]
    for label in LABELS[:REQUIRED]:
        if label not in names:
            raise Bad("MissingLabel " + label)
    for label in LABELS:
        if names.count(label) > 1:
            raise Bad("LabelTwice " + label)
    return {label: names.index(label) for label in LABELS if label in names}


def reason_for(field):
    """Returns why a record is skipped, or None for a row. `field` returns the trimmed field of a label."""
    if field("publication_type").lower() not in ("", "serial"):
        return "OtherType"
    if not is_issn(field("print_identifier")) and not is_issn(field("online_identifier")):
        return "NoIssn"
    begins, ends = field("date_first_issue_online"), field("date_last_issue_online")
    first, last = days_of(begins), days_of(ends)
    if (begins and first is None) or (ends and last is None):
        return "BadDate"
    return "Reversed" if first and last and first[0] > last[1] else None


def records_of(path):
    """Yields the number of each record after the header, with the reason why it is skipped, or None for a row."""
    every = records(path)
    header = next(every, None)
    if header is None:
        raise Bad("NoHeader")
    columns = columns_of(header)
    for number, record in enumerate(every, 2):
        def field(label, record=record):
            place = columns.get(label, len(record))
            return record[place].strip(" ") if place < len(record) else ""
        yield number, reason_for(field)
