"""The name of a release, PACKAGE_YYYY-MM-DD.txt. The package has to stay the same from month to month."""
import datetime
import os
import re
import unicodedata

from . import strict
from .faults import Refused, WrongArguments
from .texts import folded, words

# A later day would freeze its package until then.
AHEAD = datetime.timedelta(days=31)
LONGEST = 100
ENDINGS = re.compile(r"(\.(txt|tsv|tab|csv|xlsx|xlsm|xls|ods|html?|jsonl?|gz|zip|kbart|text|dat))+$", re.I)
# The text that programs add to the name of a copy.
COPY = re.compile(r"(\s*\(\d+\)|\s*[-_ ](copy|kopie|copie|copia|final|utf-?8))+$", re.I)
YEAR = "((?:19|20)[0-9]{2})"
DAY = re.compile(rf"(?<![0-9]){YEAR}([-_. ]?)([01][0-9])\2([0-3][0-9])(?![0-9])")
DAY_FIRST = re.compile(rf"(?<![0-9])([0-3]?[0-9])[-_. ]([0-3]?[0-9])[-_. ]{YEAR}(?![0-9])")
MONTH = re.compile(rf"(?<![0-9]){YEAR}[-_. ]?([01][0-9])(?![0-9])")
NAMED_MONTH = re.compile(rf"(?<![^\W\d_])([^\W\d_]{{3,10}})[-_. ]?{YEAR}(?![0-9])|"
                         rf"(?<![0-9]){YEAR}[-_. ]?([^\W\d_]{{3,10}})(?![^\W\d_])")
MONTHS = words("months")
# The name of a release, as kbfeed itself reads it.
RELEASE = re.compile(r"([A-Za-z0-9_-][A-Za-z0-9._-]{0,99})_([0-9]{4}-[0-9]{2}-[0-9]{2})\.txt")


def dated(stem: str) -> tuple[str, str]:
    """Returns the package and the day in a file's name. A month is its first day, and a year alone is no date."""
    days = [it for it in DAY.finditer(stem) if strict.date(f"{it[1]}-{it[3]}-{it[4]}")]
    if days:
        # The last day of a period counts, and the text before its first one.
        return around(stem, days[0]), f"{days[-1][1]}-{days[-1][3]}-{days[-1][4]}"
    for found in DAY_FIRST.finditer(stem):
        low, high = sorted((int(found[1]), int(found[2])))
        if (low <= 12 < high or low == high) and strict.date(day := f"{found[3]}-{low:02}-{high:02}"):
            return around(stem, found), day
    for found in MONTH.finditer(stem):
        if strict.date(day := f"{found[1]}-{found[2]}-01"):
            return around(stem, found), day
    for found in NAMED_MONTH.finditer(stem):
        if month := MONTHS.get(folded(found[1] or found[4])):
            return around(stem, found), f"{found[2] or found[3]}-{int(month):02}-01"
    return stem, ""


def around(stem: str, found: re.Match[str]) -> str:
    """Returns what is before a date, or what is behind it if nothing is before. What is behind may change monthly."""
    return stem[:found.start()].strip(" _-.([") or stem[found.end():].strip(" _-.)]")


def package(text: str) -> str:
    """Returns a text as a package, with the characters that a release's name may have."""
    text = unicodedata.normalize("NFKD", text.replace("&", "and").replace("ß", "ss"))
    text = "".join(it for it in text if unicodedata.category(it) != "Mn")
    text = re.sub(r"_{3,}", "_", re.sub(r"[^A-Za-z0-9._-]", "_", text)).strip("_").lstrip(".")
    return text[:LONGEST]


def release(path: str, given_package: str, given_day: str) -> str:
    """Returns the name of the release of a file. The arguments win over the file's name."""
    base = "" if path == "-" else os.path.basename(path)
    found = RELEASE.fullmatch(base)
    is_release = found is not None and strict.date(found[2]) is not None
    stem, day = found.groups() if found and is_release else dated(COPY.sub("", ENDINGS.sub("", base)))
    if given_package and package(given_package) != given_package:
        raise WrongArguments("--package: at most 100 letters, digits, '-', '_' and '.' are accepted, as in "
                             f"{package(given_package) or 'Acme_All'}")
    name, day = given_package or (stem if is_release else package(COPY.sub("", stem))), given_day or day
    if given_day and (not strict.date(given_day) or len(given_day) != 10):
        raise WrongArguments(f"--date: {given_day} is not a day, as 2024-01-31")
    if not re.search("[A-Za-z0-9]", name):
        raise Refused("the file's name gives no package: --package PACKAGE fixes it")
    if not day:
        raise Refused("the file's name has no date: --date YYYY-MM-DD gives one")
    if datetime.date.fromisoformat(day) > datetime.datetime.now(datetime.timezone.utc).date() + AHEAD:
        raise Refused(f"the day {day} is more than {AHEAD.days} days ahead: the package would not change until then")
    return f"{name}_{day}.txt"
