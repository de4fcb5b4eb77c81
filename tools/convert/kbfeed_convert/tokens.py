"""The tokens of a coverage statement: dates, numbers, signs, and words with what they mean (`coverage.toml`)."""
import pathlib
import re
import tomllib
import unicodedata
from typing import Iterator, NamedTuple

from . import dates
from .texts import TABLES, folded, plain, word_set, words

with open(pathlib.Path(__file__).parent / "coverage.toml", "rb") as file:
    TABLE: dict[str, list[str]] = tomllib.load(file)

MONTHS = words("months")
UNITS = words("units")
NUMBERS = words("numbers")
# The scripts that put no spaces between words.
CJK = "\u3040-\u30ff\u3400-\u9fff\uac00-\ud7af"
# The words of the longest phrase, and the characters of the longest word of such a script.
PHRASE, RUN = 4, 6
# A token: a date in numbers first, then numbers, words and signs.
PATTERN = re.compile(
    r"(?P<ymd>\d{4}(?P<a>[-/.])\d{1,2}(?P=a)\d{1,2}(?!\d))"
    r"|(?P<dmy>\d{1,2}(?P<b>[-/.])\d{1,2}(?P=b)\d{4}(?!\d))"
    r"|(?P<cjk>\d{4} ?[年년](?: ?\d{1,2} ?[月월](?: ?\d{1,2} ?[日号號일])?)?)"
    r"|(?P<compact>(?:1[4-9]|20)\d\d(?:0[1-9]|1[0-2])(?:\d\d)?(?!\d))"
    r"|(?P<ym>\d{4}(?P<c>[-/.])\d{1,2}(?!\d|(?P=c)\d{1,2}(?!\d)))"
    r"|(?P<my>\d{1,3}[./]\d{4}(?:/\d\d)?(?!\d)|\d\d-\d{4}(?!\d))"
    r"|(?P<year>(?:1[4-9]|20|21)\d\d(?!\d))"
    r"|(?P<code>[rp]\d{1,9}[dmy](?!\w))"
    r"|(?P<quarter>q[1-4](?!\w))"
    r"|(?P<pair>\d{1,4}/\d{1,4}(?!\d))"
    r"|(?P<int>\d{1,9}(?!\d))"
    rf"|(?P<run>[{CJK}]+)"
    rf"|(?P<word>[^\W\d_{CJK}]+)"
    r"|(?P<sign>\S)")
# The short form of `number` in Spanish, and that of `annata` in Italian: a preposition has no full stop.
NUMERO = re.compile(r"\bn\. ?[º°]", re.I)
ANNATA = re.compile(r"\ba\. ?(?=[0-9]{1,3}(?![0-9]))")
LINE_END = re.compile(r"[\r\n]+|<br ?/?>", re.I)
# `01-Jan-1990`. An arrow is a dash, and the dash of `Jan-1990` is none, unless the month belongs to a year before it.
DAY_MONTH = re.compile(r"(?<![0-9])([0-9]{1,2})-([^\W\d_]{3,9})\.?-(?=[0-9]{4}(?![0-9]))")
ARROW = re.compile(r"-+>(?=\s|$|[0-9])|(?<=[0-9)\]]) ?>(?=\s|$|[0-9])|[→⇒➔]")
MONTH_YEAR = re.compile(r"(?<![0-9]{4}[ ,:(])(?<![0-9]{4}, )(?<![^\W_])([^\W\d_]{3,9})\.?-(?=[0-9]{4}(?![0-9/-]))")
YEAR_MONTH = re.compile(r"(?<![0-9/-])([0-9]{4})-([^\W\d_]{3,9})(?![^\W_]|\.? ?,? ?[0-9])")
# Years that are counted from today's: `current year - 1`, and `to last year`.
COUNTED = re.compile(r"\(? ?\bcurrent(?: year| date)? ?(?:-|minus|less) ?([0-9]{1,3})(?![0-9])"
                     r" ?(year|yr|month|week|day)?s?\b\)?")
COUNTED_UNITS = re.compile(r"\b(?:present|today|now|date) ?(?:minus|less) ?([0-9]{1,3}) ?(year|yr|month|week|day)s?\b")
# `1995-01-01/2004-12-31`, and `after 12 months`.
INTERVAL = re.compile(r"(?<=[0-9]{4}-[0-9]{2}-[0-9]{2})/(?=[0-9]{4}-)")
# `9999-12-31` is no end, and `pre-2000` is before a year.
FOREVER = re.compile(r"(?<![0-9])9999(?:[-/.]12[-/.]31)?(?![0-9])")
AROUND = re.compile(r"\b(?:pre|post)-(?=[0-9]{4}(?![0-9]))")
AFTER = re.compile(r"\bafter (?=(?:an? |the |first |initial )?[0-9]{1,3}[ -]?(?:day|week|month|year))")
LAST_YEAR = re.compile(r"(?<=[-o] )(?:the )?(?:last|previous|prior) year\b")
# A year and its quarter, as `2001-IV`.
ROMAN = re.compile(r"(?<![0-9/-])([0-9]{4})[-/](i{1,3}|iv)(?![^\W_])")
# A volume in Roman numerals, as `Vol. XII`.
ROMAN_VOLUME = re.compile(r"(?<![^\W_])([^\W\d_]{1,10}\.? )([ivxlc]{1,8})(?![^\W_]|\.[^\W_])")
LETTERS = {"i": 1, "v": 5, "x": 10, "l": 50, "c": 100}
# The mark of a series before a volume, as in `n.s. v.1` and `ser. 2, v.1`, and `[L=1968]`, which is lacking.
SERIES = re.compile(r"\b(?:[no]\. ?[sf]\.|ser(?:ies?)?\.? ?[0-9]{1,2}(?=[:, ])) ?[:,]? ?"
                    r"(?=(?:(?:v|vol|bd|t|jg|no|n)\.? ?)?[0-9])")
LACKS = re.compile(r"(?<=[\[(])l ?= ?")
# The brackets of MARC around an end that is not known for certain, as in `v.1(1966)- <v.29(1994)>`.
ANGLES = re.compile(r"<([^<>]{1,60})>")
# `Volume 1 / 1971`, and the full stop of `12 mo. delay`.
VOLUME_YEAR = re.compile(r"(?<![^\W_])([^\W\d_]{1,10}\.? ?[0-9]{1,4}) ?/ ?(?=(?:1[4-9]|20)[0-9]{2}(?![0-9/]))")
UNIT_STOP = re.compile(r"([0-9][ -]?)([^\W\d_]{1,5})\.(?=[ )])")
SHORT_UNITS = word_set("single", "stopped")
# An ending in brackets, as of `year(s)`, and one with an apostrophe, as of `1995'ten`.
ENDING = re.compile(r"\((?:s|es|e|en|n)\)")


def meanings() -> dict[str, frozenset[str]]:
    """Returns what each word and phrase means: some have several meanings."""
    found: dict[str, set[str]] = {}
    for meaning, many in [*TABLE.items(), ("ended", TABLES["held"]["cancelled"]),
                          *((it, TABLES["dates"][it]) for it in ("open", "after", "before"))]:
        for word in many:
            found.setdefault(folded(word), set()).update({meaning, "to"} if meaning == "ended" else {meaning})
    for meaning, table in (("month", MONTHS.keys()), ("season", dates.SEASONS.keys()), ("unit", UNITS.keys()),
                           ("number", NUMBERS.keys())):
        for word in table:
            found.setdefault(word, set()).add(meaning)
    found.pop("", None)
    return {word: frozenset(many) for word, many in found.items()}


MEANINGS = meanings()


class Token(NamedTuple):
    """A token: its kind, its text in lower case without accents, the meanings of a word, and whether a space is before
    it."""
    kind: str
    text: str
    meanings: frozenset[str]
    is_apart: bool


NONE: frozenset[str] = frozenset()


def simplified(cell: str) -> str:
    """Returns a statement in lower case, without accents, with the signs of ASCII, and its lines apart."""
    text = ";".join(plain(it) for it in LINE_END.split(NUMERO.sub("num ", cell.replace("、", ","))))
    text = "".join(it for it in unicodedata.normalize("NFKD", text) if unicodedata.category(it) != "Mn")
    text = dates.long_years(ENDING.sub("", unicodedata.normalize("NFC", text).casefold()))
    text = DAY_MONTH.sub(lambda it: f"{it[1]} {it[2]} " if it[2] in MONTHS else it[0], text)
    text = MONTH_YEAR.sub(lambda it: f"{it[1]} " if it[1] in MONTHS else it[0], text)
    text = YEAR_MONTH.sub(lambda it: f"{it[1]} {it[2]}" if it[2] in MONTHS else it[0], text)
    text = ROMAN.sub(lambda it: f"q{('i', 'ii', 'iii', 'iv').index(it[2]) + 1} {it[1]}", text)
    text = FOREVER.sub("present", INTERVAL.sub(" - ", text.replace("post-cancel", "postcancel")))
    text = AROUND.sub(lambda it: "before " if it[0] == "pre-" else "after ", text)
    if "year" in text or "month" in text or "current" in text:
        text = COUNTED_UNITS.sub(r"\1 \2 ago", AFTER.sub("embargo ", text))
        text = LAST_YEAR.sub("1 year ago", COUNTED.sub(lambda it: f" {it[1]} {it[2] or 'year'} ago", text))
    text = ROMAN_VOLUME.sub(lambda it: f"{it[1]}{roman(it[2])}" if is_volume(it[1]) else it[0], text)
    if "/" in text:
        text = VOLUME_YEAR.sub(lambda it: f"{it[1]} " if is_volume(it[1]) else it[0], text)
    text = UNIT_STOP.sub(lambda it: it[1] + it[2] if it[2] in SHORT_UNITS else it[0], text)
    text = LACKS.sub("lacks ", SERIES.sub("", text))
    if ">" in text or "→" in text:
        text = ANGLES.sub(lambda it: f" {it[1]} " if re.search("[0-9]", it[1]) else it[0], text)
        text = ARROW.sub("-", text)
    return dates.APART.sub(r"\1", ANNATA.sub("vol ", text).replace("t/m", "tot"))


def roman(text: str) -> int:
    """Returns a number in Roman numerals."""
    digits = [LETTERS[it] for it in text]
    return sum(-one if one < two else one for one, two in zip(digits, [*digits[1:], 0]))


def is_volume(text: str) -> bool:
    """Returns whether a text begins with a word for a volume."""
    return "volume" in MEANINGS.get(re.split("[^a-z]", text)[0], NONE)


def tokens(cell: str) -> list[Token]:
    """Returns the tokens of a statement. The longest phrase that the table has is one token."""
    found: list[Token] = []
    pending: list[Token] = []
    at = 0
    text = simplified(cell)
    for match in PATTERN.finditer(text):
        kind = match.lastgroup or ""
        token = Token(kind, match[0], NONE, match.start() > at)
        at = match.end()
        if kind == "word":
            pending.append(token)
            continue
        if kind == "sign" and match[0] in "'’" and pending:
            continue
        found += phrases(pending)
        pending.clear()
        if kind == "run":
            found += run_words(token)
        else:
            found.append(token)
    return found + list(phrases(pending))


def phrases(many: list[Token]) -> Iterator[Token]:
    """Yields words, of which those that make a phrase of the table are one."""
    at = 0
    while at < len(many):
        for count in range(min(PHRASE, len(many) - at), 0, -1):
            text = " ".join(it.text for it in many[at:at + count])
            if text in MEANINGS or count == 1:
                yield Token("word", text, MEANINGS.get(text, NONE), many[at].is_apart)
                at += count
                break


def run_words(run: Token) -> Iterator[Token]:
    """Yields the words of a run of characters without spaces: the longest that the table has, or one character."""
    at, text = 0, run.text
    while at < len(text):
        for count in range(min(RUN, len(text) - at), 0, -1):
            word = text[at:at + count]
            if word in MEANINGS or count == 1:
                yield Token("word", word, MEANINGS.get(word, NONE), at == 0 and run.is_apart)
                at += count
                break
