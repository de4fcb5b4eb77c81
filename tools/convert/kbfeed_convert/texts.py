"""The tables, and the forms of a text in which it is compared with their words."""
import functools
import pathlib
import re
import tomllib
import unicodedata
from typing import Any, Callable, TypeVar

with open(pathlib.Path(__file__).parent / "tables.toml", "rb") as file:
    TABLES: dict[str, Any] = tomllib.load(file)

DASHES = {ord(it): "-" for it in "‐‑‒–—―−⁃﹘﹣－˗"}
INVISIBLE = {ord(it): None for it in "\u00ad\u200b\u200c\u200d\u2060\ufeff\u200e\u200f"}
SPACES = {ord(it): " " for it in "\u00a0\u1680\u2000\u2001\u2002\u2003\u2004\u2005\u2006\u2007\u2008\u2009\u200a\u202f"
          "\u205f\u3000\t\r\n"}
ALIKE: dict[int, str | None] = {**DASHES, **INVISIBLE, **SPACES}

# A line end inside a cell that is between two numbers, as those of two ranges, or before a volume.
LINE_END = re.compile(r"(?:(?<=[0-9-])[ \t]*[\r\n]\s*(?=[0-9])"
                      r"|(?<=[0-9)-])[ \t]*[\r\n]\s*(?=(?:v|vol|bd|jg|t)\.? ?[0-9]))", re.I)

# One behind a dash, before a line without any: it is inside a range.
DASH_END = re.compile(r"(?<=[-–—])[ \t]*[\r\n]+[ \t]*(?=[0-9][^\r\n–—-]*(?:[\r\n]|\Z))")

# The cells that a cache keeps, and how to empty each cache.
SIZE = 8_192
CACHES: list[Callable[[], None]] = []
Function = TypeVar("Function", bound=Callable[..., Any])


def remembered(function: Function) -> Function:
    """Caches a function of a cell, as the cells of a list repeat."""
    cached: Any = functools.lru_cache(maxsize=SIZE)(function)
    CACHES.append(cached.cache_clear)
    return cached       # type: ignore[no-any-return]


def forget() -> None:
    """Empties all caches. After a record with long cells, memory must not grow with the list."""
    for clear in CACHES:
        clear()


def plain(text: str) -> str:
    """Returns a text with the digits, dashes and spaces of ASCII, and without more than one space at a place.

    Patterns with `\\s*` would take long for many spaces."""
    if not text.isascii() or not text.isprintable():
        text = unicodedata.normalize("NFKC", text.translate(ALIKE)).translate(ALIKE)
    return re.sub(" {2,}", " ", text).strip() if "  " in text else text.strip()


def with_signs(text: str) -> str:
    """Returns a text with a semicolon for each line end between two numbers."""
    return LINE_END.sub("; ", DASH_END.sub(" ", text)) if "\n" in text or "\r" in text else text


@remembered
def folded(text: str) -> str:
    """Returns the words of a text in lower case, without accents and signs, and with one space between them."""
    text = re.sub(r"(?<=[a-z])(?=[A-Z])", " ", plain(text))
    text = "".join(it for it in unicodedata.normalize("NFKD", text) if unicodedata.category(it) != "Mn")
    return re.sub(r"[\W_]+", " ", unicodedata.normalize("NFC", text).casefold()).strip()


def words(table: str) -> dict[str, str]:
    """Returns a table that maps each value to the words that mean it, turned round: from folded word to value."""
    return {folded(word): value for value, many in TABLES[table].items() for word in many}


def word_set(table: str, key: str) -> frozenset[str]:
    """Returns the folded words of one entry of a table."""
    return frozenset(folded(word) for word in TABLES[table][key])


def counted(number: int, noun: str) -> str:
    """Returns a number and a noun, as `1 row` and `2 rows`."""
    return f"{number} {noun}{'s' if number != 1 else ''}"
