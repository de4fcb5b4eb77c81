"""The ISSNs and ISBNs of a cell. A number counts only if its check character fits."""
import decimal
import re
from typing import Iterator, NamedTuple

from . import strict
from .texts import folded, plain, remembered, word_set


class Number(NamedTuple):
    """An ISSN or an ISBN in its kept form."""
    kind: str
    text: str


# At each place in this order: an ISBN of 13 digits, an ISSN, an ISBN of 10. Hyphens and spaces may be between them.
CANDIDATE = re.compile(
    r"(?<![0-9])(?:(?P<long>97[89](?:[- ]{0,3}[0-9]){10})"
    r"|(?P<issn>[0-9](?:-?[0-9]){3} {0,3}-? {0,3}(?:[0-9]-?){3} ?[0-9Xx])"
    r"|(?P<short>[0-9](?:[- ]?[0-9]){8}[- ]?[0-9Xx]))(?![0-9Xx])")
# Letters of other scripts that look like an X, and letters that look like a digit.
TEN = str.maketrans(dict.fromkeys("ХхΧχ×", "X"))
ALIKE = str.maketrans("OoQIl|", "000111")
SCIENTIFIC = re.compile(r"[0-9](?:[.,][0-9]+)?[eE]\+?[0-9]{1,2}")
# What may be behind a number in brackets, how many characters before it are looked at, letters that are no part of
# one, and the words of each side.
BEHIND = re.compile(r"\s*[(\[]([^()\[\]]{1,40})[)\]]")
BESIDE = 60
LETTERS = re.compile(r"[^\W\dXx_]")
SIDES = {side: word_set("words", side) | word_set("words", number) | word_set("numbers_of", side)
         for side, number in (("print", "print_number"), ("online", "electronic_number"))}
YEARS = re.compile(r"(?:1[4-9]|20)[0-9]{2}-(?:1[4-9]|20)[0-9]{2}")


def is_scientific(text: str) -> bool:
    """Returns whether a cell is a number in the scientific form of a spreadsheet."""
    return SCIENTIFIC.fullmatch(plain(text)) is not None


def written_out(text: str) -> str:
    """Returns a number that a spreadsheet wrote as a real one, if it has all its digits, or else the text.

    `9.780306406157E+12` has them, and `9.78E+12` does not."""
    if text.endswith(".0") and text[:-2].isdigit():
        return text[:-2]
    if SCIENTIFIC.fullmatch(text):
        value = decimal.Decimal(text.replace(",", "."))
        if value.as_tuple().exponent == 0:
            return format(value, "f")
    return text


@remembered
def numbers(cell: str) -> tuple[Number, ...]:
    """Returns the numbers of a cell in their order, each once.

    A cell without one is read again as a number that lost zeros, and with letters that look like digits."""
    if kept := strict.issn(cell):
        return (Number("issn", kept),)
    text = written_out(plain(cell).translate(TEN))
    found = list(dict.fromkeys(scan(text)))
    if len(found) > 1:
        # A range of years beside an ISSN may have a check character that fits.
        found = [it for it in found if not (YEARS.fullmatch(it.text) and it.text[:4] <= it.text[5:])] or found
    return tuple(found) or tuple(lost_zeros(text)) or tuple(scan(text.translate(ALIKE)))


@remembered
def sides(cell: str) -> tuple[tuple[Number, str], ...]:
    """Returns the numbers of a cell beside which a word says that they are of print or online.

    The word is in brackets behind the number, as `2434-561X (print)`, or else before it, as `e-ISSN: 2434-561X`."""
    if not LETTERS.search(cell):
        return ()
    text = plain(cell).translate(TEN)
    found: dict[Number, str] = {}
    begin = 0
    for number, start, end in places(text):
        behind = BEHIND.match(text, end)
        side = side_of(behind[1]) if behind else ""
        if side := side or side_of(text[max(begin, start - BESIDE):start]):
            found.setdefault(number, side)
        begin = behind.end() if behind else end
    return tuple(found.items())


def side_of(text: str) -> str:
    """Returns `print` or `online` if the words of a text say one of them, or nothing."""
    tokens = {*re.findall(r"[^\W\d_]+", folded(text))}
    said = [side for side, words in SIDES.items() if tokens & words]
    return said[0] if len(said) == 1 else ""


def scan(text: str) -> Iterator[Number]:
    """Yields the numbers of a text."""
    return (number for number, _, _ in places(text))


def places(text: str) -> Iterator[tuple[Number, int, int]]:
    """Yields the numbers of a text, each with the places at which it begins and ends."""
    at = 0
    while match := CANDIDATE.search(text, at):
        at = match.start() + 1
        kind = "issn" if match["issn"] else "isbn"
        digits = re.sub("[- ]", "", match[0])
        kept = strict.issn(digits) if kind == "issn" else strict.isbn(digits)
        if kept:
            yield Number(kind, kept), *match.span()
            at = match.end()


def lost_zeros(text: str) -> Iterator[Number]:
    """Yields the number of a text that lost the zeros before it: up to three of an ISSN, one of an ISBN-10."""
    digits = text.replace("-", "")
    if re.fullmatch(r"[1-9][0-9]{3,5}[0-9Xx]", digits) and (kept := strict.issn(digits.zfill(8))):
        yield Number("issn", kept)
    elif re.fullmatch(r"[1-9][0-9]{7}[0-9Xx]", digits) and (kept := strict.isbn("0" + digits)):
        yield Number("isbn", kept)
