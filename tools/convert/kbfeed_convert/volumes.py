"""Volumes with words around them. A cell that surely has no number stays as it is: the reader counts it as absent."""
import re

from . import strict
from .texts import plain, remembered, word_set

WORDS = "|".join(sorted((re.escape(it) for it in word_set("volumes", "before")), key=len, reverse=True))
# A letter may not follow a word: `vol 3` and not `volley 3`.
BEFORE = rf"(?:(?:{WORDS})(?![^\W\d])\.?\s*:?\s*|[第제]\s*)"
BEHIND = r"\s*(?:\.0+|st|nd|rd|th|巻|卷|권|집)?\s*(?:[,;:(].*)?"
VOLUME = re.compile(rf"{BEFORE}?([0-9]{{1,9}})(?:\s*[-/]\s*{BEFORE}?([0-9]{{1,9}}))?{BEHIND}", re.I)


@remembered
def read(cell: str, is_last: bool) -> str:
    """Returns the number of a volume, of two the first or the last one, or the cell if it has none."""
    if not cell or strict.volume(cell) is not None:
        return cell
    # `5-` is a first volume and no last one.
    found = VOLUME.fullmatch(plain(cell) if is_last else plain(cell).rstrip("- "))
    if not found:
        return cell
    return is_last and found[2] or found[1]


def both(cell: str) -> tuple[str, str]:
    """Returns the first and the last volume of a range in one cell: `1-25`, `Vol. 3 -`, `12`."""
    text = plain(cell)
    numbers = re.findall(r"(?<![0-9])[0-9]{1,9}(?![0-9])", text)
    if len(numbers) == 1:
        return numbers[0], "" if re.search(r"-\D*$", text) else numbers[0]
    return (numbers[0], numbers[1]) if len(numbers) == 2 else ("", "")
