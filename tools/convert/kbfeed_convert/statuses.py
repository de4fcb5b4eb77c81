"""What a cell says of whether readers have a title, in many languages: subscribed, not available, cancelled."""
import re

from .texts import folded, remembered, word_set
from .tokens import MEANINGS, NONE

SAID = {kind: word_set("held", kind) for kind in ("yes", "no", "cancelled", "free")}
# The phrases of all kinds, the longest first: `not subscribed` before `subscribed`.
PHRASES = sorted(((phrase, kind) for kind, many in SAID.items() for phrase in many), key=lambda it: -len(it[0]))
# A phrase of a script without spaces is found anywhere.
PATTERN = re.compile("|".join(re.escape(it) if it[0] >= "\u3000" else rf"\b{re.escape(it)}\b" for it, _ in PHRASES))
KINDS = dict(reversed(PHRASES))
NOT_BEFORE = re.compile("[未不無无非]$")
LONGEST = 100
# Words beside a phrase that say nothing, as in `no longer subscribed`.
BESIDE = word_set("held", "beside")


@remembered
def verdict(cell: str) -> str:
    """Returns `yes`, `no`, `cancelled` or `free`, or nothing for a cell that is not understood as a whole.

    A digit may be of a date: what that says is more than a status."""
    if len(cell) > LONGEST or any(map(str.isdigit, cell)):
        return ""
    text = folded(cell)
    said = {KINDS[it[0]] if not NOT_BEFORE.search(text[:it.start()]) else "no" for it in PATTERN.finditer(text)}
    left = PATTERN.sub(" ", text)
    rest = NOT_BEFORE.sub("", left.strip()).split()
    if any("not" in MEANINGS.get(it, NONE) for it in rest):
        # `not currently subscribed`
        said = {"no"} if said == {"yes"} else set()
    is_whole = all(it in BESIDE or MEANINGS.get(it, NONE) & {"filler", "not", "and", "available"} for it in rest)
    if not said or not is_whole:
        return ""
    return next(it for it in ("cancelled" if said == {"cancelled", "yes"} else "no", "cancelled", "free", "yes")
                if it in said)


def is_negated(cell: str) -> bool:
    """Returns whether a cell has a word as `not`, and is not understood as a whole."""
    return not verdict(cell) and any("not" in MEANINGS.get(it, NONE) for it in folded(cell[:LONGEST]).split()[:-1])
