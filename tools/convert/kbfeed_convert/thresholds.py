"""Coverage as databases have it: `$obj->parsedDate(">=",1995,1,undef) && $obj->timediff(">","1y")` of SFX, and lists of
issues, `(1995)[1]1,2,3,4(1996)[2]1,2` or `1995:(1,2,3,4)`, of Crossref, and lists of ranges in JSON.

They are written out as a statement, which the grammar of coverage reads."""
import re

from . import jsonlist

CALL = re.compile(r"(?:\$?\w{1,20} ?-> ?)?(parsedDate|timediff) ?\(([^()]{0,100})\)", re.I)
DATES = {">=": "from", ">": "after", "<=": "until", "<": "before", "==": "in", "=": "in"}
UNITS = {"y": "years", "m": "months", "d": "days", "w": "weeks"}
LENGTH = re.compile(r"([0-9]{1,4})([ymdw])", re.I)
# A year, its volume and its issues, any of which but the year may be absent.
ISSUES = re.compile(r"\(([0-9]{4})\)\[([0-9]{0,9})\]([^()\[\]]{0,400})"
                    r"|(?<![0-9])([0-9]{4}) ?: ?\([0-9,; -]{0,400}\)")


def written_out(cell: str) -> str:
    """Returns a statement in which each call of a threshold is in words. Another text stays as it is."""
    if cell[:1] in ("[", "{") and (found := jsonlist.written_out(cell)):
        return found
    if ISSUES.match(cell):
        return years(cell)
    if "parsedDate" not in cell and "timediff" not in cell:
        return cell
    return CALL.sub(in_words, cell).replace("&&", " ").replace("||", ";")


def in_words(call: re.Match[str]) -> str:
    """Returns a call in words, or as it is if its arguments are others."""
    sign, *parts = [it.strip().strip("'\"") for it in call[2].split(",")]
    if call[1].lower() == "timediff":
        length = LENGTH.fullmatch(parts[0]) if len(parts) == 1 else None
        if not length or sign[:1] not in ("<", ">"):
            return call[0]
        end = "not available" if sign[0] == ">" else "available"
        return f"; most recent {length[1]} {UNITS[length[2].lower()]} {end};"
    if sign not in DATES or not parts or not parts[0].isdigit():
        return call[0]
    numbers = [f"{name} {it}" for name, it in zip(("volume", "issue"), parts[1:3]) if it.isdigit()]
    return f" {DATES[sign]} {parts[0]} {' '.join(numbers)}"


def years(cell: str) -> str:
    """Returns a list of issues as a range for each run of years, or as it is if something of it is another text."""
    if ISSUES.sub("", cell).strip(" ;,"):
        return cell
    runs: list[list[tuple[int, str]]] = []
    for one in sorted(((int(it[1] or it[4]), it[2] or "") for it in ISSUES.finditer(cell)), key=lambda it: it[0]):
        if runs and one[0] - runs[-1][1][0] <= 1:
            runs[-1][1] = one
        else:
            runs.append([one, one])
    return "; ".join(" - ".join(f"{year} volume {volume}" if volume else str(year) for year, volume in it)
                     for it in runs)
