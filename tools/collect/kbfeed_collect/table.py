"""The outcome of a run: as a table for a mail, and as JSON for programs."""
import dataclasses
import datetime
import json
from typing import NamedTuple

from kbfeed_convert.ending import shown

from .publishing import NO_SOURCE
from .undoing import EARLIER
from .visit import Outcome

NUMBERS = ("rows", "dropped", "added", "removed", "changed")
HEAD = ("package", "found", *NUMBERS, "outcome")


class Counts(NamedTuple):
    """How many sources the configuration has, and how many of them were not due."""
    sources: int
    not_due: int


def text(outcomes: list[Outcome], counts: Counts) -> str:
    """Returns a table with a line for each outcome, and a line that counts them."""
    lines = [HEAD, *[(it.package, it.found, *["-" if (value := getattr(it, name)) is None else str(value)
                                             for name in NUMBERS], shown(it.outcome)) for it in outcomes]]
    widths = [max(len(line[at]) for line in lines) for at in range(len(HEAD) - 1)]
    table = []
    for line in lines if outcomes else []:
        cells = [it.rjust(width) if name in NUMBERS else it.ljust(width) for name, it, width in zip(HEAD, line, widths)]
        table.append("  ".join([*cells, line[-1]]))
    visited = sum(it.found not in (NO_SOURCE, EARLIER) for it in outcomes)
    published, failed = sum(bool(it.published) for it in outcomes), sum(bool(it.status) for it in outcomes)
    not_due = f", not due {counts.not_due}" if counts.not_due else ""
    return "\n".join([*table, f"sources {counts.sources}, visited {visited}{not_due}, published {published}, "
                      f"faults {failed}"])


def as_json(outcomes: list[Outcome], counts: Counts, today: datetime.date, status: int) -> str:
    """Returns the outcomes as a JSON object on a line, with the warnings of kbfeed-convert."""
    whole = {"day": str(today), "sources": counts.sources, "not_due": counts.not_due, "status": status,
             "packages": [dataclasses.asdict(it) for it in outcomes]}
    return json.dumps(whole, ensure_ascii=False)
