"""What was done with each record: as JSON for programs, and in ten lines for people."""
import collections
import json
import re
from typing import Any, Callable

from . import form, strict, unused
from .faults import Internal
from .record import WIDENING, Change, Outcome
from .texts import counted
from .values import PLACEHOLDER

# The rules that guess, lose or add something.
DOUBTFUL = re.compile("not read|partly read|narrowest|not decided|placeholder|no link|rows|begin again|are open"
                      "|decide the type")
PLACEHOLDER_BEGIN = re.compile(r"[\[{<%$]")
# How many different placeholders are counted.
PLACEHOLDERS = 100
# Records dropped for these reasons hold nothing.
NOTHING_LOST = {"Blank", "Header", "NotHeld"}
SEVERAL_ROWS = "a record is several rows"
QUOTES = "quotes around cells are no part of the text"
# The lines on standard error, unless all are asked for.
SHORT = 10
# The cells of a dropped record that the report has.
SHOWN = 25


class Report:
    """Counts records and rows, and writes the report while the list is converted.

    Nothing in it grows with the list."""

    def __init__(self, write: Callable[[str], None] | None, head: dict[str, Any], warnings: list[str]):
        self.out, self.warnings = write, warnings
        self.records = self.converted = self.rows = 0
        self.dropped: collections.Counter[str] = collections.Counter()
        # How many rows have an address, and how many each placeholder in it.
        self.addresses = 0
        self.placeholders: collections.Counter[str] = collections.Counter()
        # For each rule how many records it changed, and the first of them.
        self.rules: dict[str, list[int]] = {}
        # For each rule by which rows may have more than their source: how many records, the first one, and cells.
        self.widened: dict[tuple[str, str], dict[str, Any]] = {}
        self.suspects: list[dict[str, Any]] = []
        self.before: strict.Row | None = None
        self.comma = "\n"
        self.write("{")
        for key, value in head.items():
            self.write(f"{as_json(key)}: {as_json(value)},\n")
        self.write('"records": [')

    def write(self, text: str) -> None:
        """Writes a part of the JSON, if a report is wanted."""
        if self.out:
            self.out(text)

    def note(self, rule: str, number: int) -> None:
        """Counts a record for a warning."""
        self.rules.setdefault(rule, [0, number])[0] += 1

    def record(self, given: form.Record, outcome: Outcome) -> None:
        """Adds a record: the numbers of its rows, or why it has none. The header is record 1, and row 1."""
        self.records += 1
        number = self.records + 1
        if outcome.rows:
            said = f'"rows": {[self.rows + 2 + at for at in range(len(outcome.rows))]}'
            self.converted += 1
            self.rows += len(outcome.rows)
            if len(outcome.rows) > 1:
                self.note(SEVERAL_ROWS, number)
        else:
            self.dropped[outcome.dropped] += 1
            said = as_json({"dropped": outcome.dropped, "why": outcome.why, "cells": given.cells[:SHOWN]})[1:-1]
        if given.lines > 1:
            self.note("a line end in a cell is a space", number)
        if given.is_quoted:
            self.note(QUOTES, number)
        for row, read in outcome.rows:
            self.address(row["title_url"], number)
            self.volumes(read, number)
        for rule in dict.fromkeys([f"{it.label}: {it.rule}" for it in outcome.changes]):
            self.note(rule, number)
        for change in outcome.changes:
            if change.rule in WIDENING:
                self.widen(change, number)
        if self.out:
            self.write_record(given.line, said, [change_text(*it) for it in outcome.changes])

    def quick(self, given: form.Record, changes: list[str], rules: list[str], reads: list[strict.Row]) -> None:
        """Adds a record whose rows have a good address. Its changes are texts, each with its rule."""
        self.records += 1
        self.converted += 1
        self.rows += len(reads)
        self.addresses += len(reads)
        number = self.records + 1
        if len(reads) > 1:
            self.note(SEVERAL_ROWS, number)
        if given.is_quoted:
            self.note(QUOTES, number)
        for read in reads:
            # Nothing is noted of a row whose identifiers are not those of the row before.
            if self.before and self.before[1:3] == read[1:3]:
                self.volumes(read, number)
            else:
                self.before = read
        for rule in rules if len(reads) == 1 else dict.fromkeys(rules):
            self.note(rule, number)
        if self.out:
            rows = self.rows + 1 if len(reads) == 1 else ", ".join(
                str(self.rows + 2 - at) for at in range(len(reads), 0, -1))
            self.write_record(given.line, f'"rows": [{rows}]', changes)

    def write_record(self, line: int, said: str, changes: list[str]) -> None:
        """Writes a record of the report."""
        number = self.records + 1
        text = ", ".join([f'{{"record": {number}, {it}' for it in changes])
        self.write(f'{self.comma}{{"record": {number}, "line": {line}, {said}'
                   + (f', "changes": [{text}]}}' if text else "}"))
        self.comma = ",\n"

    def widen(self, change: Change, number: int) -> None:
        """Counts a cell by which a row may have more than its source, or less."""
        found = self.widened.setdefault((change.label, change.rule), {
            "label": change.label, "rule": change.rule, "records": 0, "first": number, "last": 0, "cells": []})
        if found["last"] != number:
            found["records"] += 1
            found["last"] = number
        if len(found["cells"]) < unused.CELLS and change.old[:100] not in found["cells"]:
            found["cells"].append(change.old[:100])

    def address(self, url: str, number: int) -> None:
        """Warns of an address that a reader cannot follow."""
        self.addresses += bool(url)
        if url.startswith(("http://", "https://")) and not PLACEHOLDER_BEGIN.search(url):
            return
        if found := set(PLACEHOLDER.findall(url)):
            self.note("the address has a placeholder: --map fills it", number)
            if len(self.placeholders) < PLACEHOLDERS:
                self.placeholders.update(found)
        elif url.strip() and not url.lower().startswith(("http://", "https://")):
            self.note("the address is no link", number)

    def volumes(self, new: strict.Row, number: int) -> None:
        """Warns if the volumes of two rows of a title overlap, and their days do not: volumes began again."""
        old, self.before = self.before, new
        if (old and old[1:3] == new[1:3] and old.last_day and new.first_day and old.last_day < new.first_day
                and old.first_volume is not None and old.last_volume is not None and new.first_volume is not None
                and new.first_volume <= old.last_volume
                and (new.last_volume is None or old.first_volume <= new.last_volume)):
            self.note("the volumes of a title begin again", number)

    def end(self, suspects: list[dict[str, Any]], categories: list[str], refused: str = "") -> None:
        """Writes the end of the report. `suspects` are the columns that should perhaps be used, `categories` a warning
        of those that only may be, and `refused` is why nothing else was written."""
        self.suspects = suspects
        if self.records != self.converted + sum(self.dropped.values()):
            raise Internal("the counts of records do not add up")
        # Doubtful ones first: only ten lines are printed.
        rules = sorted(self.rules.items(), key=lambda it: not DOUBTFUL.search(it[0]))
        self.warnings += map(unused.warning, suspects)
        self.warnings += [f"{rule}: {counted(count, 'record')}, the first is {first}" for rule, (count, first) in rules]
        self.warnings += categories
        counts = {"records": self.records, "converted": self.converted, "dropped": dict(self.dropped),
                  "rows": self.rows}
        widened = [{key: it[key] for key in it if key != "last"} for it in self.widened.values()] + suspects
        end: dict[str, Any] = {"warnings": self.warnings, "widened": widened, "counts": counts, "refused": refused}
        end = {key: value for key, value in end.items() if value or key in ("warnings", "counts")}
        self.write("\n],\n" + ",\n".join(f"{as_json(key)}: {as_json(value)}" for key, value in end.items()) + "}\n")

    def lost(self) -> int:
        """Returns the number of dropped records that hold something."""
        return sum(count for reason, count in self.dropped.items() if reason not in NOTHING_LOST)

    def own(self, outcome: Outcome) -> None:
        """Adds what the last record says to one library alone."""
        number = self.records + 1
        if outcome.dropped == "BadDate":
            self.note("the library's own coverage does not read: the title is not held", number)
        for change in outcome.changes:
            if change.rule in WIDENING:
                self.widen(change._replace(label=f"own {change.label}"), number)

    def unfilled(self) -> str:
        """Returns in words which placeholder more than half of the addresses have, or nothing."""
        for text, count in self.placeholders.most_common(1):
            if 2 * count > self.addresses:
                return f"{count} of {self.addresses} addresses have {text}, which a library has to fill"
        return ""

    def doubt(self) -> str:
        """Returns in words how many records and columns make rows that may have more than their source, or nothing."""
        records = sum(it["records"] for it in self.widened.values())
        parts = [counted(records, "cell")] if records else []
        parts += [counted(len(self.suspects), "column")] if self.suspects else []
        return f"coverage may be wider or narrower than the source by {' and '.join(parts)}" if parts else ""

    def counts(self) -> str:
        """Returns in words how many records and rows there are, and how many records were dropped, and why."""
        dropped = ", ".join(f"{count} {reason}" for reason, count in self.dropped.items()) or "none"
        return f"{counted(self.records, 'record')}, {counted(self.rows, 'row')}, dropped: {dropped}"

    def summary(self, is_whole: bool, is_strict: bool) -> list[str]:
        """Returns what may be wrong with the coverage, the counts and the warnings, at most ten lines unless all are
        asked for. With --strict its reason is printed behind them."""
        doubt = "" if is_strict else self.doubt()
        lines = [*([f"{doubt}: the report has them as \"widened\""] if doubt else []), self.counts(), *self.warnings]
        if is_whole or len(lines) <= SHORT:
            return lines
        return lines[:SHORT - 1] + [f"and {len(lines) - SHORT + 1} more warnings: -v prints them all"]


# The string of JSON for a text: a list has a record for each row, and the general form takes longer.
quoted = json.JSONEncoder(ensure_ascii=False).encode


def change_text(label: str, old: str, new: str, rule: str) -> str:
    """Returns a change as a part of JSON, without the number of its record."""
    return f'"label": {quoted(label)}, "from": {quoted(old)}, "to": {quoted(new)}, "rule": {quoted(rule)}}}'


def as_json(value: Any) -> str:
    """Returns a value as JSON."""
    return json.dumps(value, ensure_ascii=False)
