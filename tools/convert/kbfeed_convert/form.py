"""The form of a text: its separator, its header, and records of cells.

A quote counts only where it surrounds a cell."""
import collections
import re
from typing import Callable, Iterator, NamedTuple, TextIO

from . import labels, strict
from .faults import COLUMNS, FIELD, LINE, Refused

SEPARATORS = {"tab": "\t", "comma": ",", "semicolon": ";", "bar": "|"}
# The lines that a cell in quotes may have.
AHEAD = 50
# The lines in which the header is looked for, and the labels that it has at least.
SEARCHED = 200
LEAST = 3
DOUBLED = re.compile(r'[^"]*(?:""[^"]*)*')


class Record(NamedTuple):
    """The cells of a record, the line where it begins, how many lines it has, and their characters."""
    line: int
    cells: list[str]
    is_quoted: bool
    lines: int
    size: int


class Form(NamedTuple):
    """Where the header is and what separates cells. `is_kbart` if the strict reader would take the header."""
    separator: str
    line: int
    header: list[str]
    is_kbart: bool


# Whether the lines of a record, each split alone, may be replaced by these cells.
Guard = Callable[[list[list[str]], list[str]], bool]


def numbered_lines(text: TextIO) -> Iterator[tuple[int, str]]:
    """Yields the number and the text of each line that is not empty."""
    number = 0
    while line := text.readline(LINE):
        number += 1
        if len(line) == LINE:
            raise Refused(f"line {number} has more than {LINE - 1} characters")
        line = line.removesuffix("\n")
        if line:
            yield number, line


def cell_pattern(sign: str) -> re.Pattern[str]:
    """Returns the pattern of a cell: in quotes that end before a separator, or up to the next separator."""
    sign = re.escape(sign)
    return re.compile(rf' *"({DOUBLED.pattern})" *(?={sign}|\Z)|([^{sign}]*)')


def split(text: str, pattern: re.Pattern[str]) -> tuple[list[str], bool]:
    """Returns the cells of a text, and whether a quote begins one of them and nothing ends it."""
    cells, at, is_open = [], 0, False
    while True:
        found = pattern.match(text, at)
        assert found
        if found[1] is not None:
            cells.append(found[1].replace('""', '"'))
        else:
            cells.append(found[2])
            # Nothing ends a quote if all quotes behind it are doubled.
            if found[2].lstrip(" ").startswith('"') and DOUBLED.fullmatch(text, text.index('"', at) + 1):
                is_open = True
        at = found.end()
        if at >= len(text):
            return cells, is_open
        at += 1
        if at == len(text):
            return cells + [""], is_open


def records(lines: Iterator[tuple[int, str]], sign: str, width: int, guard: Guard | None = None) -> Iterator[Record]:
    """Yields the records of lines.

    A quote that is open at the end of a line joins it with the next one, if that does not make more cells than the
    header has, and if the guard agrees."""
    ahead: collections.deque[tuple[int, str]] = collections.deque()
    pattern = cell_pattern(sign)
    while True:
        number, line = ahead.popleft() if ahead else next(lines, (0, ""))
        if not number:
            return
        if '"' not in line:
            yield Record(number, line.split(sign), False, 1, len(line))
            continue
        alone = line.split(sign)
        cells, is_open = split(line, pattern)
        parts, text, taken = [alone], line, 0
        while is_open and taken < AHEAD and len(text) < FIELD:
            if taken == len(ahead):
                following = next(lines, (0, ""))
                if not following[0]:
                    break
                ahead.append(following)
            text += "\n" + ahead[taken][1]
            parts.append(ahead[taken][1].split(sign))
            taken += 1
            cells, is_open = split(text, pattern)
        if taken and (is_open or len(cells) > width or guard and not guard(parts, cells)):
            cells, taken = split(line, pattern)[0], 0
        if not taken and guard and not guard([alone], cells):
            cells = alone
        for _ in range(taken):
            ahead.popleft()
        yield Record(number, cells, taken > 0 or cells != alone, 1 + taken, len(text))


def strict_guard(header: list[str]) -> Guard:
    """Returns the guard of a list that is KBART: no line that reads by itself may lose anything."""
    places = strict.columns(header) or {}

    def row(cells: list[str]) -> strict.Row | str:
        return strict.row({label: cells[at] if at < len(cells) else "" for label, at in places.items()})

    def guard(parts: list[list[str]], whole: list[str]) -> bool:
        rows = [it for it in map(row, parts) if isinstance(it, strict.Row)]
        return not rows or len(rows) == 1 and strict.keeps(rows[0], row(whole))
    return guard


def find(text: TextIO, renamed: dict[str, str]) -> Form:
    """Finds the header: the first line with three labels, with the separator that gives it the most."""
    first: list[tuple[int, str]] = []
    size = 0
    for number, line in numbered_lines(text):
        first.append((number, line))
        size += len(line)
        if len(first) == SEARCHED or size > LINE:
            break
    if not first:
        raise Refused("empty: it has no records: get it again")
    header = first[0][1].lstrip("\ufeff").split("\t")
    if strict.columns(header):
        return within_limit(Form("tab", first[0][0], header, True))
    counted: list[tuple[int, Form]] = []
    backed: list[tuple[int, Form]] = []
    for name, sign in SEPARATORS.items():
        above: list[str | None] = []
        for record in records(iter(first), sign, COLUMNS):
            cells = record.cells[:COLUMNS + 1]
            if labels.has_numbers_below(above, cells):
                backed.append(counted[-1])
            counted.append((labels.known(cells, renamed), Form(name, record.line, cells, False)))
            if counted[-1][0] >= LEAST:
                break
            above = [renamed.get(it.strip()) or labels.label(it) for it in cells]
    good = [it for it in counted if it[0] >= LEAST] or backed
    if not good:
        raise Refused(f"no header: no line has {LEAST} known labels, and --map can give some. The nearest are "
                      f"{nearest(counted, first)}")
    header_line = min(form.line for _, form in good)
    best = max((it for it in good if it[1].line == header_line), key=lambda it: it[0])[1]
    return within_limit(with_second_line(best, first, renamed))


def with_second_line(form: Form, first: list[tuple[int, str]], renamed: dict[str, str]) -> Form:
    """Returns a form whose header is joined with the line below, if that is its second line, or with the line above, if
    the header is the second line of that."""
    found = [it for it in records(iter(first), SEPARATORS[form.separator], COLUMNS) if len(it.cells) <= COLUMNS]

    def label(cell: str) -> str | None:
        return renamed.get(cell.strip()) or labels.label(cell)

    second = next((it for it in found if it.line > form.line), None)
    if second and (joined := labels.with_second(form.header, second.cells, label)):
        return form._replace(header=joined, line=second.line)
    above = next((it for it in reversed(found) if it.line < form.line), None)
    joined = labels.with_second(above.cells, form.header, label) if above else []
    names, alone = (list(filter(None, map(label, it))) for it in (joined, form.header))
    # `Print` and `Online` above two columns `From`: the labels are as many, and none is there twice.
    is_better = len({*names}) > len({*alone}) or {*names} == {*alone} and len(names) < len(alone)
    return form._replace(header=joined) if is_better else form


def nearest(counted: list[tuple[int, Form]], first: list[tuple[int, str]]) -> str:
    """Returns the three lines with the most labels, in the order of the file."""
    texts = dict(first)
    best = sorted(counted, key=lambda it: (-it[0], it[1].line))
    numbers = sorted(list(dict.fromkeys(form.line for _, form in best))[:3])
    return "; ".join(f"line {it}: {texts[it][:60]!r}" for it in numbers)


def within_limit(form: Form) -> Form:
    """Returns a form if its header is within the limits."""
    if len(form.header) > COLUMNS:
        raise Refused(f"the header has more than {COLUMNS} columns")
    return form


def body(text: TextIO, form: Form) -> Iterator[Record]:
    """Yields the records behind the header."""
    guard = strict_guard(form.header) if form.is_kbart else None
    lines = (it for it in numbered_lines(text) if it[0] >= form.line)
    for record in records(lines, SEPARATORS[form.separator], max(len(form.header), 2), guard):
        if record.line == form.line:
            continue
        if record.size > FIELD and max(map(len, record.cells)) > FIELD:
            raise Refused(f"line {record.line} has a cell of more than {FIELD} characters")
        yield record
