"""A list that is open: its text, its header, and what the map, the profile and the arguments say of it."""
import argparse
import codecs
import io
import os
import re
from typing import IO, Any, Iterator, NamedTuple

from . import dates, encoding, form, identifiers, labels, mapping, source, strict, unused
from .choosing import Chooser
from .faults import WrongArguments
from .record import DATES, ISSUES, NUMBERS, PUBLISHED, VOLUMES, Converter, Settings
from .texts import folded

# The records by which columns are guessed.
SAMPLE = 50
# The labels whose absence is worth a warning. Identifiers need none: a record without them is dropped.
EXPECTED = ("publication_title", "title_url")
# The different cells that a column has at most that says which titles are held.
HELD_CELLS = 10
# The column of KBART lists of OCLC whose rows may be deletions.
ACTION = "action"
# The labels beside which no column of embargoes is guessed.
EMBARGOES = ("embargo_info", "embargo_days", "embargo_months", "embargo_years")


class Opened(NamedTuple):
    """A list whose header was found. `head` is the beginning of its report."""
    text: io.TextIOWrapper
    shape: form.Form
    columns: labels.Columns
    rules: mapping.Map
    settings: Settings
    head: dict[str, Any]
    warnings: list[str]

    def records(self) -> Iterator[form.Record]:
        """Yields the records from the first one."""
        self.text.seek(0)
        return form.body(self.text, self.shape)

    def converter(self, is_shared: bool = False) -> Converter:
        """Returns a converter of the records: of those that a library holds, or of all, without what is its own."""
        return Converter(self.columns, self.settings, self.shape, Chooser(self.rules, self.shape.header, is_shared))


def opened(given: argparse.Namespace, name: str) -> Opened:
    """Opens a list, and finds its header and the order of day and month. `name` is that of the release."""
    rules = given_rules(given)

    def label(cell: str) -> str | None:
        return rules.labels.get(cell.strip()) or labels.label(cell)

    file, sheet, left_out = source.open_list(given.file, given.sheet, label, form.LEAST)
    found = text_encoding(given, file, sheet)
    file.seek(0)
    text = io.TextIOWrapper(file, encoding=found.name, errors=found.errors, newline=None)
    shape = form.find(text, rules.labels)
    missing = missing_columns(rules, shape.header)
    if not rules.profile and not shape.is_kbart and (profile := mapping.profile_of(shape.header)):
        rules = rules.over(mapping.profile(profile))
    shape = shape._replace(is_kbart=shape.is_kbart and found.is_utf8() and not rules.is_read())
    columns = labels.Columns(shape.header, rules.renamed(shape.header))
    guessed = guessed_columns(text, shape, columns, rules)
    rules, held = held_titles(text, shape, columns, rules)
    order = date_order(text, shape, columns, Chooser(rules, shape.header), rules.order)
    warnings = [*left_out, *([found.warning] if found.warning else [])]
    shown = "" if sheet else f", with {shape.separator} between cells"
    warnings += [*guessed, *held, *name_warnings(given, name), *profile_warnings(given, rules),
                 *form_warnings(shape, shown, columns, order), *missing]
    head = {
        "file": os.path.basename(given.file), "name": name, "sheet": sheet, "encoding": found.name,
        "runner_up": found.runner_up, "separator": shape.separator, "header_line": shape.line, "date_order": str(order),
        "profile": rules.profile,
        "columns": [{"header": cell, "label": label} for cell, label in zip(columns.header, columns.names)],
        "unused": [cell for cell in columns.unused() if not rules.uses(cell)]}
    settings = Settings(given.type, rules.constants, rules.replaced, str(order), tuple(rules.unwrapped),
                        order.has_volumes, order.has_quarters())
    return Opened(text, shape, columns, rules, settings, head, warnings)


def text_encoding(given: argparse.Namespace, file: IO[bytes], sheet: str) -> encoding.Encoding:
    """Returns the encoding of a text: the given one, or the detected one."""
    if sheet:
        if given.encoding:
            raise WrongArguments("--encoding: a spreadsheet has none: leave it out")
        return encoding.Encoding("utf-8")
    if given.sheet:
        raise WrongArguments("--sheet: the list is not a spreadsheet: leave it out")
    if not given.encoding:
        return encoding.detect(file)
    try:
        "".encode(given.encoding)
        name = codecs.lookup(given.encoding).name
    except LookupError as error:
        raise WrongArguments(f"--encoding: {given.encoding} is not known, as cp1252 or shift_jis are") from error
    return encoding.Encoding("utf-8-sig" if name == "utf-8" else name)


def guessed_columns(text: io.TextIOWrapper, shape: form.Form, columns: labels.Columns, rules: mapping.Map) -> list[str]:
    """Guesses by the first records the columns of titles, addresses, coverage and embargoes that no label says. Returns
    a warning for each."""
    text.seek(0)
    cells = [it.cells for _, it in zip(range(SAMPLE), form.body(text, shape))]
    found = {}
    if not any(columns.cell(it, "title_url") for it in cells):
        # `Access` may be the kind of access, or the way to it.
        columns.take_from("access_type", cells, lambda cell: bool(labels.ADDRESS.match(cell)))
        found["addresses"] = columns.guess(cells, "title_url", lambda _, cell: bool(labels.ADDRESS.match(cell)))
    if numbers := columns.guess_numbers(cells, lambda it: bool(strict.issn(it) or strict.isbn(it))):
        found["numbers"] = numbers
    is_guessed = not rules.profile and has_serials(columns, cells)
    if not rules.profile and "coverage" not in columns.places:
        # `First issue` may be a number, or the date of that issue. `Volumes` may be those of a statement.
        serials = [it for it in cells if has_serials(columns, [it])]
        pairs = [it for numbers in (ISSUES, VOLUMES) for it in zip(numbers, DATES)]
        pairs += [("volumes", "coverage")] if not any(it in columns.places for it in DATES) else []
        found["dates"] = ", ".join(filter(None, (columns.relabel(*it, serials, unused.is_dated_issue) for it in pairs)))
    if is_guessed and "coverage" not in columns.places and not columns.guess_dates(cells, unused.is_statement):
        found["ends of the dates"] = columns.guess_ends(cells, unused.is_date)
    if is_guessed and not any(it in columns.places for it in ("coverage", *DATES)):
        for label in PUBLISHED:
            columns.take_away(label, [it for it in cells if has_serials(columns, [it])], unused.is_statement)
        found["coverage"] = columns.guess_coverage(cells, unused.is_dated, unused.is_statement, unused.is_date,
                                                   unused.is_range)
    elif is_guessed and "coverage" in columns.places:
        found["library's own coverage"] = columns.guess_own(cells, unused.is_statement)
        found["other coverage"] = columns.guess_apart(cells, unused.is_statement)
    if is_guessed and not any(it in columns.places for it in EMBARGOES):
        found["embargo"] = columns.guess(cells, "embargo_info", unused.is_embargo)
    if "publication_title" not in columns.places:
        found["titles"] = columns.guess_title(cells)
    if "coverage" not in columns.places and not any(it in columns.places for it in DATES):
        columns.find_marks(cells, unused.range_of, unused.is_mark)
    if is_guessed and "coverage" not in columns.places:
        found["other end of the dates"] = columns.guess_end(cells, unused.is_date, unused.is_range)
    columns.keep_dates(cells, lambda cell: bool(dates.YEARS.search(cell)))
    return [f"no label says which column has the {what}: it is guessed to be {header!r}"
            for what, header in found.items() if header]


def held_titles(text: io.TextIOWrapper, shape: form.Form, columns: labels.Columns,
                rules: mapping.Map) -> tuple[mapping.Map, list[str]]:
    """Returns the rules with a condition for each column with cells that say that a title is not held, as `Not
    available`, or for the only one whose cells all say whether it is, by yes and no, and a warning for each."""
    places = [it for it, header in columns.left_over() if unused.may_be_held(header)]
    places += columns.places.get("access_type", [])
    sure = {*places}
    places += [it for it, header in columns.left_over() if it not in sure
               and (unused.label_kind(header) != "harmless" or unused.says_held(header))]
    if shape.is_kbart:
        places = [it for it, header in columns.left_over() if folded(header) == ACTION]
    if any(mapping.place_of(shape.header, it) >= 0 for it in rules.where) or not places:
        return rules, []
    found: dict[int, set[str]] = {it: set() for it in places}
    text.seek(0)
    for record in form.body(text, shape):
        for place, cells in found.items():
            if len(cells) <= HELD_CELLS and any(map(str.strip, record.cells)):
                cells.add(folded("".join(record.cells[place:place + 1])))
    few = {it: cells for it, cells in found.items() if len(cells) <= HELD_CELLS}
    held = {it: cells - no for it, cells in few.items()
            if (no := unused.not_held(cells)) and (it in sure or cells - no and unused.are_held(cells))}
    said = {it: values for it, cells in few.items() if (values := unused.held_values(columns.header[it], cells))}
    held = said if len(said) == 1 and not held else held
    held |= {it: values for it, cells in few.items() if (values := unused.not_deleted(columns.header[it], cells))}
    where = {columns.header[it].strip(): sorted(values) for it, values in held.items()}
    return (rules._replace(where=where) if where else rules,
            [f"the column {header!r} says which titles are held: "
             + (f"those with {' or '.join(map(repr, values))}" if values else "none")
             for header, values in where.items()])


def has_serials(columns: labels.Columns, records: list[list[str]]) -> bool:
    """Returns whether most of the records with a number have an ISSN: the dates of books are no coverage."""
    kinds = [{it.kind for label in (*NUMBERS, "other_identifier") for cell in columns.cells(cells, label)
              for it in identifiers.numbers(cell)} for cells in records]
    return 2 * sum("issn" in it for it in kinds) > sum(map(bool, kinds))


def date_order(text: io.TextIOWrapper, shape: form.Form, columns: labels.Columns, chooser: Chooser,
               fixed: str) -> dates.Order:
    """Returns the order of day and month that the date columns of the whole list prove, or else its other columns, and
    the notation of volumes that its statements prove."""
    order = dates.Order(fixed)
    stated = set(columns.places.get("coverage", ()))
    stated |= chooser.alternatives(stated)
    places = {at for label in DATES for at in columns.places.get(label, ())}
    places |= chooser.alternatives(places) | stated
    may_have_days, may_have_volumes, may_have_quarters = may_have(text) if places else (False, False, False)
    has_days = may_have_days and not fixed
    if has_days or may_have_quarters or may_have_volumes and stated:
        text.seek(0)
        for record in form.body(text, shape):
            cells = record.cells
            if has_days:
                order.look(cells[at] for at in places if at < len(cells))
            if may_have_quarters:
                order.look_for_quarters(cells[at] for at in places if at < len(cells))
            if may_have_volumes:
                order.look_for_volumes(cells[at] for at in stated if at < len(cells))
    if order.is_needed and not order.seen:
        text.seek(0)
        for record in form.body(text, shape):
            order.look_elsewhere(record.cells)
    return order


# Digits as 0, and what is between the parts of a date as a slash, but for a full stop. Bytes behind the first of a
# character are left out.
SHAPES = bytes(48 if 48 <= it <= 57 else it if it == 46 else 47 if it in b"/- " or it >= 0xC0 else 120
               for it in range(256))
BEHIND = bytes(range(0x80, 0xC0))
QUARTER = re.compile(rb"[12][0-9]{3}/[1-4](?![0-9])")


def may_have(text: io.TextIOWrapper) -> tuple[bool, bool, bool]:
    """Returns whether a list may have a date as 13/04/2001, a volume as 13.2001, and a quarter as 2001/4, in any cell:
    a fast look at the bytes of UTF-8."""
    if text.encoding not in ("utf-8", "utf-8-sig"):
        return True, True, True
    text.seek(0)
    rest = rest_of = b""
    has_days = has_volumes = has_quarters = False
    while not (has_days and has_volumes and has_quarters) and (chunk := text.buffer.read(1 << 20)):
        # Digits of full width are digits, too.
        if b"\xef\xbc" in chunk or b"\xf0\x9d" in chunk:
            return True, True, True
        has_quarters = has_quarters or QUARTER.search(rest_of + chunk) is not None
        rest_of = chunk[-8:]
        shape = rest + chunk.translate(SHAPES, BEHIND)
        rest = shape[-16:]
        has_volumes = has_volumes or b"00.0000" in shape
        if not has_days:
            shape = shape.replace(b".", b"/")
            while b"//" in shape:
                shape = shape.replace(b"//", b"/")
            has_days = b"0/0/0000" in shape or b"0/00/0000" in shape
    return has_days, has_volumes, has_quarters


def name_warnings(given: argparse.Namespace, name: str) -> list[str]:
    """Returns a warning if the package is not what the file's name begins with: a person should fix it."""
    package = name.rpartition("_")[0]
    if not name or given.package or os.path.basename(given.name or given.file).startswith(f"{package}_"):
        return []
    return [f"the package is {package}, made from the file's name: --package keeps it the same"]


def given_rules(given: argparse.Namespace) -> mapping.Map:
    """Returns what the map, the profile and the other arguments say. The map decides over the profile."""
    rules = mapping.read(given.map)
    replaced = {}
    for text in given.replace:
        old, sign, new = text.partition("=")
        if not old or not sign:
            raise WrongArguments("--replace: PLACEHOLDER=VALUE is needed, as [SITE_ID]=4711")
        replaced[old] = new
    rules = rules._replace(replaced={**rules.replaced, **replaced})
    return rules.over(mapping.profile(given.profile)) if given.profile else rules


def profile_warnings(given: argparse.Namespace, rules: mapping.Map) -> list[str]:
    """Returns which profile is used, unless it is the one that was asked for."""
    if not rules.profile or given.profile:
        return []
    title = mapping.PROFILES[rules.profile]["title"]
    return [f"an export of {title} by its header: --profile {rules.profile} says so, and --profile kbart that it is "
            "none"]


def missing_columns(rules: mapping.Map, header: list[str]) -> list[str]:
    """Returns a warning for each column that a map names and the list lacks. A profile names all there may be."""
    cells = {it.strip() for it in header}
    missing = [] if rules.profile else [it for it in rules.labels if it not in cells]
    missing += [] if rules.profile else [it for it in rules.where if mapping.place_of(header, it) < 0]
    return [f"the map names a column that the list lacks: {it}" for it in missing]


def form_warnings(shape: form.Form, shown: str, columns: labels.Columns, order: dates.Order) -> list[str]:
    """Returns the warnings about the form of the list. `shown` says what separates its cells."""
    warnings = []
    if not strict.columns(shape.header):
        warnings.append(f"not KBART: the columns are read by their labels{shown}")
    elif shape.separator != "tab":
        warnings.append(f"{shape.separator} in place of tab")
    for label in columns.twice:
        is_joined = label == "coverage" and not any(labels.is_own(columns.header[it]) for it in columns.places[label])
        how = "the numbers of all count" if label in NUMBERS else \
            "those count that are apart, and of others what all say" if is_joined else \
            "the narrowest counts" if label in DATES else "the first with a value counts"
        warnings.append(f"several columns are {label}: {how}")
    if not order.fixed and len(order.seen) > 1:
        warnings.append("some dates have the day first, and some the month: only their year counts. A map decides it")
    warnings += [f"no column is {label}: its cells are empty" for label in EXPECTED if label not in columns.places]
    return warnings
