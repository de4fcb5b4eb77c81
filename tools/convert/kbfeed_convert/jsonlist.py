"""Records in JSON: one object a line, or the first array of objects of a document. They are read in parts.

An object in a list whose keys are labels of dates is a range of its own, so that its record is several."""
import io
import json
import re
from typing import IO, Any, Iterator

from . import strict
from .dates import YEARS
from .faults import COLUMNS, LINE, Refused
from .labels import IDENTIFIERS, label
from .texts import folded, word_set, words

CHUNK = 1 << 16
DECODER = json.JSONDecoder()
# The beginning of an array of objects.
ARRAY = re.compile(r"\[\s*(?=\{)")
BETWEEN = re.compile(r"[ \t\r\n,]*")
DEEPEST = 5
# The ranges that one record may have.
MOST_RANGES = 1_000
DATES = ("date_first_issue_online", "date_last_issue_online")
UNITS = words("units")
# The words in the key of a list of ranges that is the library's own.
OWN = word_set("own", "words")
# The first date of a record whose list of ranges is empty.
EMPTY = "a list without ranges"
# The characters of a list that is not used that a cell has.
SHORT = 500
# The numbers by which HoldingsIQ says what an identifier is of.
SUBTYPE, SUBTYPES = "subtype", {"1": "Print", "2": "Online"}
# What follows the key of a list that is not used, as no label says what is inside.
NESTED = " (nested)"


class JsonList:
    """Records that are open. They are one sheet, whose first row has their keys."""
    sheets = ["records"]

    def __init__(self, file: IO[bytes]):
        self.file = file
        self.keys: dict[str, None] = {}
        # The key of a first date by the list of ranges that it is in.
        self.first: dict[str, str] = {}
        # The keys of the lists of ranges that are statements.
        self.stated: set[str] = set()
        for record in self.records():
            for key in record:
                if label(key) == DATES[0]:
                    self.first.setdefault(key.rpartition(".")[0], key)
                self.keys[key] = None
                if len(self.keys) > COLUMNS:
                    raise Refused(f"the header has more than {COLUMNS} columns")

    def rows(self, _sheet: str) -> Iterator[list[str]]:
        """Yields the keys, and then the values of each record."""
        yield list(self.keys)
        for record in self.records():
            # A list of ranges that is empty does not say that there is all.
            ranges = [*self.first.values(), *self.stated]
            for name, key in [*self.first.items(), *((it, it) for it in self.stated)]:
                if record.get(name) == "" and not any(record.get(it) for it in ranges):
                    record[key] = EMPTY
            yield [record.get(key, "") for key in self.keys]

    def records(self) -> Iterator[dict[str, str]]:
        """Yields the records, flat. A document that is cut or damaged is refused."""
        self.file.seek(0)
        text = io.TextIOWrapper(self.file, encoding="utf-8-sig", errors="replace")
        try:
            for value in values(text):
                if isinstance(value, dict):
                    flat = Flat(value, "", 0)
                    yield from flat.branches() or [flat.texts]
                    self.stated |= flat.stated
        finally:
            text.detach()


def values(text: IO[str]) -> Iterator[Any]:
    """Yields the values of the first array of objects of a document, or of its lines."""
    buffer = text.read(CHUNK)
    is_array = not is_lines(buffer)
    if is_array:
        while not (found := ARRAY.search(buffer)):
            more = text.read(CHUNK)
            if not more or len(buffer) > LINE:
                raise Refused("JSON without an array of objects, perhaps an error of a server")
            buffer += more
        buffer = buffer[found.end():]
    size, at = CHUNK, 0
    while True:
        at = match.end() if (match := BETWEEN.match(buffer, at)) else at
        if is_array and buffer.startswith("]", at):
            return
        try:
            value, at = DECODER.raw_decode(buffer, at)
        except json.JSONDecodeError as error:
            more = text.read(size)
            if not more:
                if buffer[at:].strip() or is_array:
                    raise Refused("JSON that is cut or damaged") from error
                return
            # Twice as much each time: a long object is not read again and again.
            size = min(2 * size, LINE)
            buffer, at = buffer[at:] + more, 0
            if len(buffer) > 3 * LINE:
                raise Refused(f"JSON with an object of more than {LINE} characters") from error
            continue
        except RecursionError as error:
            raise Refused("JSON whose values are too deep inside each other") from error
        yield value
        size = CHUNK


def is_lines(text: str) -> bool:
    """Returns whether a text begins with an object that a line end and another object, or the end, follow."""
    try:
        value, end = DECODER.raw_decode(text.lstrip("\ufeff \t\r\n"))
    except (json.JSONDecodeError, RecursionError):
        return False
    rest = text.lstrip("\ufeff \t\r\n")[end:].strip()
    return isinstance(value, dict) and (rest.startswith("{") or not rest and not any(
        isinstance(it, list) and it and isinstance(it[0], dict) for it in value.values()))


class Flat:
    """An object as texts by their keys, `outer.inner` for one inside another, and its lists of ranges.

    A list of lists or of other objects is one text with a key that is no label, so that the report has it. A list of
    numbers that say what they are, as `{"type": "ISSN", "subtype": "Print", "id": ..}`, has a key for each of these."""

    def __init__(self, value: dict[str, Any], before: str, depth: int):
        self.texts: dict[str, str] = {}
        self.ranges: list[tuple[str, list[Any], list[dict[str, str]]]] = []
        self.stated: set[str] = set()
        self.add(value, before, depth)

    def add(self, value: dict[str, Any], before: str, depth: int) -> None:
        """Adds the values of an object."""
        for key, it in value.items():
            name = f"{before}{key}"
            if isinstance(it, dict) and (length := length_of(it)) is not None:
                self.texts[name] = length
            elif isinstance(it, dict) and depth < DEEPEST:
                self.add(it, f"{name}.", depth + 1)
            elif isinstance(it, dict) or isinstance(it, list) and any(isinstance(one, (dict, list)) for one in it):
                self.add_list(it if isinstance(it, list) else [it], name, depth)
            else:
                self.texts[name] = joined(it) if isinstance(it, list) else shown(it)

    def add_list(self, many: list[Any], name: str, depth: int) -> None:
        """Adds a list of objects or of lists."""
        is_short = depth + 1 < DEEPEST and len(many) <= MOST_RANGES and all(isinstance(it, dict) for it in many)
        objects = [(it, Flat(it, f"{name}.", depth + 1)) for it in many] if is_short else []
        self.stated |= {name for _, it in objects for name in it.stated}
        if numbers := numbers_of([it for _, it in objects], name):
            self.texts.update(numbers)
        elif found := ranges_of(objects):
            self.ranges.append((name, many, found))
        else:
            self.leave(many, name)

    def leave(self, many: list[Any], name: str) -> None:
        """Adds a list that is not used as one text."""
        if texts := joined(many):
            self.texts[name] = texts
        self.texts[name + NESTED] = nested(many)

    def branches(self) -> list[dict[str, str]]:
        """Returns the texts once for each range. Of several lists the library's own one counts, or else the first.

        A list of the library's own beside that of everybody is a statement, as that one is, so that both are there."""
        own = [it for it in self.ranges if OWN & {*folded(it[0].rpartition(".")[2]).split()}]
        if len(own) == 1 and len(self.ranges) == 2 and all(map(is_coverage, self.ranges)):
            self.texts.update({name: statement_of(found) for name, _, found in self.ranges})
            self.stated |= {name for name, _, _ in self.ranges}
            self.ranges = []
            return []
        for chosen in (own or self.ranges)[:1]:
            for name, many, _ in [] if own else self.ranges[1:]:
                self.leave(many, name)
            return [{**self.texts, **one} for one in chosen[2]]
        return []


def is_coverage(one: tuple[str, list[Any], list[dict[str, str]]]) -> bool:
    """Returns whether a list has dates alone, and a key that is a label of coverage."""
    name, _, found = one
    return label(name) == "coverage" and all(label(key) in DATES for it in found for key, text in it.items() if text)


def statement_of(many: list[dict[str, str]]) -> str:
    """Returns ranges as a statement."""
    ends = [[next((text for key, text in it.items() if label(key) == end), "") for end in DATES] for it in many]
    return "; ".join(f"{first} to {last or 'present'}" if first else f"until {last}" if last else "all years"
                     for first, last in ends)


def written_out(cell: str) -> str:
    """Returns a list of ranges in a cell, as `[{"start": "1990", "end": null}]`, as a statement, or nothing."""
    try:
        value = json.loads(cell if '"' in cell else cell.replace("'", '"').replace("None", "null"))
    except (json.JSONDecodeError, RecursionError):
        return ""
    many = value if isinstance(value, list) else [value]
    if not many or not all(isinstance(it, dict) for it in many) or len(many) > MOST_RANGES:
        return ""
    found = ranges_of([(it, Flat(it, "", 0)) for it in many])
    # A text that is no date may be an embargo, or a note.
    is_whole = all(label(key) in DATES for it in found for key, text in it.items() if text)
    return statement_of(found) if found and is_whole else ""


def numbers_of(many: list[Flat], name: str) -> dict[str, str]:
    """Returns the numbers of a list of objects by what their other texts say they are, or nothing if it has another
    object, as one with a title. Objects without an ISSN or ISBN are other numbers of the title."""
    found: dict[str, list[str]] = {}
    for one in many:
        labels = {label(key[len(name) + 1:]) for key in one.texts}
        texts = list(one.texts.values())
        given = [it for it in texts if strict.issn(it) or strict.isbn(it)]
        if len(given) > 1 or one.ranges or labels & {*DATES} or any(key.endswith(NESTED) for key in one.texts):
            return {}
        if given:
            said = " ".join(it for it in texts if it not in given and any(map(str.isalpha, it)))
            if label(said) not in IDENTIFIERS and "publication_title" in labels:
                return {}
            kind = said if label(said) in IDENTIFIERS else "ISSN" if strict.issn(given[0]) else "ISBN"
            side = SUBTYPES.get(one.texts.get(f"{name}.{SUBTYPE}", ""), "")
            kind = f"{kind} {side}" if side and label(kind) == "print_identifier" else kind
            found.setdefault(f"{name} {kind}", []).append(given[0])
    return {key: "; ".join(dict.fromkeys(texts)) for key, texts in found.items()}


def length_of(value: dict[str, Any]) -> str | None:
    """Returns an object that is a number and a unit of time as a text, as `12 Months`, or None if it is something else.

    It is an empty text if the number is 0 or absent."""
    if len(value) != 2:
        return None
    numbers = [it for it in value.values() if isinstance(it, int) and not isinstance(it, bool)]
    units = [it for it in value.values() if isinstance(it, str) and folded(it) in UNITS]
    if numbers and units:
        return f"{numbers[0]} {units[0]}" if numbers[0] else ""
    is_empty = all(it in (None, "", 0) and it is not False for it in value.values())
    return "" if is_empty and any("embargo" in folded(it).split() for it in value) else None


def nested(many: list[Any]) -> str:
    """Returns the beginning of a list as JSON, and a year of the rest if that has one."""
    try:
        text = json.dumps(many, ensure_ascii=False)
    except RecursionError as error:
        raise Refused("JSON whose values are too deep inside each other") from error
    begin = text[:SHORT]
    year = None if YEARS.search(begin) else YEARS.search(text, SHORT)
    return f"{begin} {year[0]}" if year else begin


def ranges_of(many: list[tuple[dict[str, Any], Flat]]) -> list[dict[str, str]]:
    """Returns the objects of a list flat, each once for each range inside, or nothing if none has a label of a date.

    An object without a date is one of them only if others have lists of ranges inside."""
    found: list[dict[str, str]] = []
    has_inside = False
    undated = 0
    for one, inside in many:
        branches = inside.branches()
        # A list of one object with lists is as good as that object: these may be empty here, and ranges elsewhere.
        has_inside = has_inside or bool(branches) or len(many) == 1 and any(it == [] for it in one.values())
        has_inside = has_inside or bool(inside.stated)
        undated += not branches and not inside.stated and not any(label(key) in DATES for key in inside.texts)
        found += branches or [inside.texts]
        if len(found) > MOST_RANGES:
            return []
    return found if has_inside or not undated else []


def joined(many: list[Any]) -> str:
    """Returns the values of a list that are texts or numbers."""
    return "; ".join(shown(one) for one in many if not isinstance(one, (dict, list)))


def shown(value: Any) -> str:
    """Returns a value as a text."""
    if value is None:
        return ""
    if isinstance(value, bool):
        return "yes" if value else "no"
    return str(value)
