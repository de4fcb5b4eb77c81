"""The label of each column of a header, from one table.

Some labels are our own: `other_identifier` (an ISSN-L, a further ISBN), `coverage` and `volumes` (ranges in one cell),
`gaps` (what these lack), `embargo_days`, `embargo_months`, `embargo_years`, `recent_months` and `recent_years` (bare
numbers), `embargo_unit`, `embargo_sign` (`<` or `>`, of recent or of other issues), `open_access` (yes or no), `medium`
(print or online), and the parts of dates that are in columns of their own: `first_month`, `first_day`, `last_month`,
`last_day`."""
import difflib
import itertools
import re
from typing import Callable, Iterable

from . import strict
from .texts import TABLES, folded, remembered, word_set, words

OWN = ("other_identifier", "coverage", "volumes", "embargo_days", "embargo_months", "embargo_years", "recent_months",
       "recent_years", "gaps", "open_access", "embargo_unit", "embargo_sign", "medium", "first_month", "first_day",
       "last_month", "last_day")
# The labels of columns that may be there several times, with numbers.
NUMBERED = ("coverage", "date_first_issue_online", "date_last_issue_online")
PARTS = (("first_month", "first_day"), ("last_month", "last_day"))
IDENTIFIERS = ("print_identifier", "online_identifier", "other_identifier")
# The characters of the longest label.
LONGEST = 200
# How near a misspelt label has to be to one of the standard, and the share of cells by which a label is guessed.
NEAR = SURE = 0.9
# The share of the cells of a column of dates that have to be dates.
MOST = 0.5
# The columns of single years that a list has at least.
LEAST_YEARS = 3
SYNONYMS = {key.replace(" ", ""): label for key, label in words("labels").items()}
WORDS = {name: [folded(it) for it in many] for name, many in TABLES["words"].items()}
ADDRESS = re.compile(r"\s*https?://", re.I)
# The first character of the scripts without spaces, and the letters below which a word of others has to be whole.
IDEOGRAPHS, SHORT = "\u3000", 3
OWN_WORDS, PUBLISHED_WORDS = word_set("own", "words"), word_set("published", "words")
# Words in the labels of columns that have a part of the coverage each.
APART = word_set("own", "apart")
OWN_STATEMENTS = OWN_WORDS | word_set("own", "statements")
# A list with such a label has free titles alone.
FREE = word_set("free_lists", "labels")


# `N.º` and `N°`
NUMERO = re.compile(r"\b[Nn]\.? ?[º°]")
# The label of a bare number by its unit, and the words of a length that is hidden. Of short words for units, as `Y`,
# none counts.
UNITS = {word: unit for word, unit in words("units").items() if len(word) >= SHORT}
LENGTHS = {"D": "embargo_days", "M": "embargo_months", "Y": "embargo_years"}
EMBARGO = word_set("suspects", "embargo")


def has_word(group: str, text: str, tokens: frozenset[str]) -> bool:
    """Returns whether a text has a word of a group: a whole word, or in a script without spaces anywhere."""
    return any(word in tokens if word.isascii() or len(word) < SHORT and word < IDEOGRAPHS else word in text
               for word in WORDS[group])


@remembered
def label(cell: str) -> str | None:
    """Returns the label that a cell of a header means."""
    name = strict.lower(cell.strip("\ufeff").strip('"'))
    if name in strict.LABELS:
        return name
    if len(cell) > LONGEST:
        return None
    text = folded(NUMERO.sub("no", cell))
    if text.replace(" ", "_") in strict.LABELS:
        return text.replace(" ", "_")
    if found := SYNONYMS.get(text.replace(" ", "")):
        return found
    tokens = frozenset(re.findall(r"[a-z]+|[^\W\da-z]+", text))
    if found := length_label(text, tokens):
        return found
    for rule in TABLES["rules"]:
        if (all(any(has_word(it, text, tokens) for it in group.split("|")) for group in rule["all"])
                and not any(has_word(it, text, tokens) for it in rule.get("none", []))):
            return str(rule["label"])
    if (numbered := re.fullmatch(r"(\D*[^\W\d]\D*?) ?[1-9]", text)) and (found := label(numbered[1])) in NUMBERED:
        # `Coverage 2`
        return found
    # A label of the standard with a letter too many, too few or wrong.
    near = difflib.get_close_matches(name, strict.LABELS, 1, NEAR) if "_" in name else []
    return near[0] if near else None


def length_label(text: str, tokens: frozenset[str]) -> str:
    """Returns the label of a header that has a word for an embargo and a unit, as `Embargo Year`, or nothing."""
    units = {UNITS[it] for it in tokens if it in UNITS}
    is_date = "date" in tokens or any(has_word(it, text, tokens) for it in ("first", "last"))
    return LENGTHS.get(min(units), "") if len(units) == 1 and tokens & EMBARGO and not is_date else ""


def has_numbers_below(names: list[str | None], below: list[str]) -> bool:
    """Returns whether the record behind a header has an ISSN or ISBN below a label of one. Then it is a header, however
    many labels are known."""
    return any(strict.issn(cell) or strict.isbn(cell) for name, cell in zip(names, below)
               if name in ("print_identifier", "online_identifier"))


def known(cells: list[str], renamed: dict[str, str]) -> int:
    """Returns how many different labels a line has. `renamed` has the headers of a map."""
    return len({it for it in (renamed.get(cell.strip()) or label(cell) for cell in cells) if it})


def with_second(header: list[str], second: list[str], meaning: Callable[[str], str | None]) -> list[str]:
    """Returns a header joined with the line below, or nothing if that is not its second line.

    It is one if it makes more labels, as `From` and `To` below `Coverage`, and all its cells are parts of labels. A
    cell of the first line is the group of the empty ones behind it. `meaning` returns the label of a cell."""
    # A cell that reaches into the second line is there once.
    below = [lower if lower != upper else ""
             for upper, lower in itertools.zip_longest(header, second, fillvalue="")]
    joined, group = [], ""
    for upper, lower in itertools.zip_longest(header, below, fillvalue=""):
        group = upper.strip() or group
        joined.append(f"{group} {lower.strip()}" if lower.strip() else upper)
    parts = [whole for whole, lower in zip(joined, below) if lower.strip()]
    if len(parts) < 2 or any(re.search("[0-9]{3}", it) for it in below) or not all(
            meaning(whole) or has_word("print", folded(whole), frozenset(folded(whole).split())) for whole in parts):
        return []
    return joined if len({*map(meaning, joined)} - {None}) > len({*map(meaning, header)} - {None}) else []


def is_standard(cell: str) -> bool:
    """Returns whether a cell of a header is a label of the standard itself."""
    return strict.lower(cell) in strict.LABELS


def rank(cell: str) -> int:
    """Returns the rank of a header among those of one label: the library's own dates, as `Custom Date From`, are first,
    and the dates of the title itself, as `Published from`, are last."""
    tokens = {*folded(cell).split()}
    return 0 if OWN_WORDS & tokens else 2 if PUBLISHED_WORDS & tokens else 1


def is_own(cell: str) -> bool:
    """Returns whether the header of a column of statements says that they are the library's own."""
    return bool(OWN_STATEMENTS & {*folded(cell).split()})


def letters(cells: Iterable[str]) -> int:
    """Returns how many letters some cells have."""
    return sum(it.isalpha() for cell in cells for it in cell)


class Columns:
    """The places of each label in a record.

    If several columns have one label, the first with a value counts, and the standard's own column comes first. For
    dates and volumes that column counts alone: an empty last date says "to the present"."""

    def __init__(self, header: list[str], renamed: dict[str, str]):
        self.header = header
        # The headers that a map leaves out.
        self.left_out = {cell for cell, name in renamed.items() if not name}
        self.names = [renamed.get(cell.strip(), label(cell)) or None for cell in header]
        for whole, parts in zip(("date_first_issue_online", "date_last_issue_online"), PARTS):
            if whole not in self.names:
                # `First month` is a date, if no column has its year.
                self.names = [whole if it in parts else it for it in self.names]
        self.places: dict[str, list[int]] = {}
        for place, name in enumerate(self.names):
            if name:
                self.places.setdefault(name, []).append(place)
        self.twice: list[str] = []
        for name, places in self.places.items():
            is_ranked = "date_" in name or "embargo" in name or name == "coverage"
            places.sort(key=lambda it: (not is_standard(header[it]), rank(header[it]) if is_ranked else 0))
            if is_standard(header[places[0]]) and ("date_" in name or "num_" in name):
                self.names = [it if it != name or at == places[0] else None for at, it in enumerate(self.names)]
                del places[1:]
            if len(places) > 1:
                self.twice.append(name)
        # The columns in which a mark says that a range is held, with the range of the header.
        self.marks: list[tuple[int, str, str]] = []
        self.is_free = any(folded(cell) in FREE for cell in header)

    def unused(self) -> list[str]:
        """Returns the headers of the columns that have no label."""
        return [cell for cell, name in zip(self.header, self.names) if not name and cell.strip()]

    def left_over(self) -> list[tuple[int, str]]:
        """Returns the place and the header of each column that is not used, and that no map leaves out."""
        return [(at, cell) for at, (cell, name) in enumerate(zip(self.header, self.names))
                if not name and cell.strip() and cell.strip() not in self.left_out]

    def give(self, place: int, name: str) -> str:
        """Gives a column a label, and returns its header."""
        self.names[place] = name
        self.places[name] = [place, *self.places.get(name, [])]
        return self.header[place]

    def take_away(self, name: str, records: list[list[str]], passes: Callable[[str, str], bool]) -> None:
        """Takes a label from the columns with a label of one word, as `Year`, if some records have a value there, and
        from those with a value that passes a test."""
        for place in self.places.pop(name, []):
            header = self.header[place]
            filled = [it for cells in records for it in cells[place:place + 1] if it.strip()]
            is_vague = not is_standard(header) and len(folded(header).split()) == 1
            if is_vague and filled or any(passes(header, it) for it in filled):
                self.names[place] = None
            else:
                self.places.setdefault(name, []).append(place)

    def take_from(self, name: str, records: list[list[str]], passes: Callable[[str], bool]) -> None:
        """Takes a label from the columns of the vendor in which all cells of some records pass a test."""
        for place in list(self.places.get(name, [])):
            filled = [it for cells in records for it in cells[place:place + 1] if it.strip()]
            if filled and not is_standard(self.header[place]) and all(map(passes, filled)):
                self.names[place] = None
                self.places[name].remove(place)
        if not self.places.get(name, [0]):
            del self.places[name]

    def relabel(self, old: str, new: str, records: list[list[str]], passes: Callable[[str], bool]) -> str:
        """Gives another label to a vendor's column in which all cells of some records pass a test, if no column has
        that label. Returns its header."""
        for place in self.places.get(old, [])[:1] if new not in self.places else []:
            filled = [it for cells in records for it in cells[place:place + 1] if it.strip()]
            if filled and not is_standard(self.header[place]) and all(map(passes, filled)):
                self.places[old].remove(place)
                if not self.places[old]:
                    del self.places[old]
                return self.give(place, new)
        return ""

    def guess_title(self, records: list[list[str]]) -> str:
        """Takes the column without a label that has the most letters for the titles, and returns its header. Cells that
        repeat count once: they may be publishers."""
        texts = {place: [it[:80] for cells in records for it in cells[place:place + 1] if not ADDRESS.match(it)]
                 for place, name in enumerate(self.names) if not name and self.header[place].strip()}
        # Nearly all records have a title.
        texts = {place: it for place, it in texts.items() if sum(map(bool, map(str.strip, it))) >= SURE * len(records)}
        place = max(texts, key=lambda it: letters(set(texts[it])), default=-1)
        return self.give(place, "publication_title") if place >= 0 and letters(texts[place]) >= 3 * len(records) else ""

    def guess(self, records: list[list[str]], name: str, passes: Callable[[str, str], bool]) -> str:
        """Gives a label to the only column without one in which nearly all cells of some records pass a test, by the
        header and the cell. Returns the header, or nothing if there is none, or more than one."""
        found = []
        for place, header in self.left_over():
            filled = [it for cells in records for it in cells[place:place + 1] if it.strip()]
            if filled and sum(passes(header, it) for it in filled) >= SURE * len(filled):
                found.append(place)
        return self.give(found[0], name) if len(found) == 1 else ""

    def guess_numbers(self, records: list[list[str]], passes: Callable[[str], bool]) -> str:
        """Gives the label of an identifier to the columns without one in which nearly all cells of some records are
        numbers, if their headers say for what, as `Print` and `Electronic`, or if no column has the label of one.
        Returns their headers."""
        found = []
        has_none = not any(it in self.places for it in IDENTIFIERS)
        for place, header in self.left_over():
            text = folded(header)
            tokens = frozenset(text.split())
            is_online, is_print = has_word("online", text, tokens), has_word("print", text, tokens)
            filled = [it for cells in records for it in cells[place:place + 1] if it.strip()]
            if (filled and sum(map(passes, filled)) >= SURE * len(filled) and not has_word("other", text, tokens)
                    and (is_online != is_print or has_none)):
                found.append(self.give(place, "online_identifier" if is_online else "print_identifier"))
        return ", ".join(found)

    def guess_dates(self, records: list[list[str]], passes: Callable[[str, str], bool]) -> list[int]:
        """Returns the columns without a label in which most cells of some records pass a test, and the others have no
        digit: they may be words that nobody knows."""
        found = []
        for place, header in self.left_over():
            filled = [it for cells in records for it in cells[place:place + 1] if it.strip()]
            passed = [passes(header, it) for it in filled]
            others = "".join(it for it, good in zip(filled, passed) if not good)
            if any(passed) and (sum(passed) >= MOST * len(filled) or not re.search("[0-9]", others)):
                found.append(place)
        return found

    def guess_coverage(self, records: list[list[str]], is_dated: Callable[[str, str], bool],
                       is_statement: Callable[[str, str], bool], is_date: Callable[[str, str], bool],
                       is_range: Callable[[str, str], bool]) -> str:
        """Gives labels to the only column without one that has coverage, or to the only two of dates, if none of some
        records ends before it begins. An embargo alone is coverage if no column has more. Returns their headers, or
        nothing.

        A row without dates says that readers have everything, so a wrong guess is no wider than none."""
        stated = [place for place in self.guess_dates(records, lambda *it: is_statement(*it) or is_date(*it))
                  if any(is_statement(self.header[place], it) for cells in records for it in cells[place:place + 1])]
        dated = [place for place in stated
                 if any(is_dated(self.header[place], it) for cells in records for it in cells[place:place + 1])]
        stated = dated or stated
        own = [it for it in stated if is_own(self.header[it])]
        is_apart = all(APART & {*folded(self.header[it]).split()} for it in stated)
        if stated and (not own or is_apart or len(stated) == 1 or len(stated) == 2 and len(own) == 1):
            for place in sorted(stated, key=lambda it: it in own):
                self.give(place, "coverage")
            return ", ".join(self.header[it] for it in stated)
        found = [] if stated else self.guess_dates(records, is_date)
        if len(found) != 2 or not all(is_range(*(it[at] if at < len(it) else "" for at in found)) for it in records):
            return ""
        first = self.give(found[0], "date_first_issue_online")
        return f"{first}, {self.give(found[1], 'date_last_issue_online')}"

    def guess_ends(self, records: list[list[str]], is_date: Callable[[str, str], bool]) -> str:
        """Gives the label of a first or of a last date to the columns without one that have dates, and a word for one
        of the ends in their headers, if no column has that label, or they are of a part of the coverage. Returns their
        headers."""
        ends = {"date_first_issue_online": "first", "date_last_issue_online": "last"}
        missing = {label: word for label, word in ends.items() if label not in self.places}
        found = []
        for place in self.guess_dates(records, is_date):
            text = folded(self.header[place])
            tokens = frozenset(text.split())
            said = [label for label, word in ends.items() if has_word(word, text, tokens)]
            is_other = has_word("other", text, tokens) or has_word("print", text, tokens)
            # Those of a part of the coverage count beside others.
            if len(said) == 1 and (said[0] in missing or tokens & APART) and not is_other:
                found.append(self.give(place, said[0]))
        self.twice += [it for it in ends if it not in self.twice and len(self.places.get(it, [])) > 1]
        return ", ".join(found)

    def guess_end(self, records: list[list[str]], is_date: Callable[[str, str], bool],
                  is_range: Callable[[str, str], bool]) -> str:
        """Gives the label of the one end of dates to the only column without one that has dates, if a column has the
        label of the other end, and no record would end before it begins. Returns its header."""
        missing = [it for it in ("date_first_issue_online", "date_last_issue_online") if it not in self.places]
        if len(missing) != 1 or not (other := self.places.get(
                "date_first_issue_online" if missing[0].startswith("date_last") else "date_last_issue_online")):
            return ""
        is_last = missing[0].startswith("date_last")
        found = []
        for place in self.guess_dates(records, is_date):
            text = folded(self.header[place])
            ends = [(it[place] if place < len(it) else "", it[other[0]] if other[0] < len(it) else "")
                    for it in records]
            if not has_word("first" if is_last else "last", text, frozenset(text.split())) and all(
                    is_range(there, here) if is_last else is_range(here, there) for here, there in ends):
                found.append(place)
        return self.give(found[0], missing[0]) if len(found) == 1 else ""

    def find_marks(self, records: list[list[str]], range_of: Callable[[str], tuple[str, str] | None],
                   is_mark: Callable[[str], bool]) -> None:
        """Finds the columns whose headers are ranges, as `1995` or `Archive (1869-1995)`, and whose cells are marks."""
        found = []
        for place, header in self.left_over():
            filled = [it for cells in records for it in cells[place:place + 1] if it.strip()]
            if filled and all(map(is_mark, filled)) and (ends := range_of(header)):
                found.append((place, *ends))
        if len(found) >= LEAST_YEARS or any(first != last for _, first, last in found):
            self.marks = sorted(found, key=lambda it: it[1:])
            self.left_out |= {self.header[it[0]].strip() for it in found}

    def guess_own(self, records: list[list[str]], is_statement: Callable[[str, str], bool]) -> str:
        """Gives the label of coverage to the column that has statements of the library's own, beside those of all."""
        found = [it for it in self.guess_dates(records, is_statement) if is_own(self.header[it])]
        return self.give(found[0], "coverage") if len(found) == 1 else ""

    def guess_apart(self, records: list[list[str]], is_statement: Callable[[str, str], bool]) -> str:
        """Gives the label of coverage to the columns that have a part of it each, as `Current coverage` beside `Archive
        coverage`. Returns their headers."""
        if not all(APART & {*folded(self.header[it]).split()} for it in self.places["coverage"]):
            return ""
        found = [it for it in self.guess_dates(records, is_statement) if APART & {*folded(self.header[it]).split()}]
        return ", ".join(self.give(it, "coverage") for it in found)

    def keep_dates(self, records: list[list[str]], is_date: Callable[[str], bool]) -> None:
        """Takes the label of a date from the columns without dates, such as `First Issue` beside `First Date`."""
        for name in [it for it in self.twice if "date_" in it]:
            dated = [place for place in self.places[name]
                     if any(is_date(it) for cells in records for it in cells[place:place + 1])]
            if dated:
                for place in set(self.places[name]) - set(dated):
                    self.names[place] = None
                self.places[name] = dated
                if len(dated) == 1:
                    self.twice.remove(name)

    def cell(self, cells: list[str], name: str) -> str:
        """Returns the first value of a label in a record."""
        for place in self.places.get(name, ()):
            if place < len(cells) and cells[place].strip():
                return cells[place]
        return ""

    def filled(self, cells: list[str], name: str) -> list[str]:
        """Returns the different values of a label in a record."""
        return list(dict.fromkeys(it.strip() for it in self.cells(cells, name) if it.strip()))

    def foremost(self, cells: list[str], name: str) -> list[str]:
        """Returns the different values of a label in a record, of the columns with the best rank that have any."""
        filled = [(rank(self.header[at]), cells[at].strip()) for at in self.places.get(name, ())
                  if at < len(cells) and cells[at].strip()]
        return list(dict.fromkeys(text for ranked, text in filled if ranked == min(filled)[0]))

    def cells(self, cells: list[str], name: str, skipped: int = 0) -> list[str]:
        """Returns the cells of all columns of a label, after the first `skipped` ones."""
        return [cells[it] for it in self.places.get(name, ())[skipped:] if it < len(cells)]
