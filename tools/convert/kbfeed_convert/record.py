"""A record becomes rows, or it is dropped. Every rule is asked here, in one order, and every change is noted."""
import datetime
import itertools
import operator
import re
from typing import NamedTuple, Sequence

from . import beside, coverage, dates, form, identifiers, jsonlist, kinds, statuses, strict, unused, values, volumes
from .choosing import Chooser
from .coverage import Range
from .identifiers import Number
from .labels import ADDRESS, APART, PARTS, WORDS, Columns, has_word, is_own, rank
from .texts import folded, forget, plain, word_set
from .tokens import MEANINGS, NONE

Cells = dict[str, str]
DATES = "date_first_issue_online", "date_last_issue_online"
VOLUMES = "num_first_vol_online", "num_last_vol_online"
ISSUES = "num_first_issue_online", "num_last_issue_online"
NUMBERS = "print_identifier", "online_identifier"
PUBLISHED = "date_monograph_published_print", "date_monograph_published_online"
EMBARGOES = ("embargo_days", "D"), ("embargo_months", "M"), ("embargo_years", "Y")
RECENT = ("recent_months", "M"), ("recent_years", "Y")
CITED = word_set("suspects", "cited")
OWN_RULE = {*DATES, *VOLUMES, *NUMBERS, "publication_title", "title_url", "publication_type", "embargo_info",
            "coverage_depth", "access_type"}
TEXTS = [it for it in strict.LABELS if it not in OWN_RULE]
# The characters of a record whose cells no cache may keep.
LONG = 2_000
# The characters of the longest date that reads as it is.
DATE = len("2001-12-31")
# More rows of one record are not made: a cell of numbers beside a cell of ranges multiply.
MOST_ROWS = 1_000


# The texts that separators may have made several cells, and the most cells that they made.
JOINED, MOST_MORE = ("publication_title", "coverage", "notes", "publisher_name", "first_author"), 20
VOLUME_YEAR = re.compile(r"\s*([0-9]{1,4}) ?/ ?([0-9]{4})\s*")
# `12 (1990)`
NUMBER_FIRST = re.compile(r"\s*[0-9]{1,4} ?\([^()0-9]*[0-9]{4}[^()0-9]*\)\W*")
# `v.54(2)`, and brackets behind a volume with anything but the number of an issue, as `(Suppl)` and `(2-3)`.
NUMBER = re.compile(r"([^\W\d]+)?[. ]*[0-9]{1,4} ?(\((?![^()]*[0-9]{4})[^()]*\))?")
PART_OF_VOLUME = re.compile(r"(?<=[0-9])\((?![0-9]+\)|[^()]*[0-9]{4})[^()]*\)")
# `1巻1号`
WRITTEN_NUMBER = re.compile("[0-9０-９] ?[期号號호巻卷권]")
# The words of an access that is free.
FREE = word_set("access", "F")
# The words of the two ends of a range in headers.
ENDS = {*WORDS["first"], *WORDS["last"], *WORDS["calendar"]}
# What is between the dates of one cell, and the rules by which it may have two.
PART_END = re.compile(r"[|;\r\n｜；]+")
SIGNS = re.compile(r"[|;,\r\n｜；，]")
IN_PAIRS = {"two years in a date", "a range in one cell"}
# The rules by which a date was found beside other texts.
IN_TEXTS = {"the name of a month", "a date in a text", "a year in a text"}
# The rules by which a row may say more than its source. A list with one of them is not passed on in silence.
EMBARGO_NOT_READ = "not read: an embargo in another form"
REVERSED = "not read: the end is before the beginning"
EMPTY = "a list without ranges: both ends are open"
LOST = "not read: the row has no other dates"
MORE_CELLS = "not read: more cells than the header has"
CANCELLED = "not read: until when a cancelled title is there"
PARTLY_READ = "only partly read: the rest is left out"
STATEMENT_NOT_READ = "not read: no range of it"
GAP_NOT_READ = "only partly read: it may leave something out"
YEAR_NOT_READ = "not read: a year beside a number"
ACCESS_NOT_READ = "not read: a year or a limit in a kind of access"
BESIDE = "not read: the dates count beside it"
NOT_PAIRED = "several dates that make no pairs: the narrowest range"
SEVERAL = "several columns have a date: the narrowest counts"
FURTHER = "a row of its own for a further range"
MANY_ROWS = f"only {MOST_ROWS} rows of a record are made"
WIDENING = {NOT_PAIRED, EMBARGO_NOT_READ, REVERSED, PARTLY_READ, STATEMENT_NOT_READ, BESIDE, SEVERAL, MANY_ROWS,
            EMPTY, LOST, MORE_CELLS, CANCELLED, GAP_NOT_READ, YEAR_NOT_READ, ACCESS_NOT_READ, dates.NOT_READ,
            dates.UNDECIDED}


class Change(NamedTuple):
    """A cell that a rule changed."""
    label: str
    old: str
    new: str
    rule: str


class Outcome(NamedTuple):
    """The rows of a record, or the reason for which it is dropped, also in words.

    The changes of a dropped record are the cells that did not read."""
    rows: list[tuple[Cells, strict.Row]]
    dropped: str
    why: str
    changes: list[Change]


class Settings(NamedTuple):
    """What the arguments and the map say about records."""
    kind: str = ""
    constants: Cells = {}
    replaced: Cells = {}
    order: str = ""
    unwrapped: tuple[str, ...] = ()
    has_volumes: bool = False
    has_quarters: bool = False


class Draft:
    """The cells of a record by their labels, with the changes so far."""

    def __init__(self, fields: list[str], cells: Cells):
        self.fields, self.cells = fields, cells
        self.changes: list[Change] = []

    def put(self, label: str, new: str, rule: str) -> None:
        """Replaces a cell, and notes it if it is another text."""
        if self.cells[label] != new:
            self.changes.append(Change(label, self.cells[label], new, rule))
            self.cells[label] = new

    def note(self, label: str, cell: str, rule: str) -> None:
        """Notes a cell that did not read, and stays as it is."""
        self.changes.append(Change(label, cell, cell, rule))

    def unread(self) -> list[Change]:
        """Returns the cells that did not read."""
        return [it for it in self.changes if it.old == it.new]


class Sides(NamedTuple):
    """The numbers of the print and of the online columns, and those that count if these have none."""
    print: list[Number]
    online: list[Number]
    further: list[Number]

    def of(self, kind: str) -> list[list[str]]:
        """Returns the numbers of one kind."""
        return [[it.text for it in side if it.kind == kind] for side in self]


class Converter:
    """Converts the records of one list."""

    def __init__(self, columns: Columns, settings: Settings, shape: form.Form, chooser: Chooser):
        self.chooser = chooser
        self.today = datetime.datetime.now(datetime.timezone.utc).date()
        self.columns, self.settings, self.is_kbart = columns, settings, shape.is_kbart
        self.sign = form.SEPARATORS[shape.separator]
        self.header = [it.strip() for it in columns.header]
        self.width = len(columns.header)
        places = columns.places
        # In a list that is KBART the standard's own column counts alone.
        self.several = [label for label in strict.LABELS if len(places.get(label, ())) > 1 and not self.is_kbart]
        # The place of each label, where the one behind the last column is for labels that the list lacks.
        self.cells_of = operator.itemgetter(*(places[label][0] if label in places and label not in self.several
                                              else self.width for label in strict.LABELS))
        # The columns with the dates of citations, beside those of full text.
        self.cited = [(at, end_of(header)) for at, header in columns.left_over()
                      if {*folded(header).split()} & CITED and any(it in places for it in (*DATES, "coverage"))
                      and not self.is_kbart]
        self.groups = groups(columns) if not self.is_kbart else []
        # The dates with a volume before the year, by their headers.
        self.numbered = {label for label in DATES for place in places.get(label, [])[:1] if not self.is_kbart
                         and {*WORDS["volume"]} & (said := {*folded(columns.header[place]).split()})
                         and {*WORDS["calendar"]} & said and not any(it in places for it in VOLUMES)}
        self.has_parts = any(name in places for pair in PARTS for name in pair) and not self.is_kbart
        # The columns of a status, in which an end may be: `Cancelled, access until 2017`.
        self.status = [at for at, header in columns.left_over()
                       if unused.label_kind(header) == "status" and not self.is_kbart
                       and not ENDS & {*folded(header).split()}]
        # The columns in which a cell may say that the title is not held.
        self.refusing = [] if self.is_kbart else [*places.get("notes", []), *places.get("access_type", []), *(
            at for at, header in columns.left_over() if unused.may_be_held(header))]
        # The columns that say which titles are held, and which of them are free.
        self.said_held = {*self.refusing, *chooser.where}
        # The other columns that no label names, and that may say something of the coverage.
        self.beside_columns = [(at, plain(header)[:100]) for at, header in columns.left_over()
                               if unused.label_kind(header) != "harmless" and not self.is_kbart]
        # The columns with the coverage in print, of a list that has another one.
        self.printed = [(at, header) for at, header in columns.left_over()
                        if unused.is_printed(header) and any(it in places for it in (*DATES, "coverage"))
                        and not self.is_kbart]
        # Whether the header of each column of numbers says that all of them are of its side, as `P-ISSN`.
        self.sided_columns = [not self.is_kbart and bool(of := places.get(label, [])) and all(
            has_word(side, text, frozenset(text.split())) for text in (folded(columns.header[it]) for it in of))
            for label, side in zip(NUMBERS, ("print", "online"))]
        self.has_numbers_apart = bool({*NUMBERS} & {*self.several}) or "other_identifier" in places

    def convert(self, given: form.Record) -> Outcome:
        """Returns what becomes of a record, and keeps memory small."""
        outcome = self.converted(given)
        if given.size > LONG:
            forget()
        return outcome

    def converted(self, given: form.Record) -> Outcome:
        """Returns what becomes of a record. A row that the reader takes as it is loses nothing."""
        text = "".join(given.cells)
        if not text.strip():
            return Outcome([], "Blank", "no cell has a text", [])
        if given.cells[0].strip() == self.header[0] and [it.strip() for it in given.cells[:self.width]] == self.header:
            return Outcome([], "Header", "the header once more", [])
        if why := self.chooser.not_held(given.cells) or self.refused(given.cells):
            return Outcome([], "NotHeld", why, [])
        fields, joined = self.realigned(given.cells)
        more = "" if joined else " ".join(given.cells[self.width:]).strip()
        fields = self.chooser.fields(fields)
        cells = self.cells(fields)
        draft = Draft(fields, dict(cells))
        if self.settings.constants:
            for label, value in self.settings.constants.items():
                draft.put(label, value, "a constant of the map")
            cells = dict(draft.cells)
        before = strict.row(cells)
        if joined:
            draft.changes.append(Change(joined, self.sign.join(given.cells)[:LONG], "", "separators in a text"))
        if more and not self.is_kbart:
            draft.note("coverage", more[:LONG], MORE_CELLS)
        if self.has_parts:
            self.join_dates(draft)
        self.texts(draft, not text.isprintable())
        kind, pairs = self.decided(draft, before)
        if not kind:
            word = draft.cells["publication_type"].strip()[:100]
            why = f"the type {word!r} is not online" if kinds.is_offline(word) else \
                f"the type {word!r} is neither a serial nor a book, and the record has no number"
            return Outcome([], "OtherType", why, [])
        ranges = [Range(draft.cells[DATES[0]], draft.cells[DATES[1]])]
        if kind == "serial":
            ranges = self.ranges(draft)
            self.volumes(draft)
        elif not self.is_kbart:
            if draft.cells[DATES[0]] == jsonlist.EMPTY:
                # A book has no coverage.
                draft.cells[DATES[0]] = ""
            self.published(draft)
            ranges = [Range("", "")]
        if not ranges:
            said = [self.columns.cell(draft.fields, it) for it in ("coverage", *DATES)]
            unread = dict.fromkeys([*said, *(it.old for it in draft.unread() if it.rule in WIDENING)])
            why = "no coverage that reads: " + " | ".join(it for it in unread if it)
            return Outcome([], "BadDate", why[:200], draft.unread())
        if (isinstance(before, strict.Row) and not draft.changes and pairs == [before_pair(before)]
                and ranges == [Range(draft.cells[DATES[0]], draft.cells[DATES[1]])]):
            # Most records of a good list.
            return Outcome([(draft.cells, before)], "", "", [])
        rows: list[tuple[Cells, strict.Row]] = []
        if len(pairs) * len(ranges) > MOST_ROWS:
            draft.note("coverage", "", MANY_ROWS)
        for pair, (at, one) in itertools.islice(itertools.product(pairs, enumerate(ranges)), MOST_ROWS):
            # The volumes at the two ends of a coverage with gaps are known.
            ends = at == 0, at == len(ranges) - 1
            row, found = self.row(draft, kind, pair, one, ends, bool(rows))
            if found == "Reversed":
                draft.changes += [Change(label, day, day, REVERSED) for label, day in zip(DATES, one[:2])]
                continue
            if isinstance(found, str):
                return Outcome([], found, reason(draft.cells, kind), draft.unread())
            rows.append((row, found))
        if not rows:
            return Outcome([], "Reversed", f"the end is before the beginning: {coverage.shown(ranges)}"[:200],
                           draft.unread())
        if self.is_kbart and isinstance(before, strict.Row) and not strict.keeps(before, rows[0][1]):
            # A row that the reader takes is passed on, whatever the rules above say.
            return Outcome([(cells, before)], "", "", [])
        return Outcome(rows, "", "", draft.changes)

    def refused(self, fields: list[str]) -> str:
        """Returns which note or status of a record says that it is not held, or nothing."""
        for at in self.refusing:
            for cell in fields[at:at + 1]:
                if statuses.verdict(cell) == "no":
                    return f"the column {self.header[at]!r} has {cell.strip()[:100]!r}"
        return ""

    def cells(self, fields: list[str]) -> Cells:
        """Returns the cells of a record by the standard's labels, in their order."""
        missing = self.width + 1 - len(fields)
        padded = fields + [""] * missing if missing > 0 else fields[:self.width] + [""]
        cells = dict(zip(strict.LABELS, self.cells_of(padded)))
        for label in self.several:
            cells[label] = self.columns.cell(fields, label)
        if not self.is_kbart and not values.NOTHING.isdisjoint(cells.values()):
            cells = {label: "" if it in values.NOTHING else it for label, it in cells.items()}
        return cells

    def decided(self, draft: Draft, before: strict.Row | str) -> tuple[str | None, list[tuple[str, str]]]:
        """Returns whether a record is a serial or a book, None if it is neither, and the identifiers of its rows."""
        if isinstance(before, strict.Row) and self.is_settled(draft.cells, before):
            return before.kind, [before_pair(before)]
        sides = self.numbers(draft)
        kind = before.kind if self.is_kbart and isinstance(before, strict.Row) else self.kind(draft, sides)
        if kind:
            self.note_unread(draft)
        print_, online, further = sides.of("issn" if kind == "serial" else "isbn")
        return kind, paired(print_, online, further, self.sided_columns)

    def is_settled(self, cells: Cells, before: strict.Row) -> bool:
        """Returns whether the reader's own rules decide the type and the identifiers of a row."""
        return ((self.is_kbart or cells["publication_type"].strip(" ") != "") and not self.has_numbers_apart
                and (before.print_identifier is not None or not cells[NUMBERS[0]].strip(" "))
                and (before.online_identifier is not None or not cells[NUMBERS[1]].strip(" ")))

    def realigned(self, fields: list[str]) -> tuple[list[str], str]:
        """Returns the cells of a record with a text in one cell whose separators made more cells than the header has,
        and the label of that cell, if more cells then are what their labels say."""
        more = len(fields) - self.width
        if not 0 < more <= MOST_MORE or self.is_kbart or not any(map(str.strip, fields[self.width:])):
            return fields, ""
        found = [([*fields[:at], self.sign.join(fields[at:at + more + 1]), *fields[at + more + 1:]], label)
                 for label in JOINED for at in self.columns.places.get(label, [])]
        best = max(found, key=lambda it: self.fitting(it[0]), default=(fields, ""))
        # A coverage that reads with all its parts does so without the last ones, too.
        is_better = self.fitting(best[0]) + (best[1] == "coverage") > self.fitting(fields)
        return best if is_better else (fields, "")

    def fitting(self, fields: list[str]) -> int:
        """Returns how many columns of a record have what their labels say: numbers, addresses, dates."""
        cell = self.columns.cell
        return (sum(bool(identifiers.numbers(cell(fields, it))) for it in NUMBERS)
                + (ADDRESS.match(cell(fields, "title_url")) is not None)
                + sum(dates.read(it, bool(at), "").rule != dates.NOT_READ for at, label in enumerate(DATES)
                      if (it := cell(fields, label)))
                + bool((said := self.read(cell(fields, "coverage"))).ranges and not said.unread))

    def texts(self, draft: Draft, is_unsafe: bool) -> None:
        """Mends the cells that are neither numbers nor dates."""
        cells, put, columns = draft.cells, draft.put, self.columns
        if is_unsafe:
            for label in (*TEXTS, "embargo_info", "coverage_depth", "access_type"):
                put(label, values.clean(cells[label]), "characters that nobody sees")
        put("publication_title", values.title(cells["publication_title"]), "characters and references of a title")
        address = values.address(cells["title_url"], self.settings.replaced, self.settings.unwrapped)
        put("title_url", address, "an address")
        if cells["embargo_info"]:
            unit = values.UNITS.get(folded(columns.cell(draft.fields, "embargo_unit")), "")
            put("embargo_info", values.embargo(cells["embargo_info"], unit), "an embargo in words")
        if not cells["embargo_info"] and any(it in columns.places for it, _ in EMBARGOES):
            put("embargo_info", self.embargo(draft.fields), "an embargo in words")
        for label, unit in RECENT:
            if recent := values.embargo(columns.cell(draft.fields, label), unit):
                if values.is_embargo(recent):
                    self.wall(draft, recent.upper().replace("P", "R"))
                else:
                    draft.note("embargo_info", recent, EMBARGO_NOT_READ)
        if cells["embargo_info"] and not values.is_embargo(cells["embargo_info"]):
            draft.note("embargo_info", cells["embargo_info"], EMBARGO_NOT_READ)
            cells["embargo_info"] = cells["embargo_info"] if self.is_kbart else ""
        for label in [it for it in PUBLISHED if cells[it] and not self.is_kbart]:
            put(label, dates.published(cells[label], self.settings.order), "a date of publication")
        put("coverage_depth", values.depth(cells["coverage_depth"]), "the depth in words")
        if not cells["coverage_depth"] and not self.is_kbart and values.depth(cells["access_type"]) == "abstracts":
            # `Abstracts only` below `Access`
            put("coverage_depth", "abstracts", "the depth in words")
        put("access_type", values.access(cells["access_type"]), "the access in words")
        if not cells["access_type"] and "open_access" in columns.places:
            put("access_type", values.open_access(columns.cell(draft.fields, "open_access")), "the access in words")
        if not cells["access_type"] and (columns.is_free or any(
                statuses.verdict(it) == "free" for at in self.said_held for it in draft.fields[at:at + 1])):
            put("access_type", "F", "a list of free titles" if columns.is_free else "the access in words")

    def embargo(self, fields: list[str]) -> str:
        """Returns the embargo of the columns of its years, months and days: `1` and `6` are 18 months."""
        found: dict[str, str] = {}
        for label, unit in EMBARGOES:
            if cell := values.embargo(self.columns.cell(fields, label), unit):
                if not values.is_embargo(cell):
                    return cell
                found[unit] = cell
        sign = self.columns.cell(fields, "embargo_sign").strip()
        is_recent = "R" if sign.startswith("<") else ""
        if {*found} == {"M", "Y"} and all(it[-1] == unit for unit, it in found.items()):
            found = {"M": f"{found['M'][0]}{int(found['M'][1:-1]) + 12 * int(found['Y'][1:-1])}M"}
        several = [is_recent + it[1:] if is_recent else it for it in found.values()]
        return coverage.combined(several[0], several[1]) if len(several) == 2 else "".join(several[:1])

    def join_dates(self, draft: Draft) -> None:
        """Puts each date whose month and day are in columns of their own beside its year."""
        for label, names in zip(DATES, PARTS):
            year = draft.cells[label].strip()
            month, day = (self.columns.cell(draft.fields, it).strip() for it in names)
            if dates.YEARS.fullmatch(year) and month:
                number = int(month) if month.isdecimal() else int(dates.MONTHS.get(folded(month), 0))
                draft.put(label, dates.date_text(int(year), number, int(day) if day.isdecimal() else 0),
                          "a date in several columns")

    def numbers(self, draft: Draft) -> Sides:
        """Returns the ISSNs and ISBNs of a record."""
        sides = []
        further = self.columns.cells(draft.fields, "other_identifier")
        for label in NUMBERS:
            is_several = label in self.several
            sides.append(self.columns.cells(draft.fields, label) if is_several else [draft.cells[label]])
            if self.is_kbart:
                further = further + self.columns.cells(draft.fields, label, skipped=1)
        found = Sides(*([it for cell in cells if cell for it in identifiers.numbers(cell)]
                        for cells in (*sides, further)))
        return found if self.is_kbart else self.sided(draft, found, [it for cells in sides for it in cells])

    def sided(self, draft: Draft, found: Sides, cells: list[str]) -> Sides:
        """Returns numbers on the sides that words beside them say, as `2434-561X (online)`, or a record's medium."""
        said = {number: side for cell in cells for number, side in identifiers.sides(cell)}
        kind = draft.cells["publication_type"]
        medium = identifiers.side_of(self.columns.cell(draft.fields, "medium")
                                     or ("" if folded(kind) in kinds.KINDS else kind))
        if medium and not said and not (found.print and found.online):
            said = dict.fromkeys([*found.print, *found.online], medium)
        if not said:
            return found
        online = [*(it for it in found.print if said.get(it) == "online"),
                  *(it for it in found.online if said.get(it) != "print")]
        print_ = [*(it for it in found.print if said.get(it) != "online"),
                  *(it for it in found.online if said.get(it) == "print")]
        return Sides(print_, online, found.further)

    def kind(self, draft: Draft, sides: Sides) -> str | None:
        """Returns whether a record is a serial or a book, and puts its type. None if it is neither."""
        found = {it.kind for side in sides for it in side}
        cell = draft.cells["publication_type"]
        kind, rule = kinds.read(cell, "issn" in found, "isbn" in found, self.settings.kind)
        if kind and (strict.lower(cell) or "serial") != kind:
            draft.put("publication_type", kind, rule)
        elif kind and not cell.strip() and not self.is_kbart:
            # The reader takes no type for a serial, and others may not.
            draft.cells["publication_type"] = kind
        return kind

    def note_unread(self, draft: Draft) -> None:
        """Notes the identifiers that do not read."""
        for label in NUMBERS:
            cell = draft.cells[label]
            if cell.strip(" ") and not identifiers.numbers(cell) and folded(cell) not in dates.NONE:
                rule = "not read: its digits are lost in a spreadsheet" if identifiers.is_scientific(cell) \
                    else "not read: no number whose check character fits"
                draft.changes.append(Change(label, cell, cell, rule))

    def ranges(self, draft: Draft) -> list[Range]:
        """Returns the ranges of a record. All days of rows go out here: each cell that may say something of them is
        used, makes them fewer, or is noted."""
        if self.is_kbart:
            return self.held(draft)
        cells = [(*it, beside.said(*it[:2], self.settings.order, self.settings.has_volumes))
                 for it in self.beside_cells(draft)]
        for *_, one in cells:
            self.wall(draft, one.embargo)
        if statuses.is_negated(access := draft.cells["access_type"]):
            draft.note("access_type", access, ACCESS_NOT_READ)
        held = self.held(draft)
        if any(not it.first for it in held) and self.has_lost(draft):
            return []
        for label, cell, is_limit, one in cells:
            held = self.lessened(draft, held, label, cell, one.gaps)
            if one.limits and one.is_used(is_limit):
                held = self.limited(draft, held, label, cell, one.limits)
                if one.is_unread:
                    draft.note(label, cell, GAP_NOT_READ)
            elif label == "access_type" and has_year_beside(cell):
                draft.note(label, cell, ACCESS_NOT_READ)
            elif one.may_lessen(held):
                draft.note(label, cell, GAP_NOT_READ)
        for label, cell, *_ in [it for it in cells if it[-1].is_cancelled and not all(one.last for one in held)][:1]:
            limits = [it for *_, one in cells for it in one.limits]
            if not limits:
                draft.note(label, cell, CANCELLED)
                return []
            held = self.limited(draft, held, label, cell, tuple(limits))
        return [] if any(it.rule == EMBARGO_NOT_READ for it in draft.changes) else self.without_gaps(draft, held)

    def beside_cells(self, draft: Draft) -> list[tuple[str, str, bool]]:
        """Returns the cells beside the coverage that may say something of it, with the labels of their columns, and
        whether a range there is what the library has."""
        given = [(label, cell, True) for label in ("access_type", "notes")
                 for cell in dict.fromkeys([draft.cells[label], *self.columns.cells(draft.fields, label)])]
        given += [(header, cell, self.is_limit(at)) for at, header in self.beside_columns
                  for cell in draft.fields[at:at + 1]]
        return [it for it in given if beside.may_say(it[1])]

    def said(self, place: int, cell: str) -> beside.Said:
        """Returns what a cell of a column that no label names says of the coverage."""
        return beside.said(self.header[place], cell, self.settings.order,
                           self.settings.has_volumes) if beside.may_say(cell) else beside.NOTHING

    def uses(self, place: int, cell: str) -> bool:
        """Returns whether a cell of a column that no label names takes days away, or says that a title is held."""
        if place in self.chooser.where and unused.is_understood(cell):
            return True
        return self.said(place, cell).is_used(self.is_limit(place))

    def is_limit(self, place: int) -> bool:
        """Returns whether a range of a column that no label names is what the library has: a status, or its own."""
        return place in self.status or is_own(self.header[place])

    def has_lost(self, draft: Draft) -> bool:
        """Notes the cells of columns that are not used that have dates, and the years in columns of numbers, as
        `Vol. 3 (1995)`, of a record whose beginning no other column says."""
        lost = [(label, cell, YEAR_NOT_READ) for label in (*VOLUMES, *ISSUES, "volumes")
                for cell in self.columns.cells(draft.fields, label) if has_year_beside(cell)]
        lost += [(header, cell, LOST) for at, header in self.beside_columns for cell in draft.fields[at:at + 1]
                 if beside.is_dated(header, cell)]
        lost += [(header, cell, LOST) for at, header in self.printed for cell in draft.fields[at:at + 1]
                 if dates.YEARS.search(cell)]
        for it in lost:
            draft.note(*it)
        return bool(lost)

    def limited(self, draft: Draft, held: list[Range], label: str, cell: str,
                limits: tuple[Range, ...]) -> list[Range]:
        """Returns the ranges without the days that an access, a status or a note leaves out, as `access until 2017`."""
        left = beside.within(held, limits)
        if left is None:
            draft.note(label, cell, GAP_NOT_READ)
        elif left != held:
            draft.changes.append(Change(label, cell, coverage.shown(left), "a coverage in other words"))
        return held if left is None else left

    def without_gaps(self, draft: Draft, held: list[Range]) -> list[Range]:
        """Returns the ranges without what the column of gaps has."""
        cell = self.columns.cell(draft.fields, "gaps") if "gaps" in self.columns.places else ""
        if not cell or beside.says_no(cell):
            return held
        gaps = self.read(cell)
        if gaps.unread or not gaps.ranges and not gaps.gaps:
            draft.note("coverage", cell, PARTLY_READ)
        return self.lessened(draft, held, "coverage", cell, gaps.ranges + gaps.gaps)

    @staticmethod
    def lessened(draft: Draft, held: list[Range], label: str, cell: str, gaps: tuple[Range, ...]) -> list[Range]:
        """Returns the ranges without the gaps that a cell says."""
        left = beside.without(held, gaps)
        if left != held:
            draft.changes.append(Change(label, cell, coverage.shown(left), "a gap in other words"))
        return left

    def read(self, cell: str) -> coverage.Statement:
        """Returns what a statement says in the notation of the list."""
        return coverage.read(cell, self.settings.order, self.settings.has_volumes, self.settings.has_quarters)

    def statement(self, fields: list[str]) -> tuple[str, coverage.Statement | None]:
        """Returns the coverage in one cell, and what it says. Of several columns all count whose ranges are apart, and
        of others what all of them say, unless one is the library's own."""
        places = self.columns.places.get("coverage", [])
        cell = self.columns.cell(fields, "coverage")
        if len(places) > 1 and not any(is_own(self.columns.header[it]) for it in places) and not self.chooser.choices:
            cells = dict.fromkeys(it for at in sorted(places) for it in map(str.strip, fields[at:at + 1])
                                  if it and folded(it) not in dates.NONE)
            # `Not available` beside the range of another part.
            cells = {it: None for it in cells if statuses.verdict(it) != "no"} or cells
            cell, many = "; ".join(cells), [self.read(it) for it in cells]
            if len(many) > 1 and all(it.ranges and not it.unread for it in many) and not coverage.are_apart(many):
                return cell, coverage.common(many)
        return cell, self.read(cell) if folded(cell) not in dates.NONE else None

    def held(self, draft: Draft) -> list[Range]:
        """Returns the range of each row: several if a coverage in one cell has gaps, none if nothing of it reads."""
        cell, statement = self.statement(draft.fields)
        if statement and not any(draft.cells[it].strip() for it in DATES):
            return self.stated(draft, cell, statement)
        for rule in () if self.is_kbart else (self.pairs, self.grouped, self.alone, self.marked):
            if (apart := rule(draft)) is not None:
                return apart
        given = self.date_columns(draft)
        if given is None or given.is_reversed() and any(it.rule == dates.UNDECIDED for it in draft.changes):
            # No day is in the coverage for certain.
            return []
        if statement and not self.is_kbart:
            if statement.ranges and not statement.unread and coverage.is_within(statement.ranges, given):
                return self.stated(draft, cell, statement)
            if dates.YEARS.search(cell) or statement.embargo:
                draft.note("coverage", cell, BESIDE)
                self.wall(draft, statement.embargo)
                if statement.ranges and not statement.unread:
                    return beside.within([given], statement.ranges) or []
        begin = coverage.window(draft.cells["embargo_info"], self.today)
        if begin and not given.first and not self.is_kbart:
            draft.put(DATES[0], begin, "the recent issues of an embargo")
            return [given._replace(first=begin)]
        if not given.has_dates() and (cited := self.cited_range(draft)):
            draft.put("coverage_depth", "abstracts", "dates of citations alone")
            return [cited]
        return [given]

    def cited_range(self, draft: Draft) -> Range | None:
        """Returns the range of the dates of citations, or None if no column of them has a year."""
        found: dict[str, str] = {}
        has_year = False
        for at, label in self.cited:
            for cell in draft.fields[at:at + 1]:
                has_year = has_year or dates.YEARS.search(cell) is not None
                if not label and (said := self.read(cell)).ranges and "coverage" in self.columns.places:
                    found = {DATES[0]: said.ranges[0].first, DATES[1]: said.ranges[-1].last}
                if label and label not in found:
                    found[label] = dates.read(cell, label == DATES[1], self.settings.order).text or ""
        return Range(*(found.get(it, "") for it in DATES)) if has_year else None

    def stated(self, draft: Draft, cell: str, statement: coverage.Statement) -> list[Range]:
        """Returns the ranges of a statement, and puts its embargo."""
        if statement.unread:
            draft.note("coverage", cell, PARTLY_READ if statement.ranges else STATEMENT_NOT_READ)
        if statement.is_undecided:
            draft.note("coverage", cell, dates.UNDECIDED)
        if statement.ranges:
            draft.changes.append(Change("coverage", cell, coverage.shown(statement.ranges), "a range in one cell"))
        self.wall(draft, statement.embargo)
        begin = coverage.window(draft.cells["embargo_info"], self.today)
        return [it if it.first or not begin else it._replace(first=begin) for it in statement.ranges]

    def wall(self, draft: Draft, embargo: str) -> None:
        """Puts an embargo that a coverage says, beside the one that the record has."""
        old = draft.cells["embargo_info"]
        if embargo and (not old or values.is_embargo(old)):
            draft.put("embargo_info", coverage.combined(old, embargo) if old else embargo, "an embargo in a coverage")

    def published(self, draft: Draft) -> None:
        """Takes the first date of a book for that of its publication online: no book has a first issue."""
        found = self.date_columns(draft)
        if found and found.first and not draft.cells[PUBLISHED[1]]:
            draft.put(PUBLISHED[1], found.first, "the first date of a book")
        for label in DATES:
            draft.cells[label] = ""

    def date_columns(self, draft: Draft) -> Range | None:
        """Returns the range of the two columns of dates. If one of them does not read it is the other one alone, and
        None if both do not."""
        unread = set()
        for at, label in enumerate(DATES):
            cell = draft.cells[label]
            if label in self.numbered and (parts := VOLUME_YEAR.fullmatch(cell)):
                # `12/1995` below `Volume/Year`
                draft.put(label, parts[2], "a number beside a date")
                draft.put(VOLUMES[at], parts[1], "a number beside a date")
                continue
            found = self.narrowest(draft, label, bool(at))
            # A date that reads as it is says nothing else.
            if len(cell) > DATE or found.rule == dates.NOT_READ:
                embargo = coverage.wall(cell, bool(at))
                self.wall(draft, embargo)
                if embargo and found.rule == dates.NOT_READ:
                    found = dates.Read("", "an embargo in a coverage")
            if found.rule == dates.NOT_READ:
                draft.note(label, cell, EMPTY if cell == jsonlist.EMPTY else found.rule)
                draft.cells[label] = ""
                if cell != jsonlist.EMPTY:
                    unread.add(at)
            draft.put(label, found.text or "", found.rule)
            if has_number_beside(cell, found.rule):
                self.numbers_beside(draft, cell, at)
        ends = [draft.cells[it] for it in DATES]
        known = [it for at, it in enumerate(ends) if at not in unread and it]
        if unread:
            return Range(known[0], known[0]) if known else None
        return Range(*ends)

    def narrowest(self, draft: Draft, label: str, is_last: bool) -> dates.Read:
        """Returns the date of a label. Of several columns it is the latest first date, or the earliest last one, of
        those that are the library's own, or else of all."""
        cell = draft.cells[label]
        given: list[str] = []
        if label in self.several:
            if len(every := self.columns.filled(draft.fields, label)) > 1:
                draft.note(label, " | ".join(every), SEVERAL)
                if len({it for cell in every for it in dates.YEARS.findall(cell)}) > 1:
                    # Nobody knows of which of the dates a number is.
                    for numbers in (VOLUMES, ISSUES):
                        draft.put(numbers[is_last], "", "a number beside several dates")
            given = self.columns.foremost(draft.fields, label)
        if len(given) < 2:
            if self.settings.has_quarters and (both := dates.quarter_or_month(cell.strip())):
                return dates.Read(both[is_last], dates.UNDECIDED)
            return dates.read(cell, is_last, self.settings.order)
        found = [dates.read(it, is_last, self.settings.order) for it in given]
        days = [(strict.date(it.text), it) for it in found if it.text]
        return (min if is_last else max)(days, key=lambda it: it[0] or (), default=(None, found[0]))[1]

    def alone(self, draft: Draft) -> list[Range] | None:
        """Returns the ranges of a cell that has both dates, if the column of the other one is empty, or None."""
        for at, label in enumerate(DATES):
            cell = draft.cells[label]
            years = dates.YEARS.findall(dates.long_years(cell))
            if cell.strip() and not draft.cells[DATES[1 - at]].strip() and len(years) > 1:
                said = self.read(cell)
                # `1887-1888` may be the two years of one volume.
                if not said.unread and any(it.last and it.first[:4] != it.last[:4] and not is_next(it)
                                           for it in said.ranges):
                    return self.stated(draft, cell, said)
        return None

    def marked(self, draft: Draft) -> list[Range] | None:
        """Returns the ranges that are marked, each in its own column, or None if there are no such columns."""
        if not self.columns.marks:
            return None
        found: list[Range] = []
        for at, first, last in self.columns.marks:
            if values.YES_NO.get(folded(draft.fields[at] if at < len(draft.fields) else "")) == "yes":
                is_next_one = bool(found) and dates.outside(found[-1].last, True) == first
                found[-1:] = [found[-1]._replace(last=last)] if is_next_one else [*found[-1:], Range(first, last)]
        draft.changes.append(Change("coverage", "", coverage.shown(found), "a mark for each range"))
        return found

    def grouped(self, draft: Draft) -> list[Range] | None:
        """Returns a range for each group of columns with dates, as those of an archive and of what is current, or None
        if the record has only one."""
        if not self.groups:
            return None
        found = []
        is_lessened = False
        for places in self.groups:
            cells = [draft.fields[it] if 0 <= it < len(draft.fields) else "" for it in places]
            if any(beside.says_no(cell) for at in self.purchased(places) for cell in draft.fields[at:at + 1]):
                # `No` below `Backfile purchased`
                is_lessened = True
                continue
            ends = [dates.read(cell, bool(at), self.settings.order) for at, cell in enumerate(cells)]
            if not any(it.strip() for it in cells):
                continue
            if any(it.text is None or it.rule in IN_PAIRS for it in ends) or not ends[0].text:
                return None
            found.append(Range(ends[0].text or "", ends[1].text or ""))
        found.sort()
        if len(found) < 2 - is_lessened or any(it.is_reversed() for it in found) or any(
                not one.last or one.last >= two.first for one, two in itertools.pairwise(found)):
            return None
        draft.changes += [Change(label, draft.cells[label], "", "several dates, in pairs") for label in DATES]
        return found

    def purchased(self, places: list[int]) -> list[int]:
        """Returns the places of the columns that say whether the library has the part that a group of dates is of."""
        words = {it for at in places if at >= 0 for it in folded(self.header[at]).split()} & APART
        return [at for at, header in self.beside_columns if words & {*folded(header).split()}
                and unused.label_kind(header) == "status"]

    def pairs(self, draft: Draft) -> list[Range] | None:
        """Returns the ranges of two columns of dates that have several each, as `1975|1985` and `1980|`, or None.

        A pair of which a date does not read is left out. If one has more than the other, the narrowest range counts."""
        if not SIGNS.search(draft.cells[DATES[0]] + draft.cells[DATES[1]]):
            return None
        sides = [several_of(draft.cells[it]) for it in DATES]
        if not any(len(dated(cells)) > 1 for cells in sides):
            return None
        found = [[dates.read(cell, bool(at), self.settings.order) for cell in cells] for at, cells in enumerate(sides)]
        if any(it.rule in IN_PAIRS for side in found for it in side):
            return None
        first, last = ([it.text for it in side] for side in found)
        is_read = None not in first + last
        if len(first) == len(last):
            numbers = [several_of(draft.cells[it]) for it in (*VOLUMES, *ISSUES)]
            numbers = [it if len(it) == len(first) else [""] * len(first) for it in numbers]
            ranges = [Range(one, two, *it) for one, two, *it in zip(first, last, *numbers) if one and two is not None]
            if not any(it.is_reversed() or not it.last and it is not ranges[-1] for it in ranges):
                draft.changes += [Change(label, draft.cells[label], "", "several dates, in pairs") for label in DATES]
                if not is_read or len(ranges) < len(first):
                    draft.note(DATES[0], draft.cells[DATES[0]], NOT_PAIRED)
                return ranges
        for label in DATES:
            draft.note(label, draft.cells[label], NOT_PAIRED)
        end = min(filter(None, last), default="")
        narrow = [Range(begin, end) for begin in sorted(filter(None, first))]
        return [it for it in narrow if not it.is_reversed()][-1:] if end or is_read else []

    def numbers_beside(self, draft: Draft, cell: str, at: int) -> None:
        """Puts the volume and the issue that are beside a date, as in `v.23 n.1 (Jan 5, 1996)`, if no column has them,
        and the day of that date."""
        said = self.read(PART_OF_VOLUME.sub("", cell))
        if not said.ranges and not dates.SEASONS.keys().isdisjoint(folded(cell).split()):
            # A winter is no range by itself.
            said = self.read(f"{'to' if at else 'from'} {PART_OF_VOLUME.sub('', cell)}")
        if said.unread or len(said.ranges) != 1:
            return
        if said.ranges[0][at].startswith(draft.cells[DATES[at]]):
            draft.put(DATES[at], said.ranges[0][at], "a day beside a number")
        for labels, numbers in ((VOLUMES, said.ranges[0][2:4]), (ISSUES, said.ranges[0][4:6])):
            if numbers[at] and labels[at] not in self.columns.places:
                draft.put(labels[at], numbers[at], "a number beside a date")

    def volumes(self, draft: Draft) -> None:
        """Puts the volumes of a record, unless the reader would take none of them."""
        for label in () if self.is_kbart else (*VOLUMES, *ISSUES):
            if draft.cells[label] and folded(draft.cells[label]) in dates.NONE:
                draft.put(label, "", "no number")
        old = draft.cells[VOLUMES[0]], draft.cells[VOLUMES[1]]
        new = volumes.read(old[0], False), volumes.read(old[1], True)
        if not any(old) and "volumes" in self.columns.places:
            new = volumes.both(self.columns.cell(draft.fields, "volumes"))
        one, two = map(strict.volume, new)
        if one is None or two is None or one <= two:
            for label, text in zip(VOLUMES, new):
                draft.put(label, text, "a volume with words")

    def row(self, draft: Draft, kind: str, pair: tuple[str, str], one: Range, ends: tuple[bool, bool],
            is_further: bool) -> tuple[Cells, strict.Row | str]:
        """Returns one row of a record, and what the reader takes from it.

        `ends` says whether the row has the first and the last range of the record."""
        row = dict(draft.cells)
        read = strict.issn if kind == "serial" else strict.isbn
        for label, number in zip(NUMBERS, pair):
            if read(row[label]) != (number or None):
                rule = "a row of its own for a further number" if is_further else "an identifier in another form"
                draft.changes.append(Change(label, row[label], number, rule))
                row[label] = number
            elif not number and not self.is_kbart and not any(
                    (it.kind == "issn") != (kind == "serial") for it in identifiers.numbers(row[label])):
                row[label] = ""
        row[DATES[0]], row[DATES[1]] = one.first, one.last
        for labels, numbers in ((VOLUMES, one[2:4]), (ISSUES, one[4:6])):
            for label, is_end, number in zip(labels, ends, numbers):
                if number or not is_end:
                    row[label] = number
        if is_further and one[:2] != (draft.cells[DATES[0]], draft.cells[DATES[1]]):
            draft.changes.append(Change("coverage", "", coverage.shown([one]), FURTHER))
        return row, strict.row(row)


def groups(columns: Columns) -> list[list[int]]:
    """Returns the places of the first and the last date of each group of columns, -1 for none, if there are several
    groups. Columns are of one group if their headers have the same words besides those of the two ends."""
    found: dict[str, list[int]] = {}
    for at, label in enumerate(DATES):
        for place in columns.places.get(label, []):
            if rank(columns.header[place]) == 0:
                # The library's own dates count before those of all, and not beside them.
                return []
            words = [it for it in folded(columns.header[place]).split() if it not in ENDS]
            pair = found.setdefault(" ".join(words), [-1, -1])
            if pair[at] >= 0:
                return []
            pair[at] = place
    # A first and a last date that are left over are one group.
    left = [it for it in found.values() if min(it) < 0]
    if len(left) == 2 and max(left[0][0], left[1][0]) >= 0 and max(left[0][1], left[1][1]) >= 0:
        left[0][:] = [max(it) for it in zip(*left)]
        found = {key: it for key, it in found.items() if it is not left[1]}
    return list(found.values()) if len(found) > 1 and all(it[0] >= 0 for it in found.values()) else []


def is_next(one: Range) -> bool:
    """Returns whether the last year of a range is the one behind its first."""
    return one.first[:4].isdecimal() and int(one.last[:4]) == int(one.first[:4]) + 1


def several_of(cell: str) -> list[str]:
    """Returns the parts of a cell between bars, semicolons or line ends, or between commas if all are numbers."""
    parts = [plain(it) for it in PART_END.split(cell)]
    if len(parts) == 1 and "," in parts[0] and not re.search("[^0-9,./ -]", parts[0]):
        return [it.strip() for it in parts[0].split(",")]
    return parts


def dated(parts: list[str]) -> list[str]:
    """Returns the parts of a cell that may be dates: three digits may be a spoilt year. Beside a date, `v.54(2)` and
    `v.2014` are none."""
    found = [it for it in parts if len(re.findall("[0-9]", it)) > 2]
    bare = [it for it in found if not is_number(it)]
    return bare or [it for it in found if dates.YEARS.search(it)]


def is_number(part: str) -> bool:
    """Returns whether a part of a cell is a volume with its word, or with its issue in brackets."""
    found = NUMBER.fullmatch(part)
    return found is not None and bool(MEANINGS.get(folded(found[1]), NONE) & {"volume", "issue"} if found[1]
                                      else found[2])


def has_number_beside(cell: str, rule: str) -> bool:
    """Returns whether a date that a rule found may have a volume or an issue beside it: a word for one is there."""
    return rule in IN_TEXTS and (
        NUMBER_FIRST.fullmatch(cell) is not None or WRITTEN_NUMBER.search(cell) is not None
        or any(MEANINGS.get(it, NONE) & {"volume", "issue"} for it in folded(cell).split()))


def has_year_beside(cell: str) -> bool:
    """Returns whether a cell that is none of dates may have a year beside its text."""
    return bool(cell) and not cell.strip().isdecimal() and dates.YEARS.search(cell) is not None


def end_of(header: str) -> str:
    """Returns the label of the end of a range that a header of citations means, or nothing."""
    text = folded(header)
    tokens = frozenset(text.split())
    ends = [name for name, group in zip(DATES, ("first", "last")) if has_word(group, text, tokens)]
    return ends[0] if len(ends) == 1 else ""


def reason(cells: Cells, kind: str) -> str:
    """Returns in words why a record has no identifier."""
    given = [cells[it] for it in NUMBERS if cells[it].strip()]
    if any(map(identifiers.is_scientific, given)):
        return "a number in the scientific form of a spreadsheet, whose digits are lost"
    if not given:
        return "no identifier"
    if kind == "monograph" and any(it.kind == "issn" for cell in given for it in identifiers.numbers(cell)):
        return "a book with an ISSN alone: it is the number of its series"
    return f"not an {'ISSN' if kind == 'serial' else 'ISBN'}: {', '.join(given)}"[:200]


def before_pair(row: strict.Row) -> tuple[str, str]:
    """Returns the identifiers that the reader took from a row."""
    return row.print_identifier or "", row.online_identifier or ""


def paired(print_: list[str], online: list[str], further: list[str],
           is_sided: Sequence[bool] = (False, False)) -> list[tuple[str, str]]:
    """Returns the identifiers of each row.

    A second number takes the other column if that is empty and the label of its own does not say that it is of that
    side, as `is_sided` has it, or else a row of its own."""
    if not print_ and not online:
        print_ = further
    # A number that both columns have takes the column that is empty without it.
    both = list(dict.fromkeys(it for it in print_ if it in online))
    if len(both) == 1 and not {*print_, *online} - {*both}:
        return [(both[0], both[0])]
    print_ = list(dict.fromkeys(it for it in print_ if it not in both))
    online = list(dict.fromkeys(it for it in online if it not in both))
    for number in both:
        (print_ if not print_ or online else online).append(number)
    if len(print_) > 1 and not online and not is_sided[0]:
        online = [print_.pop(1)]
    elif len(online) > 1 and not print_ and not is_sided[1]:
        print_ = [online.pop(1)]
    return list(itertools.zip_longest(print_, online, fillvalue="")) or [("", "")]
