#!/usr/bin/python3
"""Converts random lists and spoilt ones, and checks that no row has more days than its source in silence.

convert_spoilt.py COUNT [SEED]

Each list has titles with known days: ranges with gaps and moving walls, written as products and languages write them,
in one cell or in columns of dates. One list in three has another column, in which some cells take days away. It is
converted as it is, and five times with spoilt cells or labels: a digit that is none, words that nobody knows, misspelt
words, signs that are gone, a label without a meaning. For each list

- each day that a row shows is one that the title has, or the report names the record, or a column that is not used;
- statements of coverage and dates never show a day that the title does not have, whatever the report says, unless
  another column or a label is spoilt;
- a list that is not spoilt has all days of all titles, and the report names nothing.

Prints how many rows were checked, and exits with 1 at the first that breaks one of these."""
import argparse
import datetime
import json
import pathlib
import random
import re
import sys
import tempfile

sys.dont_write_bytecode = True
sys.path.insert(0, str(pathlib.Path(__file__).resolve().parent.parent.parent / "tools" / "convert"))
from kbfeed_convert import command, strict
from kbfeed_convert.faults import Refused
from kbfeed_convert.record import WIDENING

TODAY = datetime.date(2026, 11, 30)
FIRST, LAST = datetime.date(1, 1, 1), datetime.date(9999, 12, 31)
MONTHS = "January February March April May June July August September October November December".split()
HEAD = ["Title", "ISSN", "URL"]


def issn(r):
    digits = f"{r.randrange(10 ** 7):07}"
    check = -sum(int(it) * weight for it, weight in zip(digits, range(8, 1, -1))) % 11
    return f"{digits[:4]}-{digits[4:]}{'X' if check == 10 else check}"


def title(r):
    """Returns ranges of years, of which the last may be open, and a wall or nothing."""
    year, ranges = r.randrange(1900, 1960), []
    for _ in range(r.choice([1, 1, 1, 2, 3])):
        end = year + r.randrange(0, 12)
        ranges.append((year, end))
        year = end + r.randrange(2, 9)
    if r.random() < 0.5:
        ranges[-1] = (ranges[-1][0], None)
    wall = r.choice(["", "", "P1Y", "P2Y", "P6M", "P18M", "R5Y"]) if ranges[-1][1] is None else ""
    return ranges, "" if wall[:1] == "R" and len(ranges) > 1 else wall


def wall_words(wall, r, language):
    """Returns a wall in the words of a product or a language."""
    if not wall:
        return ""
    count, unit = wall[1:-1], wall[-1]
    words = {
        "sfx": ("Most recent {} {} not available.", "Most recent {} {} available.", {"Y": "year(s)", "M": "month(s)"}),
        "german": ("die letzten {} {} nicht verfügbar", "nur die letzten {} {}", {"Y": "Jahre", "M": "Monate"}),
        "french": ("les {} derniers {} ne sont pas disponibles", "les {} derniers {}", {"Y": "ans", "M": "mois"}),
        "english": ("{}-{} embargo", "last {} {}", {"Y": "year", "M": "month"}),
    }[language]
    return words[wall[0] == "R"].format(count, words[2][unit])


def sfx(ranges, wall, r):
    parts = []
    for at, (first, last) in enumerate(ranges, 1):
        numbers = f" volume: {at}" if r.random() < 0.5 else ""
        parts.append(f"Available from {first}{numbers}" + (f" until {last}{numbers}" if last else "") + " .")
    return " ".join([*parts, wall_words(wall, r, "sfx")]).strip()


def dates_360(ranges, wall, r):
    if wall[:1] == "R":
        return "; ".join(f"{first}-" for first, _ in ranges) + f"; {wall}"
    ago = {"Y": "year ago", "M": "months ago"}[wall[-1]] if wall else ""
    end = f"{wall[1:-1]} {ago}" if wall else "present"
    return ", ".join(f"01/01/{first} to {f'12/31/{last}' if last else end}" for first, last in ranges)


def german(ranges, wall, r):
    parts = [f"{first} bis {last}" if last else f"ab {first}" for first, last in ranges]
    return "; ".join([*parts, wall_words(wall, r, "german")]).strip("; ")


def french(ranges, wall, r):
    parts = [f"de {first} à {last}" if last else f"depuis {first}" for first, last in ranges]
    return "; ".join([*parts, wall_words(wall, r, "french")]).strip("; ")


def english(ranges, wall, r):
    parts = [f"January {first} - December {last}" if last else f"January {first} - present" for first, last in ranges]
    return "; ".join([*parts, wall_words(wall, r, "english")]).strip("; ")


def ansi(ranges, wall, r):
    parts = [f"v.{at} ({first})-" + (f"v.{at + 1} ({last})" if last else "") for at, (first, last) in enumerate(ranges)]
    return "; ".join([*parts, wall]).strip("; ")


def chinese(ranges, wall, r):
    parts = [f"{first}年至{last}年" if last else f"{first}年至今" for first, last in ranges]
    words = {"P": "最近{}不可用", "R": "最近{}"}
    length = wall[1:-1] + {"Y": "年", "M": "个月"}[wall[-1]] if wall else ""
    return "；".join([*parts, words[wall[0]].format(length) if wall else ""]).strip("；")


def database(ranges, wall, r):
    parts = [f'$obj->parsedDate(">=",{first},{at},undef)'
             + (f' && $obj->parsedDate("<=",{last},{at},undef)' if last else "")
             for at, (first, last) in enumerate(ranges, 1)]
    sign = {"P": ">=", "R": "<="}[wall[0]] if wall else ""
    end = f' && $obj->timediff("{sign}","{wall[1:].lower()}")' if wall else ""
    return " || ".join(parts) + end


def marc(ranges, wall, r):
    parts = [f"v.{at}:no.1({first}:Jan.)-" + (f"v.{at}:no.12({last}:Dec.)" if last else "")
             for at, (first, last) in enumerate(ranges, 1)]
    return "; ".join([*parts, wall]).strip("; ")


STATEMENTS = [sfx, dates_360, german, french, english, ansi, chinese, database, marc]


def columns(ranges, wall, r):
    """Returns the cells of a first date, a last date and an embargo."""
    if len(ranges) > 1:
        sign = r.choice(["|", ";", " | "])
        return [sign.join(str(it or "") for it in side) for side in zip(*ranges)] + [wall]
    first, last = ranges[0][0], ranges[-1][1]
    begin = r.choice([str(first), f"{first}-01-01", f"January {first}", f"1.1.{first}"])
    ends = [str(last), f"{last}-12-31", f"December {last}", f"31.12.{last}"] if last else ["", "present"]
    end = r.choice(ends)
    embargo = wall and r.choice([wall, f"{wall[1:-1]} {'years' if wall[-1] == 'Y' else 'months'}"])
    return [begin, end, wall if wall[:1] == "R" else embargo]


def remark(r, ranges, wall):
    """Returns a cell of another column that takes days away, and the ranges and the wall that it leaves."""
    first, last = ranges[-1]
    kind = r.randrange(5)
    if kind == 0 and not wall:
        return r.choice(["latest 18 months not available", "die letzten 18 Monate nicht verfügbar"]), ranges, "P18M"
    if kind == 1 and (last or 1990) - first > 2:
        year = first + 1
        left = [*ranges[:-1], (first, first), (year + 1, last)]
        return r.choice(["{} missing", "lacks {}", "fehlt {}", "v.5 ({}) missing", "not {}"]).format(year), left, wall
    if kind == 2 and last is None and wall[:1] != "R":
        year = first + 1
        words = r.choice(["ends with {}", "Online access ends with {}", "ceased {}", "access until {}", "bis {}"])
        return words.format(year), [*ranges[:-1], (first, year)], ""
    if kind == 3 and last is None and wall[:1] != "R":
        words = r.choice(["abstracts only from {}", "ab {} nur gedruckt", "print only from {}"])
        return words.format(first + 1), [*ranges[:-1], (first, first)], ""
    return r.choice(["", "peer reviewed", "ask at the desk"]), ranges, wall


def random_list(r):
    """Returns the header, the records and the days of each title, whether the coverage is in one cell, and whether
    another column takes days away."""
    is_statement = r.random() < 0.6
    form = r.choice(STATEMENTS)
    header = HEAD + (["Coverage"] if is_statement else ["Coverage begins", "Coverage ends", "Embargo"])
    has_remarks = r.random() < 0.33
    header += [r.choice(["Remarks", "Hinweis", "Comment", "Access notes", "Zusatz"])] if has_remarks else []
    records, truth = [], {}
    for number in range(r.randrange(1, 9)):
        ranges, wall = title(r)
        if not is_statement and r.random() < 0.7:
            ranges = [(ranges[0][0], ranges[-1][1])]
        key = issn(r)
        cells = [form(ranges, wall, r)] if is_statement else columns(ranges, wall, r)
        said, ranges, wall = remark(r, ranges, wall) if has_remarks else ("", ranges, wall)
        records.append([f"Journal {number}", key, f"https://a.example/{number}", *cells, *[said] * has_remarks])
        truth[key] = days(ranges, wall)
    return header, records, truth, is_statement, has_remarks


def days(ranges, wall):
    """Returns the days of a title as pairs of dates, as a reader sees them today."""
    whole = [(datetime.date(a, 1, 1) if a else FIRST, datetime.date(b, 12, 31) if b else LAST) for a, b in ranges]
    return seen(whole, wall)


def seen(ranges, wall):
    """Returns what a moving wall leaves of ranges."""
    low, high = FIRST, LAST
    for one in wall.split(";") if wall else []:
        count, unit = int(one[1:-1]), one[-1]
        if unit == "D":
            turn = TODAY - datetime.timedelta(days=count - 1)
        else:
            step, month = (1, TODAY.month - 1) if unit == "M" else (12, 0)
            months = TODAY.year * 12 + month - (count - 1) * step
            turn = datetime.date(months // 12, months % 12 + 1, 1)
        if one[0] == "R":
            low = max(low, turn)
        else:
            high = min(high, turn - datetime.timedelta(days=1))
    cut = [(max(a, low), min(b, high)) for a, b in ranges]
    return [(a, b) for a, b in cut if a <= b]


def row_days(row):
    """Returns the days of a row of a list. A text that is no embargo hides nothing."""
    found = re.fullmatch(" *([RP][0-9]+[DMY](;[RP][0-9]+[DMY])?) *", row[12])
    embargo = found[1] if found else ""
    first, last = strict.date(row[3]), strict.date(row[6])
    return seen([(datetime.date(*first[0]) if first else FIRST, datetime.date(*last[1]) if last else LAST)], embargo)


def is_part(some, whole):
    """Returns whether all days of some ranges are in others, which do not touch each other."""
    return all(any(a <= c and d <= b for a, b in whole) for c, d in some)


def spoilt(r, header, records, is_statement):
    """Returns a list with spoilt cells or labels, and whether only cells are spoilt."""
    header, records = list(header), [list(it) for it in records]
    if r.random() < 0.2:
        place = r.randrange(3, len(header))
        header[place] = r.choice(["Foo", "X1", "Zusatz", "Kolumne 7", ""])
        if not header[place]:
            header[place] = "?"
        return header, records, False
    for cells in records:
        for place in range(3, len(cells)):
            if cells[place] and r.random() < 0.6:
                cells[place] = spoilt_cell(r, cells[place], is_statement)
    if r.random() < 0.3:
        header.append("Remarks")
        records = [it + ["see page 12"] for it in records]
    return header, records, True


def spoilt_cell(r, cell, is_statement):
    """Returns a cell in which something is wrong that makes it say nothing more."""
    kind = r.randrange(8)
    words = re.findall(r"\w+", cell)
    word = r.choice(words)
    if kind == 0:
        years = re.findall("[0-9]{4}", cell)
        year = r.choice(years or words)
        at = r.randrange(len(year))
        return cell.replace(year, year[:at] + r.choice("xO?l") + year[at + 1:], 1)
    if kind == 1:
        at = r.choice([it.start() for it in re.finditer(r"\b", cell)] or [0])
        return cell[:at] + r.choice([" zork ", " quux ", " брым "]) + cell[at:]
    if kind == 2:
        longer = [it for it in words if it.isalpha() and len(it) > 3]
        if not longer:
            return cell + " blurb"
        word = r.choice(longer)
        return cell.replace(word, word[:2] + "q" + word[3:], 1)
    if kind == 3 and is_statement:
        return re.sub(r"[.;,；] ?", " ", cell, count=1)
    if kind == 4:
        return cell.upper() if r.random() < 0.5 else cell.replace(" ", "  ")
    if kind == 5:
        return cell.translate({ord(a): b for a, b in zip("0123456789-", "０１２３４５６７８９–")})
    if kind == 6:
        return cell + r.choice([" (incomplete)", " ?", " *", " see notes", " usw."])
    return f" {cell}\u00a0"


class Collected:
    """Takes what the converter writes."""

    def __init__(self):
        self.parts = []

    def write(self, data):
        self.parts.append(data)

    def write_text(self, text):
        self.parts.append(text)


def converted(r, header, records, folder):
    """Returns for each record of a list its rows and whether the report names it, and the columns that the report
    names."""
    path = folder / "list.txt"
    sign = r.choice(["\t", "\t", ";"]) if all(";" not in it for cells in records for it in cells) else "\t"
    path.write_text("\n".join(sign.join(it) for it in [header, *records]) + "\n", encoding="utf-8")
    out, report = Collected(), Collected()
    command.convert(command.arguments([str(path)]), "", out, report)
    said = json.loads("".join(report.parts))
    rows = [it.split("\t") for it in b"".join(out.parts).decode().split("\n")[1:-1]]
    named = {it["record"]: any(one["rule"] in WIDENING for one in it.get("changes", [])) for it in said["records"]}
    columns_named = [it for it in said.get("widened", []) if "column" in it]
    placed = {it["record"]: [rows[at - 2] for at in it.get("rows", [])] for it in said["records"]}
    return placed, named, columns_named


def check(r, given, truth, is_spoilt, is_strict, folder):
    """Checks a list, and returns the number of its rows."""
    header, records = given
    try:
        placed, named, columns_named = converted(r, header, records, folder)
    except Refused as fault:
        assert is_spoilt, (given, fault)
        return 0
    count = 0
    for number, cells in enumerate(records, 2):
        found = [it for row in placed[number] for it in row_days(row)]
        count += len(placed[number])
        is_named = named[number] or bool(columns_named)
        is_within = is_part(found, truth[cells[1]])
        assert is_within or is_named and not is_strict, (header, cells, placed[number])
        if not is_spoilt:
            assert found == truth[cells[1]] and not is_named, (header, cells, found, truth[cells[1]])
    return count


def main():
    parser = argparse.ArgumentParser(description=__doc__, formatter_class=argparse.RawDescriptionHelpFormatter)
    parser.add_argument("count", type=int)
    parser.add_argument("seed", type=int, nargs="?", default=1)
    given = parser.parse_args()
    rows = 0
    with tempfile.TemporaryDirectory() as name:
        folder = pathlib.Path(name)
        for number in range(given.count):
            r = random.Random(given.seed * 1_000_003 + number)
            header, records, truth, is_statement, has_remarks = random_list(r)
            rows += check(r, (header, records), truth, False, True, folder)
            for _ in range(5):
                *bad, only_cells = spoilt(r, header, records, is_statement)
                rows += check(r, bad, truth, True, only_cells and not has_remarks, folder)
    print(f"{given.count} lists and {given.count * 5} spoilt ones: no day too many")
    print(f"{rows} rows", file=sys.stderr)


if __name__ == "__main__":
    main()
