#!/usr/bin/python3
"""Writes random workbooks by openpyxl, and compares how kbfeed-convert and openpyxl read them.

workbooks_random.py COUNT [SEED]

The cells are texts, numbers, dates of many formats, truth values, errors and nothing; rows and columns are left out.
Prints the cells that differ, and how many workbooks do."""
import datetime
import io
import pathlib
import random
import re
import sys

import openpyxl

sys.dont_write_bytecode = True
sys.path.insert(0, str(pathlib.Path(__file__).resolve().parent.parent.parent / "tools" / "convert"))
from kbfeed_convert.workbook import Workbook  # noqa: E402

FORMATS = ["yyyy-mm-dd", "dd/mm/yyyy", "mm/yyyy", "yyyy", "mmm yy", "d. mmmm yyyy", '"from" yyyy', "[$-409]d-mmm-yy",
           "yyyy-mm-dd hh:mm:ss", "General", "0.00"]
TEXTS = ["Tides", "  spaced  ", 'a "quoted" one', "two\nlines", "Zeitschrift für Öl", "潮", "0028-0836", "007",
         "a & b < c", "𝒜", "1e5", "TRUE"]


def value(r):
    kind = r.randrange(8)
    if kind < 3:
        return r.choice(TEXTS)
    if kind == 3:
        return r.choice([0, 7, -12, 280836, 9780306406157, 10 ** 14, 10 ** 17])
    if kind == 4:
        return r.choice([0.5, 1995.0, -2.25, 1e15, 1e16, 3.0e-7, 123456789.125])
    if kind == 5:
        return r.choice([True, False, None, "#REF!"])
    days = datetime.timedelta(days=r.randrange(61, 60_000), seconds=r.randrange(86_400))
    return datetime.datetime(1900, 1, 1) + days if kind == 6 else (datetime.datetime(1900, 1, 1) + days).date()


def written(r):
    """Returns a workbook, and the names of its sheets."""
    book = openpyxl.Workbook()
    if r.random() < 0.2:
        book.epoch = openpyxl.utils.datetime.CALENDAR_MAC_1904
    book.active.title = "First"
    for name in ["Second", "Third"][:r.randrange(3)]:
        book.create_sheet(name)
    for sheet in book.worksheets:
        for _ in range(r.randrange(60)):
            cell = sheet.cell(r.randrange(1, 40), r.randrange(1, 30), value(r))
            if isinstance(cell.value, (datetime.date, datetime.datetime)):
                cell.number_format = r.choice(FORMATS[:9])
            elif isinstance(cell.value, (int, float)) and not isinstance(cell.value, bool):
                cell.number_format = r.choice(FORMATS[9:])
            elif cell.value == "#REF!":
                cell.data_type = "e"
    file = io.BytesIO()
    book.save(file)
    return file


def text(cell):
    """Returns the text of a cell of openpyxl: its value, and of a date the parts that the format shows."""
    if cell.value is None or getattr(cell, "data_type", "") == "e":
        return ""
    if isinstance(cell.value, (datetime.datetime, datetime.date)):
        shown = re.sub(r'"[^"]*"|\[[^\]]*\]|\\.', "", cell.number_format.lower())
        return cell.value.strftime("%Y-%m-%d" if "d" in shown else "%Y-%m" if "m" in shown else "%Y")
    if isinstance(cell.value, bool):
        return "yes" if cell.value else "no"
    if isinstance(cell.value, float) and cell.value.is_integer() and abs(cell.value) < 1e15:
        return str(int(cell.value))
    return str(cell.value)


def trimmed(rows):
    """Returns rows without empty cells and rows at their ends."""
    rows = [list(row) for row in rows]
    for row in rows:
        while row and not row[-1]:
            row.pop()
    while rows and not rows[-1]:
        rows.pop()
    return rows


def main():
    count, seed = int(sys.argv[1]), int((sys.argv[2:] or ["1"])[0])
    r, differ = random.Random(seed), 0
    for number in range(count):
        file = written(r)
        theirs = openpyxl.load_workbook(file, read_only=True, data_only=True)
        wanted = [(it.title, trimmed([map(text, row) for row in it.rows])) for it in theirs.worksheets]
        ours = Workbook(file)
        got = [(name, trimmed(ours.rows(name))) for name in ours.sheets]
        if got != wanted:
            differ += 1
            for (name, one), (_, other) in zip(got, wanted):
                for row, (a, b) in enumerate(zip(one, other), 1):
                    if a != b:
                        print(f"workbook {number}, {name}, row {row}: {a} and not {b}")
    print(f"{count} workbooks, {differ} differ")


if __name__ == "__main__":
    main()
