#!/usr/bin/python3
"""Writes workbooks (.xlsx) that are made to take memory or time without end, and one at the edge of each limit.

workbooks.py KIND FILE

KIND is a name of KINDS, below. The parts of a workbook are those of ECMA-376; `good` is a list of one row."""
import sys
import zipfile

MAIN = "http://schemas.openxmlformats.org/spreadsheetml/2006/main"
RELATED = "http://schemas.openxmlformats.org/officeDocument/2006/relationships"
PACKAGE = "http://schemas.openxmlformats.org/package/2006"
XML = '<?xml version="1.0"?>'
BEGIN = f'{XML}<worksheet xmlns="{MAIN}"><sheetData>'
END = "</sheetData></worksheet>"
STRINGS = f'{XML}<sst xmlns="{MAIN}">'
LAUGHS = '<!DOCTYPE x [<!ENTITY a "lol">' + "".join(
    f'<!ENTITY {name} "{f"&{before};" * 10}">' for before, name in zip("abcdefgh", "bcdefghi")) + "]>"


def cell(text):
    return f'<c t="inlineStr"><is><t>{text}</t></is></c>'


HEADER = "<row>" + "".join(map(cell, ["publication_title", "print_identifier", "title_url"])) + "</row>"
ROW = "<row>" + "".join(map(cell, ["Tides", "2434-561X", "https://a.example/t"])) + "</row>"


def repeated(text, count):
    """Yields a text so many times, some at once."""
    many = max(1, 65_536 // len(text))
    for _ in range(count // many):
        yield text * many
    yield text * (count % many)


def write(file, sheet, strings=None, book=None):
    """Writes a workbook of one sheet. The parts are texts that are written one after the other."""
    with zipfile.ZipFile(file, "w", zipfile.ZIP_DEFLATED) as packed:
        def put(name, *texts):
            with packed.open(name, "w") as part:
                for text in texts:
                    part.write(text.encode())
        put("[Content_Types].xml", f'{XML}<Types xmlns="{PACKAGE}/content-types"/>')
        put("_rels/.rels", f'{XML}<Relationships xmlns="{PACKAGE}/relationships"><Relationship Id="r" '
            f'Type="{RELATED}/officeDocument" Target="xl/workbook.xml"/></Relationships>')
        put("xl/workbook.xml", *(book or [f'{XML}<workbook xmlns="{MAIN}" xmlns:r="{RELATED}"><sheets>'
                                          '<sheet name="S" sheetId="1" r:id="r1"/></sheets></workbook>']))
        put("xl/_rels/workbook.xml.rels", f'{XML}<Relationships xmlns="{PACKAGE}/relationships">'
            f'<Relationship Id="r1" Type="{RELATED}/worksheet" Target="worksheets/sheet1.xml"/>'
            f'<Relationship Id="r2" Type="{RELATED}/sharedStrings" Target="sharedStrings.xml"/></Relationships>')
        put("xl/sharedStrings.xml", *(strings or [f"{STRINGS}</sst>"]))
        put("xl/worksheets/sheet1.xml", *sheet)


def sheet(*inside):
    return [BEGIN, HEADER, ROW, *inside, END]


def book(*inside):
    return [f'{XML}<workbook xmlns="{MAIN}" xmlns:r="{RELATED}"><sheets>', *inside, "</sheets></workbook>"]


def many_rows(count):
    """Yields rows with different titles."""
    for at in range(count):
        yield f"<row>{cell(f'Title {at}')}{cell('2434-561X')}{cell(f'https://a.example/{at}')}</row>"


KINDS = {
    "good": lambda: {"sheet": sheet()},
    "last-row": lambda: {"sheet": sheet('<row r="1048576">', cell("Reef"), cell("0317-8471"), "</row>")},
    "row-behind": lambda: {"sheet": sheet('<row r="1048577">', cell("Reef"), cell("0317-8471"), "</row>")},
    "row-number": lambda: {"sheet": sheet('<row r="9999999999999">', cell("Reef"), "</row>")},
    "column": lambda: {"sheet": sheet(*repeated('<row><c r="ZZZ1"><v>1</v></c></row>', 20_000))},
    "cells": lambda: {"sheet": sheet("<row>", *repeated("<c><v>1</v></c>", 300_000), "</row>")},
    "one-cell": lambda: {"sheet": sheet("<row>", *repeated('<c r="A3"><v>1</v></c>', 2_000_000), "</row>")},
    "nested": lambda: {"sheet": [BEGIN, HEADER, ROW, "<row><c>", *repeated("<a>", 2_000_000)]},
    "sheets": lambda: {"sheet": sheet(), "book": book(*repeated('<sheet name="S" sheetId="1" r:id="r1"/>', 100_000))},
    "names": lambda: {"sheet": sheet(), "book": book(*[f'<sheet name="S{at}" sheetId="1" r:id="r1"/>'
                                                       for at in range(1_001)])},
    "twice": lambda: {"sheet": sheet(), "book": book(*[f'<sheet name="S{at}" sheetId="1" r:id="r1"/>' for at in "12"])},
    "strings": lambda: {"sheet": sheet(), "strings": [STRINGS, *repeated("<si><t>a</t></si>", 1_000_000), "</sst>"]},
    "string": lambda: {"sheet": sheet(), "strings": [STRINGS, "<si><t>", *repeated("abcdefgh", 8_000_000),
                                                     "</t></si></sst>"]},
    "referred": lambda: {"sheet": sheet(*repeated('<row><c t="s"><v>0</v></c></row>', 100_000)),
                         "strings": [STRINGS, "<si><t>", "a" * 100_000, "</t></si></sst>"]},
    "wide-row": lambda: {"sheet": sheet("<row>", *['<c t="s"><v>0</v></c>'] * 100, "</row>"),
                         "strings": [STRINGS, "<si><t>", "a" * 100_000, "</t></si></sst>"]},
    "tag": lambda: {"sheet": [BEGIN, HEADER, ROW, '<row a="', *repeated("x" * 64, 2_000_000), '"/>', END]},
    "entities": lambda: {"sheet": [XML, LAUGHS, BEGIN.removeprefix(XML), HEADER, "<row>", cell("&i;"), "</row>", END]},
    "unpacked": lambda: {"sheet": sheet(*repeated(" " * 1024, 262_145))},
    "large": lambda: {"sheet": sheet(*many_rows(20_000))},
}
if __name__ == "__main__":
    write(sys.argv[2], **KINDS[sys.argv[1]]())
