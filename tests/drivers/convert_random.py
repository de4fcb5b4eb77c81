#!/usr/bin/python3
"""Converts random lists, and checks what becomes of them with the kbfeed on the path.

convert_random.py COUNT [SEED]

A list is made of cells that the proved reader takes, and of cells that tempt the rules. For each list

- the rules of `strict.py` read exactly the rows that `kbfeed check` reads, with the same reasons for the others;
- each of these rows is in the converted list, in the same order, with its type, identifiers, days and volumes;
- the counts of the report add up, and `kbfeed check` skips no row of the output;
- cut, damaged, re-encoded and random bytes are refused, or converted to a list for which the last point holds.

Prints how many rows were kept, and exits with 1 at the first list that breaks one of these. How many lists are refused
is printed on standard error: it changes with the rules."""
import argparse
import contextlib
import io
import json
import pathlib
import random
import subprocess
import sys
import tempfile

sys.dont_write_bytecode = True
sys.path.insert(0, str(pathlib.Path(__file__).resolve().parent.parent.parent / "tools" / "convert"))
from holdings import isbn_of_digits, issn_of_digits
from kbfeed_convert import command, strict
from kbfeed_convert.faults import Refused

OTHERS = ["ISSN", "Journal Title", "Coverage ends", "notes", "notes", "URL", "ISBN", "x\x00", '"quoted"', "Holdings",
          "Embargo (months)", "From", "date first issue online", "Volumes"]


def issn(r):
    front, _, back = issn_of_digits(f"{r.randrange(10 ** 7):07}").partition("-")
    return front + r.choice(["-", "-", "-", ""]) + back[:3] + r.choice([back[3], back[3].lower()])


def isbn(r):
    return isbn_of_digits(r.choice(["978", "979"]) + f"{r.randrange(10 ** 9):09}")


def number(r, is_book):
    text = isbn(r) if is_book else issn(r)
    if r.random() < 0.75:
        return text
    return r.choice([
        text + " (print)", "ISSN " + text, text.replace("-", "–"), text + "; " + issn(r), " " + text + " ", f'"{text}"',
        text[:-1], text.lstrip("0"), isbn(r), issn(r) + " " + isbn(r), "9.78142E+12", "9.780306406157E+12", "n/a", "",
        "\u200b" + text, "\x00" + text, text + " 1995-2001"])


def date(r):
    year = r.randrange(1890, 2025)
    month, day = r.randrange(1, 13), r.randrange(1, 29)
    good = [f"{year}", f"{year}-{month:02}", f"{year}-{month:02}-{day:02}", "", f" {year} "]
    odd = [f"{year}-00-00", f"{year}/{r.randrange(100):02}", f"{year}-{year + 1}", "present", "9999-12-31", "9999",
           f"03/04/{year}", f"31.12.{year}", f"Spring {year}", f"{year}-13", f"c{year}", "0000", "0001-01-01",
           f"{year}-02-30", f'"{year}"', "-", "x", f"{year}年", f"Q2 {year}", "Jan-95",
           f"{year}-{year + 3}; {year + 5}-"]
    return r.choice(good) if r.random() < 0.8 else r.choice(odd)


def volume(r):
    odd = ["", "XIV", "12a", "Vol. 3", "3-4", "007", "12/13", "v. 999999999", "1234567890", '"7"', "12.0", "٣", "第5巻"]
    return str(r.randrange(200)) if r.random() < 0.6 else r.choice(odd)


def text(r):
    base = "".join(r.choice("abcdefgh ÄéñłЖ中한の ’\"&;<>\x0b\x85\u2028\u00a0\x00'|,") for _ in range(r.randrange(30)))
    return r.choice([base, base, '"' + base, f'"{base}"', base + '"', "A &amp; B", "&copy", "<i>x</i>", '"a ""b"" c"',
                     '"', '""', '"""', "Ã©tudes", "=1+1"])


def cell(r, label, is_book, kind):
    if "identifier" in label or label in ("ISSN", "ISBN"):
        return number(r, is_book)
    if "date_" in label or label in ("Coverage ends", "From", "Holdings"):
        return date(r)
    if "num_" in label:
        return volume(r)
    if label == "publication_type":
        return kind
    if "mbargo" in label:
        return r.choice(["P1Y", "12 months", "R1Y;P30D", "", "none"])
    if "url" in label:
        return r.choice([f"http://a.example/{r.random()}", "www.a.example/x y", "[X]", ""])
    return text(r)


def random_list(r):
    """Returns the bytes of a list, in most cases one that the proved reader takes."""
    labels = list(strict.LABELS)
    if r.random() < 0.6:
        r.shuffle(labels)
    if r.random() < 0.3:
        labels = [it for it in labels if it in strict.REQUIRED or r.random() < 0.5]
    for it in OTHERS:
        if r.random() < 0.15:
            labels.insert(r.randrange(len(labels) + 1), it)
    lines = ["\t".join(r.choice([it, it, it.upper(), f" {it} "]) if it in strict.LABELS else it for it in labels)]
    for _ in range(r.randrange(40)):
        kind = r.choice(["serial", "serial", "", "Serial", " SERIAL ", "monograph", "Monograph", "book", "Book Series",
                         "journal", "video", "database", "newspaper", "x", '"serial"'])
        cells = [cell(r, it, kind.strip().lower() in ("monograph", "book"), kind) for it in labels]
        if r.random() < 0.1:
            cells = cells[:r.randrange(len(cells))]
        if r.random() < 0.05:
            cells += [text(r), issn(r)]
        lines.append("\t".join(cells))
        if r.random() < 0.05:
            lines.append(r.choice(["", "  ", "\t\t", lines[0], "Total 5"]))
    end = r.choice(["\n", "\r\n", "\r"])
    whole = r.choice(["", "\ufeff"]) + r.choice(["", end]) + end.join(lines) + r.choice(["", end, end * 3])
    return whole.encode("utf-8", "replace")


def variants(r, raw):
    """Yields bytes that are near a list, and some that are not."""
    yield raw[:r.randrange(len(raw))]
    yield bytes(r.choice([it, it, it, r.randrange(256)]) for it in raw)
    yield r.randbytes(r.randrange(3000))
    yield raw.decode().encode(r.choice(["utf-16", "utf-16-le", "utf-32", "utf-32-be", "gb18030", "utf-16-be"]))
    yield raw.replace(b"\t", r.choice([b",", b";", b"|"]))


def check(path):
    run = subprocess.run(["kbfeed", "check", "--json", str(path)], stdout=subprocess.PIPE, stderr=subprocess.DEVNULL,
                         check=False)
    return json.loads(run.stdout)


def reader_rows(raw, checked):
    """Returns the rows of a list by `strict.py`, whose reasons have to be those of the proved reader."""
    lines = raw.decode().removeprefix("\ufeff").replace("\r\n", "\n").replace("\r", "\n").split("\n")
    header, *records = [it.split("\t") for it in lines if it]
    places = strict.columns(header)
    reasons = {it["number"]: it["reason"] for it in checked["aside"]}
    rows = []
    for at, cells in enumerate(records, 2):
        row = strict.row({label: cells[place] if place < len(cells) else "" for label, place in places.items()})
        assert reasons.get(at) == (row if isinstance(row, str) else None), (cells, reasons.get(at), row)
        if not isinstance(row, str):
            rows.append(row)
    assert len(rows) == checked["rows"]
    return rows


def converted(path, folder):
    """Converts a list into a folder, and returns the path of the release and what the check says of it."""
    report = folder / "report"
    given = command.arguments(["--into", str(folder), "--package", "P", "--date", "2024-01-01", "--report", str(report),
                               str(path)])
    with contextlib.redirect_stderr(io.StringIO()), contextlib.redirect_stdout(io.StringIO()):
        command.run(given)
    said = json.loads(report.read_text(encoding="utf-8"))
    counts = said["counts"]
    assert counts["records"] == len(said["records"]) == counts["converted"] + sum(counts["dropped"].values()), counts
    assert [row for it in said["records"] for row in it.get("rows", [])] == list(range(2, counts["rows"] + 2))
    assert all("rows" in it or it["why"] for it in said["records"])
    release = folder / "P_2024-01-01.txt"
    checked = check(release)
    assert checked["rows"] == counts["rows"] and not checked["aside"], checked
    return release, checked


def kept(old, new):
    """Returns how many rows of the old list are in the new one, in their order. All of them have to be."""
    at = 0
    for row in old:
        while at < len(new) and not strict.keeps(row, new[at]):
            at += 1
        assert at < len(new), row
        at += 1
    return len(old)


def main():
    parser = argparse.ArgumentParser(description=__doc__, formatter_class=argparse.RawDescriptionHelpFormatter)
    parser.add_argument("count", type=int)
    parser.add_argument("seed", type=int, nargs="?", default=1)
    given = parser.parse_args()
    rows = refused = near = 0
    for number_of in range(given.count):
        r = random.Random(given.seed * 1_000_003 + number_of)
        with tempfile.TemporaryDirectory() as name:
            folder = pathlib.Path(name)
            path = folder / "L_2024-01-01.txt"
            raw = random_list(r)
            path.write_bytes(raw)
            before = check(path)
            old = reader_rows(raw, before) if "rows" in before else []
            (folder / "out").mkdir()
            try:
                release, checked = converted(path, folder / "out")
                rows += kept(old, reader_rows(release.read_bytes(), checked))
            except Refused as fault:
                assert not old, (number_of, fault)
                refused += 1
            for at, other in enumerate(variants(r, raw)):
                path.write_bytes(other)
                (folder / f"out{at}").mkdir()
                with contextlib.suppress(Refused):
                    converted(path, folder / f"out{at}")
                    near += 1
    print(f"{refused} lists refused, {near} of {given.count * 5} variants converted", file=sys.stderr)
    print(f"{given.count} lists and {given.count * 5} variants: {rows} rows kept")


if __name__ == "__main__":
    main()
