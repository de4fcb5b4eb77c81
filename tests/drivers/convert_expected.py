#!/usr/bin/python3
"""Converts lists, and prints each record of which something else becomes than a table expects.

convert_expected.py TABLE [OPTION ..]

The table has a line for each record of lists that are beside it: the list, the number of the record, `row` or the
reason for which it is dropped, and cells of the row under the standard's labels. A type that is empty is `serial`. The
options are passed to kbfeed-convert, which has to be on the path. The last line counts records and rows."""
import json
import pathlib
import subprocess
import sys
import tempfile


def converted(path, folder, options):
    """Returns the report of a list, and the cells of its rows by their numbers."""
    report = folder / "report.json"
    run = subprocess.run(["kbfeed-convert", "--into", folder, "--report", report, *options, path],
                         capture_output=True, text=True, check=False)
    if run.returncode:
        return None, run.stderr
    header, *lines = (folder / run.stdout.strip()).read_text(encoding="utf-8").split("\n")[:-1]
    rows = {at: dict(zip(header.split("\t"), line.split("\t"))) for at, line in enumerate(lines, 2)}
    return json.loads(report.read_text(encoding="utf-8")), rows


def main():
    table = pathlib.Path(sys.argv[1])
    lines = [it for it in table.read_text(encoding="utf-8").split("\n") if it and it[0] != "#"]
    labels, *expected = [it.split("\t") for it in lines]
    records = made = wanted_rows = 0
    for name in dict.fromkeys(it[0] for it in expected):
        wanted = {int(it[1]): dict(zip(labels[2:], it[2:])) for it in expected if it[0] == name}
        with tempfile.TemporaryDirectory() as folder:
            report, rows = converted(table.parent / name, pathlib.Path(folder), sys.argv[2:])
        if report is None:
            print(f"{name}: {rows.strip()}")
            continue
        records += len(report["records"])
        made += len(rows)
        for it in report["records"]:
            cells = wanted.pop(it["record"], {"outcome": "no line in the table"})
            outcome = cells.pop("outcome")
            wanted_rows += outcome == "row"
            if outcome != ("row" if "rows" in it else it["dropped"]):
                print(f"{name} record {it['record']}: {it.get('dropped', 'row')}, wanted {outcome}")
            elif outcome == "row":
                row = rows[it["rows"][0]]
                row["publication_type"] = row["publication_type"].strip().lower() or "serial"
                for label, cell in cells.items():
                    if row[label] != cell:
                        print(f"{name} record {it['record']}: {label} is {row[label]!r}, wanted {cell!r}")
        for number in wanted:
            print(f"{name} record {number}: not in the report")
    print(f"{records} records, {made} rows of {wanted_rows}")


if __name__ == "__main__":
    main()
