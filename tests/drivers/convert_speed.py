#!/usr/bin/python3
"""Converts a list of many records, and prints whether that is as fast and as small as it has to be.

convert_speed.py BYTES SECONDS MEMORY [--stated] [FOLDER]

The list has about BYTES bytes. Its records are as in lists of vendors: most cells are good, and one record in two has
cells that a rule changes. With --stated the coverage is a statement, beside statuses and notes. SECONDS is the most
processor time, and MEMORY the most memory in megabytes. With a folder the list stays there. The figures are printed on
standard error."""
import os
import pathlib
import random
import resource
import subprocess
import sys
import tempfile

sys.dont_write_bytecode = True
from holdings import issn_of_digits  # noqa: E402

LABELS = ["publication_title", "print_identifier", "online_identifier", "date_first_issue_online",
          "num_first_vol_online", "num_first_issue_online", "date_last_issue_online", "num_last_vol_online",
          "num_last_issue_online", "title_url", "first_author", "title_id", "embargo_info", "coverage_depth", "notes",
          "publisher_name", "publication_type", "date_monograph_published_print", "date_monograph_published_online",
          "monograph_volume", "monograph_edition", "first_editor", "parent_publication_title_id",
          "preceding_publication_title_id", "access_type"]
WORDS = "Journal of the Harbour Society Studies in Naval History & Theory Review Acta Études für Küste Annals".split()


def issn(r):
    return issn_of_digits(f"{r.randrange(10 ** 7):07}")


def record(r):
    title = name(r)
    year, volume = r.randrange(1880, 2020), r.randrange(1, 90)
    number = issn(r)
    odd = r.random()
    if odd < 0.05:
        title = f'"{title}, ""new"""'
    elif odd < 0.1:
        number = number.replace("-", "–")
    first = r.choice([f"{year}-01-01", f"{year}-03", f"{year}", f"{year}-00-00" if odd < 0.25 else f"{year}-05-06"])
    last = r.choice(["", "", f"{year + 3}-12-31", "9999-12-31" if odd < 0.25 else ""])
    cells = dict.fromkeys(LABELS, "")
    cells.update(
        publication_title=title, print_identifier=number, online_identifier=issn(r) if r.random() < 0.8 else "",
        date_first_issue_online=first, num_first_vol_online=f"Vol. {volume}" if 0.2 < odd < 0.4 else str(volume),
        date_last_issue_online=last, num_last_vol_online=str(volume + 3) if last else "",
        title_url=f"https://www.publisher.example/journals/{r.randrange(10 ** 6)}", title_id=f"id{volume * year}",
        embargo_info="12 months" if 0.3 < odd < 0.5 else "", coverage_depth="fulltext", publisher_name="Example Press",
        publication_type="journal" if odd > 0.9 else "serial", access_type="P")
    return "\t".join(cells.values()) + "\r\n"


STATED_LABELS = ["Journal Title", "Print ISSN", "Online ISSN", "Coverage", "Status", "Notes", "Publisher", "Subject",
                 "URL", "Collection", "Last Updated"]
MONTHS = "January February March April May June July August September October November December".split()


def statement(r):
    first, volume = r.randrange(1880, 2015), r.randrange(1, 90)
    count = r.randrange(1, 30)
    last = first + count
    return r.choice([
        f"v.{volume} ({first})-", f"v.{volume} ({first})-", f"{first}-present (embargo: 12 months)",
        f"Vol. {volume}, no. {r.randrange(1, 5)} ({r.choice(MONTHS)} {first}) - Vol. {volume + count}, "
        f"no. {r.randrange(1, 13)} ({r.choice(MONTHS)} {last})",
        f"Available from {first} volume: {volume} issue: {r.randrange(1, 5)} until {last} volume: {volume + count} "
        f"issue: 4. Available from {last + 3} volume: {volume + count + 3}.", f"{first}-{last}; {last + 2}-",
        f"{r.randrange(1, 29):02}/{r.randrange(1, 13):02}/{first} - present", f"{first} to 1 year ago",
        f"{first}-{last} (v.{volume}-v.{volume + count})"])


def note(r):
    return r.choice(["", "", "", "", "Open access", "Includes supplements", f"Formerly: {name(r)} (until 1965)",
                     f"Title changed in {r.randrange(1950, 2020)}", f"Access from {r.randrange(1990, 2010)}"])


def name(r):
    return " ".join(r.choice(WORDS) for _ in range(r.randrange(2, 8)))


def stated_record(r):
    """A record of a list with statements of coverage."""
    status = r.choice(["Active", "Active", "Active", "Active", "Subscribed", "Subscribed", "Ceased", "Open Access"])
    return "\t".join([
        name(r), issn(r), issn(r) if r.random() < 0.8 else "", statement(r), status, note(r),
        r.choice(["Example Press", "Harbour Verlag", "Société Y"]), r.choice(["History", "Physics; Chemistry", "Law"]),
        f"https://www.publisher.example/journals/{r.randrange(10 ** 6)}",
        r.choice(["Complete", "Backfile 1", "Science"]), f"{r.randrange(1, 13)}/{r.randrange(13, 29)}/2024"]) + "\n"


def main():
    is_stated = "--stated" in sys.argv
    given = [it for it in sys.argv[1:] if it != "--stated"]
    size, seconds, memory = (int(it) for it in given[:3])
    labels, made = (STATED_LABELS, stated_record) if is_stated else (LABELS, record)
    with tempfile.TemporaryDirectory() as name:
        folder = pathlib.Path(given[3] if len(given) > 3 else name)
        path, r, count = folder / "Speed_2024-01-01.txt", random.Random(1), 0
        with open(path, "w", encoding="utf-8", newline="") as file:
            written = file.write("\t".join(labels) + "\r\n")
            while written < size:
                written += file.write(made(r))
                count += 1
        out = pathlib.Path(name) / "out"
        out.mkdir()
        subprocess.run(["kbfeed-convert", "--into", out, "--report", out / "report", path], check=True,
                       stdout=subprocess.DEVNULL, stderr=subprocess.DEVNULL)
        used = resource.getrusage(resource.RUSAGE_CHILDREN)
        checked = subprocess.run(["kbfeed", "check", "--summary", *out.glob("*.txt")], check=True, capture_output=True,
                                 text=True).stdout
    spent, most = used.ru_utime + used.ru_stime, used.ru_maxrss / 1024
    print(f"{os.path.basename(path)}: {size} bytes, {count} records, {spent:.1f} s, {most:.0f} MB", file=sys.stderr)
    print("fast enough" if spent <= seconds else f"{spent:.1f} s, more than {seconds}")
    print("small enough" if most <= memory else f"{most:.0f} MB, more than {memory}")
    rows = int(checked.split(" rows ")[1].split()[0])
    print("all rows" if "aside 0" in checked and (rows > count if is_stated else rows == count) else checked)


if __name__ == "__main__":
    main()
