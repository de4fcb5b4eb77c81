#!/usr/bin/env python3
"""Compares what lists with long records read as with a plain reader, in windows cut at many places.

long_records.py [SEED [LISTS]]

A record of more than 32,768 bytes is read in pieces while it arrives. Each list is written to the file `list` in the
current folder, and test_lists reads it in windows of some sizes, from a reader, and from two. The lists have records of
32,767 to 32,771 bytes, cut near their tabs, their line ends and the byte-order mark, all of these at the borders of
pieces, long headers, rows of tabs, spaces in each place, and LISTS random ones.
Prints a line for each kind of list, and each case that differs. Fails if there is one."""
import random
import re
import subprocess
import sys

from many_rows import LABELS, issn

# More held bytes than these make a record long.
LONG = 32_768
OTHERS = ["title_id", "embargo_info", "coverage_depth", "publication_type", "access_type"]
TEXTS = [("title", "publication_title"), ("url", "title_url"), ("title_id", "title_id"), ("depth", "coverage_depth"),
         ("embargo", "embargo_info"), ("access", "access_type")]
MARK = "\ufeff"
# More calls than a reader has.
CALLS = 10**9


def identifier_of(cell):
    """The ISSN in a cell as it is printed, or `none`."""
    digits = cell.strip(" ").replace("-", "", 1).upper()
    if not re.fullmatch(r"\d{7}[\dX]", digits, re.ASCII):
        return "none"
    printed = issn(int(digits[:7]))
    return printed if printed.replace("-", "") == digits else "none"


def header_fault(header):
    labels = [it.strip(" ").lower() for it in header]
    for label in LABELS:
        if label not in labels:
            return f"refused MissingLabel {label}"
    for label in LABELS + OTHERS:
        if labels.count(label) > 1:
            return f"refused LabelTwice {label}"
    return None


def plain(text):
    """The lines that test_lists prints of a list whose rows are serials without dates and volumes."""
    lines = [it for it in re.split("[\r\n]", text.removeprefix(MARK)) if it]
    if not lines:
        return ["refused NoHeader"]
    header, *rows = [it.split("\t") for it in lines]
    fault = header_fault(header)
    if fault:
        return [fault]
    labels = [it.strip(" ").lower() for it in header]
    places = {label: labels.index(label) for label in LABELS + OTHERS if label in labels}
    aside, printed = [], []
    for number, row in enumerate(rows, 2):
        def cell(label, row=row):
            return row[places[label]] if places.get(label, len(row)) < len(row) else ""
        first, second = identifier_of(cell("print_identifier")), identifier_of(cell("online_identifier"))
        if cell("publication_type").strip(" ").lower() not in ("", "serial"):
            aside.append(f"aside {number} OtherType")
        elif first == second == "none":
            aside.append(f"aside {number} NoIssn")
        else:
            printed.append(f"row {number} serial issn {first} {second} isbn none none days none none volumes none none")
            printed.append("  " + "  ".join(f"{name} [{cell(label)}]" for name, label in TEXTS))
    return [f"rows {len(printed) // 2} aside {len(aside)}", *aside, *printed]


def differs(text, steps):
    """How often a list is read, in windows and from readers that return some bytes at once, and what reads another."""
    with open("list", "w", encoding="utf-8", newline="") as out:
        out.write(text)
    asked = [f"windows {step} list" for step in steps]
    asked += [f"read {max(steps)} {CALLS} list", f"parts {min(steps)} {CALLS} {CALLS} list"]
    printed = subprocess.run(["test_lists"], input="\n".join(asked) + "\n", capture_output=True, text=True,
                             check=True, encoding="utf-8").stdout
    wanted = "\n".join(plain(text)) + "\n"
    if printed == wanted * len(asked):
        return len(asked), []
    return len(asked), [it for at, it in enumerate(asked) if printed[at * len(wanted):(at + 1) * len(wanted)] != wanted]


def row(title, number, others=""):
    return "\t".join([title, issn(number), "", "", "", "", "", "https://a.example/"]) + others


HEADER = "\t".join(LABELS + OTHERS)


def sized(size):
    """A row of so many bytes."""
    return row("T" * (size - len(row("", 1))), 1)


def around(text, places):
    """The sizes of a first window that ends near some places."""
    return sorted({place + more for place in places for more in range(-2, 4) if 0 < place + more <= len(text)})


def edges():
    """Records about as long as the limit, each with the sizes of windows."""
    for size in range(LONG - 1, LONG + 4):
        for end in ("\n", "\r", "\r\n"):
            for before in ("", MARK):
                text = before + HEADER + end + sized(size) + end + row("Next", 2) + end
                front = len((before + HEADER + end).encode())
                yield text, [1 << 20, LONG, LONG + 1, 65_536, *around(text, [front, front + size])]
        wide = HEADER + "\t" * (size - len(HEADER))
        for before in ("", MARK):
            yield before + wide + "\n" + row("Next", 2), [1 << 20, LONG, 65_536, *around(wide, [len(HEADER), size])]


def filled(parts, more):
    """Parts of a line, each but the last filled up so that the next begins so many bytes behind a border of pieces."""
    line = ""
    for border, part in enumerate(parts[:-1], 1):
        line += part
        line += "x" * (border * (LONG - 1) + more - len(line.encode()))
    return line + parts[-1]


def borders():
    """Marks, characters of four bytes, spaces, tabs, identifiers, labels and line ends at the borders of pieces."""
    first = row("", 1).split("\t")[1]
    for more in range(-10, 4):
        for probe in (MARK, "\U0001F600", " ", "\u00e9 "):
            yield HEADER + "\n" + row(filled(["", probe, probe, probe], more), 1), [1 << 20, LONG, 65_536]
        tabs = row("T", 2, "\t" + filled([row("T", 2) + "\t", "\t", "\tF\tserial\t"], more)[len(row("T", 2)) + 1:])
        yield HEADER + "\n" + tabs + "\r\n" + row("Next", 3), [1 << 20, LONG, 65_536]
        split = filled(["", "\t" + first + "\t" * 6 + "https://a.example/"], more)
        yield HEADER + "\r\n" + split + "\r" + row("Next", 3), [1 << 20, LONG, 65_536]
        for before in ("", MARK):
            label = before + filled(["", "\t" + HEADER], more + len(before.encode()))
            yield label + "\n" + "\t".join(["", *row("T", 4).split("\t")]) + "\n", [1 << 20, LONG, 65_536]
        ended = row(filled(["", "T"], more - len(row("", 1).encode())), 1)
        yield HEADER + "\n" + ended + "\n\r\n" + row("Next", 3) + "\n" + ended, [1 << 20, LONG, 65_536]


def headers():
    """Long headers: labels far apart, missing, twice, and nearly used ones."""
    gap = "\t" * 40_000
    for labels in (LABELS + OTHERS, LABELS[:-1], LABELS[::-1], [*LABELS, LABELS[0]],
                   [*LABELS, "access_type", "ACCESS_TYPE "],
                   [it + "x" for it in LABELS], [f" {it.upper()} " for it in LABELS],
                   [*LABELS, "\t".join(["title_ur", "title_urls"] * 20_000)]):
        header = gap.join(labels)
        cells = [""] * (header.count("\t") + 1)
        for at, label in enumerate(header.split("\t")):
            if label.strip(" ").lower() in ("print_identifier", "title_url"):
                cells[at] = issn(7)
        yield header + "\n" + "\t".join(cells) + "\r\n" + row("Next", 2), [1 << 20, LONG, 65_536, 4_099]


def rows():
    """Rows of tabs, of one long cell, without an end, and of another type."""
    tabs = "\t" * 300_000
    for last in (row("T", 1, tabs), row("T" * 300_000, 1), row("T", 1, "\t\t" + "E" * 200_000 + "\td\tserial\ta"), tabs,
                 row(" " * 200_000, 3, "\t\t\t\tmonograf"), row("T", 1, "\t" + " " * 200_000 + "\t\t\tserial")):
        for end in ("", "\n", "\n\n" + row("Next", 2) + "\n" + row("U" * 140_000, 4)):
            yield HEADER + "\n" + row("First", 5) + "\n" + last + end, [1 << 20, LONG, 65_536, 10_007]


def spaces():
    """Spaces before, in and after each label and each cell, in the header, in a short row and in a long one."""
    for size in (20, 300, 140_000):
        blank = " " * size
        for label in LABELS + OTHERS:
            for spaced in (blank + label, label + blank, blank + label + blank, label[:5] + blank + label[5:],
                           label + blank + "x", blank):
                yield ("\t".join(spaced if it == label else it for it in LABELS + OTHERS) + "\n" + row("T", 1) + "\n",
                       [1 << 20, 65_536, 1_009])
        for place in range(len(LABELS + OTHERS)):
            cells = row("T", 1, "\tid\tR1Y\tfulltext\tserial\tF").split("\t")
            for spaced in (blank + cells[place], cells[place] + blank, blank + cells[place] + blank,
                           cells[place][:4] + blank + cells[place][4:]):
                short = "\t".join([*cells[:place], spaced, *cells[place + 1:]])
                for last in (short, short + "\t" * LONG):
                    text = HEADER + "\n" + row("First", 5) + "\n" + last + "\n" + row("Next", 2)
                    yield text, [1 << 20, 65_536, 1_009]


def noise(source, size):
    return "".join(source.choices("ab \t", [5, 2, 1, 2], k=size))


def randoms(seed, lists):
    source = random.Random(seed)
    for _ in range(lists):
        labels = LABELS + source.sample(OTHERS, source.randrange(len(OTHERS) + 1))
        labels += ["note"] * source.randrange(4)
        source.shuffle(labels)
        lines = ["\t".join(labels)]
        for number in range(source.randrange(1, 5)):
            cells = [noise(source, source.choice([0, 0, 3, 70_000])).replace("\t", source.choice("\t "))
                     for _ in labels]
            for at, label in enumerate(labels):
                if label in ("print_identifier", "online_identifier"):
                    cells[at] = source.choice(["", issn(number), issn(number), " " * 140_000 + issn(number),
                                               "1234-5678"])
                elif label.startswith(("date_", "num_")):
                    cells[at] = ""
                elif label == "publication_type":
                    cells[at] = source.choice(["", "Serial ", "serials", ""])
            lines.append("\t".join(cells[:source.randrange(1, len(cells) + 1)]))
        if source.random() < 0.3:
            lines[0] += "\t" * source.choice([10, 131_072, 200_000])
        end = source.choice(["\n", "\r", "\r\n"])
        text = source.choice(["", MARK]) + end.join(lines) + source.choice(["", end])
        yield text, [1 << 20, LONG, *(source.randrange(1_000, 200_000) for _ in range(4))]


def check(name, lists):
    good, count = True, 0
    for text, steps in lists:
        cases, wrong = differs(text, steps)
        count += cases
        if wrong:
            good = False
            print(f"{name}: a list of {len(text)} characters: {wrong}")
    if good:
        print(f"{name}: {count} cases")
    return good


def main():
    words = [int(it) for it in sys.argv[1:]]
    seed, lists = words + [1, 12][len(words):]
    good = [check("edges", edges()), check("borders", borders()), check("headers", headers()), check("rows", rows()),
            check("spaces", spaces()), check("random", randoms(seed, lists))]
    sys.exit(0 if all(good) else 1)


if __name__ == "__main__":
    main()
