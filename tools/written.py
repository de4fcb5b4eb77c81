"""Writes the pages that tools make of the sources, or checks them. Those that git does not keep are in .gitignore."""
import os
import sys
import tempfile

from crates import ROOT


def is_kept(page):
    """Returns whether git keeps a page, so that it has to be the one of the sources."""
    return f"/{page}" not in (ROOT / ".gitignore").read_text(encoding="utf-8").split("\n")


def write(file, text):
    """Writes a file in one step, since several runs of `make install` may write it."""
    descriptor, name = tempfile.mkstemp(dir=file.parent)
    with os.fdopen(descriptor, "w", encoding="utf-8") as part:
        part.write(text)
    os.chmod(name, 0o644)
    os.replace(name, file)


def write_or_check(doc, pages, wrong):
    """Writes pages, given with their texts by their paths, if there is no argument. With --check it writes nothing, and
    compares those that git keeps. Prints what is wrong, with what the caller found, and ends the program."""
    words = sys.argv[1:]
    if words in (["-h"], ["--help"]):
        print(doc)
        sys.exit()
    if words not in ([], ["--check"]):
        sys.exit(doc)
    for page, text in pages.items():
        file = ROOT / page
        is_same = file.exists() and file.read_text(encoding="utf-8") == text
        if words and is_kept(page) and not is_same:
            wrong.append(f"{page} is not the page of the sources: run make docs")
        elif not words and not is_same:
            write(file, text)
    sys.exit("\n".join(wrong) or 0)
