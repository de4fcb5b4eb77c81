"""The bytes of a list, from a file or standard input, unpacked. What is not a list is refused with its name."""
import errno
import functools
import gzip
import os
import re
import struct
import sys
import tempfile
import zipfile
import zlib
from typing import IO, Protocol

from . import sheet
from .faults import BYTES, Refused
from .jsonlist import JsonList
from .opendocument import CONTENT, OpenDocument
from .webpage import WebPage
from .workbook import Workbook

# What to do with what is not a list.
AS_TEXT = ": ask for the list as text or as a spreadsheet"
LOOK = ": look at it in a browser"
AGAIN = ": get it again"
SIGNS = [
    (b"%PDF", "a PDF file" + AS_TEXT), (b"\x89PNG", "an image" + AS_TEXT), (b"\xff\xd8\xff", "an image" + AS_TEXT),
    (b"GIF8", "an image" + AS_TEXT),
    (b"\xd0\xcf\x11\xe0", "a spreadsheet of the old form (.xls) or with a password: save it as .xlsx or as text"),
    (b"Rar!", "a RAR file: unpack it"), (b"7z\xbc\xaf", "a 7z file: unpack it"), (b"BZh9", "a bzip2 file: unpack it"),
    (b"\xfd7zXZ", "an xz file: unpack it"), (b"\x28\xb5\x2f\xfd", "a zstd file: unpack it"),
    (b"{\\rtf", "an RTF text: save its table as text"), (b"SQLite format 3", "an SQLite database" + AS_TEXT)]
PAGES = (b"<!doctype html", b"<html", b"<head", b"<body", b"<table", b"<script", b"<meta", b"<title", b"<!--")
# A file in a ZIP file that says what the whole is.
PACKED = {"word/document.xml": "a Word document: save its table as text",
          "ppt/presentation.xml": "a presentation" + AS_TEXT}
JSON = (b'{"', b"[{", b"{\n", b"{\r", b"{ ", b"[\n", b"[\r", b"[ ")
NOT_A_LIST = "not a list: "
# The files of a ZIP file that may be its one list, and those beside it that are none.
LISTS = re.compile(r"\.(?:txt|tsv|tab|csv|xlsx|xlsm|xls|ods|json|jsonl|kbart|gz)$", re.I)
NO_LIST = re.compile(r"(?:^|/)(?:readme|read_me|license|licence|liesmich|changes|changelog)[^/]*$", re.I)
# The leader of a MARC record.
MARC = re.compile(rb"[0-9]{5}[acdnp][a-z][a-z ]{2}[a-z ][a-z ]?22[0-9]{5}.{3}4500")


class Readable(Protocol):
    """What can be read."""

    def read(self, size: int, /) -> bytes:
        """Returns at most so many bytes, none at the end."""


def spooled(file: Readable, what: str) -> IO[bytes]:
    """Returns a temporary copy, which can be read twice."""
    copy = tempfile.TemporaryFile()
    left = BYTES
    while chunk := file.read(1 << 20):
        left -= len(chunk)
        if left < 0:
            raise Refused(f"{what} has more than {BYTES} bytes")
        copy.write(chunk)
    copy.seek(0)
    return copy


def open_list(path: str, sheet_name: str, label: sheet.Labels, least: int) -> sheet.Text:
    """Returns a list as text, with the names of the sheets if it was a spreadsheet. `label` says what a header means,
    and `least` how many labels a header has."""
    file = opened(path)
    for _ in range(3):
        head = file.read(512)
        file.seek(0)
        if head.startswith(b"\x1f\x8b"):
            file = unpacked_gzip(file)
        elif head.startswith(b"PK\x03\x04"):
            inside = unpacked_zip(file)
            if isinstance(inside, str):
                return sheet.as_text(functools.partial(book_of, file, inside), sheet_name, label, least)
            file = inside
        elif begins(head, PAGES):
            return sheet.as_text(functools.partial(WebPage, file), "", label, least,
                                 NOT_A_LIST + "a page of HTML, perhaps a form or an error" + LOOK)
        elif begins(head, JSON):
            return sheet.as_text(functools.partial(JsonList, file), "", label, least,
                                 NOT_A_LIST + "JSON, perhaps an error of a server" + LOOK)
        else:
            refuse(head)
            return sheet.Text(file, "", [])
    raise Refused("packed more than twice")


def book_of(file: IO[bytes], part: str) -> sheet.Book:
    """Returns a spreadsheet by the part that says of which form it is."""
    if part == CONTENT:
        return OpenDocument(file)
    return Workbook(file)


def opened(path: str) -> IO[bytes]:
    """Returns a file that can be read twice. Standard input and pipes are copied."""
    if path == "-":
        return spooled(sys.stdin.buffer, "standard input")
    if os.path.isdir(path):
        raise IsADirectoryError(errno.EISDIR, "it is a folder: give one list", path)
    file = open(path, "rb")
    if not file.seekable():
        return spooled(file, "the file")
    if file.seek(0, 2) > BYTES:
        raise Refused(f"the file has more than {BYTES} bytes")
    file.seek(0)
    return file


def unpacked_gzip(file: IO[bytes]) -> IO[bytes]:
    """Returns the file inside gzip."""
    try:
        return spooled(gzip.GzipFile(fileobj=file), "the unpacked file")
    except (EOFError, struct.error, zlib.error, gzip.BadGzipFile) as error:
        raise Refused(f"gzip that cannot be unpacked: {error}{AGAIN}") from error


def begins(head: bytes, words: tuple[bytes, ...]) -> bool:
    """Returns whether a file begins with one of some words, behind marks and spaces."""
    return head.lstrip(b"\xef\xbb\xbf\xff\xfe \t\r\n").replace(b"\0", b"").lower().startswith(words)


def is_hidden(name: str) -> bool:
    """Returns whether a file is one that a Mac adds to a ZIP file."""
    parts = name.split("/")
    return "__MACOSX" in parts or parts[-1].startswith(".")


def unpacked_zip(file: IO[bytes]) -> IO[bytes] | str:
    """Returns the one list inside a ZIP file, or the part of a spreadsheet that says of which form it is."""
    try:
        with zipfile.ZipFile(file) as packed:
            files = [it for it in packed.infolist() if not it.is_dir() and not is_hidden(it.filename)]
            names = {it.filename for it in files}
            if sum(it.file_size for it in files) > BYTES:
                raise Refused(f"unpacked it has more than {BYTES} bytes")
            for name, what in PACKED.items():
                if name in names:
                    raise Refused(f"not a list: {what}")
            for part in ("[Content_Types].xml", CONTENT):
                if part in names and len(names) > 1:
                    return part
            if len(files) > 1:
                files = [it for it in files if LISTS.search(it.filename) and not NO_LIST.search(it.filename)] or files
            if len(files) != 1:
                raise Refused(f"a ZIP file with {len(files)} files: unpack it and give one")
            with packed.open(files[0]) as one:
                return spooled(one, "the unpacked file")
    except (zipfile.BadZipFile, RuntimeError, ValueError, LookupError, struct.error, zlib.error, EOFError,
            OSError) as error:
        # A damaged file names places before its beginning.
        if isinstance(error, OSError) and error.errno not in (None, errno.EINVAL):
            raise
        raise Refused(f"a ZIP file that cannot be unpacked: {error}{AGAIN}") from error


def refuse(head: bytes) -> None:
    """Refuses what is not a list, by how it begins."""
    if not head.strip(b"\xef\xbb\xbf\xff\xfe\r\n \t\0"):
        raise Refused("empty: it has no records" + AGAIN)
    for sign, what in SIGNS:
        if head.startswith(sign):
            raise Refused("not a list: " + what)
    if MARC.match(head) or b"marc21" in head.lower():
        raise Refused("not a list: MARC records. Export the holdings as a spreadsheet or as text")
    if begins(head, (b"<?xml", b"<rss", b"<feed")):
        raise Refused("not a list: XML, perhaps an error of a server" + LOOK)
