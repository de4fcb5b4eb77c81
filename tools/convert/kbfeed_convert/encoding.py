"""The encoding of a text.

A mark decides. Otherwise the zero bytes of UTF-16 and UTF-32 do, then UTF-8 if most lines are valid. Otherwise the
encodings of `tables.toml` are compared by how common their characters are."""
import codecs
import re
from typing import IO, Any, Iterator, NamedTuple

from .labels import label
from .texts import TABLES

# Longer marks first: that of UTF-32 begins with that of UTF-16.
MARKS = [(codecs.BOM_UTF8, "utf-8-sig"), (codecs.BOM_UTF32_LE, "utf-32"), (codecs.BOM_UTF32_BE, "utf-32"),
         (codecs.BOM_UTF16_LE, "utf-16"), (codecs.BOM_UTF16_BE, "utf-16")]
WIDE = ["utf-32-le", "utf-32-be", "utf-16-le", "utf-16-be"]
HEAD = 4_096
CHUNK = 1 << 20
# The bytes of lines that are not ASCII from which an encoding is guessed.
SAMPLE = 200_000
# The points between the two best encodings below which the guess is doubtful.
CLOSE = 0.4
# The lines, and the characters of each, in which labels decide between two encodings that are close.
HEADER, LONGEST = 10, 4_096


class Encoding(NamedTuple):
    """An encoding, how its errors are handled, the second best guess, and a warning."""
    name: str
    errors: str = "replace"
    runner_up: str = ""
    warning: str = ""

    def is_utf8(self) -> bool:
        """Returns whether all of the file is UTF-8."""
        return self.name in ("utf-8", "utf-8-sig") and self.errors == "replace"


def stray(error: UnicodeError) -> tuple[str, int]:
    """Decodes bytes that are not UTF-8 as Windows-1252. A character that the end of the file cuts is replaced."""
    assert isinstance(error, UnicodeDecodeError)
    if error.reason == "unexpected end of data":
        return "\ufffd", error.end
    return error.object[error.start:error.end].decode("cp1252", "replace"), error.end


codecs.register_error("kbfeed-stray", stray)


def detect(file: IO[bytes]) -> Encoding:
    """Returns the encoding of a file. The file is at its beginning then."""
    head = file.read(HEAD)
    file.seek(0)
    for mark, name in MARKS:
        if head.startswith(mark):
            return by_lines(file, name) if name == "utf-8-sig" else Encoding(name)
    if name := wide(head):
        return Encoding(name, warning=f"no mark: read as {name.upper()}")
    return by_lines(file, "utf-8")


def wide(head: bytes) -> str:
    """Returns the form of UTF-16 or UTF-32 that a text without a mark has, or nothing.

    Digits, separators and line ends are ASCII in every list, so the right form has the most of it, and no zeros."""
    head = head[:len(head) // 4 * 4]
    if head.count(0) * 20 < len(head) or not head:
        return ""

    def ascii_share(name: str) -> float:
        text = head.decode(name, "replace")
        good = sum(" " <= it <= "~" or it in "\t\r\n" for it in text)
        return (good - text.count("\0") - text.count("\ufffd")) / len(text)
    best = max(["utf-8", *WIDE], key=ascii_share)
    return best if best != "utf-8" and ascii_share(best) > 0.1 else ""


def lines(file: IO[bytes]) -> Iterator[bytes]:
    """Yields the lines of a file, and parts of lines that are longer than a chunk."""
    rest = b""
    while chunk := file.read(CHUNK):
        *whole, rest = re.split(rb"[\r\n]+", rest + chunk)
        yield from whole
        if len(rest) > CHUNK:
            yield rest
            rest = b""
    yield rest


def by_lines(file: IO[bytes], name: str) -> Encoding:
    """Returns UTF-8 if the file is valid, or at least four of five lines that are not ASCII. Else compares others."""
    decoder = codecs.getincrementaldecoder("utf-8")()
    try:
        while chunk := file.read(CHUNK):
            decoder.decode(chunk)
        decoder.decode(b"", True)
        return Encoding(name)
    except UnicodeDecodeError:
        pass
    finally:
        file.seek(0)
    good = bad = strays = size = 0
    sample: list[bytes] = []
    for line in lines(file):
        if line.isascii():
            continue
        try:
            line.decode("utf-8")
            good += 1
        except UnicodeDecodeError as error:
            # A file that is cut in its last character is still UTF-8.
            is_cut = error.reason == "unexpected end of data" and len(line) - error.start < 4
            good, bad = good + is_cut, bad + (not is_cut)
            strays += sum("\udc80" <= it <= "\udcff" for it in line.decode("utf-8", "surrogateescape"))
        if size < SAMPLE:
            sample.append(line)
            size += len(line)
    file.seek(0)
    if name == "utf-8-sig" or good >= 4 * bad:
        return Encoding(name, "kbfeed-stray", "windows-1252", f"{bad} of {good + bad} lines that are not ASCII are not "
                        f"UTF-8: their stray bytes, {strays} in all, are read as Windows-1252")
    return compare(b"\n".join(sample))


def compare(sample: bytes) -> Encoding:
    """Returns the best encoding of a sample. The runner-up is the best of those that give another text."""
    points = []
    for place, (name, table) in enumerate(TABLES["encodings"].items()):
        text = sample.decode(name, "replace")
        broken = text.count("\ufffd")
        points.append((score(text, name, table) - (2 + broken / 10 if broken else 0), -place, name, text))
    points.sort(reverse=True)
    # The labels of the header decide between encodings that are close.
    near = [(known(it[3]), it) for it in points if points[0][0] - it[0] < CLOSE]
    labels, (best, _, name, text) = max(near, key=lambda it: it[0])
    second, _, runner_up, other = next((it for it in points if it[3] != text), points[-1])
    warning = f"not UTF-8: read as {shown(name)}"
    if best - second < CLOSE and labels == known(other):
        warning += f", and {shown(runner_up)} is nearly as likely: --encoding decides"
    return Encoding(name, "replace", runner_up, warning)


def known(text: str) -> int:
    """Returns how many labels the first lines of a text have that are not ASCII."""
    cells = [cell for line in text.split("\n", HEADER)[:HEADER] for cell in re.split("[\t,;|]", line[:LONGEST])]
    return sum(label(it.strip(' "')) is not None for it in cells if not it.isascii())


def shown(name: str) -> str:
    """Returns the name of an encoding for people, and for --encoding."""
    return f"{TABLES['encodings'][name]['title']} ({name})"


def score(text: str, name: str, table: dict[str, Any]) -> float:
    """Returns how common the characters beyond ASCII are, from -2 to 3 for each."""
    often = set(table["often"])
    leads = {it for first, last in table.get("leads", []) for it in range(first, last + 1)}
    has_runs, rare = bool(table.get("runs")), set(table.get("rare", ""))
    points = [ideograph_points(it, name, often, leads) if leads
              else letter_points(text, at, often, has_runs) - (it in rare)
              for at, it in enumerate(text) if it >= "\x80" and it != "\ufffd"]
    return sum(points) / len(points) if points else 0.0


def ideograph_points(it: str, name: str, often: set[str], leads: set[int]) -> float:
    """Returns how common a character of two bytes is: often in titles, or among the first ones of its encoding."""
    if it in often:
        return 3
    try:
        lead = it.encode(name)[0]
    except UnicodeEncodeError:
        lead = 0
    return 1 if lead in leads and not "\uff61" <= it <= "\uff9f" else -2


def letter_points(text: str, at: int, often: set[str], has_runs: bool) -> float:
    """Returns how common a letter of one byte is where it is.

    Accents are beside letters of ASCII, and the letters of an alphabet of its own (`has_runs`) are not. A capital
    letter does not follow a small one."""
    it, before, after = text[at], text[at - 1:at], text[at + 1:at + 2]
    if it in "’‘“”–—…«»©®°·§\xa0":
        return 1
    if it not in often or it.islower() and after.isupper() or it.isupper() and before.islower():
        return -2
    near = [one.isascii() for one in (before, after) if one.isalpha()]
    if not near:
        # A word of one letter, as `è`.
        return 0 if has_runs else 1
    return 2 if any(near) != has_runs else -2 if has_runs else -1
