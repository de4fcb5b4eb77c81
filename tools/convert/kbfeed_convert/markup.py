"""The XML of a spreadsheet as events, within limits, so that no file takes memory or time without end."""
from typing import IO, Callable, Iterator
from xml.parsers import expat
from xml.parsers.expat import ExpatError

from .faults import Refused

# The elements that are inside each other, and the bytes of a tag. Spreadsheets have at most some 20, and some 1,000.
DEPTH = 100
TAG = 1 << 20
CHUNK = 1 << 16
Attributes = dict[str, str]


def local(name: str) -> str:
    """Returns a name without its prefix."""
    return name[name.find(":") + 1:]


def events(file: IO[bytes], start: Callable[[str, Attributes], None], end: Callable[[str], None],
           text: Callable[[str], None]) -> Iterator[None]:
    """Reads XML, and calls a function for each tag and each text, with names without prefixes.

    Yields after each part of the file, so that the caller can pass on what was found. Raises `Refused` past a limit and
    for a document type, whose entities could stand for any amount of text, and `ExpatError` if it is not XML."""
    parser = expat.ParserCreate()
    parser.buffer_text = True
    depth = size = 0

    def begin(name: str, attributes: Attributes) -> None:
        nonlocal depth
        depth += 1
        if depth > DEPTH:
            raise Refused(f"a spreadsheet whose XML has more than {DEPTH} elements inside each other")
        start(local(name), attributes)

    def finish(name: str) -> None:
        nonlocal depth
        depth -= 1
        end(local(name))

    def doctype(*_given: object) -> None:
        raise Refused("a spreadsheet whose XML has a document type")
    parser.StartElementHandler, parser.EndElementHandler, parser.CharacterDataHandler = begin, finish, text
    parser.StartDoctypeDeclHandler = doctype
    try:
        while chunk := file.read(CHUNK):
            parser.Parse(chunk)
            size += len(chunk)
            if size - parser.CurrentByteIndex > TAG:
                raise Refused(f"a spreadsheet whose XML has a tag of more than {TAG} bytes")
            yield
        parser.Parse(b"", True)
        yield
    except ExpatError as error:
        if error.code == expat.errors.codes[expat.errors.XML_ERROR_NO_MEMORY]:
            raise MemoryError from error
        raise
