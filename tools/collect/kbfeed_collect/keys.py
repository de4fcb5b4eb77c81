"""The key of a vendor: where it is kept, to which host it goes, and how it is hidden from what is printed."""
import os
import pathlib
import re
import urllib.parse

from kbfeed_convert.faults import WrongArguments

# A shorter key could be a part of any text, which would be hidden.
FORM = re.compile("[!-~]{8,4096}")
PORTS = {"http": 80, "https": 443}


def file_of(name: str, beside: pathlib.Path) -> pathlib.Path:
    """Returns the file of a key: in the folder keys beside the configuration, or where systemd put it."""
    passed = os.environ.get("CREDENTIALS_DIRECTORY")
    return pathlib.Path(passed) / f"keys_{name}" if passed else beside / "keys" / name


def origin(url: str) -> tuple[str, str, int]:
    """Returns the scheme, the host and the port of an address. Requests with the same three reach the same server."""
    parts = urllib.parse.urlsplit(url)
    port = PORTS.get(parts.scheme, 0) if parts.port is None else parts.port
    return parts.scheme, parts.hostname or "", port


class Key:
    """A key, which goes to the host of one address alone."""

    def __init__(self, file: pathlib.Path, url: str, header: str, prefix: str, query: str):
        """Reads the first line of a file. The key is for the host of `url`."""
        try:
            with open(file, encoding="ascii", errors="replace") as lines:
                self.text = lines.readline().strip()
        except OSError as error:
            raise WrongArguments(f"key_file: {file}: {error.strerror}") from error
        if not FORM.fullmatch(self.text):
            why = "its first line is not a key of 8 to 4,096 visible ASCII characters"
            raise WrongArguments(f"key_file: {file}: {why}")
        self.origin, self.header, self.prefix, self.query = origin(url), header, prefix, query
        # Each character as it is, or percent-encoded once or several times.
        self.pattern = re.compile("".join(f"(?:{re.escape(it)}|(?i:%(?:25)*{ord(it):02x}))" for it in self.text))

    def is_for(self, url: str) -> bool:
        """Returns whether the key goes to the host of an address."""
        return origin(url) == self.origin

    def is_in(self, text: str) -> bool:
        """Returns whether a text has the key, also percent-encoded."""
        return self.pattern.search(text) is not None

    def hidden(self, text: str) -> str:
        """Returns a text without the key."""
        return self.pattern.sub("(key)", text)

    def with_query(self, url: str) -> str:
        """Returns the address of a list with the key as a parameter, if that is where it goes."""
        if not self.query:
            return url
        pair = urllib.parse.urlencode({self.query: self.text}, quote_via=urllib.parse.quote)
        return f"{url}{'&' if '?' in url else '?'}{pair}"

    def fields(self, url: str) -> dict[str, str]:
        """Returns the header with the key for a request to an address, none for another host."""
        return {self.header: self.prefix + self.text} if self.header and self.is_for(url) else {}
