"""The files that a run writes: beside their place, and moved there once they are whole."""
import errno
import os
import shutil
import sys
import tempfile
from typing import BinaryIO

from .faults import Refused

PREFIX = ".kbfeed-convert-"
CHUNK = 1 << 20
# The errors of a file system without hard links.
NO_LINKS = (errno.EPERM, errno.ENOTSUP, errno.ENOSYS, errno.EMLINK)


class Output:
    """A file that is written under another name until it is whole. Without a path it has none, and is only copied."""

    def __init__(self, path: str | None, shown: str):
        self.path, self.shown = path, shown
        self.temporary = ""
        try:
            number, self.temporary = tempfile.mkstemp(prefix=PREFIX, dir=os.path.dirname(path) or "." if path else None)
            if not path:
                self.remove()
        except OSError as error:
            error.filename = shown
            raise
        self.file: BinaryIO = os.fdopen(number, "w+b", buffering=CHUNK)

    def write(self, data: bytes) -> None:
        """Appends bytes. An error has the name of the file."""
        try:
            self.file.write(data)
        except OSError as error:
            error.filename = self.shown
            raise

    def finish(self) -> None:
        """Writes what is left to the device."""
        try:
            self.file.flush()
            if self.temporary:
                os.fchmod(self.file.fileno(), 0o666 & ~umask())
                os.fsync(self.file.fileno())
        except OSError as error:
            error.filename = self.shown
            raise

    def copy(self, to: BinaryIO, shown: str) -> None:
        """Copies the file to another one that is open."""
        self.finish()
        self.file.seek(0)
        try:
            shutil.copyfileobj(self.file, to, CHUNK)
            to.flush()
        except BrokenPipeError:
            raise
        except OSError as error:
            error.filename = shown
            raise

    def place(self) -> None:
        """Gives the file its name, unless one is there. A file there with the same bytes is as good."""
        assert self.path
        try:
            os.link(self.temporary, self.path)
        except OSError as error:
            if error.errno in NO_LINKS and not os.path.lexists(self.path):
                os.rename(self.temporary, self.path)
                self.temporary = ""
            elif error.errno not in (errno.EEXIST, *NO_LINKS):
                error.filename = error.filename2 = self.shown
                raise
            elif not is_equal(self.temporary, self.path):
                raise Refused(f"{self.path} exists with other bytes, and is not replaced") from error

    def replace(self) -> None:
        """Gives the file its name, in place of one that is there."""
        assert self.path
        os.replace(self.temporary, self.path)
        self.temporary = ""

    def remove(self) -> None:
        """Removes the file under its other name, if it still has it."""
        if self.temporary and os.path.exists(self.temporary):
            os.unlink(self.temporary)
        self.temporary = ""


class ReportOutput(Output):
    """The file of the report. It replaces one that is there; a device or a pipe is written to."""

    def __init__(self, path: str):
        self.is_device = os.path.exists(path) and not os.path.isfile(path)
        self.given = path
        super().__init__(None if self.is_device else os.path.realpath(path), path)

    def write_text(self, text: str) -> None:
        """Appends a text."""
        self.write(text.encode("utf-8", "replace"))

    def finish(self) -> None:
        """Writes what is left, to a device all of it."""
        super().finish()
        if self.is_device:
            try:
                with open(self.given, "wb") as device:
                    self.file.seek(0)
                    shutil.copyfileobj(self.file, device, CHUNK)
            except OSError as error:
                error.filename = self.given
                raise

    def close(self) -> None:
        """Gives the report its name, if it is a file."""
        if not self.is_device:
            self.replace()


def is_equal(one: str, other: str) -> bool:
    """Returns whether two files have the same bytes."""
    with open(one, "rb") as first, open(other, "rb") as second:
        while True:
            a, b = first.read(CHUNK), second.read(CHUNK)
            if a != b:
                return False
            if not a:
                return True


def umask() -> int:
    """Returns the mask of the process. It can only be read by setting it."""
    old = os.umask(0o077)
    os.umask(old)
    return old


def standard_output() -> BinaryIO:
    """Returns the standard output for bytes."""
    return sys.stdout.buffer
