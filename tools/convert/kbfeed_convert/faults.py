"""The errors that end a run, and the limits that cause some of them."""

# The most bytes of the input, of what it unpacks to, and of the output.
BYTES = 256 * 1024 * 1024
# The most characters of a cell, and of a line.
FIELD = 131_072
LINE = 8 * 1024 * 1024
# The most columns of a header.
COLUMNS = 1_000


class Refused(Exception):
    """The list is refused. The exit status is 1."""


class WrongArguments(Exception):
    """The arguments or the map are wrong. The exit status is 2."""


class Internal(Exception):
    """The counts of records do not add up. The exit status is 3."""


class Stopped(BaseException):
    """A signal ended the run. Files that are half written are removed first."""

    def __init__(self, number: int):
        super().__init__(number)
        self.number = number
