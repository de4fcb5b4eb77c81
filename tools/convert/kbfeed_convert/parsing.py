"""The parser of arguments, which names what may have been meant."""
import argparse
import difflib
import re
from typing import Iterable, NoReturn

# How alike two names have to be.
ALIKE = 0.6


def meant(name: str, names: Iterable[str]) -> str:
    """Returns a question after the nearest of some names, or nothing if none is near."""
    near = difflib.get_close_matches(name, list(names), 1, ALIKE)
    return f": did you mean {near[0]}?" if near else ""


class Parser(argparse.ArgumentParser):
    """A parser whose error for an unknown argument has a hint. `hint` is that for one without a hyphen."""
    hint = ""

    def error(self, message: str) -> NoReturn:
        """Prints the usage and the error, and exits with 2."""
        if found := re.match(r"unrecognized arguments: (\S+)", message):
            options = [it for action in self._actions for it in action.option_strings]
            message += meant(found[1].partition("=")[0], options) if found[1].startswith("-") else self.hint
        super().error(message)
