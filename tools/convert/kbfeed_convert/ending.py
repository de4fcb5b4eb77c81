"""How a run ends: the exit status and the text of each error, and what a signal does."""
import os
import re
import signal
import sys
import traceback
from types import FrameType
from typing import Callable

from .faults import Internal, Refused, Stopped, WrongArguments

SIGNALS = (signal.SIGHUP, signal.SIGINT, signal.SIGTERM)


def fault(error: Exception) -> tuple[int, str]:
    """Returns the exit status and the text of an error."""
    if isinstance(error, Refused):
        return 1, str(error)
    if isinstance(error, WrongArguments):
        return 2, str(error)
    if isinstance(error, Internal):
        return 3, str(error)
    if isinstance(error, OSError):
        return 3, f"{error.filename}: {error.strerror}" if error.filename else str(error.strerror or error)
    if isinstance(error, MemoryError):
        return 3, "there was no memory"
    place = traceback.extract_tb(error.__traceback__)[-1]
    where = f"{os.path.basename(place.filename)}:{place.lineno}"
    return 3, f"an error of this program: {type(error).__name__}: {error} ({where})"


def shown(text: str) -> str:
    """Returns a text as one line. Control characters of a list cannot command a terminal."""
    return re.sub("[\x00-\x1f\x7f-\x9f]", "?", text)


def say(program: str, text: str) -> None:
    """Prints a line on standard error."""
    print(f"{program}: {shown(text)}", file=sys.stderr)


def stop(number: int, _frame: FrameType | None) -> None:
    """Ends the run at a signal. A second one does not interrupt the removal of files."""
    for it in SIGNALS:
        signal.signal(it, signal.SIG_IGN)
    raise Stopped(number)


def status_of(program: str, run: Callable[[], int]) -> int:
    """Runs a program, prints the error that ends it, and returns the exit status."""
    for it in SIGNALS:
        if signal.getsignal(it) != signal.SIG_IGN:
            signal.signal(it, stop)
    try:
        return run()
    except BrokenPipeError:
        os.dup2(os.open(os.devnull, os.O_WRONLY), sys.stdout.fileno())
        return 3
    except Exception as error:
        status, text = fault(error)
    except Stopped as stopped:
        signal.signal(stopped.number, signal.SIG_DFL)
        os.kill(os.getpid(), stopped.number)
        return 128 + stopped.number
    say(program, text)
    return status
