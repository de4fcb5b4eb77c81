"""Ends work at a signal without leaving a process or half a file."""
import signal


class Stop:
    """Whether a signal asked to stop. The signal ends nothing by itself: the work looks at it between two steps."""

    def __init__(self):
        self.number = 0
        for number in (signal.SIGINT, signal.SIGTERM, signal.SIGHUP):
            signal.signal(number, self.note)

    def note(self, number, _):
        self.number = number
