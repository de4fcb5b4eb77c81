"""Whether the clock of this machine is right: a list that is published under a day in the future would stay for years.

The responses of vendors say what day it is to them, and the releases and the last visits which days have been."""
import datetime
import email.utils
from http.client import HTTPMessage
from typing import Iterable

# How much the clock of a vendor may differ, and after how long without a release or a visit ours has to be confirmed.
DIFFERENCE = 86_400
SILENCE = datetime.timedelta(days=31)
# The hosts that confirm a clock, or that show it to be wrong.
HOSTS = 2


def now() -> datetime.datetime:
    """Returns the time in UTC, whose day is that of the releases."""
    return datetime.datetime.now(datetime.timezone.utc)


def seconds_ahead(fields: HTTPMessage) -> float | None:
    """Returns how far the clock of the host of a response is ahead of this one, or None if the response has no time.

    A cache says by `Age` for how many seconds it has had the response."""
    try:
        sent = email.utils.parsedate_to_datetime(fields.get("Date", ""))
        return sent.timestamp() + max(0, int(fields.get("Age", "0"))) - now().timestamp()
    except (TypeError, ValueError, OverflowError):
        return None


def differs(ahead: float | None) -> bool:
    """Returns whether the clock of a host is known to differ by more than a day."""
    return ahead is not None and abs(ahead) > DIFFERENCE


class Clock:
    """The clock of this machine beside those of the hosts that responded."""

    def __init__(self, today: datetime.date, days: Iterable[datetime.date]):
        """Begins with the days that the index and the state know. None of them counts that is after today."""
        self.today = today
        self.newest = max((it for it in days if it <= today), default=None)
        # The hosts that said their time, and whether the last one differs.
        self.heard: dict[str, bool] = {}

    def hear(self, host: str, ahead: float | None) -> None:
        """Adds a host whose clock is so many seconds ahead of this one, if that is known."""
        if ahead is not None:
            self.heard[host] = differs(ahead)

    def differing(self) -> list[str]:
        """Returns the hosts whose clocks differ."""
        return sorted(host for host, is_other in self.heard.items() if is_other)

    def agreeing(self) -> int:
        """Returns how many hosts agree."""
        return len(self.heard) - len(self.differing())

    def is_wrong(self) -> bool:
        """Returns whether the clock differs from those of two hosts, and of more than it agrees with."""
        count = len(self.differing())
        return count >= HOSTS and count > self.agreeing()

    def is_unconfirmed(self) -> bool:
        """Returns whether nothing is known of the last days, and fewer than two hosts agree."""
        return self.newest is not None and self.today - self.newest > SILENCE and self.agreeing() < HOSTS

    def doubt(self, host: str = "", ahead: float | None = None) -> str:
        """Returns why the list of a response may not be published, or nothing. Without a host, why no list may be."""
        if self.is_wrong():
            return f"the clock of this machine says {self.today}, more than a day from that of " \
                   f"{' and '.join(self.differing()[:HOSTS])}"
        if differs(ahead):
            return f"the clock of {host} differs from {self.today} by more than a day"
        if self.is_unconfirmed():
            return f"the newest day known is {self.newest}, and no two hosts confirm that today is {self.today}"
        return ""
