"""What is published when: Model Publications, and heartbeats.

Mesh Profile 4.2.2 (publication), 4.2.17 (Heartbeat Publication), 3.6.7.2; when a row or a
heartbeat is due is docs/FORMATS.md's, "Publications and heartbeats". Ticks have 10 ms.
"""
from dataclasses import dataclass

from .models import step_time
from .pdus import little
from .records import ModelName, PublicationRow

MOST_LOG = 0x11
WITHOUT_END = 0xff


class Publisher:
    """The rows with the tick that their periods count from."""

    def __init__(self, rows: dict[ModelName, PublicationRow]) -> None:
        self.rows = dict(rows)
        self.since = {name: 0 for name in rows}
        self.asked = 0

    def note(self, rows: dict[ModelName, PublicationRow], now: int) -> None:
        """Takes the rows over as they are now; periods of one that was set count from now."""
        self.since = {name: self.since[name] if self.rows.get(name) == row else now
                      for name, row in rows.items()}
        self.rows = dict(rows)

    def due(self, now: int) -> list[tuple[ModelName, PublicationRow]]:
        """Rows of which a period ended since this was last asked, by element and model."""
        due = []
        for name, row in sorted(self.rows.items(), key=lambda item: item[0]):
            period, since = step_time(row.period), self.since[name]
            if row.address and period and (now - since) // period > (self.asked - since) // period:
                due.append((name, row))
        self.asked = now
        return due


@dataclass
class Heartbeat:
    """A Heartbeat Publication; `left` is None without an end, `asked` before the first time."""
    destination: int
    left: int | None
    period_log: int
    ttl: int
    features: int
    net: int
    since: int
    asked: int | None = None

    def octets(self) -> bytes:
        """As Heartbeat Publication Status shows it, with what is left as a logarithm."""
        if self.left is None:
            log = WITHOUT_END
        else:
            log = (self.left - 1).bit_length() + 1 if self.left else 0
        return (little(self.destination, 2) + bytes([log, self.period_log, self.ttl])
                + little(self.features, 2) + little(self.net, 2))

    def is_due(self, now: int) -> bool:
        """Whether one is to be sent, which is counted."""
        asked, self.asked = self.asked, now
        if not self.destination or not self.period_log or self.left == 0:
            return False
        period = 100 << self.period_log - 1
        if asked is not None and (now - self.since) // period == (asked - self.since) // period:
            return False
        if self.left is not None:
            self.left -= 1
        return True


def heartbeats_of(count_log: int) -> int | None:
    """How many a Heartbeat Publication Count says, None without an end (4.2.17.2)."""
    if count_log == WITHOUT_END:
        return None
    return 0xfffe if count_log == MOST_LOG else (1 << count_log) // 2
