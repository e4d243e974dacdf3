"""The calls of the flash, and what a cut within one leaves: docs/FORMATS.md, "Flash".

No octets are kept. A bank has 1,023 slots behind its header. A record is put by two program calls,
the second one for the gate; where all slots are used, a compaction to a snapshot goes before.
"""
from collections.abc import Callable

SLOTS = 1023
SECTORS_OF_BANK = 8
WHOLE = 0xff


class PowerCut(Exception):
    """Power was cut within a call."""


class Flash:
    """Counts calls, and cuts power within the one that is armed.

    A mask tells which bits of the torn call are new: with 00 none is, with ff the call is done.
    """

    def __init__(self, snapshot_size: Callable[[], int], used: int) -> None:
        self.snapshot_size = snapshot_size
        self.used = used
        self.power_on()

    def power_on(self) -> None:
        self.calls = 0
        self.armed: tuple[int, int] | None = None

    def arm(self, calls: int, mask: int) -> None:
        """After so many more calls the next one is torn."""
        self.armed = self.calls + calls, mask

    def _torn(self) -> int | None:
        """Makes a call, and tells the mask that tears it, None where it is whole."""
        self.calls += 1
        if self.armed and self.calls > self.armed[0]:
            return self.armed[1]
        return None

    def put(self, change: Callable[[], None]) -> None:
        """Makes a change by one record; where power is cut, the change is made or isn't."""
        if self.used == SLOTS:
            self._compact()
        mask = self._torn()
        if mask is not None:
            self.used += mask != 0
            raise PowerCut
        mask = self._torn()
        self.used += 1
        if mask in (None, WHOLE):
            change()
        if mask is not None:
            raise PowerCut

    def _compact(self) -> None:
        """The other bank counts once the gate of its header is written, by the last call."""
        size = self.snapshot_size()
        last = SECTORS_OF_BANK + 2 * size + 1
        for call in range(last + 1):
            mask = self._torn()
            if call == last and mask in (None, WHOLE):
                self.used = size
            if mask is not None:
                raise PowerCut
