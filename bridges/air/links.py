"""Links between nodes: what is sent at one end comes to the other, or is lost, or comes late."""
import random
from dataclasses import dataclass, field

from .reports import OnAir
from .words import Air


@dataclass
class Link:
    """One direction of a link. Its draws follow from the seed and its ends alone, so another link changes none of them."""
    src: str
    dst: str
    air: Air
    seed: int
    sent: int = 0
    lost: int = 0
    _last: int = 0
    _drawn: random.Random = field(init=False)

    def __post_init__(self) -> None:
        self._drawn = random.Random(f'{self.seed} {self.src} {self.dst}')

    def arrivals(self, now_ms: int) -> list[int]:
        """The times at which the copies of a PDU that is sent now arrive."""
        found = []
        for _ in range(self.air.copies):
            is_lost, delay = self._drawn.random() * 100 < self.air.loss, self._drawn.randint(*self.air.delay)
            self.sent += 1
            self.lost += is_lost
            if is_lost:
                continue
            at_ms = max(now_ms + delay, self._last) if self.air.is_ordered else now_ms + delay
            self._last = max(self._last, at_ms)
            found.append(at_ms)
        return found


@dataclass(frozen=True, order=True)
class Arrival:
    """A PDU that comes to a node. Of one time those come first that were sent first."""
    at_ms: int
    number: int
    dst: str = field(compare=False)
    heard: OnAir = field(compare=False)
