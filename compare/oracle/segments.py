"""Messages in segments: those that are heard, and the node's own.

Mesh Profile 3.5.3.2 and 3.5.3.3, 3.5.2.3.1 (acknowledgments); room, copies and rounds are those of
docs/FORMATS.md, "Messages in segments". Time is in ticks of 10 ms.
"""
from dataclasses import dataclass, field
from typing import NamedTuple

from .pdus import LowerPdu, NetworkPdu, last_piece
from .records import is_unicast

MessageName = tuple[int, int, int]
"""SRC, IV Index and SeqAuth."""

HEARD_AT_ONCE = 8
OWN_AT_ONCE = 4
INCOMPLETE_TIMEOUT = 1000
ROUNDS_TO_UNICAST = 4
ROUNDS_ELSE = 3


def all_pieces(seg_n: int) -> int:
    """The BlockAck of a whole message."""
    return (1 << seg_n + 1) - 1


@dataclass
class Heard:
    """A message in progress; `ack_at` is when it is to be acknowledged, with the TTL `ack_ttl`."""
    name: MessageName
    dst: int
    net: int
    seg_n: int
    seq_zero: int
    kind: tuple[int, ...]
    last_new: int
    pieces: dict[int, bytes] = field(default_factory=dict)
    ack_at: int | None = None
    ack_ttl: int = 0

    def is_alike(self, other: 'Heard') -> bool:
        return ((self.dst, self.net, self.seg_n, self.kind)
                == (other.dst, other.net, other.seg_n, other.kind))

    @property
    def block(self) -> int:
        return sum(1 << seg_o for seg_o in self.pieces)


class Taken(NamedTuple):
    """What became of a segment: an answer, or the whole text."""
    answer: str = ''
    whole: bytes | None = None


class Reassembly:
    """The messages in progress, in the order in which they began."""

    def __init__(self) -> None:
        self.messages: list[Heard] = []

    def take(self, now: int, name: MessageName, net: int, pdu: NetworkPdu, lower: LowerPdu,
             ack_ttl: int) -> Taken:
        segment = lower.segment
        begun = Heard(name, pdu.dst, net, segment.seg_n, segment.seq_zero, lower.kind, now)
        message = next((held for held in self.messages if held.name == name), begun)
        if message is begun and len(self.messages) >= HEARD_AT_ONCE:
            return Taken(self._no_room())
        piece = message.pieces.get(segment.seg_o)
        if not message.is_alike(begun) or piece not in (None, lower.text):
            return Taken('conflict')
        if message is begun:
            self.messages.append(message)
        if piece is None:
            message.pieces[segment.seg_o] = lower.text
            message.last_new = now
            if is_unicast(message.dst) and message.ack_at is None:
                message.ack_at, message.ack_ttl = now + 15 + 5 * ack_ttl, ack_ttl
        missing = message.seg_n + 1 - len(message.pieces)
        if missing:
            return Taken(f'waiting {missing}')
        self.messages.remove(message)
        return Taken(whole=b''.join(message.pieces[o] for o in range(message.seg_n + 1)))

    def _no_room(self) -> str:
        names = (f'{src:04x}/{iv:08x}/{seq:06x}' for src, iv, seq in
                 (message.name for message in self.messages))
        return 'noroom ' + ' '.join(names)

    def acks_due(self, now: int) -> list[Heard]:
        """Those to acknowledge, once messages whose time is over are gone."""
        self.messages = [message for message in self.messages
                         if now - message.last_new < INCOMPLETE_TIMEOUT]
        due = [message for message in self.messages
               if message.ack_at is not None and message.ack_at <= now]
        for message in due:
            message.ack_at = None
        return due


@dataclass
class Own:
    """An own message; `first` has its AKF and AID, `upper` is its upper transport PDU."""
    pair: tuple[int, int]
    src: int
    dst: int
    ttl: int
    net: int
    first: int
    upper: bytes
    sent_at: int
    acked: int = 0
    rounds: int = 1

    @property
    def seg_n(self) -> int:
        return last_piece(self.upper)

    @property
    def has_rounds(self) -> bool:
        return self.rounds < (ROUNDS_TO_UNICAST if is_unicast(self.dst) else ROUNDS_ELSE)

    def is_due(self, now: int) -> bool:
        return now >= self.sent_at + 20 + 5 * self.ttl

    def pieces_due(self) -> list[int]:
        """To a unicast address those that aren't acknowledged, else all."""
        return [seg_o for seg_o in range(self.seg_n + 1)
                if not is_unicast(self.dst) or not self.acked >> seg_o & 1]


class Sending:
    """The own messages that aren't acknowledged, in the order in which they began."""

    def __init__(self) -> None:
        self.messages: list[Own] = []

    @property
    def is_full(self) -> bool:
        return len(self.messages) >= OWN_AT_ONCE

    def due(self, now: int) -> list[Own]:
        """Those of which a round begins now; one that had all its rounds goes."""
        due = [message for message in self.messages if message.is_due(now)]
        self.messages = [message for message in self.messages
                         if message not in due or message.has_rounds]
        due = [message for message in due if message.has_rounds]
        for message in due:
            message.rounds, message.sent_at = message.rounds + 1, now
        return due

    def acknowledge(self, src: int, params: bytes) -> None:
        """A Segment Acknowledgment; one of another length has no effect."""
        if len(params) != 6:
            return
        fields, block = int.from_bytes(params[:2], 'big'), int.from_bytes(params[2:], 'big')
        on_behalf, seq_zero = fields >> 15, fields >> 2 & 0x1fff
        for message in self.messages:
            if message.pair[1] & 0x1fff == seq_zero and (on_behalf or message.dst == src):
                whole = all_pieces(message.seg_n)
                message.acked |= block & whole
                if block == 0 or message.acked == whole:
                    self.messages.remove(message)
                return
