"""What the lines of a report tell: octets that go on air, messages that were delivered, numbers that were drawn."""
from collections.abc import Iterable
from typing import NamedTuple, TypeVar

MESSAGE, BEACON = 0x2a, 0x2b
NET_RESULTS = ('ctl', 'msg', 'seg', 'relay', 'rep')
DRAWN = ('ctl', 'msg', 'seg')
_Told = TypeVar('_Told')


class OnAir(NamedTuple):
    """The AD type of an advertisement, and its data."""
    kind: int
    octets: bytes

    @property
    def line(self) -> str:
        """The line of a node that hears it."""
        return f'{"net" if self.kind == MESSAGE else "bcn"} {self.octets.hex()}'


class Name(NamedTuple):
    """What tells an accepted message."""
    src: str
    iv_index: str
    seq: str


def on_air(line: str) -> OnAir | None:
    """What goes on air by a line of a report with octets."""
    words = line.split(' ')
    if words[0] != 's':
        return None
    if words[3] in NET_RESULTS:
        return OnAir(MESSAGE, bytes.fromhex(words[-1]))
    return OnAir(BEACON, bytes.fromhex(words[-1])) if words[3] == 'bcn' else None


def heard_on_air(lines: Iterable[str]) -> list[OnAir]:
    """What goes on air by lines of a report, in their order."""
    return [sent for line in lines if (sent := on_air(line))]


def accepted(line: str) -> Name | None:
    """The message that a line of a report says to be accepted."""
    match line.split(' '):
        case ['e', _, _, _, 'net', 'delivered' | 'control', src, _, iv_index, seq, *_]:
            return Name(src, iv_index, seq)
    return None


def delivered(line: str) -> bytes | None:
    """The payload of an access message that a line says to be delivered."""
    words = line.split(' ')
    return bytes.fromhex(words[-1]) if words[0] == 'e' and words[5] == 'delivered' else None


def _twice(found: Iterable[_Told | None]) -> list[_Told]:
    """Those that were there before."""
    seen: set[_Told] = set()
    twice = []
    for it in filter(None, found):
        if it in seen:
            twice.append(it)
        seen.add(it)
    return twice


def twice_accepted(lines: Iterable[str]) -> list[Name]:
    """The messages that were accepted more than once over all lives."""
    return _twice(map(accepted, lines))


def drawn(line: str) -> tuple[int, int] | None:
    """The pair (IV Index, SEQ) under which a PDU of its own went out."""
    words = line.split(' ')
    return (int(words[4], 16), int(words[5], 16)) if words[0] == 's' and words[3] in DRAWN else None


def drawn_twice(lines: Iterable[str]) -> list[tuple[int, int]]:
    """The pairs that were drawn more than once over all lives."""
    return _twice(map(drawn, lines))
