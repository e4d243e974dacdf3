"""The Generic OnOff Server and the Generic Level Server of each element.

Mesh Model 3.1.3 (transition time), 3.2.1 and 3.3.1 (OnOff), 3.2.2 and 3.3.2 (Level), 3.3.1.2.2
(transactions); Mesh Profile 3.7.5 (which models a message reaches). Ticks have 10 ms.
"""
from typing import NamedTuple

from .pdus import little
from .records import LEVEL, ON_OFF, ModelName, Records

STEPS = (10, 100, 1000, 60000)
NO_STEPS = 0x3f
MOST_STEPS = 0x3e
TRANSACTION = 600
LOWEST, HIGHEST = -32768, 32767
ON_OFF_GET, ON_OFF_SET, ON_OFF_SET_QUIET = b'\x82\1', b'\x82\2', b'\x82\3'
ON_OFF_STATUS = b'\x82\4'
LEVEL_GET, LEVEL_STATUS = b'\x82\5', b'\x82\x08'
LEVEL_SET, DELTA_SET, MOVE_SET = b'\x82\6', b'\x82\x09', b'\x82\x0b'
QUIET = {b'\x82\7': LEVEL_SET, b'\x82\x0a': DELTA_SET, b'\x82\x0c': MOVE_SET}
WIDTHS = {LEVEL_SET: 2, DELTA_SET: 4, MOVE_SET: 2}


def step_time(octet: int) -> int:
    """Of a transition time or a Publish Period, in ticks."""
    return (octet & 0x3f) * STEPS[octet >> 6]


def _remaining(ticks: int) -> int:
    """The octet of the time that is left, in the smallest steps that serve, rounded up."""
    for resolution, step in enumerate(STEPS):
        steps = -(-ticks // step)
        if steps <= MOST_STEPS:
            return resolution << 6 | steps
    return 3 << 6 | MOST_STEPS


def _toward_zero(a: int, b: int) -> int:
    quotient = abs(a) // abs(b)
    return quotient if (a < 0) == (b < 0) else -quotient


def _in_range(level: int) -> int:
    return max(LOWEST, min(HIGHEST, level))


class Set(NamedTuple):
    """The parameters of a set: its value, its TID, and duration and delay in ticks."""
    value: int
    tid: int
    duration: int
    delay: int


def _read_set(params: bytes, width: int) -> Set | None:
    """None where this is no set with a value of this width."""
    rest = params[width + 1:]
    if len(params) <= width or len(rest) not in (0, 2):
        return None
    if rest and rest[0] & 0x3f == NO_STEPS:
        return None
    value = int.from_bytes(params[:width], 'little', signed=True)
    duration, delay = (step_time(rest[0]), (rest[1] + 1) // 2) if rest else (0, 0)
    return Set(value, params[width], duration, delay)


class _Server:
    """What both servers have: a value that moves from `start` to `target` once a delay is over.

    `kept` is what the record has. The last transaction stands with the value at its first message.
    """

    def __init__(self, value: int) -> None:
        self.kept = self.start = self.target = value
        self.taken_at = self.delay = self.duration = 0
        self.transaction: tuple[int, int, int] | None = None
        self.renewed_at = 0
        self.value_before = value

    @property
    def begin(self) -> int:
        return self.taken_at + self.delay

    @property
    def end(self) -> int:
        return self.begin + self.duration

    def _is_repeated(self, now: int, transaction: tuple[int, int, int], value: int) -> bool:
        """Notes the transaction, and tells whether it is the last one still."""
        repeats = self.transaction == transaction and now - self.renewed_at < TRANSACTION
        if not repeats:
            self.value_before = value
        self.transaction, self.renewed_at = transaction, now
        return repeats

    def _go(self, now: int, present: int, target: int, asked: Set) -> None:
        self.start, self.target, self.kept = present, target, target
        self.taken_at, self.duration, self.delay = now, asked.duration, asked.delay


class OnOffServer(_Server):
    def present(self, now: int) -> int:
        """1 from the begin of a transition to 1 on, 0 from the end of one to 0 on."""
        turns_at = self.begin if self.target == 1 else self.end
        return self.target if now >= turns_at else self.start

    def status(self, now: int) -> bytes:
        octets = ON_OFF_STATUS + bytes([self.present(now)])
        if now < self.end:
            octets += bytes([self.target, _remaining(self.end - now)])
        return octets

    def take(self, now: int, src: int, dst: int, payload: bytes) -> bytes | None:
        """Takes a message, and answers the Status that it asks for."""
        opcode, params = payload[:2], payload[2:]
        if opcode == ON_OFF_GET:
            return None if params else self.status(now)
        asked = _read_set(params, 1)
        if opcode not in (ON_OFF_SET, ON_OFF_SET_QUIET) or not asked or asked.value not in (0, 1):
            return None
        present = self.present(now)
        if not self._is_repeated(now, (src, dst, asked.tid), present):
            self._go(now, present, asked.value, asked)
        return self.status(now) if opcode == ON_OFF_SET else None


class LevelServer(_Server):
    """`speed` is the delta of a Move while it goes, which has no end but its limit."""

    def __init__(self, value: int) -> None:
        super().__init__(value)
        self.speed = 0

    def present(self, now: int) -> int:
        passed = now - self.begin
        if passed < 0:
            return self.start
        if self.speed:
            return _in_range(self.start + _toward_zero(self.speed * passed, self.duration))
        if passed >= self.duration:
            return self.target
        return self.start + _toward_zero((self.target - self.start) * passed, self.duration)

    @property
    def _limit(self) -> int:
        return HIGHEST if self.speed > 0 else LOWEST

    def status(self, now: int) -> bytes:
        octets = LEVEL_STATUS + little(self.present(now), 2)
        if self.speed and (now < self.begin or self.present(now) != self._limit):
            octets += little(self._limit, 2) + bytes([NO_STEPS])
        if not self.speed and now < self.end:
            octets += little(self.target, 2) + bytes([_remaining(self.end - now)])
        return octets

    def take(self, now: int, src: int, dst: int, payload: bytes) -> bytes | None:
        """Takes a message, and answers the Status that it asks for."""
        opcode, params = payload[:2], payload[2:]
        if opcode == LEVEL_GET:
            return None if params else self.status(now)
        kind = QUIET.get(opcode, opcode)
        asked = _read_set(params, WIDTHS[kind]) if kind in WIDTHS else None
        if asked is None:
            return None
        present = self.present(now)
        repeats = self._is_repeated(now, (src, dst, asked.tid), present)
        if kind == DELTA_SET:
            self._set(now, present, _in_range(self.value_before + asked.value), asked)
        elif kind == LEVEL_SET and not repeats:
            self._set(now, present, asked.value, asked)
        elif not repeats:
            self._move(now, present, asked)
        return self.status(now) if opcode == kind else None

    def _set(self, now: int, present: int, target: int, asked: Set) -> None:
        self.speed = 0
        self._go(now, present, target, asked)

    def _move(self, now: int, present: int, asked: Set) -> None:
        """By 0, or without a transition time, it stops the level at once."""
        self.speed = asked.value if asked.duration else 0
        self._go(now, present, present, asked if self.speed else Set(0, 0, 0, 0))


class Effects(NamedTuple):
    """The values to store by model, and the replies by the place of the element."""
    values: dict[ModelName, int]
    replies: list[tuple[int, bytes]]


class ModelServers:
    """The servers of a life, by the place of the element and the model."""

    def __init__(self, records: Records) -> None:
        self.records = records
        kinds = {ON_OFF: OnOffServer, LEVEL: LevelServer}
        self.servers = {(place, model): kind(records.model_values.get((place, model), 0))
                        for place in range(records.elements) for model, kind in kinds.items()}

    def _reaches(self, place: int, model: int, dst: int, label: bytes) -> bool:
        element = self.records.unicast + place
        return (dst == element or (element, model, dst) in self.records.groups
                or (element, model, label) in self.records.labels
                or (place == 0 and self.records.is_fixed_group(dst)))

    def take(self, now: int, src: int, dst: int, label: bytes, app: int,
             payload: bytes) -> Effects:
        """A message under an application key, to each server bound to that and reached."""
        effects = Effects({}, [])
        for (place, model), server in self.servers.items():
            is_bound = (self.records.unicast + place, model, app) in self.records.bindings
            if not is_bound or not self._reaches(place, model, dst, label):
                continue
            before = server.kept
            reply = server.take(now, src, dst, payload)
            if server.kept != before:
                effects.values[place, model] = server.kept
            if reply:
                effects.replies.append((place, reply))
        return effects

    def status(self, now: int, name: ModelName) -> bytes:
        return self.servers[name[0] - self.records.unicast, name[1]].status(now)
