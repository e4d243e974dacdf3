"""The test transport of BlueZ's mesh daemon (`bluetooth-meshd --io unit:PATH`), to and from a node, in real time.

The daemon binds PATH, a datagram socket. A datagram to it is the length of an advertisement's data, then its AD type and its octets; one from it
is the type and the octets, without a length. 5.66 sends on a socket that it never connects, so what it sends goes to PATH.peer by way of a
library that is loaded before it (compare/bluez/shim.c).
"""
import os
import socket
import time
from collections import deque
from collections.abc import Callable, Sequence
from dataclasses import dataclass, field
from itertools import zip_longest
from pathlib import Path
from typing import TextIO

from .process import LiveNode, NodeGone
from .reports import BEACON, MESSAGE, OnAir, on_air

LARGEST = 64
TICK = 0.01
SECURE_BEACON = 0x01


@dataclass
class UnitSocket:
    """The other end of the daemon's socket."""
    path: Path

    def __post_init__(self) -> None:
        self._peer = Path(f'{self.path}.peer')
        self._peer.unlink(missing_ok=True)
        self._socket = socket.socket(socket.AF_UNIX, socket.SOCK_DGRAM)
        self._socket.bind(str(self._peer))
        self._socket.setblocking(False)
        self._queue: deque[bytes] = deque()

    def fileno(self) -> int:
        """For select."""
        return self._socket.fileno()

    @property
    def waiting(self) -> int:
        """How many wait for the daemon."""
        return len(self._queue)

    def heard(self) -> list[OnAir]:
        """What the daemon sent since this was last asked: network PDUs and Secure Network beacons."""
        found = []
        while True:
            try:
                data = self._socket.recv(LARGEST)
            except BlockingIOError:
                return found
            if data[0] == MESSAGE or data[0] == BEACON and data[1] == SECURE_BEACON:
                found.append(OnAir(data[0], data[1:]))

    def send(self, sent: OnAir) -> None:
        """Puts it behind what waits for the daemon."""
        data = bytes([sent.kind]) + sent.octets
        self._queue.append(bytes([len(data)]) + data)

    def flush(self) -> int:
        """Hands the daemon what waits, as much as it takes: the kernel keeps ten datagrams for it. Answers how many nobody heard."""
        unheard = 0
        while self._queue:
            try:
                self._socket.sendto(self._queue[0], str(self.path))
            except BlockingIOError:
                break
            except (FileNotFoundError, ConnectionRefusedError):
                unheard += 1
            self._queue.popleft()
        return unheard

    def close(self) -> None:
        """Ends it."""
        self._socket.close()
        self._peer.unlink(missing_ok=True)


@dataclass
class UnitBridge:
    """Between the daemon and a node. `lost_in` and `lost_out` say of each PDU whether it is lost on its way. `answered` has each network PDU with
    the word that answered it, `cut` where a kill came first. With `cut_at` the node is killed at that network PDU from now on, `cut_after` seconds
    after it was handed."""
    node: LiveNode
    socket: UnitSocket
    log: TextIO
    lost_in: Callable[[OnAir], bool] | None = None
    lost_out: Callable[[str], bool] | None = None
    is_deaf: bool = False
    waiting: deque[str] = field(default_factory=deque)
    came: list[OnAir] = field(default_factory=list)
    answered: list[tuple[str, str]] = field(default_factory=list)
    cut_at: int = 0
    cut_after: float = 0.0
    sent: int = 0
    _ticked: float = 0.0

    def note(self, text: str) -> None:
        """A line of the log."""
        self.log.write(f'{time.monotonic():.3f} {text}\n')
        self.log.flush()

    def power_on(self) -> None:
        """Opens a life."""
        self._ticked = time.monotonic()
        for line in self.node.start():
            self.note(f'== {line}')

    def kill(self) -> None:
        """Kills the node's process."""
        before = len(self.node.report)
        self.node.kill()
        for line in self.node.report[before:]:
            self.note(f'node, unread: {line}')
        self.note('== killed')

    def step(self) -> list[str]:
        """Lets the node hear what the daemon sent and what was said, and the time that passed; answers what it told."""
        heard = self._arrived()
        if unheard := self.socket.flush():
            self.note(f'   {unheard} that nobody hears')
        if not self.node.is_on:
            return []
        lines = [*self._time(bool(heard or self.waiting)), *(sent.line for sent in heard), *self.waiting]
        self.waiting.clear()
        for place, line in enumerate(lines):
            if self.cut_at and line.startswith('net '):
                self.cut_at -= 1
                if not self.cut_at:
                    return self._cut(lines[:place + 1])
        return self.tell(*lines) if lines else []

    def _cut(self, lines: list[str]) -> list[str]:
        self.node.hand(*lines)
        time.sleep(self.cut_after)
        before = len(self.node.report)
        self.kill()
        self._match(lines, self.node.report[before:])
        return []

    def _match(self, lines: Sequence[str], told: Sequence[str]) -> None:
        asked = [line[4:] for line in lines if line.startswith('net ')]
        words = [line.split(' ')[5] for line in told if line.startswith('e ') and line.split(' ')[4] == 'net']
        self.answered += zip_longest(asked, words[:len(asked)], fillvalue='cut')

    def tell(self, *lines: str) -> list[str]:
        """Hands lines to the node, and what it sends to the daemon."""
        told = self.node.ask(*lines)
        self._match(lines, told)
        for line in told:
            if ' tick ticked ' not in line:
                self.note(f'node: {line}')
            self._hand_on(line)
        self.socket.flush()
        return told

    def _arrived(self) -> list[OnAir]:
        arrived = []
        for heard in self.socket.heard():
            self.note(f'meshd> {heard.kind:02x}{heard.octets.hex()}')
            if self.is_deaf or not self.node.is_on:
                continue
            if self.lost_in and self.lost_in(heard):
                self.note('   lost')
                continue
            self.came.append(heard)
            arrived.append(heard)
        return arrived

    def _time(self, is_needed: bool) -> list[str]:
        ticks = int((time.monotonic() - self._ticked) / TICK)
        if ticks < (1 if is_needed else 5):
            return []
        self._ticked += ticks * TICK
        return [f'tick {ticks}']

    def _hand_on(self, line: str) -> None:
        sent = on_air(line)
        if sent is None or self.is_deaf:
            return
        if self.lost_out and self.lost_out(line):
            self.note('   lost')
        else:
            self.socket.send(sent)
            self.sent += 1


def bridge(program: Path, file: Path, path: Path, log: TextIO) -> UnitBridge:
    """A bridge to the daemon's socket for the node in a file; its node is off yet."""
    if not os.access(program, os.X_OK):
        raise NodeGone(f'{program}: it is no program')
    return UnitBridge(LiveNode(program, file), UnitSocket(path), log)
