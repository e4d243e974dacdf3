"""Advertisements of mesh over a raw Bluetooth socket of Linux: what is sent goes out as advertising events that nobody can connect to, what is
heard is read from advertising reports.

HCI as in the Bluetooth Core Specification 4.2, volume 2 part E: 7.8.5 to 7.8.11 (advertising and scanning), 7.7.65.2 (LE Advertising Report);
AD types by the Core Specification Supplement, Mesh Message 2a and Mesh Beacon 2b. The octets are tested; no radio was at hand.
"""
import socket
import struct
import time
from collections import deque
from collections.abc import Iterator
from dataclasses import dataclass, field

from .reports import BEACON, MESSAGE, OnAir

COMMAND, EVENT = 0x01, 0x04
META_EVENT, ADVERTISING_REPORT = 0x3e, 0x02
COMMAND_COMPLETE, COMMAND_STATUS = 0x0e, 0x0f
# OGF 08: LE controller commands
RESET, EVENT_MASK, LE_EVENT_MASK = 0x0c03, 0x0c01, 0x2001
RANDOM_ADDRESS, PARAMETERS, DATA, ENABLE, SCAN_PARAMETERS, SCAN_ENABLE = 0x2005, 0x2006, 0x2008, 0x200a, 0x200b, 0x200c
NOT_CONNECTABLE, RANDOM, ALL_CHANNELS = 0x03, 0x01, 0x07
SLOT_MS = 0.625
LARGEST_DATA = 31
EVENT_MS = 20
SOL_HCI, HCI_FILTER = 0, 2


def command(opcode: int, parameters: bytes = b'') -> bytes:
    """A command packet."""
    return bytes([COMMAND]) + struct.pack('<HB', opcode, len(parameters)) + parameters


def advertising_data(sent: OnAir) -> bytes:
    """The one AD structure of an advertisement: length, type, octets."""
    data = bytes([len(sent.octets) + 1, sent.kind]) + sent.octets
    if len(data) > LARGEST_DATA:
        raise ValueError(f'{len(data)} octets are more than an advertisement has')
    return data


def set_up(address: bytes) -> list[bytes]:
    """The commands that make a controller advertise under a random address and scan all the time, copies too."""
    interval = round(EVENT_MS / SLOT_MS)
    parameters = struct.pack('<HHBBB6sBB', interval, interval, NOT_CONNECTABLE, RANDOM, 0, bytes(6), ALL_CHANNELS, 0)
    return [command(RESET), command(EVENT_MASK, struct.pack('<Q', 0x20001fffffffffff)), command(LE_EVENT_MASK, struct.pack('<Q', 0x1f)),
            command(RANDOM_ADDRESS, address[::-1]), command(PARAMETERS, parameters),
            command(SCAN_PARAMETERS, struct.pack('<BHHBB', 0, interval, interval, RANDOM, 0)), command(SCAN_ENABLE, b'\1\0')]


def advertise(sent: OnAir) -> list[bytes]:
    """The commands that begin to send an advertisement; `STOP` ends it."""
    data = advertising_data(sent)
    return [command(DATA, bytes([len(data)]) + data.ljust(LARGEST_DATA, b'\0')), command(ENABLE, b'\1')]


STOP = command(ENABLE, b'\0')


def structures(data: bytes) -> Iterator[OnAir]:
    """The AD structures in the data of an advertisement; what is cut off at its end is passed over."""
    while data and data[0]:
        size, data = data[0], data[1:]
        if len(data) < size:
            return
        yield OnAir(data[0], data[1:size])
        data = data[size:]


def reports(packet: bytes) -> list[OnAir]:
    """The mesh messages and beacons in an advertising report; none in any other packet."""
    if len(packet) < 5 or packet[0] != EVENT or packet[1] != META_EVENT or packet[3] != ADVERTISING_REPORT:
        return []
    found, rest = [], packet[5:]
    for _ in range(packet[4]):
        # event type, address type, address, length, data, RSSI
        if len(rest) < 9 or len(rest) < 10 + rest[8]:
            return found
        data, is_advertised, rest = rest[9:9 + rest[8]], rest[0] == NOT_CONNECTABLE, rest[10 + rest[8]:]
        found += [heard for heard in structures(data) if heard.kind in (MESSAGE, BEACON) and is_advertised]
    return found


def failed(packet: bytes) -> int:
    """The status of a command that a controller refused; 0 of any other packet."""
    if len(packet) > 6 and packet[0] == EVENT and packet[1] == COMMAND_COMPLETE:
        return packet[6]
    return packet[3] if len(packet) > 3 and packet[0] == EVENT and packet[1] == COMMAND_STATUS else 0


def open_socket(index: int) -> socket.socket:
    """A raw socket on a controller; it takes CAP_NET_RAW, and that nobody else uses the controller."""
    made = socket.socket(socket.AF_BLUETOOTH, socket.SOCK_RAW, socket.BTPROTO_HCI)
    made.bind((index,))
    made.setsockopt(SOL_HCI, HCI_FILTER, struct.pack('<IIIH', 1 << EVENT, 0xffffffff, 0xffffffff, 0))
    made.setblocking(False)
    return made


@dataclass
class Advertiser:
    """Sends one advertisement after another, each for `copies` advertising events, and reads what is heard."""
    socket: socket.socket
    copies: int = 3
    refused: int = 0
    _queue: deque[OnAir] = field(default_factory=deque)
    _until: float = 0.0

    def send(self, sent: OnAir) -> None:
        """Puts it behind what waits."""
        self._queue.append(sent)

    def fileno(self) -> int:
        """For select."""
        return self.socket.fileno()

    @property
    def waiting(self) -> int:
        """How many are still to be sent, and one more while one is advertised."""
        return len(self._queue) + (self._until > 0)

    def flush(self, now: float | None = None) -> None:
        """Goes on with what waits."""
        now = time.monotonic() if now is None else now
        if self._until and now >= self._until:
            self.socket.send(STOP)
            self._until = 0.0
        if self._queue and not self._until:
            for packet in advertise(self._queue.popleft()):
                self.socket.send(packet)
            # an event is delayed by up to 10 ms more
            self._until = now + self.copies * (EVENT_MS + 10) / 1000

    def heard(self) -> list[OnAir]:
        """What was heard since this was last asked."""
        found = []
        while True:
            try:
                packet = self.socket.recv(260)
            except BlockingIOError:
                return found
            if not packet:
                return found
            self.refused += failed(packet) != 0
            found += reports(packet)
