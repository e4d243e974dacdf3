"""A capture file of the form pcapng (draft-ietf-opsawg-pcapng), with little-endian numbers."""
import struct
from typing import NamedTuple

SECTION, INTERFACE, PACKET = 0x0a0d0d0a, 1, 6
MAGIC, VERSION, LENGTH_UNKNOWN = 0x1a2b3c4d, (1, 0), -1
BLUETOOTH_LE_LL = 251
COMMENT, APPLICATION = 1, 4
NAME, DESCRIPTION, RESOLUTION = 2, 3, 9
FLAGS = 2
INBOUND, OUTBOUND = 1, 2
HUNDREDTHS = 2


class Interface(NamedTuple):
    """An interface of a capture, of the link layer of Bluetooth LE."""
    name: str
    description: str


class Packet(NamedTuple):
    """A packet: the place of its interface, its time in hundredths of a second, whether it came
    in or went out, and what is written beside it."""
    interface: int
    at: int
    direction: int
    octets: bytes
    comment: str


def _padded(octets: bytes) -> bytes:
    return octets + bytes(-len(octets) % 4)


def _options(*options: tuple[int, bytes]) -> bytes:
    found = [struct.pack('<HH', code, len(value)) + _padded(value) for code, value in options]
    return b''.join(found) + struct.pack('<HH', 0, 0)


def _block(kind: int, body: bytes) -> bytes:
    length = struct.pack('<I', len(body) + 12)
    return struct.pack('<I', kind) + length + body + length


def _section(application: str, comment: str) -> bytes:
    options = _options((APPLICATION, application.encode()), (COMMENT, comment.encode()))
    return _block(SECTION, struct.pack('<IHHq', MAGIC, *VERSION, LENGTH_UNKNOWN) + options)


def _interface(interface: Interface) -> bytes:
    options = _options((NAME, interface.name.encode()),
                       (DESCRIPTION, interface.description.encode()),
                       (RESOLUTION, bytes([HUNDREDTHS])))
    return _block(INTERFACE, struct.pack('<HHI', BLUETOOTH_LE_LL, 0, 0) + options)


def _packet(packet: Packet) -> bytes:
    length = len(packet.octets)
    head = struct.pack('<IIIII', packet.interface, packet.at >> 32, packet.at & 0xffffffff,
                       length, length)
    options = _options((COMMENT, packet.comment.encode()),
                       (FLAGS, struct.pack('<I', packet.direction)))
    return _block(PACKET, head + _padded(packet.octets) + options)


def capture_file(application: str, comment: str, interfaces: list[Interface],
                 packets: list[Packet]) -> bytes:
    """The octets of a capture file with one section."""
    return b''.join([_section(application, comment), *map(_interface, interfaces),
                     *map(_packet, packets)])
