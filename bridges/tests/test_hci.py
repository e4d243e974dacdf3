"""The octets of a raw Bluetooth socket."""
import unittest

from tests.where import BRIDGES  # isort: skip
from air.hci import STOP, Advertiser, advertise, advertising_data, failed, reports, set_up, structures
from air.reports import OnAir

assert BRIDGES
PDU = OnAir(0x2a, bytes(range(29)))


def report(*rows: tuple[int, bytes]) -> bytes:
    """An LE Advertising Report: its rows of event type and data."""
    text = b''.join(bytes([kind, 1]) + bytes(6) + bytes([len(data)]) + data + b'\xc4' for kind, data in rows)
    return bytes([4, 0x3e, len(text) + 2, 2, len(rows)]) + text


class Socket:
    """What is sent is kept, what is heard was given."""

    def __init__(self, *heard: bytes) -> None:
        self.sent: list[bytes] = []
        self.heard = list(heard)

    def send(self, packet: bytes) -> None:
        """Keeps it."""
        self.sent.append(packet)

    def recv(self, _: int) -> bytes:
        """The next one, or nothing yet."""
        if not self.heard:
            raise BlockingIOError
        return self.heard.pop(0)


class Octets(unittest.TestCase):
    """Packets of HCI."""

    def test_a_pdu_of_29_octets_fills_an_advertisement(self) -> None:
        self.assertEqual(advertising_data(PDU), b'\x1e\x2a' + PDU.octets)
        with self.assertRaises(ValueError):
            advertising_data(OnAir(0x2a, bytes(30)))

    def test_commands_have_their_lengths(self) -> None:
        for packet in (*set_up(bytes.fromhex('c00102030405')), *advertise(PDU), STOP):
            self.assertEqual((packet[0], packet[3]), (1, len(packet) - 4), packet.hex())
        lengths = [packet[3] for packet in set_up(bytes(6))]
        self.assertEqual(lengths, [0, 8, 8, 6, 15, 7, 2])
        self.assertEqual(advertise(PDU)[0].hex(), '01082020' + '1f' + '1e2a' + PDU.octets.hex())
        self.assertEqual(STOP.hex(), '010a200100')

    def test_reports_are_read(self) -> None:
        data = advertising_data(PDU)
        self.assertEqual(reports(report((3, data))), [PDU])
        self.assertEqual(reports(report((3, b'\x02\x01\x06'), (3, b'\x03\x2b\x01\x02'))), [OnAir(0x2b, b'\1\2')])
        self.assertEqual(reports(report((0, data))), [], 'mesh advertisements are not connectable')
        for size in range(len(report((3, data)))):
            reports(report((3, data))[:size])

    def test_what_is_cut_off_is_passed_over(self) -> None:
        self.assertEqual(list(structures(b'\x02\x2a\x07\x05\x2a\x01')), [OnAir(0x2a, b'\7')])
        self.assertEqual(list(structures(b'\0\x02\x2a\x07')), [])

    def test_a_refusal_is_seen(self) -> None:
        self.assertEqual(failed(bytes.fromhex('040e0401082000')), 0)
        self.assertEqual(failed(bytes.fromhex('040e040108200c')), 12)


class Sending(unittest.TestCase):
    """One advertisement after another."""

    def test_the_next_begins_when_the_one_before_is_over(self) -> None:
        over = Socket(report((3, advertising_data(PDU))))
        air = Advertiser(over)
        air.send(PDU)
        air.send(OnAir(0x2b, b'\1'))
        air.flush(1.0)
        self.assertEqual((air.heard(), over.sent), ([PDU], advertise(PDU)))
        air.flush(1.05)
        self.assertEqual(len(over.sent), 2)
        air.flush(1.2)
        self.assertEqual(over.sent[2:], [STOP, *advertise(OnAir(0x2b, b'\1'))])
        self.assertEqual(air.waiting, 1)
        air.flush(1.4)
        self.assertEqual((over.sent[-1], air.waiting), (STOP, 0))
