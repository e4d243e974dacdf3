"""The test transport, with a daemon that is played."""
import io
import socket
import subprocess
import sys
import tempfile
import time
import unittest
from pathlib import Path

from tests.where import BRIDGES, MESHNODED, takes_programs  # isort: skip
from air.process import Identity, init
from air.reports import OnAir
from air.unit import UnitSocket, bridge
from air.words import IV_INDEX, NET_KEY
from oracle.ciphers import k2
from oracle.pdus import NetworkPdu, open_network, seal_network

IV = int(IV_INDEX, 16)


class Daemon:
    """The other end: a datagram socket with a path."""

    def __init__(self, path: Path) -> None:
        self.path = path
        self.socket = socket.socket(socket.AF_UNIX, socket.SOCK_DGRAM)
        self.socket.bind(str(path))
        self.socket.setblocking(False)

    def send(self, kind: int, octets: bytes) -> None:
        """As the daemon sends: type and octets."""
        self.socket.sendto(bytes([kind]) + octets, f'{self.path}.peer')

    def heard(self) -> list[bytes]:
        """What came, with its length before it."""
        found = []
        while True:
            try:
                found.append(self.socket.recv(64))
            except BlockingIOError:
                return found


class Unit(unittest.TestCase):
    """Both directions, without a node and with one."""

    def setUp(self) -> None:
        gone = tempfile.TemporaryDirectory()
        self.addCleanup(gone.cleanup)
        self.folder = Path(gone.name)

    def test_more_than_the_kernel_keeps_comes_in_order(self) -> None:
        over = UnitSocket(self.folder / 'unit')
        self.addCleanup(over.close)
        over.send(OnAir(0x2a, b'\0'))
        self.assertEqual(over.flush(), 1, 'nobody is there')
        daemon = Daemon(self.folder / 'unit')
        self.addCleanup(daemon.socket.close)
        for place in range(40):
            over.send(OnAir(0x2a, bytes([place])))
        found = []
        for _ in range(10):
            over.flush()
            found += daemon.heard()
        self.assertEqual(found, [bytes([2, 0x2a, place]) for place in range(40)])

    def test_other_advertisements_are_passed_over(self) -> None:
        over = UnitSocket(self.folder / 'unit')
        self.addCleanup(over.close)
        daemon = Daemon(self.folder / 'unit')
        self.addCleanup(daemon.socket.close)
        daemon.send(0x29, b'\1\2')
        daemon.send(0x2b, b'\0\2')
        daemon.send(0x2b, b'\1\2')
        daemon.send(0x2a, b'\1\2')
        self.assertEqual(over.heard(), [OnAir(0x2b, b'\1\2'), OnAir(0x2a, b'\1\2')])

    def test_what_cant_be_run_is_told(self) -> None:
        """A program, or a node's file, that isn't there, of each command; no traceback."""
        lamps = BRIDGES / 'examples' / 'lamps.pipe'
        for words, status, told in (([BRIDGES / 'unit', self.folder / 'none', 'node', self.folder / 'unit'], 1, 'unit: '),
                                    ([BRIDGES / 'unit', '/bin/true', 'node', self.folder / 'no' / 'unit'], 1, 'unit: '),
                                    ([BRIDGES / 'unit', '/bin/false', 'node', self.folder / 'unit'], 1, 'unit: '),
                                    ([BRIDGES / 'pipe', self.folder / 'none', lamps], 1, 'pipe: '),
                                    ([BRIDGES / 'pipe', '/bin/false', lamps], 1, 'pipe: '),
                                    ([BRIDGES / 'pipe', '/bin/true', self.folder / 'none'], 2, 'pipe: ')):
            ended = subprocess.run([sys.executable, '-B', *words], input='', capture_output=True, text=True, check=False, timeout=60)
            self.assertEqual((ended.returncode, ended.stderr[:6], len(ended.stderr.splitlines())), (status, told, 1), ended.stderr)

    @takes_programs
    def test_the_command_says_what_stands_on_its_input(self) -> None:
        init(MESHNODED, self.folder / 'node', Identity(0x1201, NET_KEY, '00' * 16, IV))
        daemon = Daemon(self.folder / 'unit')
        self.addCleanup(daemon.socket.close)
        ended = subprocess.run([sys.executable, '-B', BRIDGES / 'unit', MESHNODED, self.folder / 'node', self.folder / 'unit'],
                               input='raw 0003 05 0a000000\n', capture_output=True, text=True, check=True, timeout=60)
        octets = next(line.split(' ')[-1] for line in ended.stdout.splitlines() if line.startswith('s '))
        self.assertEqual(daemon.heard(), [bytes([len(octets) // 2 + 1, 0x2a]) + bytes.fromhex(octets)])
        self.assertEqual((ended.stdout.splitlines()[-1], ended.stderr), ('end', ''))

    @takes_programs
    def test_the_command_hands_on_what_is_heard_while_its_input_is_open(self) -> None:
        init(MESHNODED, self.folder / 'node', Identity(0x1201, NET_KEY, '00' * 16, IV))
        daemon = Daemon(self.folder / 'unit')
        self.addCleanup(daemon.socket.close)
        with subprocess.Popen([sys.executable, '-B', BRIDGES / 'unit', MESHNODED, self.folder / 'node', self.folder / 'unit'], stdin=subprocess.PIPE,
                              stdout=subprocess.PIPE, stderr=subprocess.PIPE, text=True) as running:
            assert running.stdin and running.stdout and running.stderr
            self.assertTrue(running.stdout.readline().startswith('life 1 '))
            daemon.send(0x2a, seal_network(k2(bytes.fromhex(NET_KEY)), IV, NetworkPdu(1, 3, 1, 3, 0x1201, b'\x0a\0\0\0')))
            # time may be told before it
            self.assertTrue(any(' control ' in line for line in iter(running.stdout.readline, '')))
            running.stdin.close()
            self.assertEqual((running.stdout.read().splitlines()[-1], running.stderr.read(), running.wait(60)), ('end', '', 0))

    @takes_programs
    def test_a_node_hears_and_is_heard(self) -> None:
        init(MESHNODED, self.folder / 'node', Identity(0x1201, NET_KEY, '00' * 16, IV))
        over = bridge(MESHNODED, self.folder / 'node', self.folder / 'unit', io.StringIO())
        self.addCleanup(over.node.kill)
        self.addCleanup(over.socket.close)
        daemon = Daemon(self.folder / 'unit')
        self.addCleanup(daemon.socket.close)
        over.power_on()
        material = k2(bytes.fromhex(NET_KEY))
        daemon.send(0x2a, seal_network(material, IV, NetworkPdu(1, 3, 1, 3, 0x1201, b'\x0a\0\0\0')))
        over.waiting.append('raw 0003 05 0a000000')
        over.step()
        self.assertEqual([word for _, word in over.answered], ['control'])
        time.sleep(0.02)
        heard = [open_network(material, IV, data[2:]) for data in daemon.heard()]
        self.assertEqual(heard, [NetworkPdu(1, 5, 0, 0x1201, 3, b'\x0a\0\0\0')])
        over.kill()
        over.power_on()
        over.tell('raw 0003 05 0a000000')
        heard = [open_network(material, IV, data[2:]) for data in daemon.heard()]
        self.assertGreater(heard[0].seq if heard[0] else 0, 0, 'a life draws above what the one before reserved')
