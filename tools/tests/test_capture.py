"""Captures: what is heard, frames, blocks, keys."""
import struct
import subprocess
import tempfile
import unittest
from pathlib import Path

from look.advertising import MESH_MESSAGE, advertisement
from look.capturing import packets_of
from look.cases import EXAMPLES, examples, with_octets
from look.checking import compare, tshark
from look.hearing import octets_heard
from look.keys import Keys, keys_of
from look.pcapng import INBOUND, Interface, Packet, capture_file
from look.report import read_report
from look.runs import run_of
from look.script import read_script
from look.second_node import REPOSITORY, report_of
from look.wireshark import options, table_text, tables

# Mesh Profile 8.2 and 8.3: the keys of the sample data, messages #1 and #6, the beacon of 8.4.3.
NET_KEY = '7dd7364cd842ad18c17c2b820c84c3d6'
NEW_KEY = 'f7a2a44f8e8a8029064f173ddc1e2b00'
APP_KEY = '63964771734fbd76e3b40519d1d94a48'
DEVICE_KEY = '9d6dd0e96eb25dc19a40ed9914f8f03f'
LABEL = '0073e7e4d8b9440faf8415df4c56c0e1'
MESSAGE_1 = '68eca487516765b5e5bfdacbaf6cb7fb6bff871f035444ce83a670df'
MESSAGE_6 = ('68cab5c5348a230afba8c63d4e686364979deaf4fd40961145939cda0e',
             '681615b5dd4a846cae0c032bf0746f44f1b8cc8ce5edc57e55beed49c0')
BEACON = '01003ecaff672f673370123456788ea261582f364f6f'
HEAD = f'provision 1201 1 12345678 00 000 {NET_KEY} {DEVICE_KEY}\nlife\n'


def heard(line: str) -> str | None:
    """The octets that a line is heard as."""
    octets = octets_heard(read_script(HEAD + line).lives[0].events[0])
    return octets.hex() if octets else None


def keys_shown(script: str) -> Keys:
    """The keys that a script and its report show."""
    read = read_script(script)
    return keys_of(read, run_of(read_report(report_of(script)), read))


class Heard(unittest.TestCase):
    def test_samples(self) -> None:
        """Sample messages of the Mesh Profile, and its beacon."""
        self.assertEqual(heard(f'b0 peer {NET_KEY} 12345678 1 00 000001 1201 fffd '
                               '034b50057e400000010000'), MESSAGE_1)
        for piece, octets in enumerate(MESSAGE_6):
            self.assertEqual(heard(f'b3 talk {NET_KEY} dev:{DEVICE_KEY} 12345678 04 3129ab '
                                   f'3129a{"bc"[piece]} 0003 1201 {piece} 0056341263964771734fbd76'
                                   'e3b40519d1d94a48'), octets)
        self.assertEqual(heard(f'b0 beacon {NET_KEY} 00 12345678'), BEACON)
        self.assertIsNone(heard('b0 tick 1'))


class Files(unittest.TestCase):
    def test_crc(self) -> None:
        """A frame whose CRC tshark 4.0 takes as right; it shows it with the bits of each octet
        turned around, as 0x43500a."""
        crc = bytes(int(f'{octet:08b}'[::-1], 2) for octet in bytes.fromhex('43500a'))
        frame = advertisement(MESH_MESSAGE, bytes.fromhex(MESSAGE_1), bytes.fromhex('c20000000001'))
        self.assertEqual(frame.hex(), f'd6be898e42240100000000c21d2a{MESSAGE_1}{crc.hex()}')

    def test_blocks(self) -> None:
        """Section, interface and packet, each with its length before and behind."""
        octets = capture_file('a', 'b', [Interface('b0', 'c')],
                              [Packet(0, 0x123456789, INBOUND, b'12345', 'd')])
        kinds, at = [], 0
        while at < len(octets):
            kind, length = struct.unpack_from('<II', octets, at)
            self.assertEqual(struct.unpack_from('<I', octets, at + length - 4), (length,))
            self.assertEqual(length % 4, 0)
            kinds.append(kind)
            body, at = octets[at + 8:at + length - 4], at + length
        self.assertEqual(kinds, [0x0a0d0d0a, 1, 6])
        self.assertEqual(struct.unpack_from('<5I5s', body), (0, 1, 0x23456789, 5, 5, b'12345'))


class Shown(unittest.TestCase):
    def test_keys_of_a_run(self) -> None:
        """Those provisioned, those handed over, and those of outside nodes."""
        keys = keys_shown((EXAMPLES / 'lamp.mesh').read_text())
        self.assertEqual(tables(keys), {
            'btmesh_nw_keys': [(f'0x{NET_KEY}', f'0x{APP_KEY}', '0x12345678')],
            'btmesh_dev_keys': [(f'0x{DEVICE_KEY}', '0x1201')]})

    def test_changes(self) -> None:
        """A Key Refresh, an IV Update, and a label that a model is subscribed to."""
        talk = f'b0 talk {NET_KEY} dev:{DEVICE_KEY} 12345678 04'
        update = f'80450000{NEW_KEY}'
        label = f'80200112{LABEL}0010'
        keys = keys_shown(
            HEAD + ''.join(f'{talk} {auth:06x} {auth + piece:06x} 0003 1201 {piece} {payload}\n'
                           for auth, payload, count in ((1, update, 2), (3, label, 3))
                           for piece in range(count))
            + f'b0 tick 36000000\nb0 beacon {NET_KEY} 02 12345679\nb0 tick 1\n'
            f'b0 raw fffd 00 7f\nb0 tick 36000000\nb0 beacon {NET_KEY} 00 12345679\n'
            'b0 raw fffd 00 7f\n')
        found = tables(keys)
        nothing = '0x' + '0' * 32
        self.assertEqual(sorted(found['btmesh_nw_keys']), sorted(
            (f'0x{net}', nothing, iv) for net in (NET_KEY, NEW_KEY)
            for iv in ('0x12345678', '0x12345679')))
        self.assertEqual(found['btmesh_label_uuids'], [(f'0x{LABEL}',)])

    def test_rows_as_text(self) -> None:
        """As Wireshark's own tables and its option -o have them."""
        rows = {'btmesh_dev_keys': [('0x01', '0x1201'), ('0x02', '0x1202')]}
        self.assertEqual(table_text(rows['btmesh_dev_keys']), '"0x01","0x1201"\n"0x02","0x1202"\n')
        self.assertEqual(list(options(rows)), ['-o', 'uat:btmesh_dev_keys:"0x01","0x1201"',
                                               '-o', 'uat:btmesh_dev_keys:"0x02","0x1202"'])


class Octets(unittest.TestCase):
    def test_of_reports(self) -> None:
        """The octets that the second node shows are those of the report in examples/."""
        script = (EXAMPLES / 'two_pdus.mesh').read_text()
        report = (EXAMPLES / 'two_pdus.report').read_text()
        plain = ''.join(line.rsplit(' ', 1)[0] + '\n' if line[0] == 's' else f'{line}\n'
                        for line in report.splitlines())
        self.assertEqual(with_octets(script, plain), report)

    def test_as_it_comes(self) -> None:
        """A log that tells each entry with its jobs at once gives the same capture."""
        case = next(case for case in examples() if case.name == 'dimmer.mesh')
        opening, *lines, last = case.report.splitlines()
        entries = [line for line in lines if line[0] == 'e']
        jobs = [line for line in lines if line[0] == 's']
        log = [opening]
        for entry in entries:
            number = entry.split()[1]
            log += [entry, *(job for job in jobs if job.split()[2].startswith(f'{number}.'))]
        self.assertNotEqual([opening, *lines], log)
        script = read_script(case.script)
        found = [packets_of(run_of(read_report('\n'.join([*text, last, ''])), script))
                 for text in ([opening, *lines], log)]
        self.assertEqual(*found)
        self.assertEqual(len(found[0]), 15)

    @unittest.skipUnless(tshark(), 'no tshark here')
    def test_difference(self) -> None:
        """A report that tells another SEQ than its octets have is told."""
        case = next(case for case in examples() if case.name == 'two_pdus.mesh')
        turned = case.report.replace('ctl 12345678 000001', 'ctl 12345678 000002')
        self.assertEqual(compare(*case).differences, [])
        self.assertEqual(compare(case.name, case.script, turned).differences,
                         ['two_pdus.mesh: packet 2, life 1, entry 2, job 1: SEQ is 1, and not 2'])


class Tables(unittest.TestCase):
    @unittest.skipUnless(tshark(), 'no tshark here')
    def test_profile(self) -> None:
        """tshark reads the sample message #1 with the table files of `--tables` in a profile."""
        with tempfile.TemporaryDirectory() as folder:
            path = Path(folder) / 'two_pdus.pcapng'
            subprocess.run([REPOSITORY / 'tools' / 'capture', EXAMPLES / 'two_pdus.mesh',
                            EXAMPLES / 'two_pdus.report', path, '--tables',
                            Path(folder) / 'profiles' / 'mesh'], capture_output=True, check=True)
            done = subprocess.run([tshark(), '-C', 'mesh', '-r', path, '-T', 'fields', '-e',
                                   'btmesh.seq', '-e', 'btmesh.transp_pdu'], check=True, text=True,
                                  capture_output=True, env={'WIRESHARK_CONFIG_DIR': folder})
        self.assertEqual(done.stdout, '0\t034b50057e400000010000\n1\t034b50057e400000010000\n')


class Command(unittest.TestCase):
    def test_ends(self) -> None:
        """Exit statuses, and messages with the line."""
        example = {name: str(EXAMPLES / name) for name in
                   ('lamp.mesh', 'lamp.report', 'relay.report', 'two_pdus.mesh', 'two_pdus.report')}
        for script, report, status, said in (
                ('two_pdus.mesh', 'two_pdus.report', 0, ''),
                ('lamp.mesh', 'lamp.report', 4, 'lamp.report:6: a PDU without its octets'),
                ('lamp.mesh', 'relay.report', 4, 'relay.report:1: not a report of this script'),
                ('lamp.report', 'lamp.report', 3, 'lamp.report:1: script 1 2'),
                ('lamp.mesh', 'lamp.mesh', 4, 'lamp.mesh:1: no line of a report'),
                ('lamp.mesh', 'none', 5, 'none: No such file')):
            with tempfile.TemporaryDirectory() as folder:
                done = subprocess.run(
                    [REPOSITORY / 'tools' / 'capture', example[script],
                     example.get(report, report), Path(folder) / 'out'],
                    capture_output=True, text=True, check=False)
            self.assertEqual(done.returncode, status, done.stderr)
            self.assertIn(said, done.stderr)

    def test_no_program_to_open_with(self) -> None:
        """The command is printed, and the capture is there."""
        with tempfile.TemporaryDirectory() as folder:
            path = Path(folder) / 'out'
            done = subprocess.run([REPOSITORY / 'tools' / 'capture', EXAMPLES / 'two_pdus.mesh', EXAMPLES / 'two_pdus.report', path,
                                   '--open', f'{folder}/none'], capture_output=True, text=True, check=False)
            self.assertEqual(done.returncode, 5, done.stderr)
            self.assertIn('none: No such file', done.stderr)
            self.assertIn(f'none -r {path} -o ', done.stdout)
            self.assertTrue(path.exists())


if __name__ == '__main__':
    unittest.main()
