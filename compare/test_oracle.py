"""The node of oracle/ against the standards' samples, and against examples/ and worked/."""
import importlib.util
import re
import unittest
from pathlib import Path
from types import ModuleType

from oracle import ciphers, pdus
from oracle.friends import Request
from oracle.pdus import NetworkPdu, Segment, UpperFields
from oracle.low_power import LowPowerLife
from oracle.node import Life
from oracle.report import report_of

REPOSITORY = Path(__file__).resolve().parent.parent
EXAMPLES = REPOSITORY / 'examples'
WORKED = REPOSITORY / 'worked'

# Mesh Profile 8.2 and 8.3.22.
NET_KEY = bytes.fromhex('7dd7364cd842ad18c17c2b820c84c3d6')
APP_KEY = bytes.fromhex('63964771734fbd76e3b40519d1d94a48')
DEVICE_KEY = bytes.fromhex('9d6dd0e96eb25dc19a40ed9914f8f03f')
LABEL = bytes.fromhex('0073e7e4d8b9440faf8415df4c56c0e1')
IV = 0x12345678


def octets(text: str) -> bytes:
    return bytes.fromhex(text)


class Ciphers(unittest.TestCase):
    def test_block(self) -> None:
        """FIPS 197, appendices B and C.1."""
        for key, block, sealed in (
                ('2b7e151628aed2a6abf7158809cf4f3c', '3243f6a8885a308d313198a2e0370734',
                 '3925841d02dc09fbdc118597196a0b32'),
                ('000102030405060708090a0b0c0d0e0f', '00112233445566778899aabbccddeeff',
                 '69c4e0d86a7b0430d8cdb78070b4c55a')):
            self.assertEqual(ciphers.encrypt_block(octets(key), octets(block)).hex(), sealed)

    def test_cmac(self) -> None:
        """RFC 4493, section 4: messages of 0, 16, 40 and 64 octets."""
        key = octets('2b7e151628aed2a6abf7158809cf4f3c')
        text = octets('6bc1bee22e409f96e93d7e117393172aae2d8a571e03ac9c9eb76fac45af8e51'
                      '30c81c46a35ce411e5fbc1191a0a52eff69f2445df4f9b17ad2b417be66c3710')
        for length, mac in ((0, 'bb1d6929e95937287fa37d129b756746'),
                            (16, '070a16b46b4d4144f79bdd9dd04a287c'),
                            (40, 'dfa66747de9ae63030ca32611497c827'),
                            (64, '51f0bebf7e3b9d92fc49741779363cfe')):
            self.assertEqual(ciphers.cmac(key, text[:length]).hex(), mac)

    def test_ccm(self) -> None:
        """RFC 3610, section 8, packet vector #1; and no turned bit opens."""
        key = octets('c0c1c2c3c4c5c6c7c8c9cacbcccdcecf')
        nonce = octets('00000003020100a0a1a2a3a4a5')
        data, text = bytes(range(8)), bytes(range(8, 31))
        sealed = ciphers.ccm_seal(key, nonce, text, 8, data)
        self.assertEqual(sealed.hex(), '588c979a61c663d2f066d0c2c0f989806d5f6b61dac384'
                                       '17e8d12cfdf926e0')
        self.assertEqual(ciphers.ccm_open(key, nonce, sealed, 8, data), text)
        for place in range(len(sealed)):
            turned = bytearray(sealed)
            turned[place] ^= 1
            self.assertIsNone(ciphers.ccm_open(key, nonce, bytes(turned), 8, data))

    def test_derivations(self) -> None:
        """Mesh Profile 8.1.1 to 8.1.6, 8.2 and 8.3.22."""
        n = octets('f7a2a44f8e8a8029064f173ddc1e2b00')
        salt_text = octets('3216d1509884b533248541792b877f98')
        self.assertEqual(ciphers.s1(b'test').hex(), 'b73cefbd641ef2ea598c2b6efb62f79c')
        derived = ciphers.k1(salt_text, octets('2ba14ffa0df84a2831938d57d276cab4'),
                             octets('5a09d60797eeb4478aada59db3352a0d'))
        self.assertEqual(derived.hex(), 'f6ed15a8934afbe7d83e8dcb57fcf5d7')
        master = (0x7f, octets('9f589181a0f50de73c8070c7a6d27f46'),
                  octets('4c715bd4a64b938f99b453351653124f'))
        friendship = (0x73, octets('11efec0642774992510fb5929646df49'),
                      octets('d4d7cc0dfa772d836a8df9df5510d7a7'))
        self.assertEqual(ciphers.k2(n), master)
        self.assertEqual(ciphers.k2(n, bytes(range(1, 10))), friendship)
        self.assertEqual(ciphers.k3(n).hex(), 'ff046958233db014')
        self.assertEqual((ciphers.k4(salt_text), ciphers.k4(APP_KEY)), (0x38, 0x26))
        self.assertEqual(ciphers.virtual_address(LABEL), 0xb529)


class Pdus(unittest.TestCase):
    SAMPLES = (
        # Mesh Profile 8.3.1, 8.3.6 (both segments), 8.3.16, 8.3.18.
        (NetworkPdu(1, 0, 1, 0x1201, 0xfffd, octets('034b50057e400000010000')),
         '68eca487516765b5e5bfdacbaf6cb7fb6bff871f035444ce83a670df'),
        (NetworkPdu(0, 4, 0x3129ab, 0x0003, 0x1201, octets('8026ac01ee9dddfd2169326d23f3afdf')),
         '68cab5c5348a230afba8c63d4e686364979deaf4fd40961145939cda0e'),
        (NetworkPdu(0, 4, 0x3129ac, 0x0003, 0x1201, octets('8026ac21cfdc18c52fdef772e0e17308')),
         '681615b5dd4a846cae0c032bf0746f44f1b8cc8ce5edc57e55beed49c0'),
        (NetworkPdu(0, 0x0b, 6, 0x1201, 0x0003, octets('0089511bf1d1a81c11dcef')),
         '68e80e5da5af0e6b9be7f5a642f2f98680e61c3a8b47f228'),
        (NetworkPdu(0, 3, 7, 0x1201, 0xffff, octets('665a8bde6d9106ea078a')),
         '6848cba437860e5673728a627fb938535508e21a6baf57'))

    def test_network(self) -> None:
        material = ciphers.k2(NET_KEY)
        for pdu, sealed in self.SAMPLES:
            self.assertEqual(pdus.seal_network(material, IV, pdu).hex(), sealed)
            self.assertEqual(pdus.open_network(material, IV, octets(sealed)), pdu)
            self.assertIsNone(pdus.open_network(material, IV + 2, octets(sealed)))

    def test_access(self) -> None:
        """Mesh Profile 8.3.6, 8.3.16 and 8.3.18."""
        key_add = octets('0056341263964771734fbd76e3b40519d1d94a48')
        fields = UpperFields(False, 0x3129ab, 0x0003, 0x1201, IV)
        upper = pdus.seal_upper(DEVICE_KEY, fields, key_add)
        for seg_o, (pdu, _) in enumerate(self.SAMPLES[1:3]):
            self.assertEqual(pdus.segment_text(0, 0x3129ab, seg_o, upper), pdu.transport)
        status = pdus.seal_upper(DEVICE_KEY, UpperFields(False, 6, 0x1201, 0x0003, IV),
                                 octets('800300563412'))
        self.assertEqual(b'\0' + status, self.SAMPLES[3][0].transport)
        health = pdus.seal_upper(APP_KEY, UpperFields(True, 7, 0x1201, 0xffff, IV),
                                 octets('0400000000'))
        first = pdus.first_octet(True, APP_KEY)
        self.assertEqual(bytes([first]) + health, self.SAMPLES[4][0].transport)

    def test_label(self) -> None:
        """Mesh Profile 8.3.22: to a virtual address, under the IV Index before."""
        fields = UpperFields(True, 0x07080b, 0x1234, 0xb529, IV - 1, LABEL)
        upper = pdus.seal_upper(APP_KEY, fields, octets('d50a0048656c6c6f'))
        pdu = NetworkPdu(0, 3, 0x07080b, 0x1234, 0xb529, b'\x66' + upper)
        sealed = pdus.seal_network(ciphers.k2(NET_KEY), IV - 1, pdu)
        self.assertEqual(sealed.hex(), 'e8d85caecef1e3ed31f3fdcf88a411135fea55df730b6b28e255')
        self.assertEqual(pdus.open_upper(APP_KEY, fields, upper), octets('d50a0048656c6c6f'))
        without = fields._replace(label=bytes(16))
        self.assertIsNone(pdus.open_upper(APP_KEY, without, upper))

    def test_lower(self) -> None:
        """The fields of 8.3.6, and SeqAuth with a wrap of SeqZero (3.5.3.1)."""
        for seg_o, (pdu, _) in enumerate(self.SAMPLES[1:3]):
            lower = pdus.read_lower(pdu)
            self.assertEqual(lower.segment, Segment(0x09ab, seg_o, 1, 0x3129ab))
            self.assertEqual((lower.kind, lower.text), ((0, 0, 0, 0, 0), pdu.transport[4:]))
        self.assertEqual(pdus.seq_auth_of(0x647262, 0x1849), 0x645849)
        self.assertEqual(pdus.seq_auth_of(0x647262, 0x1263), 0x645263)
        self.assertLess(pdus.seq_auth_of(1, 2), 0)

    def test_beacon(self) -> None:
        """Mesh Profile 8.4.3."""
        self.assertEqual(pdus.beacon(NET_KEY, 0, IV).hex(),
                         '01003ecaff672f673370123456788ea261582f364f6f')


    def test_friendship(self) -> None:
        """Mesh Profile 8.3.1 to 8.3.5: a Request and an Offer under master credentials, a Poll and
        an Update under those of the friendship, whose FriendCounter is 072f."""
        friendship = ciphers.k2(NET_KEY, octets('01120123450000072f'))
        self.assertEqual(friendship, (0x5e, octets('be635105434859f484fc798e043ce40e'),
                                      octets('5d396d4b54d3cbafe943e051fe9a4eb8')))
        master = ciphers.k2(NET_KEY)
        for material, pdu, sealed in (
                (master, NetworkPdu(1, 0, 0x014820, 0x2345, 0x1201, octets('04320308ba072f')),
                 '68d4c826296d7979d7dbc0c9b4d43eebec129d20a620d01e'),
                (friendship, NetworkPdu(1, 0, 2, 0x1201, 0x2345, octets('0100')),
                 '5e84eba092380fb0e5d0ad970d579a4e88051c'),
                (friendship, NetworkPdu(1, 0, 0x014834, 0x2345, 0x1201, octets('02001234567800')),
                 '5eafd6f53c43db5c39da1792b1fee9ec74b786c56d3a9dee')):
            self.assertEqual(pdus.seal_network(material, IV, pdu).hex(), sealed)
            self.assertEqual(pdus.open_network(material, IV, octets(sealed)), pdu)


START = f'provision 1201 1 12345678 00 000 {NET_KEY.hex()} {DEVICE_KEY.hex()}\nlife\n'
PAYLOAD = '7f' * 12


def heard(lpn: int, seq: int, *words: str, counters: str = '', dst: str = '1201', ttl: int = 0,
          ctl: int = 1) -> str:
    """A line of a PDU of a Low Power node; under its friendship credentials with counters."""
    net = NET_KEY.hex() + (f'/{lpn:04x}/1201/{counters}' if counters else '')
    fields = f'{IV:08x} {ctl} {ttl:02x} {seq:06x} {lpn:04x} {dst}'
    return ' '.join(('b0 peer', net, fields, *words))


class Friendships(unittest.TestCase):
    """A Low Power node asks for a friendship and polls; expected are the answers and what is sent,
    as FORMATS tells them."""
    REQUEST = heard(0x0201, 1, '034b50057e400000010000', dst='fffd')
    BEGUN = (REQUEST, heard(0x0201, 2, '0100', counters='0000/0000'),
             heard(0x0201, 3, '0100', counters='0000/0000'),
             heard(0x0201, 4, '0101', counters='0000/0000'))
    ANSWERS = ['net control 0201 fffd 12345678 000001 03 4b50057e400000010000',
               'net control 0201 1201 12345678 000002 01 00', 'kept kept',
               'net control 0201 1201 12345678 000003 01 00',
               'net control 0201 1201 12345678 000004 01 01', 'kept kept']
    SENT = ['ctl 12345678 000000 00 1201 0201 046410107f0000',
            'ctl 12345678 000001 00 1201 0201 02001234567800',
            'rep 1201 12345678 000001',
            'ctl 12345678 000002 00 1201 0201 02001234567800']

    def check(self, lines: tuple[str, ...], answers: list[str], sent: list[str]) -> None:
        """The report of these lines in a life, but for the places in it."""
        script = START + ''.join(f'{line}\n' for line in lines)
        report = report_of(script, shows_octets=False)
        self.assertEqual(re.findall(r'(?m)^e \d+ b0 \d+ (.*)$', report), answers)
        self.assertEqual(re.findall(r'(?m)^s b0 \d+\.\d+ (.*)$', report), sent)

    def test_begun(self) -> None:
        """An Offer, an Update, the same octets once more, and a new Update."""
        self.check(self.BEGUN, self.ANSWERS, self.SENT)
        lines = report_of(START + '\n'.join(self.BEGUN)).splitlines()
        sealed = [line.split()[-1] for line in lines if line.startswith('s ')]
        self.assertEqual((sealed[1], len({*sealed})), (sealed[2], 3))

    def test_own(self) -> None:
        """A short message is handed over at a Poll, and a long one isn't begun."""
        lines = (*self.BEGUN, 'b0 send 0 0201 07 dev 7f',
                 heard(0x0201, 5, '0100', counters='0000/0000'),
                 f'b0 send 0 0201 07 dev {PAYLOAD}')
        answers = ['send planned', 'net control 0201 1201 12345678 000005 01 00', 'kept kept',
                   'send planned', 'begin befriended']
        sent = ['msg 12345678 000003 07 1201 0201 dev 7f',
                f'long 12345678 000004 07 1201 0201 dev {PAYLOAD}']
        self.check(lines, [*self.ANSWERS, *answers], [*self.SENT, *sent])

    def test_relayed(self) -> None:
        """What a Low Power node sends to others goes on under the master credentials."""
        pdu = heard(0x0201, 6, '7f', counters='0000/0000', dst='0009', ttl=2)
        self.check((*self.BEGUN, pdu), [*self.ANSWERS, 'net notmine'],
                   [*self.SENT, 'relay 12345678 000006 1 01 0201 0009 7f'])
        last = report_of(START + '\n'.join((*self.BEGUN, pdu))).splitlines()[-2]
        sealed = NetworkPdu(1, 1, 6, 0x0201, 0x0009, b'\x7f')
        self.assertEqual(pdus.open_network(ciphers.k2(NET_KEY), IV, octets(last.split()[-1])),
                         sealed)

    def test_two(self) -> None:
        """A third has no place; a Request out of its ranges changes nothing."""
        two = (self.REQUEST, heard(0x0202, 1, '034b50057e400000010000', dst='fffd'),
               heard(0x0201, 2, '0100', counters='0000/0000'),
               heard(0x0202, 2, '0100', counters='0000/0001'),
               heard(0x0203, 1, '034b50057e400000010000', dst='fffd'),
               heard(0x0201, 3, '034b500000090000010000', dst='fffd'),
               heard(0x0201, 4, '0101', counters='0000/0000'))
        answers = [f'net control {lpn} fffd 12345678 {seq} 03 {params}' for lpn, seq, params in (
            ('0201', '000001', '4b50057e400000010000'), ('0202', '000001', '4b50057e400000010000'),
            ('0203', '000001', '4b50057e400000010000'), ('0201', '000003', '4b500000090000010000'))]
        polls = ['net control 0201 1201 12345678 000002 01 00', 'kept kept',
                 'net control 0202 1201 12345678 000002 01 00', 'kept kept']
        last = ['net control 0201 1201 12345678 000004 01 01', 'kept kept']
        update = '1201 {} 02001234567800'.format
        self.check(two, [*answers[:2], *polls, *answers[2:], *last], [
            'ctl 12345678 000000 00 1201 0201 046410107f0000',
            'ctl 12345678 000001 00 1201 0202 046410107f0001',
            f'ctl 12345678 000002 00 {update("0201")}', f'ctl 12345678 000003 00 {update("0202")}',
            f'ctl 12345678 000004 00 {update("0201")}'])

    def test_ranges(self) -> None:
        """The edges of each field of a Request (3.6.5.3)."""
        fits = Request(3, 0x50, 0x057e40, 0, 1, 0)
        inside = ({'criteria': 0x79}, {'criteria': 4}, {'receive_delay': 0x0a},
                  {'receive_delay': 0xff}, {'poll_timeout': 0x0a}, {'poll_timeout': 0x34bbff},
                  {'previous': 0x7fff}, {'elements': 0x7e00})
        outside = ({'criteria': 0x78}, {'criteria': 5}, {'receive_delay': 9}, {'poll_timeout': 9},
                   {'poll_timeout': 0x34bc00}, {'previous': 0x8000}, {'elements': 0},
                   {'elements': 0x7e01})
        for change in inside:
            self.assertTrue(fits._replace(**change).fits(0x0200), change)
        for change in outside:
            self.assertFalse(fits._replace(**change).fits(0x0200), change)


def rows_of_worked() -> ModuleType:
    """worked/rows.py, which reads the worked scripts."""
    spec = importlib.util.spec_from_file_location('rows', WORKED / 'rows.py')
    rows = importlib.util.module_from_spec(spec)
    spec.loader.exec_module(rows)
    return rows


class Worked(unittest.TestCase):
    def test_rows(self) -> None:
        """The worked scripts that have one bearer and a bank of the new format."""
        rows, compared = rows_of_worked(), 0
        for path in sorted(WORKED.glob('*.rows')):
            for row in rows.of_file(path):
                if re.search(r'\nb[1-7] ', row.script) or '--old' in row.words:
                    continue
                with self.subTest(row.title):
                    kind = LowPowerLife if row.words[0] == 'lpn' else Life
                    self.assertEqual(report_of(row.script, '--hex' in row.words, kind), row.report)
                compared += 1
        self.assertGreaterEqual(compared, 50)


class Examples(unittest.TestCase):
    def test_reports(self) -> None:
        """Scripts of examples/ that have one bearer; their first line is the command."""
        compared = 0
        for path in sorted(EXAMPLES.glob('*.mesh')):
            script = path.read_text()
            if '\nb1 ' in script:
                continue
            words = script.split('\n')[0].split()
            kind = LowPowerLife if 'lpn' in words else Life
            with self.subTest(path.name):
                report = path.with_suffix('.report').read_text()
                self.assertEqual(report_of(script, '--hex' in words, kind), report)
            compared += 1
        self.assertGreaterEqual(compared, 10)


if __name__ == '__main__':
    unittest.main()
