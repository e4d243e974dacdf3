"""Messages to the Configuration Server that are none: by their opcode, by their length, and by a value that isn't named. Each is accepted, and
acknowledged where it comes in segments, and that is all; what is a message among them is answered.
"""
from rows import Row

# The opcodes, each with how many octets a message with it has in all.
LENGTHS = {
    '00': [20],
    '01': [20],
    '03': [12, 14],
    '8000': [5],
    '8001': [4],
    '8008': [3],
    '8009': [2],
    '800a': [3],
    '800c': [2],
    '800d': [3],
    '800f': [2],
    '8010': [3],
    '8012': [2],
    '8013': [3],
    '8015': [4],
    '8016': [5],
    '8018': [6, 8],
    '801b': [8, 10],
    '801c': [8, 10],
    '801d': [6, 8],
    '801e': [8, 10],
    '8020': [22, 24],
    '8021': [22, 24],
    '8022': [22, 24],
    '8023': [2],
    '8024': [3],
    '8026': [2],
    '8027': [4],
    '802d': [4],
    '8038': [2],
    '8039': [11],
    '803d': [8, 10],
    '803f': [8, 10],
    '8040': [20],
    '8041': [4],
    '8042': [2],
    '8045': [20],
    '8049': [2],
}

# A value, the message around it, and the reply in each range of the values that it may have.
COMPOSITION = '0200ffff010001000002050000000300000000100210'
TTL_SHOWN, COUNT_SHOWN = '801907011200000000{}00000000', '0600fdff{}010000000000'
VALUES = [
    ('a page', '8008{}', [(0x00, 0xFF, COMPOSITION)]),
    ('Beacon', '800a{}', [(0x00, 0x01, '800b{}')]),
    ('Default TTL', '800d{}', [(0x00, 0x00, '800e{}'), (0x02, 0x7F, '800e{}')]),
    ('Friend', '8010{}', [(0x00, 0x01, '8011{}')]),
    ('GATT Proxy', '8013{}', [(0x00, 0x01, '801402')]),
    ('Network Transmit', '8024{}', [(0x00, 0xFF, '8025{}')]),
    ('Relay', '8027{}00', [(0x00, 0x01, '8028{}00')]),
    ('Relay Retransmit', '802700{}', [(0x00, 0xFF, '802800{}')]),
    ('a transition of a Key Refresh', '80160000{}', [(0x02, 0x02, '80170f000000'), (0x03, 0x03, '801700000000')]),
    ('a Publish TTL', '03011200000000{}00000000', [(0x00, 0x7F, TTL_SHOWN), (0xFF, 0xFF, TTL_SHOWN)]),
    ('a Publish Period', '0301120000000000{}000000', [(0x00, 0xFF, '80190701120000000000{}000000')]),
    ('a Publish Retransmit', '030112000000000000{}0000', [(0x00, 0xFF, '8019070112000000000000{}0000')]),
    ('the Count Log of a heartbeat', '8039fdff{}010000000000', [(0x00, 0x11, COUNT_SHOWN), (0xFF, 0xFF, COUNT_SHOWN)]),
    ('the Period Log of a heartbeat', '8039fdff02{}0000000000', [(0x00, 0x11, '0600fdff02{}0000000000')]),
    ('the TTL of a heartbeat', '8039fdff0201{}00000000', [(0x00, 0x7F, '0600fdff0201{}00000000')]),
]


def pieces(payload):
    """How many segments a payload goes in; 1 where it goes in none."""
    octets = len(payload) // 2
    return 1 if octets <= 11 else (octets + 15) // 12


class Life:
    """The lines of a life that hears messages of 0003 with TTL 00, and those of its report."""

    def __init__(self):
        self.script, self.entries, self.lines = [], [], []
        self.heard, self.drawn, self.begun = 0, 0, 0

    def entry(self, kind, answer):
        self.entries.append(f'e {len(self.entries) + 1} b0 {len(self.entries) + 1} {kind} {answer}\n')

    def line(self, job, kind, rest, auth=None):
        """A line of the entry before, with the next SEQ, or with the one that a message has already."""
        seq = self.drawn if auth is None else auth
        self.drawn = max(self.drawn, seq + 1)
        self.lines.append(f's b0 {len(self.entries)}.{job} {kind} 12345678 {seq:06x} 00 1201 0003 {rest}\n')

    def hear(self, message, reply):
        """A message, and its reply; without one it isn't answered."""
        auth, count = self.heard + 1, pieces(message)
        for piece in range(count):
            self.heard += 1
            place = 'u' if count == 1 else piece
            self.script.append(f'b0 talk NK dev:DK 12345678 00 {auth:06x} {self.heard:06x} 0003 1201 {place} {message}\n')
            missing = count - 1 - piece
            self.entry('net', f'waiting {missing}' if missing else f'delivered 0003 1201 12345678 {auth:06x} dev {message}')
        if count > 1:
            self.line(1, 'ctl', f'00{auth % 8192 * 4:04x}{2**count - 1:08x}')
        if reply:
            self.reply(1 if count == 1 else 2, reply)

    def reply(self, job, reply):
        """A reply, in segments where it is long; four of these are held, and no other one begins to go."""
        auth, count = self.drawn, pieces(reply)
        self.line(job, 'msg' if count == 1 else 'long', f'dev {reply}')
        if count == 1:
            return
        self.begun += 1
        self.entry('begin', 'begun' if self.begun <= 4 else 'sendfull 4')
        for piece in range(count if self.begun <= 4 else 0):
            self.line(piece + 1, 'seg', f'{piece} {count - 1} {auth:06x}', None if piece else auth)


def conversations(title, told):
    """Scripts in which 0003 says all this, 256 messages in each, and their reports."""
    for first in range(0, len(told), 256):
        life = Life()
        for message, reply in told[first : first + 256]:
            life.hear(message, reply)
        report = ['life 1 12345678 n 12345678 000000\n', *life.entries, *life.lines, 'end\n']
        yield Row(f'{title}, from {first} on', f'START-000\n{"".join(life.script)}', ''.join(report))


def filled(head, octets):
    """A payload that begins so, and has so many octets in all, zeros behind it."""
    return head.ljust(2 * octets, '0')


def by_length():
    """Each opcode with each other length up to 40."""
    told = [(filled(head, size), '') for head, own in LENGTHS.items() for size in range(len(head) // 2, 41) if size not in own]
    yield from conversations('messages with another length', told)


def by_opcode():
    """Each other first octet, and each other second one behind 80, with each length that a message has."""
    sizes = sorted({size for own in LENGTHS.values() for size in own})
    first = [f'{octet:02x}' for octet in range(256) if octet != 0x80]
    second = [f'80{octet:02x}' for octet in range(256)]
    told = [(filled(head, size), '') for head in first if head not in LENGTHS for size in sizes]
    told += [(filled(f'{head}02', size)[: 2 * size], '') for head in second if head not in LENGTHS for size in sizes]
    yield from conversations('messages with another opcode', [('80', ''), *told])


def by_value():
    """Each value of an octet, and what is answered where it may have it."""
    for name, message, ranges in VALUES:
        told = []
        for octet in range(256):
            replies = [reply for first, last, reply in ranges if first <= octet <= last]
            told.append((message.format(f'{octet:02x}'), replies[0].format(f'{octet:02x}') if replies else ''))
        yield from conversations(f'each value of {name}', told)


def all_made():
    yield from by_length()
    yield from by_opcode()
    yield from by_value()
