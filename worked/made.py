"""Worked scripts that are made: those of many lines, and those of one power cut at each call of the flash."""
from rows import Row

LIFE = 'life 1 12345678 n 12345678 000000\n'
PAYLOAD = '7f' * 380
FIRST_SEGMENT = '80000001000000000000000000000000'


def long_message():
    script = ''.join(f'b0 talk NK dev:DK 12345678 04 000001 {piece + 1:06x} 0003 1201 {piece} {PAYLOAD}\n' for piece in range(32))
    entries = ''.join(f'e {piece + 1} b0 {piece + 1} net waiting {31 - piece}\n' for piece in range(31))
    last = f'e 32 b0 32 net delivered 0003 1201 12345678 000001 dev {PAYLOAD}\n'
    sent = 's b0 32.1 ctl 12345678 000000 07 1201 0003 000004ffffffff\n'
    yield Row('a message of 380 octets in 32 segments, and its acknowledgment', f'START-000\n{script}', f'{LIFE}{entries}{last}{sent}end\n')


def far_segment():
    """A message of 380 octets to a group, whose last segment has the greatest SEQ that it may have. It is heard as octets that another
    implementation sealed, and as an outside node says it. The node relays nothing."""
    script = (
        'b0 talk NK dev:DK 12345678 00 000001 000001 0004 1201 0 ADD\nb0 talk NK dev:DK 12345678 00 000001 000002 0004 1201 1 ADD\n'
        'b0 talk NK dev:DK 12345678 00 000003 000003 0004 1201 u 801b011200c00010\n'
        'b0 talk NK dev:DK 12345678 00 000004 000004 0004 1201 u 80270000\n'
    )
    entries = (
        'e 1 b0 1 net waiting 1\ne 2 b0 2 net delivered 0004 1201 12345678 000001 dev ADD\n'
        'e 3 b0 3 net delivered 0004 1201 12345678 000003 dev 801b011200c00010\n'
        'e 4 b0 4 net delivered 0004 1201 12345678 000004 dev 80270000\n'
    )
    sent = (
        's b0 2.1 ctl 12345678 000000 00 1201 0004 00000400000003\ns b0 2.2 msg 12345678 000001 00 1201 0004 dev 800300563412\n'
        's b0 3.1 msg 12345678 000002 00 1201 0004 dev 801f00011200c00010\ns b0 4.1 msg 12345678 000003 00 1201 0004 dev 80280000\n'
    )
    talk = 'b0 talk NK app:AK 12345678 04 3129ab'
    script += ''.join(f'{talk} {0x3129ab + piece:06x} 0003 c000 {piece} {PAYLOAD}\n' for piece in range(31))
    entries += ''.join(f'e {piece + 5} b0 {piece + 5} net waiting {31 - piece}\n' for piece in range(31))
    entries += f'e 36 b0 36 net delivered 0003 c000 12345678 3129ab app:123 {PAYLOAD}\n'
    octets = 'b0 net 68c72b4c2fd12defe5323db05eb0a1cf279b7126bbe65a79c792b75c96\n'
    title = 'the last of 32 segments has a SEQ 8,191 above that of its message, as'
    for told, last in [('octets', octets), ('a line', f'{talk} 3149aa 0003 c000 31 {PAYLOAD}\n')]:
        yield Row(f'{title} {told}', f'START-456\n{script}{last}', f'{LIFE}{entries}{sent}end\n')


def otherwise_spelled():
    """A script with comments, empty lines, CR LF, upper-case digits, more than one space, and no LF at its end; two of its four lives have no
    lines."""
    script = (
        '# a node\r\n\r\nprovision  7FFE 2   12345678 03 Abc 7DD7364CD842AD18C17C2B820C84C3D6 9D6DD0E96EB25DC19A40ED9914F8F03F\r\nlife\r\n'
        'b0 talk 7DD7364CD842AD18C17C2B820C84C3D6 dev:9D6DD0E96EB25DC19A40ED9914F8F03F 12345678 00 00000A 00000A 000C 7FFE u 8042\r\n'
        '#\r\n\r\nb0 peer NK 12345678 1   00 00000B 000C 7FFF 7F\nsync\r\nb0 peer NK 12345678 1 00 00000c 000c 7ffd 7f\r\n'
        'b0 raw FFFD 7F 0A01\nlife\r\n\r\nlife\n# nothing\nlife\n\n\nb7    tick  1'
    )
    entries = (
        'e 1 b0 1 net delivered 000c 7ffe 12345678 00000a dev 8042\ne 2 b0 2 net control 000c 7fff 12345678 00000b 7f -\n'
        'e 3 b0 3 net notmine\ne 4 b0 4 raw planned\n'
    )
    sent = 's b0 1.1 msg 12345677 000000 00 7ffe 000c dev 8043bc0a\ns b0 4.1 ctl 12345677 000001 7f 7ffe fffd 0a01\n'
    later = ''.join(f'life {life} 12345678 p 12345677 000100\n{entry}end\n' for life, entry in [(2, ''), (3, ''), (4, 'e 1 b7 1 tick ticked 1\n')])
    title = 'a script with comments, empty lines and lives, CR LF, spaces, and digits of either case'
    yield Row(title, script, f'life 1 12345678 p 12345677 000000\n{entries}{sent}end\n{later}')


def nine_messages():
    peers = ''.join(f'b0 peer NK 12345678 0 04 000000 010{k} 1201 {FIRST_SEGMENT}\n' for k in range(1, 10))
    script = f'{peers}b0 tick 1000\nb0 peer NK 12345678 0 04 000001 0109 1201 {FIRST_SEGMENT}\n'
    entries = ''.join(f'e {k} b0 {k} net waiting 1\n' for k in range(1, 9))
    names = ''.join(f' 010{k}/12345678/000000' for k in range(1, 9))
    rest = f'e 9 b0 9 net noroom{names}\ne 10 b0 10 tick ticked 1000\ne 11 b0 11 net waiting 1\n'
    sent = 's b0 9.1 ctl 12345678 000000 07 1201 0109 00000000000000\n'
    title = 'first segments of nine messages, of which eight have room until they are given up'
    yield Row(title, f'START-000\n{script}', f'{LIFE}{entries}{rest}{sent}end\n')


def from_many_in_segments():
    peers = ''.join(f'b0 peer NK 12345678 0 04 000000 {0x100 + k:04x} 1201 {FIRST_SEGMENT}\n' for k in range(1, 201))
    names = ''.join(f' {0x100 + k:04x}/12345678/000000' for k in range(1, 9))
    entries = ''.join(f'e {k} b0 {k} net {"waiting 1" if k < 9 else f"noroom{names}"}\n' for k in range(1, 201))
    sent = ''.join(f's b0 {k}.1 ctl 12345678 {k - 9:06x} 07 1201 {0x100 + k:04x} 00000000000000\n' for k in range(9, 201))
    script = f'START-000\n{peers}b0 tick 1000\nb0 peer NK 12345678 0 04 000000 01c9 1201 {FIRST_SEGMENT}\n'
    rest = 'e 201 b0 201 tick ticked 1000\ne 202 b0 202 net waiting 1\n'
    title = 'first segments of messages from 200 sources, of which eight have room until they are given up'
    yield Row(title, script, f'{LIFE}{entries}{rest}{sent}end\n')


def own_come_back():
    peers = ''.join(f'b0 peer NK 12345678 1 {129 - k:02x} 000000 1201 fffd 034b50057e400000010000\n' for k in range(2, 128))
    entries = ''.join(f'e {k} b0 {k} net own\n' for k in range(2, 128))
    sent = 's b0 1.1 ctl 12345678 000000 00 1201 fffd 034b50057e400000010000\n'
    title = "a PDU of the node's own comes back with every TTL"
    yield Row(title, f'START-000\nb0 RAW\n{peers}', f'{LIFE}e 1 b0 1 raw planned\n{entries}{sent}end\n')


def from_many(iv):
    """Control messages under an IV Index from 512 sources and one more, and their entries."""
    peers = ''.join(f'b0 peer NK {iv} 1 00 000001 {0x100 + k:04x} 1201 7f\n' for k in range(1, 513))
    entries = ''.join(f'e {k} b0 {k} net control {0x100 + k:04x} 1201 {iv} 000001 7f -\n' for k in range(1, 513))
    return f'{peers}b0 peer NK {iv} 1 00 000001 0301 1201 7f\n', f'{entries}e 513 b0 513 net listfull 512\n'


def full_lists():
    peers, entries = from_many('12345678')
    script = f'START-000\n{peers}b0 peer NK 12345678 1 00 000001 0101 ffff 7e\nb0 peer NK 12345678 1 00 000002 0101 1201 7f\n'
    rest = 'e 514 b0 514 net replay 12345678 000001\ne 515 b0 515 net control 0101 1201 12345678 000002 7f -\n'
    yield Row('a replay list has room for 512 sources, and goes on for these', script, f'{LIFE}{entries}{rest}end\n')
    peers, entries = from_many('00000005')
    start = 'provision 1201 1 00000005 00 000 NK DK\nlife\n'
    script = f'{start}{peers}b0 beacon NK 00 0000002f\nb0 peer NK 0000002f 1 00 000002 0301 1201 7f\n'
    rest = 'e 514 b0 514 bcn beacon 000 same recover\ne 515 b0 515 net control 0301 1201 0000002f 000002 7f -\n'
    yield Row('entries that expire make room', script, f'life 1 00000005 n 00000005 000000\n{entries}{rest}end\n')


def five_messages():
    script, entries, lines = '', '', ''
    for k in range(5):
        send, begin, auth = 2 * k + 1, 2 * k + 2, 2 * k
        script += 'b0 send 0 0003 07 dev 7f7f7f7f7f7f7f7f7f7f7f7f\n'
        entries += f'e {send} b0 {send} send planned\ne {begin} b0 {begin} begin {"begun" if k < 4 else "sendfull 4"}\n'
        lines += f's b0 {send}.1 long 12345678 {auth:06x} 07 1201 0003 dev 7f7f7f7f7f7f7f7f7f7f7f7f\n'
        if k < 4:
            lines += f's b0 {begin}.1 seg 12345678 {auth:06x} 07 1201 0003 0 1 {auth:06x}\n'
            lines += f's b0 {begin}.2 seg 12345678 {auth + 1:06x} 07 1201 0003 1 1 {auth:06x}\n'
    title = 'five messages in two segments each, of which four are held until they are acknowledged'
    yield Row(title, f'START-000\n{script}', f'{LIFE}{entries}{lines}end\n')


def to_a_group():
    script = f'START-000\nb0 send 0 c001 00 dev {PAYLOAD}\nb0 tick 20\nb0 tick 20\nb0 tick 20\n'
    entries = 'e 1 b0 1 send planned\ne 2 b0 2 begin begun\ne 3 b0 3 tick ticked 20\ne 4 b0 4 tick ticked 40\ne 5 b0 5 tick ticked 60\n'
    long = f's b0 1.1 long 12345678 000000 00 1201 c001 dev {PAYLOAD}\n'
    lines = ''.join(f's b0 {k // 32 + 2}.{k % 32 + 1} seg 12345678 {k:06x} 00 1201 c001 {k % 32} 31 000000\n' for k in range(96))
    title = 'a message of 380 octets to a group, in 32 segments, with its three rounds'
    yield Row(title, script, f'{LIFE}{entries}{long}{lines}end\n')


# Messages to the Configuration Server, each with the TTL and the payload of its reply; without one it isn't answered. What the node does,
# and its keys.
FEATURES = [
    ('8009', '07', '800b00'),
    ('800a01', '07', '800b01'),
    ('800a02', '', ''),
    ('8009', '07', '800b01'),
    ('800a00', '07', '800b00'),
    ('800c', '07', '800e07'),
    ('800d05', '05', '800e05'),
    ('800d01', '', ''),
    ('800c', '05', '800e05'),
    ('800d00', '00', '800e00'),
    ('800d07', '07', '800e07'),
    ('800f', '07', '801101'),
    ('801000', '07', '801100'),
    ('801001', '07', '801101'),
    ('8012', '07', '801402'),
    ('801301', '07', '801402'),
    ('8023', '07', '802500'),
    ('802407', '07', '802507'),
    ('8026', '07', '80280100'),
    ('80270005', '07', '80280005'),
    ('802701ff', '07', '802801ff'),
    ('802d0102', '07', '802e0102000000'),
    ('8008', '', ''),
    ('8201', '', ''),
    ('8042', '07', '80430000'),
    ('80410000', '07', '80440c0000'),
    ('80410100', '07', '8044000100'),
    ('80150000', '07', '801700000000'),
    ('80150100', '07', '801704010000'),
    ('8016000002', '07', '80170f000000'),
    ('8016000003', '07', '801700000000'),
    ('8016000004', '', ''),
    ('80010000', '07', '8002000000'),
    ('80010100', '07', '8002040100'),
    ('8000001000', '07', '800300001000'),
    ('8000011000', '07', '800304011000'),
]

# Its models, and its heartbeat.
MODELS = [
    ('803d011223010010', '07', '803e03011223010010'),
    ('803d021223010010', '07', '803e01021223010010'),
    ('803d011223010110', '07', '803e02011223010110'),
    ('803d011223010000', '07', '803e0d011223010000'),
    ('803d01122301aabb0010', '07', '803e0201122301aabb0010'),
    ('803f011223010010', '07', '803e03011223010010'),
    ('801b011200c00010', '07', '801f00011200c00010'),
    ('801b011200c00010', '07', '801f00011200c00010'),
    ('801b011200000010', '07', '801f01011200000010'),
    ('801b0112ffff0010', '07', '801f010112ffff0010'),
    ('801b011200c00000', '07', '801f08011200c00000'),
    ('801e011201c00010', '07', '801f00011201c00010'),
    ('801c011200c00010', '07', '801f00011200c00010'),
    ('801d01120010', '07', '801f00011200000010'),
    ('8038', '07', '0600000000000000000000'),
    ('8039fdff02010000000100', '07', '0604fdff02010000000100'),
    ('8039008002010000000000', '07', '0601008002010000000000'),
    ('8039fdff02120000000000', '', ''),
]


def conversation(title, told):
    """A script in which 0003 says all this, and its report."""
    script, entries, lines, seq = '', '', '', 0
    for number, (message, ttl, reply) in enumerate(told, 1):
        script += f'b0 talk NK dev:DK 12345678 04 {number:06x} {number:06x} 0003 1201 u {message}\n'
        entries += f'e {number} b0 {number} net delivered 0003 1201 12345678 {number:06x} dev {message}\n'
        if reply:
            lines += f's b0 {number}.1 msg 12345678 {seq:06x} {ttl} 1201 0003 dev {reply}\n'
            seq += 1
    return Row(title, f'START-000\n{script}', f'{LIFE}{entries}{lines}end\n')


def conversations():
    yield conversation('what a node does, and its keys', FEATURES)
    yield conversation('its models, and its heartbeat', MODELS)
    script = 'START-000\nb0 talk NK dev:DK 12345678 00 000001 000001 0003 1201 u 800c\n'
    entry = 'e 1 b0 1 net delivered 0003 1201 12345678 000001 dev 800c\n'
    yield Row('what is heard with TTL 00 is answered with it', script, f'{LIFE}{entry}s b0 1.1 msg 12345678 000000 00 1201 0003 dev 800e07\nend\n')


def messages(count):
    """So many control messages from one source, each with the next SEQ, and their entries."""
    lines = ''.join(f'b0 peer NK 12345678 1 00 {k:06x} 0101 1201 7f\n' for k in range(1, count + 1))
    entries = ''.join(f'e {k} b0 {k} net control 0101 1201 12345678 {k:06x} 7f -\n' for k in range(1, count + 1))
    return lines, entries


NEXT_TWO = 'b0 peer NK 12345678 1 00 0003fc 0101 1201 7f\nb0 peer NK 12345678 1 00 0003fd 0101 1201 7f\n'
SECOND_TAKEN = 'e 1 b0 1 net replay 12345678 0003fc\ne 2 b0 2 net control 0101 1201 12345678 0003fd 7f -\nend\n'


def more_than_a_bank():
    lines, entries = messages(1021)
    title = 'more records than a bank has room for: 2,060 calls of the flash'
    yield Row(title, f'START-000\narm 2060 00\n{lines}', f'{LIFE}{entries}end\n')
    _, before = messages(1020)
    yield Row(f'{title}, of which the last is torn', f'START-000\narm 2059 00\n{lines}', f'{LIFE}{before}cut 2060\n')
    for order, end in [('2057 ff', 'cut 2058'), ('2044 55', 'cut 2045')]:
        second = f'life 2 12345678 n 12345678 000000\n{SECOND_TAKEN}'
        yield Row(f'cut at a compaction: arm {order}', f'START-000\narm {order}\n{lines}life\n{NEXT_TWO}', f'{LIFE}{before}{end}\n{second}')


def behind_a_torn_slot():
    """A message whose replay record is torn, and comes again in the next life: its record stands behind the torn one then, and counts in the
    third life. A slot takes two calls, of which the second one writes its gate."""
    message = 'b0 peer NK 12345678 1 00 000001 0101 1201 7f\n'
    taken = 'e 1 b0 1 net control 0101 1201 12345678 000001 7f -\n'
    replayed = 'e 1 b0 1 net replay 12345678 000001\n'
    for calls in range(2):
        for mask in ['00', 'ff', 'f0', '0f', '55', 'aa']:
            second = replayed if calls == 1 and mask == 'ff' else taken
            report = (
                f'{LIFE}cut {calls + 1}\nlife 2 12345678 n 12345678 000000\n{second}end\n'
                f'life 3 12345678 n 12345678 000000\n{replayed}end\n'
            )
            script = f'START-000\narm {calls} {mask}\n{message}life\n{message}life\n{message}'
            yield Row(f'a message behind a torn slot: arm {calls} {mask}', script, report)


def at_every_call_of_a_compaction():
    """A bank is full, and a message comes, for which the bank is compacted: 8 erase calls, two for each of four records, and two for the
    header. One of them is torn, and in the next life, where the message comes again, one of the compaction that is made then. Whichever bank
    counts, the third life finds what was stored, and takes the message."""
    lines, _ = messages(1021)
    _, before = messages(1020)
    told = SECOND_TAKEN.split('\n')[0]
    for calls in range(18):
        for mask in [['00', 'f0', '55', 'ff'][calls % 4]] if calls < 17 else ['00', 'f0', '55', 'ff']:
            orders = f'arm {2040 + calls} {mask}', f'arm {17 - calls} {mask}'
            script = f'START-000\n{orders[0]}\n{lines}life\n{orders[1]}\n{NEXT_TWO}life\n{NEXT_TWO}'
            report = (
                f'{LIFE}{before}cut {2041 + calls}\nlife 2 12345678 n 12345678 000000\n{told}\ncut {18 - calls}\n'
                f'life 3 12345678 n 12345678 000000\n{SECOND_TAKEN}'
            )
            yield Row(f'cut in two compactions: {orders[0]}, {orders[1]}', script, report)


def more_than_two_banks():
    """Bank 1 has four records behind the compaction, and room for 1,019 messages. The next one compacts it into bank 0, behind 4,096 calls."""
    lines, _ = messages(2040)
    _, before = messages(2039)
    asked = NEXT_TWO.replace('0003fc', '0007f7').replace('0003fd', '0007f8')
    taken = SECOND_TAKEN.replace('0003fc', '0007f7').replace('0003fd', '0007f8')
    for order, end in [('4099 00', 'cut 4100'), ('4113 0f', 'cut 4114'), ('4113 ff', 'cut 4114')]:
        script = f'START-000\narm {order}\n{lines}life\n{asked}'
        report = f'{LIFE}{before}{end}\nlife 2 12345678 n 12345678 000000\n{taken}'
        yield Row(f'cut at the compaction of bank 1: arm {order}', script, report)


def numbers_where_a_bank_is_full():
    lines, entries = messages(1020)
    planned = 'e 1021 b0 1021 raw planned\n'
    sent = 's b0 1021.1 ctl 12345678 000000 00 1201 fffd 034b50057e400000010000\n'
    title = 'a bank is full, and numbers are drawn: the refill compacts, with 2,060 calls in all'
    yield Row(title, f'START-000\narm 2060 00\n{lines}b0 RAW\n', f'{LIFE}{entries}{planned}{sent}end\n')
    for order, end, seq in [('2057 ff', 'cut 2058', '000000'), ('2059 ff', 'cut 2060', '000100')]:
        second = f'life 2 12345678 n 12345678 {seq}\n{SECOND_TAKEN}'
        script = f'START-000\narm {order}\n{lines}b0 RAW\nlife\n{NEXT_TWO}'
        yield Row(f'a refill that compacts, and is cut: arm {order}', script, f'{LIFE}{entries}{planned}{end}\n{second}')


def reset_where_a_bank_is_full():
    lines, entries = messages(1018)
    script = f'START-000\n{lines}b0 talk NK dev:DK 12345678 04 000001 000001 0003 1201 u 8049\nlife\n'
    entry = 'e 1019 b0 1019 net delivered 0003 1201 12345678 000001 dev 8049\n'
    sent = 's b0 1019.1 msg 12345678 000000 07 1201 0003 dev 804a\n'
    title = 'a Node Reset fills the bank, and the number for its reply is drawn: the refill compacts'
    yield Row(title, script, f'{LIFE}{entries}{entry}{sent}end\nlife 2 wasreset\n')


def at_a_migration():
    second = 'life 2 12345678 n 12345678 000000\nend\n'
    for order, first in [('arm 10 00\n', 'life 1 cut\ncut 11\n'), ('arm 15 ff\n', 'life 1 cut\ncut 16\n'), ('', f'{LIFE}end\n')]:
        yield Row(f'a bank of the old format: {order.strip() or "no cut"}', f'START-000\n{order}life\n', f'{first}{second}', ('run', '--old'))


def at_an_iv_update():
    rows = [
        ('4 f0', 'cut 5', '00000006 p 00000005 000100'),
        ('4 00', 'cut 5', '00000006 p 00000005 000100'),
        ('5 0f', 'cut 6', '00000006 p 00000005 000100'),
        ('5 ff', 'cut 6', '00000006 n 00000006 000000'),
    ]
    for order, end, second in rows:
        lines = 'b0 raw fffd 00 7f\nb0 tick 34560000\nb0 beacon NK 00 00000006\n'
        script = f'provision 1201 1 00000006 02 000 NK DK\nlife\narm {order}\n{lines}life\n'
        entries = 'e 1 b0 1 raw planned\ne 2 b0 2 tick ticked 34560000\ns b0 1.1 ctl 00000005 000000 00 1201 fffd 7f\n'
        report = f'life 1 00000006 p 00000005 000000\n{entries}{end}\nlife 2 {second}\nend\n'
        yield Row(f'cut while an IV Update ends: arm {order}', script, report)


def count_after(calls, mask):
    """How many records count in the next life, where the call behind so many is torn by this mask. Each takes two calls, of which the
    second one writes its gate; torn, it counts where each bit was written."""
    return (calls + 1) // 2 if mask == 'ff' else calls // 2


def end_after(calls, most):
    """How a life with so many calls in all ends, where the one behind so many is torn."""
    return f'cut {calls + 1}\n' if calls < most else 'end\n'


WAITING = 'e 1 b0 1 net waiting 1\n'
ADDED = 'e 2 b0 2 net delivered 0003 1201 12345678 3129ab dev ADD\n'
ADDED_SENT = 's b0 2.1 ctl 12345678 000000 07 1201 0003 0026ac00000003\ns b0 2.2 msg 12345678 000001 07 1201 0003 dev 800300563412\n'


def second_life_of_a_key(records):
    """The second life, where so many records count: first the replay record, then the key, then the numbers."""
    asked = 'e 3 b0 3 net delivered 0003 1201 12345678 3129ad dev 80015604\n'
    replayed = 'e 1 b0 1 net replay 12345678 3129ab\ne 2 b0 2 net replay 12345678 3129ab\n'
    told = {
        0: ('000000', WAITING + ADDED, f'{ADDED_SENT}s b0 3.1 msg 12345678 000002 07 1201 0003 dev 80020056042301\n'),
        1: ('000000', replayed, 's b0 3.1 msg 12345678 000000 07 1201 0003 dev 8002005604\n'),
        2: ('000000', replayed, 's b0 3.1 msg 12345678 000000 07 1201 0003 dev 80020056042301\n'),
        3: ('000100', replayed, 's b0 3.1 msg 12345678 000100 07 1201 0003 dev 80020056042301\n'),
    }
    mark, entries, sent = told[records]
    return f'life 2 12345678 n 12345678 {mark}\n{entries}{asked}{sent}end\n'


def at_every_call_of_a_message():
    """An AppKey Add in two segments, and in the next life again, with the question for the keys. Its calls: two each for its replay record,
    for its key, and for the numbers of acknowledgment and reply."""
    pdus = 'b0 net PDU-A\nb0 net PDU-B\n'
    asks = 'b0 talk NK dev:DK 12345678 04 3129ad 3129ad 0003 1201 u 80015604\n'
    for calls in range(7):
        for mask in ['00', 'ff', 'f0', '55']:
            first = WAITING + (ADDED if calls >= 4 else '') + (ADDED_SENT if calls >= 6 else '')
            report = f'{LIFE}{first}{end_after(calls, 6)}{second_life_of_a_key(count_after(calls, mask))}'
            yield Row(f'an AppKey Add: arm {calls} {mask}', f'START-456\narm {calls} {mask}\n{pdus}life\n{pdus}{asks}', report)


def first_life_of_a_lamp(records):
    """What the first life answers and sends, where so many records were stored: those of the AppKey Add, the numbers, those of the binding,
    and those of the switch. Each message has its replay record first."""
    bound = 'e 3 b0 3 net delivered 0003 1201 12345678 3129ad dev 803d011223010010\n'
    bound_sent = 's b0 3.1 msg 12345678 000002 07 1201 0003 dev 803e00011223010010\n'
    switched = 'e 4 b0 4 net delivered 0003 1201 12345678 3129ae app:123 82020101\n'
    switched_sent = 's b0 4.1 msg 12345678 000003 07 1201 0003 app:123 820401\n'
    entries = (ADDED if records >= 2 else '') + (bound if records >= 5 else '') + (switched if records >= 7 else '')
    sent = (ADDED_SENT if records >= 3 else '') + (bound_sent if records >= 5 else '') + (switched_sent if records >= 7 else '')
    return f'{LIFE}{WAITING}{entries}{sent}'


def second_life_of_a_lamp(records):
    """The second life, where so many records count: without the key nothing opens, without the binding no model listens."""
    mark = '000000' if records <= 2 else '000100'
    heard = 'nokey' if records <= 1 else 'delivered 0003 1201 12345678 3129af app:123 8201'
    state = '01' if records >= 7 else '00'
    sent = f's b0 1.1 msg 12345678 000100 07 1201 0003 app:123 8204{state}\n' if records >= 5 else ''
    return f'life 2 12345678 n 12345678 {mark}\ne 1 b0 1 net {heard}\n{sent}end\n'


def at_every_call_of_a_switch():
    """A lamp is configured and switched on, and in the next life asked. The calls of its seven records, two each."""
    lamp = (
        'b0 net PDU-A\nb0 net PDU-B\n'
        'b0 talk NK dev:DK 12345678 04 3129ad 3129ad 0003 1201 u 803d011223010010\n'
        'b0 talk NK app:AK 12345678 04 3129ae 3129ae 0003 1201 u 82020101\n'
        'life\nb0 talk NK app:AK 12345678 04 3129af 3129af 0003 1201 u 8201\n'
    )
    for calls in range(15):
        for mask in ['00', 'ff', 'f0', '55']:
            report = first_life_of_a_lamp(calls // 2) + end_after(calls, 14) + second_life_of_a_lamp(count_after(calls, mask))
            yield Row(f'a lamp that is switched on: arm {calls} {mask}', f'START-456\narm {calls} {mask}\n{lamp}', report)


ASKS = '4b50057e400000010000'
POLLED_BY = 'NK/0201/1201/0000/0000 12345678 1 00'


def sample_of_a_friendship():
    """A Friend whose address is that of the Mesh Profile's sample data makes so many offers to one node that the next one, which another
    node asks for, has the sample's FriendCounter. That node's Request and first Poll are PDUs of the sample data, and an outside node seals
    the next Poll with the credentials of the sample; with the two counters exchanged it isn't read."""
    before = 0x072f
    peers = ''.join(f'b0 peer NK 12345678 1 00 {k:06x} 0301 fffd 03{ASKS}\n' for k in range(1, before + 1))
    request, poll = '68eca487516765b5e5bfdacbaf6cb7fb6bff871f035444ce83a670df', '5e84eba092380fb0e5d0ad970d579a4e88051c'
    script = f'provision 2345 1 12345678 00 000 NK DK\nlife\n{peers}b0 net {request}\nb0 net {poll}\n'
    script += 'b0 peer NK/1201/2345/0000/072F 12345678 1 00 000003 1201 2345 0101\n'
    script += 'b0 peer NK/1201/2345/072F/0000 12345678 1 00 000004 1201 2345 0100\n'
    entries = ''.join(f'e {k} b0 {k} net control 0301 fffd 12345678 {k:06x} 03 {ASKS}\n' for k in range(1, before + 1))
    entries += (
        f'e 1840 b0 1840 net control 1201 fffd 12345678 000001 03 {ASKS}\n'
        'e 1841 b0 1841 net control 1201 2345 12345678 000002 01 00\n'
        'e 1842 b0 1842 kept kept\n'
        'e 1843 b0 1843 net control 1201 2345 12345678 000003 01 01\n'
        'e 1844 b0 1844 kept kept\n'
        'e 1845 b0 1845 net unread\n'
    )
    lines = ''.join(f's b0 {k + 1}.1 ctl 12345678 {k:06x} 00 2345 0301 046410107f{k:04x}\n' for k in range(before))
    lines += (
        's b0 1840.1 ctl 12345678 00072f 00 2345 1201 046410107f072f\n'
        's b0 1841.1 ctl 12345678 000730 00 2345 1201 02001234567800\n'
        's b0 1843.1 ctl 12345678 000731 00 2345 1201 02001234567800\n'
    )
    title = 'a friendship of the sample data, behind 1,839 offers'
    yield Row(title, script, f'{LIFE}{entries}{lines}end\n')


def polls(first_seq, place, fsn, told):
    """Polls, each with the other FSN, from a SEQ and a place in the life on; behind each what its answer is told as, and whether a kept
    entry follows it."""
    script, entries, lines = '', '', ''
    for seq, (line, is_kept) in enumerate(told, first_seq):
        script += f'b0 peer {POLLED_BY} {seq:06x} 0201 1201 01{fsn:02x}\n'
        entries += f'e {place} b0 {place} net control 0201 1201 12345678 {seq:06x} 01 {fsn:02x}\n'
        lines += f's b0 {place}.1 {line}\n'
        if is_kept:
            place += 1
            entries += f'e {place} b0 {place} kept kept\n'
        place, fsn = place + 1, 1 - fsn
    return script, entries, lines


def for_low_power(numbers, place):
    """PDUs for a Low Power node, with these SEQs, from a place in the life on, and their entries; a node that relays nothing stores them."""
    script = ''.join(f'b0 peer NK 12345678 1 02 {k:06x} 0009 0201 7f{k:02x}\n' for k in numbers)
    entries = ''.join(f'e {at} b0 {at} net notmine\n' for at, _ in enumerate(numbers, place))
    return script, entries


def handed_over(number):
    return f'relay 12345678 {number:06x} 1 01 0009 0201 7f{number:02x}', False


BEFRIENDED = f'b0 talk NK dev:DK 12345678 04 000001 000001 0003 1201 u 80270000\nb0 peer NK 12345678 1 00 000001 0201 fffd 03{ASKS}\n'
BEFRIENDED_ENTRIES = (
    'e 1 b0 1 net delivered 0003 1201 12345678 000001 dev 80270000\n'
    f'e 2 b0 2 net control 0201 fffd 12345678 000001 03 {ASKS}\n'
)
BEFRIENDED_LINES = (
    's b0 1.1 msg 12345678 000000 07 1201 0003 dev 80280000\n'
    's b0 2.1 ctl 12345678 000001 00 1201 0201 046410107f0000\n'
)


def updated(seq):
    return f'ctl 12345678 {seq:06x} 00 1201 0201 02001234567800', True


def seventeen_for_a_friend():
    first = polls(2, 3, 0, [updated(2)])
    more = for_low_power(range(1, 18), 5)
    rest = polls(3, 22, 1, [*map(handed_over, range(2, 18)), updated(3)])
    script, entries, lines = (a + b + c for a, b, c in zip(first, (*more, ''), rest))
    title = 'seventeen PDUs for a Low Power node: the first one leaves its queue for the last'
    yield Row(
        title,
        f'START-000\n{BEFRIENDED}{script}',
        f'{LIFE}{BEFRIENDED_ENTRIES}{entries}{BEFRIENDED_LINES}{lines}end\n',
    )


def seventeenth_behind_an_answer():
    """The seventeenth comes when the first one was handed over, and takes its place: so the next Poll has the second one."""
    first = polls(2, 3, 0, [updated(2)])
    more = for_low_power(range(1, 17), 5)
    handed = polls(3, 21, 1, [handed_over(1)])
    last = for_low_power([17], 22)
    again = polls(4, 23, 1, [('rep 0009 12345678 000001', False), *map(handed_over, range(2, 18)), updated(3)])
    parts = zip(first, (*more, ''), handed, (*last, ''), again)
    script, entries, lines = (''.join(part) for part in parts)
    title = 'a seventeenth PDU for a Low Power node, behind the answer that handed over the first'
    yield Row(
        title,
        f'START-000\n{BEFRIENDED}{script}',
        f'{LIFE}{BEFRIENDED_ENTRIES}{entries}{BEFRIENDED_LINES}{lines}end\n',
    )


def one_after_the_other():
    entries = 'e 1 b0 1 raw planned\ne 2 b1 1 raw planned\n'
    first = 's b0 1.1 ctl 12345678 000000 00 1201 fffd 034b50057e400000010000\n'
    second = 's b1 2.1 ctl 12345678 000001 00 1201 fffd 034b50057e400000010000\n'
    yield Row('one bearer after the other', 'START-000\nb0 RAW\nsync\nb1 RAW\n', f'{LIFE}{entries}{first}{second}end\n')


# Both models of four elements by element and model: the two octets that tell each of them in a message, the element, and its Status.
EIGHT_MODELS = [
    (f'{1 + k // 2:02x}12', ['0010', '0210'][k % 2], f'120{1 + k // 2}', ['820400', '82080000'][k % 2]) for k in range(8)
]


def publications_set():
    """Each is bound to the key, and then set to publish, in the order opposite to that of the models, with periods of 10 to 80 ticks."""
    script, entries, lines, place, heard, own = '', '', '', 3, 0x3129AD, 2
    for element, model, _, _ in EIGHT_MODELS:
        script += f'b0 talk NK dev:DK 12345678 04 {heard:06x} {heard:06x} 0003 1201 u 803d{element}2301{model}\n'
        entries += f'e {place} b0 {place} net delivered 0003 1201 12345678 {heard:06x} dev 803d{element}2301{model}\n'
        lines += f's b0 {place}.1 msg 12345678 {own:06x} 07 1201 0003 dev 803e00{element}2301{model}\n'
        place, heard, own = place + 1, heard + 1, own + 1
    for period, (element, model, _, _) in enumerate(reversed(EIGHT_MODELS), 1):
        fields = f'{element}00c0230100{period:02x}00{model}'
        script += f'b0 talk NK dev:DK 12345678 04 {heard:06x} {heard:06x} 0003 1201 0 03{fields}\n'
        script += f'b0 talk NK dev:DK 12345678 04 {heard:06x} {heard + 1:06x} 0003 1201 1 03{fields}\n'
        entries += f'e {place} b0 {place} net waiting 1\n'
        entries += f'e {place + 1} b0 {place + 1} net delivered 0003 1201 12345678 {heard:06x} dev 03{fields}\n'
        lines += f's b0 {place + 1}.1 ctl 12345678 {own:06x} 07 1201 0003 00{heard % 8192 * 4:04x}00000003\n'
        auth, place, heard = own + 1, place + 2, heard + 2
        lines += f's b0 {place - 1}.2 long 12345678 {auth:06x} 07 1201 0003 dev 801900{fields}\n'
        lines += f's b0 {place}.1 seg 12345678 {auth:06x} 07 1201 0003 0 1 {auth:06x}\n'
        lines += f's b0 {place}.2 seg 12345678 {auth + 1:06x} 07 1201 0003 1 1 {auth:06x}\n'
        script += f'b0 peer NK 12345678 1 04 {heard:06x} 0003 1201 00{auth * 4:04x}00000003\n'
        entries += f'e {place} b0 {place} begin begun\n'
        entries += f'e {place + 1} b0 {place + 1} net control 0003 1201 12345678 {heard:06x} 00 {auth * 4:04x}00000003\n'
        place, heard, own = place + 2, heard + 1, auth + 2
    return script, entries, lines, place, own


def published_at(place, own, told):
    """Ticks, each with the moment behind it and with how many of the last models publish then."""
    script, entries, lines = '', '', ''
    for ticks, now, count in told:
        script += f'b0 tick {ticks}\n'
        entries += f'e {place} b0 {place} tick ticked {now}\n'
        for job, (_, _, element, status) in enumerate(EIGHT_MODELS[8 - count :], 1):
            lines += f's b0 {place}.{job} msg 12345678 {own:06x} 00 {element} c000 app:123 {status}\n'
            own += 1
        place += 1
    return script, entries, lines


def eight_publications():
    script, entries, lines, place, own = publications_set()
    ticks, ticked, sent = published_at(place, own, [(9, 9, 0), (1, 10, 1), (25, 35, 3), (1, 36, 0), (44, 80, 8)])
    later = published_at(1, 256, [(9, 9, 0), (71, 80, 8)])
    start = 'provision 1201 4 12345678 00 456 NK DK\nlife\nb0 net PDU-A\nb0 net PDU-B\n'
    first = f'KEY-ADDED-HEARD\n{entries}{ticked}KEY-ADDED-SENT\n{lines}{sent}end\n'
    second = f'life 2 12345678 n 12345678 000100\n{later[1]}{later[2]}end\n'
    title = 'both models of four elements publish by element and model, in whatever order they were set'
    yield Row(title, f'{start}{script}{ticks}life\n{later[0]}', first + second)


def many_heartbeats():
    """Count Log 0c: 2,048 heartbeats, a second apart. Behind so many of them the Count Log that is told: 1,025 left, 1,024, one and none."""
    told = {1023: '0c', 1024: '0b', 2047: '01', 2048: '00'}
    script, entries, lines, place, heard, own = '', '', '', 1, 1, 0

    def asked(message, reply):
        nonlocal script, entries, lines, place, heard, own
        script += f'b0 talk NK dev:DK 12345678 04 {heard:06x} {heard:06x} 0003 1201 u {message}\n'
        entries += f'e {place} b0 {place} net delivered 0003 1201 12345678 {heard:06x} dev {message}\n'
        lines += f's b0 {place}.1 msg 12345678 {own:06x} 07 1201 0003 dev {reply}\n'
        place, heard, own = place + 1, heard + 1, own + 1

    asked('8039fdff0c010000000000', '0600fdff0c010000000000')
    for k, now in enumerate([1, *range(100, 204800, 100), 204800, 1000000], 1):
        before = 0 if k == 1 else 1 if k == 2 else 100 * (k - 2)
        script += f'b0 tick {now - before}\n'
        entries += f'e {place} b0 {place} tick ticked {now}\n'
        if k <= 2048:
            lines += f's b0 {place}.1 ctl 12345678 {own:06x} 00 1201 fffd 0a000005\n'
            own += 1
        place += 1
        if k in told:
            asked('8038', f'0600fdff{told[k]}010000000000')
    yield Row('a heartbeat with Count Log 0c goes 2,048 times', f'START-000\n{script}', f'{LIFE}{entries}{lines}end\n')


MADE = [
    long_message,
    far_segment,
    otherwise_spelled,
    nine_messages,
    from_many_in_segments,
    own_come_back,
    full_lists,
    five_messages,
    to_a_group,
    conversations,
    behind_a_torn_slot,
    more_than_a_bank,
    at_every_call_of_a_compaction,
    more_than_two_banks,
    numbers_where_a_bank_is_full,
    reset_where_a_bank_is_full,
    at_a_migration,
    at_an_iv_update,
    at_every_call_of_a_message,
    at_every_call_of_a_switch,
    sample_of_a_friendship,
    seventeen_for_a_friend,
    seventeenth_behind_an_answer,
    one_after_the_other,
    eight_publications,
    many_heartbeats,
]


def all_made():
    for made in MADE:
        yield from made()
