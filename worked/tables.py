"""Worked scripts that are made: tables filled up to their last row and one more, and the longest messages. One bearer, nothing is cut."""
from made import BEFRIENDED, BEFRIENDED_ENTRIES, BEFRIENDED_LINES, FIRST_SEGMENT, LIFE, PAYLOAD, polls, updated
from rows import Row

TO_0003 = f'b0 send 0 0003 07 dev {"7f" * 12}\n'


def full_cache():
    """Under 00000005, of a node that knows 00000006: 0003 is heard with SEQ 000000 to 00007f, which fill the message cache. Behind them each
    PDU with SRC, IV Index and SEQ, and whether it is in the cache: one that isn't takes the place of the oldest."""
    held = [('0003', '00000005', seq, False) for seq in range(128)]
    more = [
        ('0003', '00000005', 0, True),
        ('0004', '00000005', 0, False),
        ('0003', '00000005', 0, False),
        ('0003', '00000005', 2, True),
        ('0003', '00000006', 2, False),
        ('0003', '00000005', 2, False),
    ]
    script, entries = '', ''
    for place, (src, iv, seq, is_cached) in enumerate(held + more, 1):
        script += f'b0 peer NK {iv} 1 00 {seq:06x} {src} 0009 7f\n'
        entries += f'e {place} b0 {place} net {"cached" if is_cached else "notmine"}\n'
    title = 'a message cache holds 128 names, of SRC, IV Index and SEQ; the 129th takes the place of the oldest, also where that was heard again'
    start = 'provision 1201 1 00000006 00 000 NK DK\nlife\n'
    yield Row(title, f'{start}{script}', f'life 1 00000006 n 00000006 000000\n{entries}end\n')


def eight_in_progress():
    """Eight messages of two segments are begun at once, acknowledged after 50 ticks, and given up after 1000."""
    script = ''.join(f'b0 peer NK 12345678 0 04 000000 010{k} 1201 {FIRST_SEGMENT}\n' for k in range(1, 9))
    script += (
        'b0 tick 999\n'
        'b0 peer NK 12345678 0 04 000000 0109 1201 800000002222\n'
        f'b0 peer NK 12345678 0 04 000001 0108 1201 {FIRST_SEGMENT}\n'
        'b0 tick 1\n'
        f'b0 peer NK 12345678 0 04 000001 0109 1201 {FIRST_SEGMENT}\n'
        'b0 peer NK 12345678 0 04 000002 0108 1201 800000212222222222\n'
    )
    names = ''.join(f' 010{k}/12345678/000000' for k in range(1, 9))
    entries = ''.join(f'e {k} b0 {k} net waiting 1\n' for k in range(1, 9))
    entries += (
        'e 9 b0 9 tick ticked 999\n'
        f'e 10 b0 10 net noroom{names}\n'
        'e 11 b0 11 net waiting 1\n'
        'e 12 b0 12 tick ticked 1000\n'
        'e 13 b0 13 net waiting 1\n'
        'e 14 b0 14 net waiting 1\n'
    )
    lines = ''.join(f's b0 9.{k} ctl 12345678 {k - 1:06x} 07 1201 010{k} 00000000000001\n' for k in range(1, 9))
    lines += 's b0 10.1 ctl 12345678 000008 07 1201 0109 00000000000000\n'
    title = 'eight messages in progress: after 999 ticks there is no room for one of one segment, and a piece once more keeps none of them longer'
    yield Row(title, f'START-000\n{script}', f'{LIFE}{entries}{lines}end\n')


def long_control_message():
    """256 octets in 32 segments of 8; SeqZero is 1."""
    pieces = [f'{piece:02x}' * 8 for piece in range(32)]
    header = lambda piece: f'a6{1 << 10 | piece << 5 | 31:06x}'
    script = ''.join(f'b0 peer NK 12345678 1 04 {k + 1:06x} 0003 1201 {header(k)}{piece}\n' for k, piece in enumerate(pieces))
    entries = ''.join(f'e {k} b0 {k} net waiting {32 - k}\n' for k in range(1, 32))
    entries += f'e 32 b0 32 net control 0003 1201 12345678 000001 26 {"".join(pieces)}\n'
    line = 's b0 32.1 ctl 12345678 000000 07 1201 0003 000004ffffffff\n'
    yield Row('a control message of 256 octets in 32 segments', f'START-000\n{script}', f'{LIFE}{entries}{line}end\n')


def acknowledged(place, seq, params, src='0003'):
    """An acknowledgment of an own message, and its entry."""
    line = f'b0 peer NK 12345678 1 07 {seq:06x} {src} 1201 00{params}\n'
    return line, f'e {place} b0 {place} net control {src} 1201 12345678 {seq:06x} 00 {params}\n'


def segments(place, first_seq, sent):
    """The lines of an entry at a place that sends these segments, each SegO, SegN and SeqAuth, under the numbers from a first one on."""
    return ''.join(
        f's b0 {place}.{k + 1} seg 12345678 {first_seq + k:06x} 07 1201 0003 {seg_o} {seg_n} {auth:06x}\n'
        for k, (seg_o, seg_n, auth) in enumerate(sent)
    )


def room_for_a_fifth():
    """Four own messages are held, with the SeqAuths 0, 2, 4 and 6, and a fifth isn't. A BlockAck of 0 ends the third, and one more begins,
    with SeqAuth 9, behind the others."""
    script, entries, lines = '', '', ''
    for place, auth, begun in [(1, 0, True), (3, 2, True), (5, 4, True), (7, 6, True), (9, 8, False), (12, 9, True)]:
        if place == 12:
            line, entry = acknowledged(11, 1, '001000000000')
            script, entries = script + line, entries + entry
        script += TO_0003
        entries += f'e {place} b0 {place} send planned\ne {place + 1} b0 {place + 1} begin {"begun" if begun else "sendfull 4"}\n'
        lines += f's b0 {place}.1 long 12345678 {auth:06x} 07 1201 0003 dev {"7f" * 12}\n'
        lines += segments(place + 1, auth, [(0, 1, auth), (1, 1, auth)] if begun else [])
    lines += segments(14, 0x0b, [(seg_o, 1, auth) for auth in (0, 2, 6, 9) for seg_o in (0, 1)])
    title = 'four own messages are held; a BlockAck of 0 ends the third, so that one more begins, and is sent behind the others'
    yield Row(title, f'START-000\n{script}b0 tick 55\n', f'{LIFE}{entries}e 14 b0 14 tick ticked 55\n{lines}end\n')


def which_is_acknowledged():
    """In the 33rd life the numbers begin at 002000. One is drawn for a control PDU, so that the SeqAuth of the message behind it, of three
    segments, is 002001 and its SeqZero 1."""
    report = ''
    for life in range(33):
        seq = f'{256 * life:06x}'
        sent = f's b0 1.1 ctl 12345678 {seq} 00 1201 fffd 7f\n'
        report += f'life {life + 1} 12345678 n 12345678 {seq}\ne 1 b0 1 raw planned\n' + (f'{sent}end\n' if life < 32 else '')
    # of another SeqZero, and of another node
    first = [acknowledged(4, 1, '000800000007'), acknowledged(5, 1, '000400000007', '0009')]
    # the first segment, bits beyond the last segment, and the last segment on behalf of the one that the message is for
    then = [acknowledged(7, 2, '000400000001'), acknowledged(8, 3, '0004fffffff8'), acknowledged(9, 2, '800480000004', '0009')]
    # the rest, and that once more
    last = [acknowledged(11, 4, '000400000002'), acknowledged(12, 5, '000400000002')]
    message, script = '7f' * 22, 'b0 raw fffd 00 7f\n'
    script += f'b0 send 0 0003 07 dev {message}\n'
    report += 'e 2 b0 2 send planned\ne 3 b0 3 begin begun\n'
    for acks, place, now in [(first, 6, 55), (then, 10, 110), (last, 13, 165)]:
        script += ''.join(line for line, _ in acks) + 'b0 tick 55\n'
        report += ''.join(entry for _, entry in acks) + f'e {place} b0 {place} tick ticked {now}\n'
    auth = 0x2001
    report += f'{sent}s b0 2.1 long 12345678 {auth:06x} 07 1201 0003 dev {message}\n'
    for place, seq, left in [(3, auth, [0, 1, 2]), (6, auth + 3, [0, 1, 2]), (10, auth + 6, [1])]:
        report += segments(place, seq, [(seg_o, 2, auth) for seg_o in left])
    start = 'provision 1201 1 12345678 00 000 NK DK\n' + 'life\nb0 raw fffd 00 7f\n' * 32
    title = 'an own message whose SeqAuth is 002001 is acknowledged by SeqZero 0001, from its DST or on behalf of that, and by the bits of its segments'
    yield Row(title, f'{start}life\n{script}', f'{report}end\n')


def last_of_thirty_two():
    script = f'START-000\nb0 send 0 0003 07 dev {PAYLOAD}\n'
    entries = 'e 1 b0 1 send planned\ne 2 b0 2 begin begun\n'
    for ack, tick, params in [(3, 4, '00007fffffff'), (5, 6, '000080000000')]:
        line, entry = acknowledged(ack, ack // 2, params)
        script += f'{line}b0 tick 55\n'
        entries += f'{entry}e {tick} b0 {tick} tick ticked {55 * (tick // 2 - 1)}\n'
    lines = f's b0 1.1 long 12345678 000000 07 1201 0003 dev {PAYLOAD}\n'
    lines += segments(2, 0, [(seg_o, 31, 0) for seg_o in range(32)]) + segments(4, 0x20, [(31, 31, 0)])
    title = 'an own message of 380 octets: of its 32 segments all but the last are acknowledged, so that this goes once more; then it is too'
    yield Row(title, script, f'{LIFE}{entries}{lines}end\n')


def own_messages(numbers, place):
    """Own messages to a Low Power node, from a place in the life on, and their entries."""
    script = ''.join(f'b0 send 0 0201 07 dev {k:02x}\n' for k in numbers)
    entries = ''.join(f'e {at} b0 {at} send planned\n' for at, _ in enumerate(numbers, place))
    return script, entries, ''


def seventeen_own_messages():
    """A seventeenth comes when the first one was handed over, and takes its place. Each is sealed when it is handed over."""
    own = lambda number: (f'msg 12345678 {number + 2:06x} 07 1201 0201 dev {number:02x}', True)
    parts = [
        polls(2, 3, 0, [updated(2)]),
        own_messages(range(1, 17), 5),
        polls(3, 21, 1, [own(1)]),
        own_messages([17], 23),
        polls(4, 24, 0, [*map(own, range(2, 18)), updated(20)]),
    ]
    script, entries, lines = (''.join(part) for part in zip(*parts))
    title = 'sixteen own messages wait for a Low Power node, and a seventeenth takes the place of the one that was handed over'
    yield Row(
        title,
        f'START-000\n{BEFRIENDED}{script}',
        f'{LIFE}{BEFRIENDED_ENTRIES}{entries}{BEFRIENDED_LINES}{lines}end\n',
    )


MADE = [
    full_cache,
    eight_in_progress,
    long_control_message,
    room_for_a_fifth,
    which_is_acknowledged,
    last_of_thirty_two,
    seventeen_own_messages,
]


def all_made():
    for made in MADE:
        yield from made()
