"""Worked scripts of what outlasts a life: all that a node keeps, what goes with it, full tables and banks, and power that is cut at each call
of a compaction and of a migration."""
from rows import Row, spelled

IV = '12345678'
OTHER = '36' * 16
NEW = '63' * 16
# What an access message is sealed with: the name of its key in reports, the key, and the network key.
DEV, ONE, NEW_ONE, FIVE = ('dev', 'dev:DK', 'NK'), ('app:001', 'app:AK', 'NK'), ('app:001', f'app:{NEW}', 'NK2'), ('app:005', 'app:AK2', OTHER)


def pieces_of(payload):
    """In how many segments a payload goes, with its TransMIC; one where it needs none."""
    octets = len(spelled(payload)) // 2
    return 1 if octets <= 11 else (octets + 15) // 12


class Story:
    """Lives of a node, line by line: what it hears, and what it answers and sends then. 0003 tells it what to do; its numbers, those of the
    node, and places of entries are counted here."""

    def __init__(self, title, elements=1):
        self.title, self.script, self.report = title, f'provision 1201 {elements} {IV} 00 000 NK DK\n', ''
        self.lives, self.told_last, self.ttl = 0, 0, '07'

    def life(self, seq):
        """A life, whose numbers begin here."""
        self.lives, self.seq, self.place, self.entries, self.sent = self.lives + 1, seq, 0, '', ''
        self.script += 'life\n'
        self.report += f'life {self.lives} {IV} n {IV} {seq:06x}\n'

    def end(self, line='end'):
        self.report += f'{self.entries}{self.sent}{line}\n'

    def entry(self, kind, answer):
        self.place, self.jobs = self.place + 1, 0
        self.entries += f'e {self.place} b0 {self.place} {kind} {answer}\n'

    def line(self, text, answer):
        """A line of b0 that is answered by one entry."""
        word = text.split()[0]
        self.script += f'b0 {text}\n'
        self.entry('net' if word in ('peer', 'talk') else word, answer)

    def sends(self, kind, told):
        """A PDU with the next number."""
        self.jobs += 1
        self.sent += f's b0 {self.place}.{self.jobs} {kind} {IV} {self.seq:06x} {told}\n'
        self.seq += 1

    def peer(self, src, seq, answer='', iv=IV):
        """A control message without effect, which is accepted where it has no other answer."""
        self.line(f'peer NK {iv} 1 00 {seq:06x} {src} 1201 7f', answer or f'control {src} 1201 {iv} {seq:06x} 7f -')

    def cut_peer(self, src, seq, calls):
        """One that is cut, and ends the life with so many calls."""
        self.script += f'b0 peer NK {IV} 1 00 {seq:06x} {src} 1201 7f\n'
        self.end(f'cut {calls}')

    def told(self, payload, reply='', under=DEV, dst='1201', by='1201', is_heard=True):
        """An access message of 0003, with what an element replies. To others than an element it comes with TTL 00."""
        (name, key, net), auth, count = under, self.told_last + 1, pieces_of(payload)
        ttl, shown = '04' if dst == by else '00', 'b529' if dst == 'v:LABEL' else dst
        self.told_last += count
        for piece in range(count):
            whole = f'delivered 0003 {shown} {IV} {auth:06x} {name} {payload}' if is_heard else 'notmine'
            answer = whole if piece == count - 1 else f'waiting {count - 1 - piece}'
            place = 'u' if count == 1 else piece
            self.line(f'talk {net} {key} {IV} {ttl} {auth:06x} {auth + piece:06x} 0003 {dst} {place} {payload}', answer)
        if count > 1:
            self.sends('ctl', f'{self.ttl} 1201 0003 00{auth * 4:04x}{2 ** count - 1:08x}')
        if reply:
            self.replies(f'{"00" if ttl == "00" else self.ttl} {by} 0003', name, reply)

    def replies(self, front, name, reply):
        count, auth = pieces_of(reply), self.seq
        self.sends('msg' if count == 1 else 'long', f'{front} {name} {reply}')
        if count > 1:
            self.seq = auth
            self.entry('begin', 'begun')
            for piece in range(count):
                self.sends('seg', f'{front} {piece} {count - 1} {auth:06x}')

    def row(self):
        return Row(self.title, self.script, self.report)


def hours(story, count):
    """So many hours, with a record each."""
    for number in range(1, count + 1):
        story.line('tick 360000', f'ticked {360000 * number}')


def all_is_told(story):
    """A node is told all that it keeps, with 37 records: of each message its replay record and its own, and one of a refill."""
    story.told(f'80400100{OTHER}', '8044000100')
    story.told('00001000AK', '800300001000')
    story.told('00015000AK2', '800300015000')
    story.told('803d011201000010', '803e00011201000010')
    story.told('803d021205000210', '803e00021205000210')
    story.told('801b011200c00010', '801f00011200c00010')
    story.told('80200212LABEL0210', '801f00021229b50210')
    story.told('82020101', '820401', ONE)
    story.told('8206008001', '82080080', FIVE, '1202', '1202')
    story.told('80450000NK2', '8044000000')
    story.told(f'01001000{NEW}', '800300001000')
    story.told('8016000002', '801700000002')
    story.told('800a01', '800b01')
    story.told('801000', '801100')
    story.told('80270025', '80280025')
    story.told('802442', '802542')
    story.ttl = '05'
    story.told('800d05', '800e05')
    story.told('03021201c00500ff41070210', '801900021201c00500ff41070210')


def all_is_asked(story):
    """Its keys, the phase of a Key Refresh, and its features; then a group under both values of a key, a label, a publication, and the last
    message of 0003."""
    last = story.told_last
    story.told('8042', '8043001000')
    story.told('80010000', '80020000000100')
    story.told('80010100', '80020001000500')
    story.told('80150000', '801700000002')
    story.told('8009', '800b01')
    story.told('800c', '800e05')
    story.told('800f', '801100')
    story.told('8023', '802542')
    story.told('8026', '80280025')
    story.told('8201', '820401', ONE, 'c000')
    story.told('8201', '820401', NEW_ONE, 'c000')
    story.told('8205', '82080080', FIVE, 'v:LABEL', '1202')
    story.line('tick 100', 'ticked 100')
    story.sends('msg', '05 1202 c001 app:005 82080080')
    story.peer('0003', last, f'replay {IV} {story.told_last:06x}')


def all_is_kept():
    story = Story('all that a node keeps is there in the next life', 2)
    story.life(0)
    all_is_told(story)
    story.end()
    story.life(0x100)
    all_is_asked(story)
    story.end()
    yield story.row()


def all_is_written_anew():
    """Three records of provisioning, 983 hours and these 37 fill a bank. What is written anew are 22 records: Identity, Numbers, four of two
    network keys, three of two application keys, two bindings, a group, a label, five features, two values, a name, and a publication."""
    for order, calls, begun in [('56 00', 56, 56), ('55 00', 55, 56), ('53 ff', 53, 54), ('30 55', 30, 31)]:
        story = Story(f'all that a node keeps, behind a bank that is full and written anew with 54 calls: arm {order}', 2)
        story.life(0)
        hours(story, 983)
        all_is_told(story)
        story.script += f'arm {order}\n'
        if calls == 56:
            story.peer('0101', 1)
            story.end()
        else:
            story.cut_peer('0101', 1, 2040 + begun)
        story.life(0x100)
        all_is_asked(story)
        story.peer('0101', 1, f'replay {IV} 000001' if calls == 56 else '')
        story.end()
        yield story.row()


def what_goes_with_a_key():
    net_key, app_key = (f'80400100{OTHER}', '8044000100'), ('00015000AK2', '800300015000')
    for title, gone in [
        ('a network key', [('80410100', '8044000100'), net_key, app_key]),
        ('an application key', [('8000015000', '800300015000'), app_key]),
    ]:
        story = Story(f'{title} takes bindings and publications with it; it comes back without them')
        story.life(0)
        story.told(*net_key)
        story.told(*app_key)
        story.told('803d011205000010', '803e00011205000010')
        story.told('03011201c00500ff41070010', '801900011201c00500ff41070010')
        story.end()
        story.life(0x100)
        story.line('tick 100', 'ticked 100')
        story.sends('msg', '07 1201 c001 app:005 820400')
        story.told('8201', '820400', FIVE)
        for message, reply in gone:
            story.told(message, reply)
        story.end()
        story.life(0x200)
        story.line('tick 100', 'ticked 100')
        story.told('80010100', '80020001000500')
        story.told('8201', '', FIVE)
        story.end()
        yield story.row()


def groups_and_labels():
    group = lambda op, address: (f'{op}0112{address}0010', f'801f000112{address}0010')
    label = lambda op: (f'{op}0112LABEL0010', '801f00011229b50010')
    story = Story('groups and labels of a model go together; each life has what the one before left')
    # what is told in a life, and then of c000, c001 and the label which are heard in the next one
    lives = [
        ([('00001000AK', '800300001000'), group('801b', '00c0'), group('801b', '01c0'), label('8020')], [True, True, True]),
        ([group('801c', '00c0')], [False, True, True]),
        ([('801d01120010', '801f00011200000010')], [False, False, False]),
        ([group('801b', '01c0'), label('8020'), group('801e', '00c0')], [True, False, False]),
        ([label('8022')], [False, False, True]),
        ([label('8021'), group('801b', '01c0')], [False, True, False]),
    ]
    heard = []
    for number, (told, after) in enumerate([*lives, ([], [])]):
        story.life(0x100 * number)
        for dst, is_heard in zip(['c000', 'c001', 'v:LABEL'], heard):
            story.told('82030101', '', ONE, dst, is_heard=is_heard)
        for message, reply in told:
            story.told(message, reply)
        story.end()
        heard = after
    yield story.row()


def each_message_once():
    story = Story('by source: each message once, none that is older, and one under the IV Index before; six calls for three that are accepted')
    story.life(0)
    story.script += 'arm 6 00\n'
    before = '12345677'
    replayed = f'replay {IV} 000002'
    story.peer('0101', 2)
    story.peer('0101', 1, replayed)
    story.peer('0101', 9, replayed, before)
    story.peer('0102', 9, iv=before)
    story.peer('0102', 0)
    story.end()
    story.life(0)
    story.peer('0101', 2, replayed)
    story.peer('0102', 9, f'replay {IV} 000000', before)
    story.peer('0101', 3)
    story.peer('0102', 1)
    story.end()
    yield story.row()


def a_second_refill_is_cut():
    raw = 'raw fffd 00 034b50057e400000010000'
    for order, begun, mark in [('2 00', 3, 0x100), ('2 ff', 3, 0x100), ('3 f0', 4, 0x100), ('3 ff', 4, 0x200)]:
        story = Story(f'256 numbers are drawn, and the refill for the next ones is cut: arm {order}')
        story.life(0)
        story.script += f'arm {order}\n'
        for _ in range(256):
            story.line(raw, 'planned')
            story.sends('ctl', '00 1201 fffd 034b50057e400000010000')
        story.line(raw, 'planned')
        story.end(f'cut {begun}')
        story.life(mark)
        story.line(raw, 'planned')
        story.sends('ctl', '00 1201 fffd 034b50057e400000010000')
        story.end()
        yield story.row()


def numbers_under_a_new_iv_index():
    raw = ('raw fffd 00 7f', 'raw planned')
    ends = [('tick 34560000', 'tick ticked 34560000'), ('beacon NK 00 00000006', 'bcn beacon 000 same finish')]
    again = ('beacon NK 00 00000006', 'bcn beacon 000 same ignore 5')
    lines = [raw, raw, *ends, raw, raw, again, raw]
    script = ''.join(f'b0 {line}\n' for line, _ in lines)
    entries = ''.join(f'e {place} b0 {place} {answer}\n' for place, (_, answer) in enumerate(lines, 1))
    drawn = [(1, '00000005 000000'), (2, '00000005 000001'), (5, '00000006 000000'), (6, '00000006 000001'), (8, '00000006 000002')]
    sent = ''.join(f's b0 {place}.1 ctl {pair} 00 1201 fffd 7f\n' for place, pair in drawn)
    title = 'numbers begin anew under a new IV Index; what was reserved under the one before is passed over'
    report = f'life 1 00000006 p 00000005 000000\n{entries}{sent}end\nlife 2 00000006 n 00000006 000100\nend\n'
    yield Row(title, f'provision 1201 1 00000006 02 000 NK DK\nlife\n{script}life\n', report)


def sources(count):
    return [f'{0x101 + number:04x}' for number in range(count)]


def a_full_list_and_a_full_bank():
    """Three records of provisioning, 512 names and 508 hours. Written anew they are the three records and 256 of two names each: 528 calls."""
    for order, calls, begun in [('530 00', 530, 530), ('529 f0', 529, 530), ('527 ff', 527, 528), ('300 55', 300, 301)]:
        story = Story(f'a replay list of 512 in a full bank, with 528 calls to write it anew: arm {order}')
        story.life(0)
        for src in sources(512):
            story.peer(src, 1)
        story.peer('0301', 1, 'listfull 512')
        hours(story, 508)
        story.script += f'arm {order}\n'
        story.peer('0302', 1, 'listfull 512')
        if calls == 530:
            story.peer('0101', 2)
            story.end()
        else:
            story.cut_peer('0101', 2, 2040 + begun)
        story.life(0)
        story.peer('0303', 1, 'listfull 512')
        for src in sources(512):
            story.peer(src, 1, f'replay {IV} 00000{2 if calls == 530 and src == "0101" else 1}')
        story.end()
        yield story.row()


def entries_until_they_expire():
    """512 entries under IV Index 5. A beacon moves it on where 96 hours passed, to 6 with an IV Update in Progress and without, and to 7."""
    five, six, seven = '00000005', '00000006', '00000007'

    def peer(src, iv, seq, answer=''):
        told = answer or f'control {src} 1201 {iv} {seq:06x} 7f -'
        return f'peer NK {iv} 1 00 {seq:06x} {src} 1201 7f', f'net {told}'

    def moves(number, flags, iv, step):
        ticks = 34560000
        return [(f'tick {ticks}', f'tick ticked {ticks * number}'), (f'beacon NK {flags} {iv}', f'bcn beacon 000 same {step}')]

    lines = [
        *[peer(src, five, 1) for src in sources(512)],
        peer('0301', five, 1, 'listfull 512'),
        *moves(1, '02', six, 'begin'),
        peer('0301', six, 1, 'listfull 512'),
        peer('0101', six, 0),
        peer('0102', five, 0, f'replay {five} 000001'),
        *moves(2, '00', six, 'finish'),
        peer('0301', six, 2, 'listfull 512'),
        *moves(3, '02', seven, 'begin'),
        peer('0301', six, 3),
        peer('0102', six, 0),
        peer('0101', six, 1),
        peer('0101', seven, 0),
    ]
    script = ''.join(f'b0 {line}\n' for line, _ in lines)
    entries = ''.join(f'e {place} b0 {place} {answer}\n' for place, (_, answer) in enumerate(lines, 1))
    title = 'entries keep their places until the IV Index is two above theirs'
    report = f'life 1 {five} n {five} 000000\n{entries}end\n'
    yield Row(title, f'provision 1201 1 {five} 00 000 NK DK\nlife\n{script}', report)


MASKS = ['00', 'ff', 'f0', '55']


def at_every_call_of_a_compaction():
    """A message whose record is put into a full bank: 18 calls for four records that are written anew, and two for its own. In the next life
    the one behind it is cut too, at another call. From the header's gate on the new bank counts, and has room."""
    for call, mask in [(call, mask) for call in range(20) for mask in MASKS]:
        again = 19 - call
        counts = call > 17 or (call, mask) == (17, 'ff')
        left = 2 if counts else 20
        first = 2 if (call, mask) == (19, 'ff') else 1
        second = 3 if again >= left or (again == left - 1 and mask == 'ff') else first
        story = Story(f'a bank is written anew, and what a cut left once more: arm {call} {mask}, arm {again} {mask}')
        story.life(0)
        story.peer('0101', 1)
        hours(story, 1019)
        story.script += f'arm {call} {mask}\n'
        story.cut_peer('0101', 2, 2040 + call + 1)
        story.life(0)
        story.script += f'arm {again} {mask}\n'
        story.peer('0101', 0, f'replay {IV} 00000{first}')
        if again >= left:
            story.peer('0101', 3)
            story.end()
        else:
            story.cut_peer('0101', 3, again + 1)
        story.life(0)
        story.peer('0101', 0, f'replay {IV} 00000{second}')
        story.peer('0101', 4)
        story.end()
        yield story.row()


def at_every_call_of_a_migration():
    """A node of the old format is opened: 16 calls for the three records of its provisioning. The next life is cut too, at another call. Only
    a whole last call leaves the new bank, in which a message is accepted with two calls."""
    for call in range(16):
        for mask in MASKS:
            again = 15 - call
            script = f'START-000\narm {call} {mask}\nlife\narm {again} {mask}\nb0 peer NK {IV} 1 00 000001 0101 1201 7f\n'
            script += f'life\nb0 peer NK {IV} 1 00 000002 0101 1201 7f\n'
            whole = (call, mask) == (15, 'ff')
            second = f'life 2 {IV} n {IV} 000000\ncut 1\n' if whole else f'life 2 cut\ncut {again + 1}\n'
            third = f'life 3 {IV} n {IV} 000000\ne 1 b0 1 net control 0101 1201 {IV} 000002 7f -\nend\n'
            title = f'a bank of the old format, cut twice: arm {call} {mask}, arm {again} {mask}'
            yield Row(title, script, f'life 1 cut\ncut {call + 1}\n{second}{third}', ('run', '--old'))


MADE = [
    all_is_kept,
    all_is_written_anew,
    what_goes_with_a_key,
    groups_and_labels,
    each_message_once,
    a_second_refill_is_cut,
    numbers_under_a_new_iv_index,
    a_full_list_and_a_full_bank,
    entries_until_they_expire,
    at_every_call_of_a_compaction,
    at_every_call_of_a_migration,
]


def all_made():
    for made in MADE:
        yield from made()
