"""Scripts whose report isn't one text alone, with a search through it; and words that are no command.

Bearers are served in any order. Whatever it is: no line shows a pair or a message that an earlier one shows, and where nothing is cut, each
number is drawn once and none is left out.
"""
import os
import re

from rows import Text, spelled

TWO_PDUS = 'START-000\nb0 RAW\nb0 RAW\n'
# a word of the one octet ff, which is no text
NO_TEXT = os.fsdecode(b'\xff')

# Words that are no command.
NO_COMMANDS = [
    [],
    [NO_TEXT],
    ['run', NO_TEXT],
    ['run', '--hex', NO_TEXT],
    [''],
    ['walk'],
    ['help'],
    ['--help'],
    ['--version'],
    ['--', 'run'],
    ['--hex', 'run'],
    ['run', '--'],
    ['run', '--', '--hex'],
    ['run', '--help'],
    ['run', '--version'],
    ['run', 'more'],
    ['run', 'hex'],
    ['run', 'audit'],
    ['run', '-hex'],
    ['run', '--he'],
    ['run', '--HEX'],
    ['run', '--hex=true'],
    ['run', '--hex', '--hex'],
    ['audit', '--hex'],
    ['--hex', 'lpn'],
    ['lpn', '--old'],
    ['lpn', '--hex', '--old'],
    ['lpn', '--hex', '--hex'],
    ['lpn', '--hex=true'],
    ['lpn', '--'],
    ['lpn', '--help'],
    ['lpn', 'run'],
    ['lpnx'],
    ['LPN'],
    ['gen'],
    ['gen', '4'],
    ['gen', '4', '1', '1'],
    ['gen', '0', '1'],
    ['gen', '32769', '1'],
    ['gen', '1', '4294967296'],
    ['gen', '+4', '1'],
    ['gen', '4', '+1'],
    ['gen', '-4', '1'],
    ['gen', '4', '-1'],
    ['gen', '00000000004', '1'],
    ['gen', '4', '00000000001'],
    ['gen', '4.0', '1'],
    ['gen', '0x4', '1'],
    ['gen', '', '1'],
    ['gen', '4', ''],
    ['gen', ' 4', '1'],
    ['gen', '4 1'],
    ['gen', '--', '4', '1'],
    ['gen', '4', '--', '1'],
    ['gen', '4', '1', '--hex'],
    ['gen', '--help'],
    ['GEN', '4', '1'],
]


def no_commands():
    """Words that are no command, over a script."""
    for words in NO_COMMANDS:
        yield Text(f'no command: {words}', words, spelled(TWO_PDUS).encode(), 'usage')


def doubled(report):
    """The first line that shows a pair or a message once more."""
    shown = set()
    for line in report.split('\n'):
        sent = re.search(r' (?:ctl|msg) (\w{8} \w{6}) ', line)
        taken = re.search(r' net (?:control|delivered) (\w{4}) \w{4} (\w{8} \w{6}) ', line)
        for name in [('pair', sent[1])] if sent else [('message', *taken.groups())] if taken else []:
            if name in shown:
                return f'{name} stands twice: {line}'
            shown.add(name)
    return None


def workload(rounds):
    """Lines of two bearers that send and hear, with five events in each round. One of them sets the Default TTL, and is answered."""
    return ''.join(
        f'b0 RAW\nb1 RAW\nb0 peer NK 12345678 1 00 {k:06x} 0101 1201 7f\nb1 peer NK 12345678 1 00 {k:06x} 0102 1201 7f\n'
        f'b1 talk NK dev:DK 12345678 04 {k:06x} {k:06x} 0103 1201 u 800d{k + 15:02x}\n'
        for k in range(1, rounds + 1)
    )


def cut_anywhere():
    """30 events in a life that is cut at some call, and ten in each of two lives after it, of which the first is cut too. The first life
    makes fewer than 100 calls."""
    for mask in ['00', 'ff', 'f0', '55']:
        for call in range(100):
            script = f'START-000\narm {call} {mask}\n{workload(6)}life\narm {call % 7} {mask}\n{workload(2)}life\n{workload(2)}'
            yield f'cut at call {call}, mask {mask}', script, doubled
    ends = lambda report: None if report.split('\nlife 2')[0].endswith('end') else 'the first life makes more than 99 calls'
    yield 'not cut', f'START-000\narm 99 00\n{workload(6)}life\n', ends


def drawn_once(count, parts):
    """Whether the SEQs are the first ones, each once, and the report has these parts."""

    def search(report):
        drawn = sorted(int(it, 16) for it in re.findall(r' ctl 12345678 (\w{6}) ', report))
        if drawn != list(range(count)):
            return f'{len(drawn)} numbers are drawn, and not each of the first {count} once'
        missing = [part for part in parts if part not in report]
        return f'no {missing[0]!r}' if missing else doubled(report)

    return search


def many_bearers():
    for lives, bearers, each, marks in [(1, 1, 257, ['000200']), (1, 2, 300, ['000300']), (2, 8, 512, ['001000', '002000'])]:
        life = ''.join(f'b{k} RAW\n' for k in range(bearers)) * each + 'life\n'
        parts = [f'\nend\nlife {place} 12345678 n 12345678 {mark}\n' for place, mark in enumerate(marks, 2)]
        yield f'{bearers} bearers', f'START-000\n{life * lives}', drawn_once(lives * bearers * each, [*parts, '\nend\n'])


def answered_polls(report):
    """The first answer to a Poll of 0201, or to octets that are to be kept, that isn't what the entries before it ask for. A Poll with the
    FSN of the one before is answered by the octets that were kept, and by nothing where they aren't yet; octets are kept for the last Poll."""
    lines = dict(re.findall(r'(?m)^s b\d (\d+)\.1 (.*)$', report))
    fsn, kept, updates = None, None, {}
    for place, bearer, kind, answer in re.findall(r'(?m)^e (\d+) b(\d) \d+ (\w+) (.*)$', report):
        line, polled = lines.get(place), re.match(r'control 0201 1201 \w+ \w+ 01 0(\d)', answer)
        due = line
        if kind == 'kept':
            is_due = updates[bearer][0] == fsn and kept is None
            line, due = answer, 'kept' if is_due else 'dropped'
            kept = updates[bearer][1] if is_due else kept
        elif answer.startswith('replay'):
            due = None
        elif polled and polled[1] == fsn:
            due = f'rep 1201 {kept}' if kept else None
        elif polled:
            fsn, kept, sent = polled[1], None, re.match(r'ctl (\w{8} \w{6}) ', line or '')
            updates[bearer] = fsn, sent and sent[1]
            due = f'ctl {sent and sent[1]} 00 1201 0201 02001234567800'
        if line != due:
            return f'entry {place} has {line}, and not {due}'
    return doubled(report)


def polled_at_once():
    """A Low Power node polls through two bearers, or three: at once, so that a Poll may come before the answer to the one before it is kept, or
    comes too late and is replayed. Each bearer has the lowest SEQ in its turn."""
    asks = 'START-000\nb0 peer NK 12345678 1 00 000001 0201 fffd 034b50057e400000010000\nsync\n'
    poll = 'b{} peer NK/0201/1201/0000/0000 12345678 1 00 {:06x} 0201 1201 010{}\n'
    for title, fsns in [('with one FSN', ['00', '11']), ('with both FSNs', ['01', '01']), ('and a third one', ['010', '101'])]:
        count, script = len(fsns[0]), ''
        for turn in range(200):
            for place, fsn in enumerate(fsns[turn % 2]):
                script += poll.format((turn + place) % count, 2 + count * turn + place, fsn)
            script += 'sync\n'
        yield f'Polls through two bearers {title}', f'{asks}{script}', answered_polls


def has_lines(lines):
    """Whether a report has these lines."""

    def search(report):
        missing = [line for line in lines if f'{line}\n' not in report]
        return f'no {missing[0]!r}' if missing else None

    return search


def samples_sent():
    """The node sends messages #16 and #18 of the Mesh Profile's sample data, once it has drawn six numbers: two of them for the
    acknowledgment and the Status of an AppKey Add. The node's device key may be named as that of another node."""
    drawn = 'START-456\nb0 net PDU-A\nb0 net PDU-B\n' + 'b0 RAW\n' * 4
    lines = [
        's b0 7.1 msg 12345678 000006 0b 1201 0003 dev 800300563412 68e80e5da5af0e6b9be7f5a642f2f98680e61c3a8b47f228',
        's b0 8.1 msg 12345678 000007 03 1201 ffff app:123 0400000000 6848cba437860e5673728a627fb938535508e21a6baf57',
    ]
    for key in ['dev', 'dev:DK']:
        script = f'{drawn}b0 send 0 0003 0b {key} 800300563412\nb0 send 0 ffff 03 app:123 0400000000\n'
        yield f'messages of the sample data are sent under {key}', script, has_lines(lines), ['run', '--hex']


def ticked(report):
    """What is wrong with a life of 4,096 phases, each of 9 ticks."""
    due = ''.join(f'e {place} b5 {place} tick ticked {9 * place}\n' for place in range(1, 4097))
    return None if report == f'life 1 12345678 n 12345678 000000\n{due}end\n' else 'another report'


def most_phases():
    """As many phases as a life has lines of bearers at most."""
    yield '4,096 phases', 'START-000\n' + 'b5 tick 9\nsync\n' * 4096, ticked


def all_cases():
    yield from cut_anywhere()
    yield from many_bearers()
    yield from polled_at_once()
    yield from samples_sent()
    yield from most_phases()
