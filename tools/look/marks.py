"""How entries and jobs are told in a picture: their colours, and the words on them and under the
pointer."""
from typing import NamedTuple

from .opcodes import access_words, control_words, spaced, transport_words
from .report import Job, Opening
from .runs import Step
from .script import Event

TICKS_OF_SECOND = 100


class Group(NamedTuple):
    """Answers that look alike: what they have in common, fill and frame."""
    name: str
    fill: str
    frame: str


ACCEPTED = Group('accepted', '#cdeccd', '#2e7d32')
WAITING = Group('waits for pieces', '#fdf3c4', '#b8860b')
PASSED = Group('passed over', '#ececec', '#757575')
REFUSED = Group('refused', '#f9d3cf', '#b3261e')
BEACON = Group('beacon', '#d3e9f7', '#0b6394')
OWN = Group('of the node itself', '#dfdcf7', '#4b3fa7')
TIME = Group('time passes', '#f7f7f4', '#9a9a90')
GROUPS = (ACCEPTED, WAITING, PASSED, REFUSED, BEACON, OWN, TIME)

_ANSWERS = {ACCEPTED: ('delivered', 'control'), WAITING: ('waiting',),
            PASSED: ('cached', 'notmine', 'own', 'again', 'repeat', 'reset'),
            REFUSED: ('unread', 'badaddress', 'malformed', 'replay', 'nokey', 'listfull', 'noroom',
                      'conflict', 'noappkey', 'moved', 'befriended', 'sendfull', 'dropped',
                      'segmented', 'unasked', 'nofriend', 'toomany'),
            BEACON: ('beacon',), TIME: ('ticked',),
            OWN: ('planned', 'begun', 'kept', 'sought', 'polled', 'listed')}
GROUP_OF = {answer: group for group, answers in _ANSWERS.items() for answer in answers}
SENT, SENT_FRAME = '#ffffff', '#37474f'
NOT_SENT, NOT_SENT_FRAME = '#f4f4f4', '#9e9e9e'
REFILL, CUT = '#e08a00', '#b3261e'


def seconds(ticks: int) -> str:
    """Ticks of 10 ms in hours, minutes and seconds."""
    whole, rest = divmod(ticks, TICKS_OF_SECOND)
    minutes, of_minute = divmod(whole, 60)
    hours, of_hour = divmod(minutes, 60)
    front = f'{hours} h {of_hour} min ' if hours else f'{minutes} min ' if minutes else ''
    return f'{front}{of_minute}.{rest:02} s'


def _of_script(event: Event | None) -> list[str]:
    """What a line of the script says, for an entry whose answer says little."""
    if event is None:
        return []
    word, words = event.word, event.words
    if word == 'peer':
        return [f'{words[5]} → {words[6]}', f'SEQ {words[4]} TTL {words[3]}',
                transport_words(words[2], words[7])]
    if word == 'talk':
        piece = '' if words[8] == 'u' else f' piece {words[8]}'
        dst = words[7] if len(words[7]) == 4 else 'a label'
        return [f'{words[6]} → {dst}', f'SEQ {words[5]}{piece}',
                access_words(words[1], words[9])]
    if word == 'send':
        return [f'→ {words[1]} TTL {words[2]}', words[3][:7], access_words(words[3], words[4])]
    if word == 'raw':
        return [f'→ {words[0]} TTL {words[1]}', transport_words('1', words[2])]
    if word == 'beacon':
        return [f'flags {words[1]}', f'IV Index {words[2]}']
    if word == 'tick':
        return [f'{words[0]} ticks']
    return [spaced(words[0])] if words else []


def event_words(event: Event) -> str:
    """A line of a script in short."""
    return f"line {event.line}, b{event.bearer} {event.word} {', '.join(_of_script(event))}"


def details(step: Step) -> list[str]:
    """The lines under an answer."""
    answer, words = step.entry.answer, step.entry.words
    if answer == 'delivered':
        src, dst, _, seq, key, payload = words
        return [f'{src} → {dst}', f'SEQ {seq} {key}', access_words(key, payload)]
    if answer == 'control':
        src, dst, _, seq, opcode, params = words
        return [f'{src} → {dst}', f'SEQ {seq}', control_words(opcode, params)]
    if answer == 'replay':
        return [*_of_script(step.event)[:2], f'the list has {words[1]}']
    if answer == 'waiting':
        pieces = 'piece is' if words[0] == '1' else 'pieces are'
        return [f'{words[0]} {pieces} missing', *_of_script(step.event)[:2]]
    if answer == 'beacon':
        return [f'network key {words[0]}', f'phase: {words[1]}', f"IV: {' '.join(words[2:])}"]
    if answer == 'ticked':
        return [seconds(int(words[0]))]
    return _of_script(step.event) or [' '.join(words)]


def entry_title(step: Step, life: int) -> str:
    """All that is told of an entry."""
    entry = step.entry
    lines = [f'life {life}, entry {entry.number}, b{entry.bearer}, {seconds(step.at)}',
             f'{entry.kind}: {entry.text}']
    if step.event:
        lines.append(f'line {step.event.line} of the script: {step.event.text}')
    return '\n'.join(lines + [f'job {job.place}: {job.text}' for job in step.jobs])


def job_words(job: Job) -> tuple[str, str]:
    """The two lines on a job."""
    seq, dst = job.field('SEQ'), job.field('DST')
    head = ' '.join([job.result, *([seq] if seq else []), *([f'→ {dst}'] if dst else [])])
    if job.result in ('ctl', 'relay'):
        return head, transport_words(job.field('CTL') or '1', job.field('TPDU'))
    if job.result in ('msg', 'long'):
        key = job.field('KEY')
        return head, f"{key} {access_words(key, job.field('PAYLOAD'))}"
    if job.result == 'seg':
        return head, f"piece {job.field('SEGO')} of 0 to {job.field('SEGN')}"
    if job.result == 'rep':
        return head, f"of {job.field('SRC')}, once more"
    if job.result == 'bcn':
        return 'bcn', spaced(job.words[0])
    return head, 'nothing went out'


def job_title(job: Job) -> str:
    """All that is told of a job."""
    octets = f'\noctets: {job.octets.hex()}' if job.octets else ''
    return f'job {job.entry}.{job.place} of b{job.bearer}: {job.text}{octets}'


def opening_words(number: int, opening: Opening) -> str:
    """The head of a life."""
    state = 'IV Update in Progress, ' if opening.in_progress else ''
    transmits = f'transmits under {opening.transmit:08x}, ' if opening.in_progress else ''
    return (f'life {number}   IV Index {opening.current:08x}, {state}{transmits}'
            f'next SEQ {opening.next:06x}')
