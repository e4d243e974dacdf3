"""Reads a report: lives with their entries and jobs, or the first line that is of no report.

The lines are those of docs/FORMATS.md, "The report". Those of a life may come in any order between
its first and its last, so a log that tells each entry with its jobs as they come is read as well,
and the last life may have no end yet.
"""
import re
from collections import Counter
from typing import NamedTuple

from .ends import NO_REPORT, Fault
from .forms import (LONGEST_CONTROL, LONGEST_PAYLOAD, LONGEST_TRANSPORT, UNSEGMENTED_PAYLOAD,
                    Digits, Form, decimal, matching, one_of)

BYTE, WORD, DOUBLE_WORD = 2**8 - 1, 2**32 - 1, 2**64 - 1
LONGEST_PDU, BEACON = 29, 22
SEQ_END = 2**24
ROOM = 8

HEX = Digits(either_case=False)
IV, SEQ, SRC = HEX.fixed('IV', 8), HEX.fixed('SEQ', 6), HEX.fixed('SRC', 4)
DST, TTL, AUTH = HEX.fixed('DST', 4), HEX.ttl(), HEX.fixed('AUTH', 6)
KEY = matching('KEY', 'dev, or app: and 3 hexadecimal digits', f'dev|app:{HEX.digit}{{3}}')
OCTETS = HEX.octets('OCTETS', 1, LONGEST_PDU)
TPDU = HEX.octets('TPDU', 1, LONGEST_TRANSPORT)
PAYLOAD = HEX.octets('PAYLOAD', 1, LONGEST_PAYLOAD)
PARAMS = matching('PARAMS', f'- or at most {LONGEST_CONTROL} octets',
                  f'-|(?:{HEX.digit}{{2}}){{1,{LONGEST_CONTROL}}}')
NAME = matching('SRC/IV/SEQ', 'the name of a message',
                f'{HEX.digit}{{4}}/{HEX.digit}{{8}}/{HEX.digit}{{6}}')
KEYSTEP = one_of('KEYSTEP', 'same', 'phase2', 'phase0')
IVSTEP = one_of('IVSTEP', 'ignore', 'begin', 'finish', 'recover', 'wait')

ANSWERS: dict[str, tuple[tuple[str, ...], tuple[Form, ...]]] = {
    'unread': (('net', 'bcn'), ()), 'badaddress': (('net',), ()), 'own': (('net',), ()),
    'notmine': (('net',), ()), 'malformed': (('net',), ()), 'replay': (('net',), (IV, SEQ)),
    'nokey': (('net',), ()), 'listfull': (('net',), (decimal('N', WORD),)),
    'control': (('net',), (SRC, DST, IV, SEQ, HEX.fixed('OPCODE', 2), PARAMS)),
    'delivered': (('net',), (SRC, DST, IV, SEQ, KEY, PAYLOAD)),
    'cached': (('net',), ()), 'again': (('net',), ()), 'noroom': (('net',), (NAME,) * ROOM),
    'conflict': (('net',), ()), 'waiting': (('net',), (decimal('N', BYTE),)),
    'beacon': (('bcn',), (HEX.fixed('IDX', 3), KEYSTEP, IVSTEP)),
    'planned': (('send', 'raw'), ()), 'noappkey': (('send',), (HEX.fixed('IDX', 3),)),
    'ticked': (('tick',), (decimal('NOW', DOUBLE_WORD),)), 'moved': (('begin',), (IV,)),
    'befriended': (('begin',), ()), 'sendfull': (('begin',), (decimal('N', BYTE),)),
    'begun': (('begin',), ()), 'kept': (('kept',), ()), 'dropped': (('kept',), ()),
    'segmented': (('net',), ()), 'unasked': (('net',), ()), 'repeat': (('net',), ()),
    'sought': (('seek',), ()), 'polled': (('poll',), ()), 'listed': (('list',), ()),
    'toomany': (('list',), (decimal('N', WORD),)), 'nofriend': (('poll', 'list'), ()),
    'reset': (('net', 'bcn', 'send', 'raw', 'tick'), ())}
"""Of each answer the kinds of entries that have it, and the words behind it."""
IGNORE_RULE = decimal('RULE', BYTE)

RESULTS: dict[str, tuple[Form, ...]] = {
    'ctl': (IV, SEQ, TTL, SRC, DST, TPDU),
    'msg': (IV, SEQ, TTL, SRC, DST, KEY, HEX.octets('PAYLOAD', 1, UNSEGMENTED_PAYLOAD)),
    'seg': (IV, SEQ, TTL, SRC, DST, decimal('SEGO', 31), decimal('SEGN', 31), AUTH),
    'relay': (IV, SEQ, one_of('CTL', '0', '1'), TTL, SRC, DST, TPDU),
    'long': (IV, SEQ, TTL, SRC, DST, KEY, PAYLOAD),
    'rep': (SRC, IV, SEQ), 'bcn': (HEX.octets('OCTETS', BEACON, BEACON),),
    'spent': (IV,), 'late': (IV, SEQ)}
"""Of each result the words behind it, without the octets that `--hex` shows."""
WITH_OCTETS = ('ctl', 'msg', 'seg', 'relay', 'rep')
DRAWING = ('ctl', 'msg', 'seg', 'long', 'late')
"""The results that name a sequence number that the node drew."""
KINDS = ('net', 'bcn', 'send', 'raw', 'tick', 'begin', 'kept', 'seek', 'poll', 'list')
OWN_KINDS = ('begin', 'kept')
"""The kinds of entries that no line of a script makes."""


class Entry(NamedTuple):
    """A line `e`: `place` counts the entries of its bearer, `words` stand behind the answer."""
    line: int
    number: int
    bearer: int
    place: int
    kind: str
    answer: str
    words: tuple[str, ...]

    @property
    def text(self) -> str:
        """The answer as the line has it."""
        return ' '.join((self.answer, *self.words))


class Job(NamedTuple):
    """A line `s`: job `place` of entry `entry`, with the octets of its PDU where they are shown."""
    line: int
    bearer: int
    entry: int
    place: int
    result: str
    words: tuple[str, ...]
    octets: bytes | None

    def field(self, name: str) -> str | None:
        """The word of this name, None where this result has none."""
        names = [form.name for form in RESULTS[self.result]]
        return self.words[names.index(name)] if name in names else None

    @property
    def text(self) -> str:
        """The result as the line has it, without octets."""
        return ' '.join((self.result, *self.words))


class Opening(NamedTuple):
    """What a life begins with."""
    current: int
    in_progress: bool
    transmit: int
    next: int


class Life:
    """A life: `opening` is None where it wasn't run, `ending` is `end`, `cut`, `wasreset`, or None
    where the report ends before it does. `calls` is that of a cut."""

    def __init__(self, line: int, number: int, opening: Opening | None, ending: str | None) -> None:
        self.line, self.number, self.opening, self.ending = line, number, opening, ending
        self.calls: int | None = None
        self.entries: list[Entry] = []
        self.jobs: list[Job] = []

    def jobs_of(self) -> dict[int, list[Job]]:
        """The jobs of each entry, in order."""
        found: dict[int, list[Job]] = {entry.number: [] for entry in self.entries}
        for job in sorted(self.jobs, key=lambda job: job.place):
            found[job.entry].append(job)
        return found


class NotReport(Exception):
    """The first line that is of no report, and what is due there."""

    def __init__(self, line: int, due: str) -> None:
        super().__init__(f'report {line}')
        self.line, self.due = line, due


def _fits(forms: tuple[Form, ...], words: list[str]) -> str | None:
    """What is due where words don't have these forms."""
    if len(words) != len(forms):
        return f"so many words: {' '.join(form.name for form in forms) or 'none'}"
    return next((f'{form.name}: {form.says}' for form, word in zip(forms, words)
                 if not form.fits(word)), None)


def _opening(number: int, words: list[str]) -> Opening:
    forms = (HEX.fixed('CURRENT', 8), one_of('STATE', 'n', 'p'), HEX.fixed('TRANSMIT', 8),
             matching('NEXT', '6 hexadecimal digits or 1000000', f'{HEX.digit}{{6}}|1000000'))
    due = _fits(forms, words)
    if due:
        raise NotReport(number, due)
    current, transmit = int(words[0], 16), int(words[2], 16)
    in_progress = words[1] == 'p'
    if transmit != (max(current - 1, 0) if in_progress else current):
        raise NotReport(number, 'TRANSMIT: CURRENT, or with STATE p one less')
    return Opening(current, in_progress, transmit, int(words[3], 16))


def _life(number: int, words: list[str]) -> Life:
    if len(words) < 3 or not decimal('N', WORD).fits(words[1]):
        raise NotReport(number, 'life N CURRENT STATE TRANSMIT NEXT, life N wasreset or life N cut')
    if words[2] in ('wasreset', 'cut') and len(words) == 3:
        return Life(number, int(words[1]), None, words[2])
    return Life(number, int(words[1]), _opening(number, words[2:]), None)


BEARER = Form('bK', 'b and a number up to 255',
              lambda word: word[:1] == 'b' and decimal('K', BYTE).fits(word[1:]))


def answer_forms(words: list[str]) -> tuple[Form, ...] | None:
    """The forms of the words behind an answer; None where it is unknown."""
    if not words or words[0] not in ANSWERS:
        return None
    forms = ANSWERS[words[0]][1]
    is_ignored = words[0] == 'beacon' and 'ignore' in words[3:4]
    return (*forms, IGNORE_RULE) if is_ignored else forms


def _entry(number: int, words: list[str]) -> Entry:
    forms = (decimal('I', WORD), BEARER, decimal('J', WORD), one_of('KIND', *KINDS),
             one_of('ANSWER', *ANSWERS))
    due = _fits(forms, words[1:6])
    if due:
        raise NotReport(number, due)
    kind, answer, *rest = words[4:]
    due = _fits(answer_forms(words[5:]) or (), rest)
    if due:
        raise NotReport(number, f'behind {answer} {due}')
    return Entry(number, int(words[1]), int(words[2][1:]), int(words[3]), kind, answer,
                 tuple(rest))


PLACE = Form('I.J', 'an entry and a job of it, two numbers with a dot between', lambda word:
             re.fullmatch(r'(0|[1-9]\d*)\.(0|[1-9]\d*)', word) is not None
             and int(word.split('.')[0]) <= WORD and int(word.split('.')[1]) <= BYTE)


def _job(number: int, words: list[str]) -> Job:
    due = _fits((BEARER, PLACE, one_of('RESULT', *RESULTS)), words[1:4])
    if due:
        raise NotReport(number, due)
    result, rest = words[3], words[4:]
    forms = RESULTS[result]
    has_octets = result in WITH_OCTETS and len(rest) == len(forms) + 1
    due = _fits((*forms, OCTETS) if has_octets else forms, rest)
    if due:
        raise NotReport(number, f'behind {result} {due}')
    octets = bytes.fromhex(rest.pop()) if has_octets else None
    octets = bytes.fromhex(rest[0]) if result == 'bcn' else octets
    entry, place = words[2].split('.')
    return Job(number, int(words[1][1:]), int(entry), int(place), result, tuple(rest), octets)


Line = Life | Entry | Job | int | str
"""A line of a report: of a cut its calls, of an end the word."""


def read_line(number: int, line: str) -> Line:
    """The line with this number; else raises `NotReport`."""
    words = line.split(' ')
    if words[0] == 'life':
        return _life(number, words)
    if words[0] == 'e':
        return _entry(number, words)
    if words[0] == 's':
        return _job(number, words)
    if words[0] == 'cut' and len(words) == 2 and decimal('CALLS', WORD).fits(words[1]):
        return int(words[1])
    if line == 'end':
        return line
    raise NotReport(number, 'a line of a report: life, e, s, end or cut, with its words')


def ended_lines(text: str) -> list[str]:
    """The lines, each of which ends with LF."""
    *lines, last = text.split('\n')
    if last:
        raise NotReport(len(lines) + 1, 'LF behind the last line')
    return lines


def _check_life(life: Life) -> None:
    """The numbers of its entries, and that its jobs are of its entries."""
    seen: Counter[int] = Counter()
    bearers = {}
    for number, entry in enumerate(life.entries, 1):
        seen[entry.bearer] += 1
        bearers[number] = entry.bearer
        if (entry.number, entry.place) != (number, seen[entry.bearer]):
            raise NotReport(entry.line, f'entry {number}, with {seen[entry.bearer]} behind its '
                            'bearer')
        if entry.kind not in ANSWERS[entry.answer][0]:
            raise NotReport(entry.line, f'an answer to {entry.kind}')
    for job in life.jobs:
        if bearers.get(job.entry) != job.bearer:
            raise NotReport(job.line, f'a job of an entry of b{job.bearer} in this life')


def read_report(text: str) -> list[Life]:
    """The lives of a report; else raises `NotReport`."""
    lives: list[Life] = []
    for number, line in enumerate(ended_lines(text), 1):
        read = read_line(number, line)
        is_open = bool(lives) and lives[-1].ending is None
        if isinstance(read, Life) is is_open:
            raise NotReport(number, 'a line of the life that is open' if is_open
                            else 'the first line of a life')
        if isinstance(read, Life):
            lives.append(read)
        elif isinstance(read, Entry):
            lives[-1].entries.append(read)
        elif isinstance(read, Job):
            lives[-1].jobs.append(read)
        else:
            lives[-1].ending = 'end' if read == 'end' else 'cut'
            lives[-1].calls = read if isinstance(read, int) else None
    for life in lives:
        _check_life(life)
    return lives


def report_of(path: str, text: str) -> list[Life]:
    """The lives of a report's file; a text that is none ends the tool."""
    try:
        return read_report(text)
    except NotReport as refused:
        lines = text.split('\n')
        raise Fault(NO_REPORT, f'{path}:{refused.line}: no line of a report: due is {refused.due}\n'
                    f'  {lines[refused.line - 1][:200]}') from None
