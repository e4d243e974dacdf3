"""Reads a script: its lines, or the first line that breaks a rule, and where.

The grammar is that of docs/FORMATS.md, "The script", with the numbers of its rules.
"""
import re
from collections.abc import Callable
from typing import NamedTuple

from .ends import NO_SCRIPT, Fault
from .forms import (LONGEST_CONTROL_TRANSPORT, LONGEST_PAYLOAD, LONGEST_TRANSPORT,
                    UNSEGMENTED_PAYLOAD, Digits, Form, decimal, is_unicast, is_virtual, matching,
                    narrowed, one_of, padded_decimal)

LONGEST_TEXT, LONGEST_LINE = 4_194_304, 1_200
LIVES, EVENTS_OF_LIFE = 64, 4_096
TRANS_MIC, PIECE = 4, 12
FURTHEST_PIECE = 8_191

HEX = Digits(either_case=True)
_KEY = f'{HEX.digit}{{32}}'
NET = matching('NET', '32 hexadecimal digits, or KEY/LPN/FRIEND/LPNCOUNTER/FRIENDCOUNTER with 32 '
               'and four times 4', f'{_KEY}(?:/{HEX.digit}{{4}}){{4}}|{_KEY}')
UKEY = matching('UKEY', 'dev: or app: and 32 hexadecimal digits', f'(?:dev|app):{_KEY}')
TALK_DST = matching('DST', '4 hexadecimal digits, or v: and 32', f'{HEX.digit}{{4}}|v:{_KEY}')
SEND_KEY = matching('KEY', 'dev, dev: and 32 hexadecimal digits, or app: and 3',
                    f'dev|dev:{_KEY}|app:{HEX.digit}{{3}}')
IV, SEQ, SRC, TTL = HEX.fixed('IV', 8), HEX.fixed('SEQ', 6), HEX.fixed('SRC', 4), HEX.ttl()
FLAGS = narrowed(HEX.fixed('FLAGS', 2), '00 to 03', lambda word: int(word, 16) <= 3)
PAYLOAD = HEX.octets('PAYLOAD', 1, LONGEST_PAYLOAD)
PIECE_OF = matching('PIECE', 'u, or a number with no zero in front', 'u|0|[1-9][0-9]*')


class Failing(NamedTuple):
    """The place of a word in its line, from 1 on, and what it has to be."""
    place: int
    due: str


class Refused(Exception):
    """The first line that breaks a rule, that rule, and the word that fails, if one does."""

    def __init__(self, line: int, rule: int, due: str, place: int | None = None) -> None:
        super().__init__(f'script {line} {rule}')
        self.line, self.rule, self.due, self.place = line, rule, due, place


class TooLong(Exception):
    """The text has more than 4,194,304 octets."""


class Provision(NamedTuple):
    """The data that the node begins with."""
    unicast: int
    elements: int
    iv: int
    flags: int
    net: int
    net_key: bytes
    device_key: bytes


class Event(NamedTuple):
    """A line of a bearer: its number, its words behind `bK`, and the line."""
    line: int
    bearer: int
    word: str
    words: tuple[str, ...]
    text: str


class LifePlan(NamedTuple):
    """The lines of a life."""
    line: int
    events: list[Event]


class Script(NamedTuple):
    """A text that breaks no rule."""
    provision: Provision
    lives: list[LifePlan]


Across = Callable[[tuple[str, ...], 'Provision | None'], 'Failing | None']
"""What fails of words that each have their form; places count from the first word behind the line's
name."""


class LineForm(NamedTuple):
    """The words behind the name of a line, what the line means, and what ties its words."""
    words: tuple[Form, ...]
    means: str
    across: Across = lambda words, provision: None


def _update_flag(flags: str, iv: str, place: int) -> Failing | None:
    if int(flags, 16) & 2 and int(iv, 16) == 0:
        return Failing(place, 'without bit 1 (IV Update), since IV is 00000000')
    return None


def _across_provision(words: tuple[str, ...], _: Provision | None) -> Failing | None:
    unicast, elements = int(words[0], 16), int(words[1])
    if not (is_unicast(unicast) and is_unicast(unicast + elements - 1)):
        return Failing(1, 'such that each element has an address from 0001 to 7fff')
    return _update_flag(words[3], words[2], 4)


def _across_peer(words: tuple[str, ...], _: Provision | None) -> Failing | None:
    if words[2] == '1' and len(words[7]) > 2 * LONGEST_CONTROL_TRANSPORT:
        return Failing(8, f'at most {LONGEST_CONTROL_TRANSPORT} octets, since CTL is 1')
    return None


def _across_talk(words: tuple[str, ...], _: Provision | None) -> Failing | None:
    ahead = int(words[5], 16) - int(words[4], 16)
    length = len(words[9]) // 2
    if words[8] == 'u':
        if length > UNSEGMENTED_PAYLOAD:
            return Failing(10, f'at most {UNSEGMENTED_PAYLOAD} octets, since PIECE is u')
        return Failing(6, 'equal to AUTH, since PIECE is u') if ahead else None
    pieces = -(-(length + TRANS_MIC) // PIECE)
    if int(words[8]) >= pieces:
        return Failing(9, f'the SegO of a segment, 0 to {pieces - 1} of this payload')
    if not 0 <= ahead <= FURTHEST_PIECE:
        return Failing(6, f'AUTH or at most {FURTHEST_PIECE} above it')
    return None


def _across_send(words: tuple[str, ...], provision: Provision | None) -> Failing | None:
    if provision and int(words[0]) >= provision.elements:
        return Failing(1, f'below ELEMENTS, which is {provision.elements}')
    dst = int(words[1], 16)
    if dst == 0 or is_virtual(dst):
        return Failing(2, 'neither unassigned nor virtual')
    return None


def _across_raw(words: tuple[str, ...], _: Provision | None) -> Failing | None:
    return Failing(1, 'an address, not 0000') if int(words[0], 16) == 0 else None


def _across_beacon(words: tuple[str, ...], _: Provision | None) -> Failing | None:
    return _update_flag(words[1], words[2], 2)


LINES: dict[str, LineForm] = {
    'provision': LineForm(
        (HEX.fixed('UNICAST', 4), decimal('ELEMENTS', 4, 1), IV, FLAGS, HEX.fixed('NETIDX', 3),
         HEX.fixed('NETKEY', 32), HEX.fixed('DEVKEY', 32)),
        'the data that the node is provisioned with; the first line that counts',
        _across_provision),
    'life': LineForm((), 'power on; the lines behind it are those of this life'),
    'sync': LineForm((), 'all bearers are joined, then go on'),
    'arm': LineForm((padded_decimal('CALLS', 0, 100_000), HEX.fixed('MASK', 2)),
                    'a sync; after so many more program and erase calls the next one is torn')}
"""The lines of the whole node, by their first word."""

EVENTS: dict[str, LineForm] = {
    'net': LineForm((HEX.octets('HEX', 1, 40),), 'the bearer hears these octets as a network PDU'),
    'bcn': LineForm((HEX.octets('HEX', 1, 40),), 'the bearer hears these octets as a beacon'),
    'peer': LineForm(
        (NET, IV, one_of('CTL', '0', '1'), TTL, SEQ, SRC, HEX.fixed('DST', 4),
         HEX.octets('TPDU', 1, LONGEST_TRANSPORT)),
        'the bearer hears the network PDU that an outside node seals from these fields',
        _across_peer),
    'talk': LineForm(
        (NET, UKEY, IV, TTL, HEX.fixed('AUTH', 6), SEQ, SRC, TALK_DST, PIECE_OF, PAYLOAD),
        "the bearer hears one PDU of an outside node's access message", _across_talk),
    'beacon': LineForm((HEX.fixed('NETKEY', 32), FLAGS, IV),
                       "the bearer hears an outside node's Secure Network beacon", _across_beacon),
    'send': LineForm((decimal('ELEMENT', 3), HEX.fixed('DST', 4), TTL, SEND_KEY, PAYLOAD),
                     'the node sends an access message', _across_send),
    'raw': LineForm((HEX.fixed('DST', 4), TTL,
                     HEX.octets('TPDU', 1, LONGEST_CONTROL_TRANSPORT)),
                    'the node sends a control PDU', _across_raw),
    'tick': LineForm((padded_decimal('N', 1, 100_000_000),), 'N ticks of 10 ms pass')}
"""The lines of a bearer, by the word behind `bK`."""


class Grammar(NamedTuple):
    """The lines of a kind of node, by their first word and by the word behind `bK`, and its bearers."""
    lines: dict[str, LineForm]
    events: dict[str, LineForm]
    bearers: int


NODE = Grammar(LINES, EVENTS, 8)
LOW_POWER = Grammar(
    {word: LINES[word] for word in ('provision', 'life', 'arm')},
    {'net': EVENTS['net'], 'peer': EVENTS['peer'],
     'seek': LineForm((), 'the node looks for a friend'),
     'poll': LineForm((), 'it asks its friend for a stored message'),
     'list': LineForm((narrowed(HEX.fixed('ADDR', 4), 'c000 to feff',
                                lambda word: 0xc000 <= int(word, 16) <= 0xfeff),),
                      'it asks its friend to store what goes to this address, too')}, 1)

RULES = {
    1: 'a line, a comment too, has at most 1,200 octets without its end, all of them 20 to 7e',
    2: 'the first line that counts is `provision`; a line counts if it isn\'t empty and doesn\'t '
       'begin with `#`; where none counts, the last line fails',
    3: 'the words of a line are known ones, and bearers are b0 to b7',
    4: 'a line has its number of words, with spaces between them alone',
    5: 'each word is of its form and range',
    6: 'there is one `provision`, lines stand behind a `life`, and a life has one `arm` at most',
    7: 'there are at most 64 lives, each with at most 4,096 lines of bearers'}
"""What each rule asks for."""


def lines_of(text: str) -> list[str]:
    """The lines without what ends them; the last one may be empty."""
    *ended, last = text.split('\n')
    return [line.removesuffix('\r') for line in ended] + [last]


def counts(line: str) -> bool:
    """Whether a line is one of the script and no comment."""
    return line != '' and not line.startswith('#')


def form_of(words: list[str], grammar: Grammar = NODE) -> tuple[LineForm, int] | Failing:
    """The form of a line by its first words and how many these are, or the word that is unknown."""
    last = grammar.bearers - 1
    if words[0] in grammar.lines:
        return grammar.lines[words[0]], 1
    if not re.fullmatch(f'b[0-{last}]', words[0]):
        bearers = f'b0 to b{last}' if last else 'b0'
        return Failing(1, f"one of {', '.join(grammar.lines)}, or {bearers}")
    if len(words) < 2:
        return LineForm((one_of('EVENT', *grammar.events),), ''), 1
    if words[1] not in grammar.events:
        return Failing(2, f"one of {', '.join(grammar.events)}")
    return grammar.events[words[1]], 2


def _check_octets(number: int, line: str) -> None:
    """That a line keeps rule 1."""
    if len(line) > LONGEST_LINE:
        raise Refused(number, 1, f'at most {LONGEST_LINE} octets, and not {len(line)}')
    if line.isascii() and line.isprintable():
        return
    odd = re.search('[^ -~]', line)
    raise Refused(number, 1, f'octets 20 to 7e, and not {ord(odd[0]):02x} at octet '
                  f'{odd.start() + 1}', line[:odd.start()].count(' ') + 1)


def check_words(number: int, line: str, provision: Provision | None,
                grammar: Grammar = NODE) -> list[str]:
    """The words of a line that keeps the rules 3 to 5."""
    words = re.split(' +', line)
    found = form_of(words, grammar)
    if isinstance(found, Failing):
        raise Refused(number, 3, found.due, found.place)
    form, named = found
    if len(words) != named + len(form.words):
        due = ' '.join([*words[:named], *(it.name for it in form.words)])
        raise Refused(number, 4, f'{named + len(form.words)} words: {due}')
    for place, (word, it) in enumerate(zip(words[named:], form.words), named + 1):
        if not it.fits(word):
            raise Refused(number, 5, f'{it.name}: {it.says}', place)
    failing = form.across(tuple(words[named:]), provision)
    if failing:
        name = form.words[failing.place - 1].name
        raise Refused(number, 5, f'{name}: {failing.due}', named + failing.place)
    return words


def _provision_of(words: list[str]) -> Provision:
    unicast, elements, iv, flags, net, net_key, device_key = words[1:]
    return Provision(int(unicast, 16), int(elements), int(iv, 16), int(flags, 16), int(net, 16),
                     bytes.fromhex(net_key), bytes.fromhex(device_key))


class _Reading:
    """What was read so far."""

    def __init__(self, grammar: Grammar) -> None:
        self.grammar = grammar
        self.provision: Provision | None = None
        self.lives: list[LifePlan] = []
        self.is_armed = False

    def take(self, number: int, line: str) -> None:
        """A line that counts, its octets looked at."""
        if self.provision is None and line.split(' ')[0] != 'provision':
            raise Refused(number, 2, 'provision', 1)
        words = check_words(number, line, self.provision, self.grammar)
        if words[0] == 'provision':
            if self.provision:
                raise Refused(number, 6, 'no second provision', 1)
            self.provision = _provision_of(words)
        elif words[0] == 'life':
            self._begin_life(number)
        elif not self.lives:
            raise Refused(number, 6, 'a line behind the first life', 1)
        elif words[0] == 'arm':
            if self.is_armed:
                raise Refused(number, 6, 'no second arm in this life', 1)
            self.is_armed = True
        elif words[0] != 'sync':
            self._add_event(number, line, words)

    def _begin_life(self, number: int) -> None:
        if len(self.lives) == LIVES:
            raise Refused(number, 7, f'at most {LIVES} lives')
        self.lives.append(LifePlan(number, []))
        self.is_armed = False

    def _add_event(self, number: int, line: str, words: list[str]) -> None:
        events = self.lives[-1].events
        if len(events) == EVENTS_OF_LIFE:
            raise Refused(number, 7, f'at most {EVENTS_OF_LIFE} lines of bearers in a life')
        events.append(Event(number, int(words[0][1]), words[1], tuple(words[2:]), line))


def read_script(text: str, grammar: Grammar = NODE) -> Script:
    """The script of a kind of node that a text is; else raises `Refused`, or `TooLong`."""
    if len(text) > LONGEST_TEXT:
        raise TooLong(text[:0])
    reading, lines = _Reading(grammar), lines_of(text)
    for number, line in enumerate(lines, 1):
        _check_octets(number, line)
        if counts(line):
            reading.take(number, line)
    if reading.provision is None:
        raise Refused(len(lines), 2, 'a provision in some line')
    return Script(reading.provision, reading.lives)


def read_any(text: str) -> Script:
    """The script that a text is, of a node or else of a Low Power node; else raises what it breaks
    as a node's."""
    try:
        return read_script(text)
    except Refused as refused:
        try:
            return read_script(text, LOW_POWER)
        except Refused:
            raise refused from None


def script_of(path: str, text: str) -> Script:
    """The script of a file; a text that is none ends the tool."""
    try:
        return read_any(text)
    except TooLong:
        raise Fault(NO_SCRIPT, f'{path}: toolong: more than {LONGEST_TEXT} octets') from None
    except Refused as refused:
        line = lines_of(text)[refused.line - 1]
        at = f', word {refused.place}' if refused.place else ''
        raise Fault(NO_SCRIPT, f'{path}:{refused.line}: {refused}: due{at}: {refused.due}\n'
                    f'  {line[:200]}') from None
