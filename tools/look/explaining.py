"""Explains what the program said: an answer, a result, a verdict, a refusal, a line.

With the text that the program was given, the line is shown with its words numbered and the one that
fails marked.
"""
import re
from collections.abc import Iterator

from . import meanings, report, script
from .ends import NO_MEANING, NO_SCRIPT, Fault
from .forms import Form, decimal
from .meanings import Meaning
from .opcodes import access_words, control_words, transport_words
from .report import Entry, Job, Life, NotReport, read_line
from .script import Refused, TooLong
from .second_node import NetworkPdu, material, open_network

LONGEST_WORD = 44
KEYS_OF_AUDIT = 16
NUMBER = decimal('N', 2**32 - 1)


def _shown(word: str) -> str:
    """A word, or its front where it is long; octets that no line has are told by their number."""
    word = re.sub('[^ -~]', lambda odd: f'\\x{ord(odd[0]):02x}', word)
    if len(word) <= LONGEST_WORD:
        return word or '(an empty word)'
    return f'{word[:LONGEST_WORD]}… ({len(word)} characters)'


def _numbered(words: list[str], names: list[str], failing: int | None = None,
              due: str = '') -> Iterator[str]:
    """The words with their numbers and what they are called, one marked."""
    for place, word in enumerate(words, 1):
        mark = '>' if place == failing else ' '
        name = names[place - 1] if place <= len(names) else ''
        yield f' {mark}{place:3}  {_shown(word):{LONGEST_WORD // 2}}  {name}'.rstrip()
        if place == failing:
            yield f'       due: {due}'


def _told(meaning: Meaning) -> Iterator[str]:
    yield meaning.says
    if meaning.do:
        yield f'What to do: {meaning.do}'


def _of_forms(head: str, forms: tuple[Form, ...], words: list[str]) -> Iterator[str]:
    """A heading, and the words behind it with what they are."""
    yield ' '.join([head, *(form.name for form in forms)])
    if words and len(words) != len(forms):
        raise Fault(NO_MEANING, f'{head} has {len(forms)} words behind it, and not {len(words)}')
    for form, word in zip(forms, words):
        if not form.fits(word):
            raise Fault(NO_MEANING, f'{form.name} is {form.says}, and not {_shown(word)}')
        yield f'  {form.name:8} {_shown(word)}'


def _named(fields: dict[str, str]) -> Iterator[str]:
    """The name of the message that these fields have, if they have one."""
    message = None
    if 'PAYLOAD' in fields:
        message = access_words(fields['KEY'], fields['PAYLOAD'])
    elif 'OPCODE' in fields:
        message = control_words(fields['OPCODE'], fields['PARAMS'])
    elif 'TPDU' in fields:
        message = transport_words(fields.get('CTL', '1'), fields['TPDU'])
    if message and message[:1].isupper():
        yield f'The message is {message}.'


def _answer(words: list[str]) -> Iterator[str]:
    answer, rest = words[0], words[1:]
    kinds, forms = report.ANSWERS[answer]
    if answer == 'beacon' and rest[2:3] == ['ignore']:
        forms = (*forms, report.IGNORE_RULE)
    yield f'an answer to {", ".join(kinds)}'
    yield from _of_forms(answer, forms, rest)
    yield from _named(dict(zip((form.name for form in forms), rest)))
    yield from _told(meanings.ANSWERS[answer])
    if answer == 'beacon' and rest[3:4] and rest[3] in meanings.IGNORED:
        yield f'The IV Index was ignored by rule {rest[3]}: {meanings.IGNORED[rest[3]]}.'


def _result(words: list[str]) -> Iterator[str]:
    result, rest = words[0], words[1:]
    forms = report.RESULTS[result]
    if result in report.WITH_OCTETS and len(rest) == len(forms) + 1:
        forms = (*forms, report.OCTETS)
    yield 'what became of a job'
    yield from _of_forms(result, forms, rest)
    yield from _named(dict(zip((form.name for form in forms), rest)))
    yield from _told(meanings.RESULTS[result])


def _report_line(words: list[str]) -> Iterator[str]:
    """A whole line of a report."""
    try:
        read = read_line(1, ' '.join(words))
    except NotReport as fault:
        raise Fault(NO_MEANING, f'no line of a report: due is {fault.due}') from None
    yield f'a line of a report: {meanings.REPORT_LINES[words[0]]}'
    if isinstance(read, Entry):
        yield f'Entry {read.number}, number {read.place} of b{read.bearer}, of kind {read.kind}.'
        yield from _answer(words[5:])
    elif isinstance(read, Job):
        yield f'Job {read.place} of entry {read.entry}, done by b{read.bearer}.'
        yield from _result(words[3:])
    elif isinstance(read, Life) and read.opening:
        names = ['', 'N', 'CURRENT', 'STATE', 'TRANSMIT', 'NEXT']
        yield from _numbered(words, names)


def _script_line(words: list[str]) -> Iterator[str]:
    """A line of a script, its words numbered."""
    found = script.form_of(words)
    if isinstance(found, script.Failing):
        raise Fault(NO_MEANING, f'no line of a script: word {found.place} is due to be {found.due}')
    form, named = found
    yield f'a line of a script: {form.means}' if form.means else 'a line of a script'
    names = [''] * named + [f'{it.name}: {it.says}' for it in form.words]
    failing, due = None, ''
    try:
        script.check_words(1, ' '.join(words), None)
    except Refused as refused:
        failing, due = refused.place, refused.due
        yield f'It breaks rule {refused.rule}: {script.RULES[refused.rule]}.'
        if failing is None:
            yield f'Due are {due}.'
    yield from _numbered(words, names, failing, due)


def _refusal(words: list[str], text: str | None) -> Iterator[str]:
    """`script LINE RULE`."""
    line, rule = _numbers(words, 'script LINE RULE', 2)
    if rule not in script.RULES:
        raise Fault(NO_MEANING, f'there are rules 1 to {len(script.RULES)}')
    yield f'Line {line} breaks rule {rule}: {script.RULES[rule]}.'
    yield 'Nothing was run; the exit status is 3.'
    if text is not None:
        yield from _refused_line(text, line, rule)
    yield f'What to do: {meanings.RULES_TO_DO[rule]}'


def _refused_line(text: str, line: int, rule: int) -> Iterator[str]:
    """The line of a script that was refused."""
    try:
        script.read_script(text)
    except TooLong:
        raise Fault(NO_SCRIPT, 'the text given is toolong, which is no refusal by a rule') from None
    except Refused as refused:
        if (refused.line, refused.rule) != (line, rule):
            raise Fault(NO_SCRIPT, f'the text given is another one: it is refused by {refused}') \
                from None
        words = re.split(' +', script.lines_of(text)[line - 1])
        yield f'line {line}:'
        yield from _numbered(words, _names(words), refused.place, refused.due)
        if refused.place is None:
            yield f'Due are {refused.due}.'
        return
    raise Fault(NO_SCRIPT, 'the text given is another one: no line of it breaks a rule')


def _names(words: list[str]) -> list[str]:
    """What the words of a line are called."""
    found = script.form_of(words)
    if isinstance(found, script.Failing):
        return []
    form, named = found
    return [''] * named + [it.name for it in form.words]


def _numbers(words: list[str], form: str, count: int) -> list[int]:
    if len(words) != count + 1 or not all(NUMBER.fits(word) for word in words[1:]):
        raise Fault(NO_MEANING, f'what the program says is {form}')
    return [int(word) for word in words[1:]]


def audit_fault(text: str) -> NotReport | None:
    """The first line that is of no input of an audit."""
    try:
        lines = report.ended_lines(text)
    except NotReport as fault:
        last, lines = fault, text.split('\n')[:-1]
    else:
        last = None
    has_report = False
    for number, line in enumerate(lines, 1):
        words = line.split(' ')
        if words[0] == 'key' and not has_report and number <= KEYS_OF_AUDIT:
            if len(words) != 2 or not script.NET.fits(words[1]):
                return NotReport(number, f'key NET, NET being {script.NET.says}')
            continue
        has_report = True
        try:
            read = read_line(number, line)
        except NotReport as fault:
            return fault
        if isinstance(read, Job) and read.result in report.WITH_OCTETS and read.octets is None:
            return NotReport(number, 'the octets of the PDU behind it, as `run --hex` shows them')
    return last


def _no_input(words: list[str], text: str | None) -> Iterator[str]:
    """`report LINE`."""
    line, = _numbers(words, 'report LINE', 1)
    yield (f'Line {line} is of no input of an audit: at most {KEYS_OF_AUDIT} lines `key NET`, then '
           'lines of a report as `run --hex` writes it, each ending with LF.')
    yield 'There is no verdict; the exit status is 11.'
    if text is None:
        return
    fault = audit_fault(text)
    if fault is None or fault.line != line:
        other = f'report {fault.line}' if fault else 'none'
        raise Fault(NO_SCRIPT, f'the text given is another one: its refusal is {other}')
    yield f'line {line}:'
    yield from _numbered(text.split('\n')[line - 1].split(' '), [])
    yield f'What to do: make it {fault.due}.'


def _verdict(words: list[str], text: str | None) -> Iterator[str]:
    """What an audit said."""
    named = meanings.SAID[words[0]]
    numbers = _numbers(words, named, len(named.split()) - 1)
    yield f'{named}, the verdict of an audit'
    yield from _told(meanings.VERDICTS[words[0]])
    if text is None or words[0] == 'sound':
        return
    lines = text.split('\n')
    for number in numbers:
        if not 1 <= number < len(lines):
            raise Fault(NO_SCRIPT, f'the text given is another one: it has no line {number}')
        yield f'line {number}: {lines[number - 1]}'
    if words[0] == 'bad':
        yield from _why_bad(lines, numbers[0])


def _why_bad(lines: list[str], number: int) -> Iterator[str]:
    """What the octets of a line are under the keys given."""
    try:
        job = read_line(number, lines[number - 1])
    except NotReport as fault:
        raise Fault(NO_SCRIPT, f'line {number} is of no report: due is {fault.due}') from None
    if not isinstance(job, Job) or job.octets is None:
        raise Fault(NO_SCRIPT, f'line {number} shows no octets')
    keys = [line[4:] for line in lines if line.startswith('key ')]
    for key in keys:
        opened = open_network(material(key), int(job.field('IV'), 16), job.octets)
        if opened:
            yield f'Under {_shown(key)} they are a PDU with {_fields(opened)}.'
            return
    yield (f'They open under none of the {len(keys)} keys given with IV Index '
           f"{job.field('IV')}.")


def _fields(pdu: NetworkPdu) -> str:
    return (f'CTL {pdu.ctl}, TTL {pdu.ttl:02x}, SEQ {pdu.seq:06x}, SRC {pdu.src:04x}, DST '
            f'{pdu.dst:04x}, transport PDU {pdu.transport.hex()}')


def _exit(words: list[str]) -> Iterator[str]:
    number, meaning = meanings.EXITS[words[0]]
    said = meanings.SAID[words[0]]
    _numbers(words, said, len(said.split()) - 1)
    yield f"{' '.join(words)}, with exit status {number}"
    yield from _told(meaning)
    if words[0] in meanings.DAEMON_EXITS:
        _, of_daemon = meanings.DAEMON_EXITS[words[0]]
        yield f'meshnoded ends so too: {" ".join(part for part in of_daemon if part)}'


# The names of which the reason behind them says what to do, with the reasons that are the program's own.
OF_A_REASON = {'nofile': meanings.NO_FILE, 'notmade': meanings.NOT_MADE, 'noclock': {}}


def _reason_to_do(first: str, reason: str) -> str:
    """What to do about the reason behind such a name."""
    for said, do in OF_A_REASON[first].items():
        if re.fullmatch(re.sub(' [NB] ', ' [0-9]+ ', re.escape(said).replace('\\ ', ' ')), reason):
            return do
    return meanings.BY_THE_SYSTEM


def _daemon_exit(words: list[str]) -> Iterator[str]:
    """A name with which `meshnoded` ends, with the reason behind it."""
    first, reason = words[0].rstrip(':;'), ' '.join(words[1:])
    number, meaning = meanings.DAEMON_EXITS[first]
    yield f"{' '.join(words)}, with which meshnoded ends: exit status {number}"
    yield meaning.says
    if words[0] == f'{first};':
        if reason != 'cut' or first not in ('writefault', 'memory', 'readfault', 'errorsfault'):
            raise Fault(NO_MEANING, f'what the program says behind {first}; is cut')
        yield 'The file refused a write as well: the life was cut as by a loss of power.'
    do = _reason_to_do(first, reason) if words[0] == f'{first}:' and first in OF_A_REASON else meaning.do
    if do:
        yield f'What to do: {do}'


def _wrong_line(words: list[str]) -> Iterator[str]:
    """`line N: rule R: WORD` or `line N: not ended`, which a node that runs tells on standard error."""
    if words[2:] == ['not', 'ended']:
        yield f'Line {words[1][:-1]} of standard input wasn\'t taken: it had no LF when the input ended, and with that the node ended too, in order.'
        return
    yield f'Line {words[1][:-1]} of standard input wasn\'t taken, and the node goes on.'
    rule = int(words[3][:-1])
    yield f'It breaks rule {rule}: {script.RULES[rule]}.'
    yield f'Its first word, or what is printable of the first 40 octets of it, is {_shown(" ".join(words[4:]))}'
    yield f'What to do: {meanings.RULES_TO_DO[rule]}'


WRONG_LINE = re.compile('line [0-9]+: (?:not ended|rule [1345]: ?.*)')
DAEMON_END = re.compile(f'({"|".join(meanings.DAEMON_EXITS)})[:;] .+')


def explained(words: list[str], text: str | None = None) -> list[str]:
    """The lines that explain what the program said; `text` is what it was given."""
    first, said = words[0], ' '.join(words)
    if WRONG_LINE.fullmatch(said):
        return list(_wrong_line(words))
    if DAEMON_END.fullmatch(said) or words == ['cut']:
        return list(_daemon_exit(words))
    if first == 'script':
        return list(_refusal(words, text))
    if first == 'report':
        return list(_no_input(words, text))
    if first in meanings.VERDICTS:
        return list(_verdict(words, text))
    if first in meanings.EXITS:
        return list(_exit(words))
    if words == [first] and first in meanings.DAEMON_EXITS:
        return list(_daemon_exit(words))
    if first in meanings.REPORT_LINES and (first != 'life' or len(words) > 1):
        return list(_report_line(words))
    if first in report.ANSWERS:
        return list(_answer(words))
    if first in report.RESULTS:
        return list(_result(words))
    if first in script.LINES or re.fullmatch('b[0-9]+', first):
        return list(_script_line(words))
    raise Fault(NO_MEANING, f'{_shown(first)} is nothing that the program says: explain --help '
                'lists all that it does')
