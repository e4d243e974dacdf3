"""Worked scripts with their reports, the files NAME.rows; texts with the one line that they are answered by, the files NAME.texts; and the
words that stand in both for keys and octets.

A row is a line `@ TITLE`, the lines of a script, a line `=>`, and the lines of its report. Behind the title may stand `% WORDS`: the words
of the command, where they aren't `run`. An empty line ends a row; other lines between two rows are comments.

A group of texts is a line `@ TITLE`, `% WORDS` or not, `^ HEAD` or not, and then a line `ANSWER: TEXT` for each: behind HEAD and TEXT the
program writes the answer and no more, or a report of all lives, where the answer is `ok`. In texts \\n, \\r, \\t and \\xNN stand for octets,
and `{N PIECE}` for a piece so many times. A block of lines `WORD = LINE` has words of that file.
"""
import pathlib
import re

# Each word with what stands in its place. A word that begins another comes after it. The two network PDUs are sample data of the Mesh
# Profile: both segments of a message from 0003 to 1201 under the device key, whose payload is ADD. A LAMP and a DIMMER have this key bound
# to the OnOff Server and to the Level Server; behind them what such a node tells that it heard and sent.
NAMES = [
    ('LAMP-HEARD', 'KEY-ADDED-HEARD\ne 3 b0 3 net delivered 0003 1201 12345678 3129ad dev 803d011223010010'),
    ('LAMP-SENT', 'KEY-ADDED-SENT\ns b0 3.1 msg 12345678 000002 07 1201 0003 dev 803e00011223010010'),
    ('LAMP', 'KEY-ADDED\nb0 talk NK dev:DK 12345678 04 3129ad 3129ad 0003 1201 u 803d011223010010'),
    ('DIMMER-HEARD', 'KEY-ADDED-HEARD\ne 3 b0 3 net delivered 0003 1201 12345678 3129ad dev 803d011223010210'),
    ('DIMMER-SENT', 'KEY-ADDED-SENT\ns b0 3.1 msg 12345678 000002 07 1201 0003 dev 803e00011223010210'),
    ('DIMMER', 'KEY-ADDED\nb0 talk NK dev:DK 12345678 04 3129ad 3129ad 0003 1201 u 803d011223010210'),
    ('KEY-ADDED-HEARD', 'life 1 12345678 n 12345678 000000\ne 1 b0 1 net waiting 1\ne 2 b0 2 net delivered 0003 1201 12345678 3129ab dev ADD'),
    ('KEY-ADDED-SENT', 's b0 2.1 ctl 12345678 000000 07 1201 0003 0026ac00000003\ns b0 2.2 msg 12345678 000001 07 1201 0003 dev 800300563412'),
    ('KEY-ADDED', 'START-456\nb0 net PDU-A\nb0 net PDU-B'),
    ('START-000', 'PROVISION\nlife'),
    ('START-456', 'provision 1201 1 12345678 00 456 NK DK\nlife'),
    ('PROVISION', 'provision 1201 1 12345678 00 000 NK DK'),
    ('RAW', 'raw fffd 00 034b50057e400000010000'),
    ('NK2', 'f7a2a44f8e8a8029064f173ddc1e2b00'),
    ('NK', '7dd7364cd842ad18c17c2b820c84c3d6'),
    ('DK', '9d6dd0e96eb25dc19a40ed9914f8f03f'),
    ('AK2', '3216d1509884b533248541792b877f98'),
    ('AK', '63964771734fbd76e3b40519d1d94a48'),
    ('LABEL', '0073e7e4d8b9440faf8415df4c56c0e1'),
    ('PDU-A', '68cab5c5348a230afba8c63d4e686364979deaf4fd40961145939cda0e'),
    ('PDU-B', '681615b5dd4a846cae0c032bf0746f44f1b8cc8ce5edc57e55beed49c0'),
    ('ADD', '0056341263964771734fbd76e3b40519d1d94a48'),
]


class Row:
    """A script, the words that it is run with, and its report."""

    def __init__(self, title, script, report, words=('run',)):
        self.title, self.words = title, list(words)
        self.script, self.report = spelled(script), spelled(report)

    def net_key(self):
        """The network key that the script provisions."""
        return self.script.split('provision ', 1)[1].split()[5]


def spelled(text):
    """The text with what stands for each word."""
    for name, meant in NAMES:
        text = text.replace(name, meant)
    return text


def of_file(path):
    """The rows of a file."""
    for block in path.read_text().split('\n\n'):
        lines = [line for line in block.strip('\n').split('\n')]
        if not lines[0].startswith('@ '):
            continue
        title, words, at = lines[0][2:], ['run'], 1
        if lines[1].startswith('% '):
            words, at = lines[1][2:].split(), 2
        end = lines.index('=>')
        script, report = lines[at:end], lines[end + 1 :]
        yield Row(f'{path.stem}: {title}', ''.join(f'{line}\n' for line in script), ''.join(f'{line}\n' for line in report), words)


# The exit statuses of what the program writes to standard error.
STATUSES = {'usage': 2, 'script': 3, 'toolong': 7, 'report': 11}


class Text:
    """A text, the words that the program is run with, and the line that it writes; `ok` is a report of all lives."""

    def __init__(self, title, words, octets, answer):
        self.title, self.words, self.octets, self.answer = title, words, octets, answer
        self.status = STATUSES.get(answer.split(' ')[0], 0)


def octets_of(text):
    """The octets that a text stands for."""
    unescaped = text.encode('latin-1').decode('unicode_escape')
    repeated = re.sub(r'\{(\d+) ([^}]*)\}', lambda found: int(found[1]) * found[2], unescaped)
    return spelled(repeated).encode('latin-1')


def in_words_of(block, words):
    """The block with what stands for each word of its file; a word that begins another comes after it."""
    for word in sorted(words, key=len, reverse=True):
        block = block.replace(word, words[word])
    return block


def texts_of_file(path):
    """The texts of a file."""
    file_words = {}
    for block in path.read_text().split('\n\n'):
        lines = block.strip('\n').split('\n')
        if re.match(r'[A-Z0-9-]+ = ', lines[0]):
            file_words |= dict(line.split(' = ', 1) for line in lines)
        if not lines[0].startswith('@ '):
            continue
        title, words, head, at = lines[0][2:], ['run'], '', 1
        if lines[at].startswith('% '):
            words, at = lines[at][2:].split(), at + 1
        if lines[at].startswith('^ '):
            head, at = lines[at][2:], at + 1
        for line in lines[at:]:
            answer, text = line.split(':', 1)
            octets = octets_of(in_words_of(head + text.removeprefix(' '), file_words))
            yield Text(f'{path.stem}: {title}: {text[1:61]!r}', words, octets, answer)


def of_example(path):
    """The row of a script of examples/, whose first line has the words."""
    script = path.read_text()
    words = script.split('\n')[0].removeprefix('# meshnode ').split()
    row = Row(f'examples/{path.name}', '', '', words)
    row.script, row.report = script, path.with_suffix('.report').read_text()
    return row


def all_texts():
    """The texts of all files here."""
    for path in sorted(pathlib.Path(__file__).resolve().parent.glob('*.texts')):
        yield from texts_of_file(path)


def all_rows():
    """The rows of all files here and of examples/."""
    here = pathlib.Path(__file__).resolve().parent
    for path in sorted(here.glob('*.rows')):
        yield from of_file(path)
    for path in sorted((here.parent / 'examples').glob('*.mesh')):
        yield of_example(path)
