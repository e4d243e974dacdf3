"""Scripts that are generated: `gen COUNT START` tells of the same run as the report of the script's text, counted line by line."""
import re

from rows import spelled

LIFE_LINES = 4_096

# COUNT and START, as words.
PAIRS = [('4', '1'), ('0000000004', '0000000001'), ('2000', '7'), ('4096', '4294967295'), ('4097', '0'), ('8200', '2654435769')]

# The summary of four lines behind 1: three control PDUs of the node, and one that is heard for it.
FOUR = 'lives 1\nevents 4\nplanned 3\ncontrol 1\nnotmine 0\nctl 3\nrelay 0\noctets 0\n'


def numbers(count, start):
    """The numbers of the lines."""
    for _ in range(count):
        start = (1664525 * start + 1013904223) % 2**32
        yield start


def line(place, number):
    """The line at a place, from 1 on."""
    bearer = number // 2**29
    source = f'{0x100 + 8 * bearer + number // 2**16 % 8:04x}'
    match number // 2**24 % 4:
        case 2:
            return f'b{bearer} peer NK 12345678 1 00 {place:06x} {source} 1201 7f\n'
        case 3:
            return f'b{bearer} peer NK 12345678 1 02 {place:06x} {source} 0009 7f\n'
        case _:
            return f'b{bearer} raw fffd 00 034b50057e400000010000\n'


def script(count, start):
    """The text of the script."""
    lines = [line(at + 1, number) for at, number in enumerate(numbers(count, start))]
    lives = [''.join(lines[at : at + LIFE_LINES]) for at in range(0, count, LIFE_LINES)]
    return spelled('provision 1201 1 12345678 00 000 NK DK\n' + ''.join(f'life\n{life}' for life in lives))


def summary(report):
    """What is counted of a report that shows the octets of PDUs."""
    count = lambda pattern: len(re.findall(f'(?m)^{pattern}', report))
    octets = sum(len(pdu) // 2 for pdu in re.findall(r'(?m)^s b\d [\d.]+ relay .* (\w+)$', report))
    numbers = {
        'lives': count('life '),
        'events': count('e '),
        'planned': count(r'e .* planned$'),
        'control': count(r'e \d+ b\d \d+ net control '),
        'notmine': count(r'e .* notmine$'),
        'ctl': count(r's b\d [\d.]+ ctl '),
        'relay': count(r's b\d [\d.]+ relay '),
        'octets': octets % 2**32,
    }
    return ''.join(f'{word} {number}\n' for word, number in numbers.items())


def summed(call, pair):
    """What is wrong with the summary of a generated script: it is the same each time, and what the report of the script's text comes to."""
    first, second = (call(['gen', *pair], '') for _ in range(2))
    count, start = map(int, pair)
    status, report, said = call(['run', '--hex'], script(count, start))
    due = (0, summary(report), '')
    found = status or said or first != due or second != due or ((count, start) == (4, 1) and first[1] != FOUR)
    return f'gen {" ".join(pair)}: {first}, {second}, and not {due}' if found else None
