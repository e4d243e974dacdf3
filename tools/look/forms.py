"""The forms of words: of the lines of a script, and of those of a report.

Names are those of docs/FORMATS.md. A script takes hexadecimal digits of either case, a report
lower case alone.
"""
import re
from collections.abc import Callable
from typing import NamedTuple

LONGEST_PAYLOAD = 380
LONGEST_CONTROL = 256
UNSEGMENTED_PAYLOAD = 11
LONGEST_TRANSPORT, LONGEST_CONTROL_TRANSPORT = 16, 12
GREATEST_TTL = 0x7f


class Form(NamedTuple):
    """What a word is called, its form in words, and whether a word has it."""
    name: str
    says: str
    fits: Callable[[str], bool]


def matching(name: str, says: str, pattern: str) -> Form:
    """A word that a regular expression matches as a whole."""
    whole = re.compile(pattern)
    return Form(name, says, lambda word: whole.fullmatch(word) is not None)


def narrowed(form: Form, says: str, also: Callable[[str], bool]) -> Form:
    """The form, and a condition on words that have it."""
    return Form(form.name, f'{form.says}, {says}', lambda word: form.fits(word) and also(word))


class Digits:
    """Forms over hexadecimal digits of either case, or of lower case alone."""

    def __init__(self, either_case: bool) -> None:
        self.digit = '[0-9a-fA-F]' if either_case else '[0-9a-f]'

    def fixed(self, name: str, count: int) -> Form:
        """So many digits."""
        return matching(name, f'{count} hexadecimal digits', f'{self.digit}{{{count}}}')

    def octets(self, name: str, least: int, most: int) -> Form:
        """So many octets of two digits each."""
        counted = f'{most}' if least == most else f'{least} to {most}'
        return matching(name, f'{counted} octets, each of two hexadecimal digits',
                        f'(?:{self.digit}{{2}}){{{least},{most}}}')

    def ttl(self) -> Form:
        """A TTL of a PDU."""
        return narrowed(self.fixed('TTL', 2), 'at most 7f',
                        lambda word: int(word, 16) <= GREATEST_TTL)


def decimal(name: str, greatest: int, least: int = 0) -> Form:
    """A number with no zero in front."""
    return Form(name, f'a number from {least} to {greatest}, with no zero in front',
                lambda word: re.fullmatch('0|[1-9][0-9]*', word) is not None
                and least <= int(word) <= greatest)


def padded_decimal(name: str, least: int, greatest: int, digits: int = 9) -> Form:
    """A number of so many digits at most, where zeros may lead."""
    return Form(name, f'a number from {least} to {greatest} of at most {digits} digits',
                lambda word: re.fullmatch(f'[0-9]{{1,{digits}}}', word) is not None
                and least <= int(word) <= greatest)


def one_of(name: str, *words: str) -> Form:
    """One of these words."""
    return Form(name, ' or '.join(words), lambda word: word in words)


def is_unicast(address: int) -> bool:
    """Whether an address is that of an element."""
    return 0 < address < 0x8000


def is_virtual(address: int) -> bool:
    """Whether an address is made of a label."""
    return 0x8000 <= address < 0xc000
