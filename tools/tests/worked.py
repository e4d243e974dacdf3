"""The rows and texts of worked/, with what the program answers them by."""
import sys
from typing import NamedTuple

from look.second_node import REPOSITORY

sys.path.insert(0, str(REPOSITORY / 'worked'))

import rows  # noqa: E402  (its folder is found above)


class Answered(NamedTuple):
    """A text, and the line that the program answers it by; `ok` is a report."""
    title: str
    text: str
    answer: str


def answered(command: str) -> list[Answered]:
    """The texts that are given to one of the commands."""
    return [Answered(it.title, it.octets.decode('latin-1'), it.answer) for it in rows.all_texts()
            if it.words[0] == command]


def all_rows() -> list:
    """The scripts of worked/ and examples/ with their reports."""
    return list(rows.all_rows())
