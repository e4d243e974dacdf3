"""What a report tells of sequence numbers: which job drew the first one of a reserve, and which
numbers a life left behind.

A mark is a multiple of 256, a life draws from the mark that it found, and a refill raises the mark
by 256 where a number is to be drawn at it. So the first line with a number that is a multiple of
256 tells of a refill before it; one whose number has no line isn't told.
"""
from collections.abc import Iterator
from typing import NamedTuple

from .report import DRAWING, Job, Life

RESERVE = 256


class Range(NamedTuple):
    """Numbers under one transmit IV Index, both ends among them."""
    iv: int
    first: int
    last: int

    @property
    def count(self) -> int:
        """How many there are."""
        return self.last - self.first + 1

    def __str__(self) -> str:
        return f'{self.first:06x} to {self.last:06x}'


def drawn(life: Life) -> Iterator[tuple[Job, int, int]]:
    """Each job that names a number of the node's own, with its IV Index and the number."""
    for job in sorted(life.jobs, key=lambda job: (job.entry, job.place)):
        if job.result in DRAWING:
            yield job, int(job.field('IV'), 16), int(job.field('SEQ'), 16)


def refills(life: Life) -> dict[tuple[int, int], Range]:
    """By entry and job the reserve that was filled just before it."""
    found: dict[tuple[int, int], Range] = {}
    seen = set()
    for job, iv, seq in drawn(life):
        if seq % RESERVE == 0 and (iv, seq) not in seen:
            found[job.entry, job.place] = Range(iv, seq, seq + RESERVE - 1)
        seen.add((iv, seq))
    return found


def passed_over(life: Life, after: Life | None) -> list[Range]:
    """The numbers that no line of a life shows, though the next life begins above them. Nothing is
    told where that one wasn't run; numbers under an IV Index that is over aren't looked at."""
    if not (life.opening and after and after.opening):
        return []
    iv, end = after.opening.transmit, after.opening.next
    first = life.opening.next if life.opening.transmit == iv else 0
    shown = sorted({seq for _, under, seq in drawn(life) if under == iv})
    found = []
    for seq in (*shown, end):
        if first < seq:
            found.append(Range(iv, first, seq - 1))
        first = max(first, seq + 1)
    return found
