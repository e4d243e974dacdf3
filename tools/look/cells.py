"""A long life as cells: each entry a small cell in the lane of its bearer, with a stroke below
for each job; what they are is told under the pointer."""
from typing import NamedTuple

from .marks import (CUT, GROUP_OF, NOT_SENT_FRAME, REFILL, SENT_FRAME, entry_title, job_title,
                    seconds)
from .numbers import Range, refills
from .report import Job
from .runs import LifeRun, Step
from .svg import Drawing

GUTTER, CELL, GAP = 118, 13, 2
CELL_HEIGHT, JOBS_HEIGHT, LANE_GAP, ROW_GAP = 15, 13, 3, 7
LANE = '#dfe3e8'
MOST_STROKES = 5
LETTERS = {'net': '', 'bcn': 'B', 'send': 'S', 'raw': 'R', 'tick': 'T', 'begin': 'b', 'kept': 'k',
           'seek': 'F', 'poll': 'P', 'list': 'L'}
LEGEND = 'cells: ' + ', '.join(f'{letter} {kind}' if letter else f'none {kind}'
                               for kind, letter in LETTERS.items()) + '; a stroke a job'


class CellRow(NamedTuple):
    """Some entries of a life beside one another, in the lanes of the bearers that have any."""
    life: int
    steps: list[Step]
    filled: dict[tuple[int, int], Range]
    is_cut: bool

    @property
    def bearers(self) -> list[int]:
        """The bearers whose lanes are here."""
        return sorted({step.entry.bearer for step in self.steps})

    @property
    def height(self) -> float:
        """Of the row, with the gap behind it."""
        return len(self.bearers) * (CELL_HEIGHT + JOBS_HEIGHT + LANE_GAP) + ROW_GAP


def cell_rows_of(run: LifeRun, width: float) -> list[CellRow]:
    """The rows of a life that fit into a width."""
    count = max(1, int((width - GUTTER) / CELL))
    filled = refills(run.life)
    return [CellRow(run.life.number, run.steps[at:at + count], filled,
                    run.life.ending == 'cut' and at + count >= len(run.steps))
            for at in range(0, len(run.steps), count)]


def _draw_jobs(drawing: Drawing, row: CellRow, jobs: list[Job], x: float, y: float) -> None:
    """A stroke for each of the first jobs, a dot where there are more, a mark for a refill."""
    for number, job in enumerate(jobs[:MOST_STROKES]):
        with drawing.titled(job_title(job)):
            colour = SENT_FRAME if job.octets or job.result != 'long' else NOT_SENT_FRAME
            drawing.box(x, y + 2.2 * number, CELL - GAP, 1.6, colour, round_by=0)
    if len(jobs) > MOST_STROKES:
        drawing.box(x + 4, y + 2.2 * MOST_STROKES, 3, 1.6, SENT_FRAME, round_by=0)
    for job in jobs:
        filled = row.filled.get((job.entry, job.place))
        if filled:
            with drawing.titled(f'refill before job {job.entry}.{job.place}: {filled}'):
                drawing.polygon([(x, y - 1), (x + CELL - GAP, y - 1), (x + 5.5, y + 8)], REFILL)


def _draw_cell(drawing: Drawing, row: CellRow, step: Step, x: float, y: float) -> None:
    group = GROUP_OF[step.entry.answer]
    with drawing.titled(entry_title(step, row.life)):
        drawing.box(x, y, CELL - GAP, CELL_HEIGHT, group.fill, group.frame, round_by=2)
        letter = LETTERS[step.entry.kind]
        if letter:
            drawing.text(x + (CELL - GAP) / 2, y + 11, letter, 9, '#333', anchor='middle')
    _draw_jobs(drawing, row, step.jobs, x, y + CELL_HEIGHT + 2)


def draw_cell_row(drawing: Drawing, row: CellRow, x: float, y: float) -> None:
    """A row with the number of its first entry and its time."""
    first, top = row.steps[0], y
    drawing.text(x, y + 11, f'{first.entry.number}', 10, '#444', bold=True)
    drawing.text(x, y + 23, seconds(first.at), 9, '#777')
    for bearer in row.bearers:
        drawing.text(x + GUTTER - 24, y + 11, f'b{bearer}', 10, '#444')
        drawing.line(x + GUTTER, y + CELL_HEIGHT / 2, x + GUTTER + CELL * len(row.steps) - GAP,
                     y + CELL_HEIGHT / 2, LANE)
        for place, step in enumerate(row.steps):
            if step.entry.bearer == bearer:
                _draw_cell(drawing, row, step, x + GUTTER + CELL * place, y)
        y += CELL_HEIGHT + JOBS_HEIGHT + LANE_GAP
    if row.is_cut:
        cut = x + GUTTER + CELL * len(row.steps)
        drawing.line(cut, top - 3, cut, y - LANE_GAP, CUT, 2.5)
