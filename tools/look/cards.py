"""A life as cards: each entry a card in the lane of its bearer, with what was sent for it below.

Columns are entries in the order of the history, cut into rows.
"""
from typing import NamedTuple

from .marks import (CUT, GROUP_OF, NOT_SENT, NOT_SENT_FRAME, REFILL, SENT, SENT_FRAME, details,
                    entry_title, job_title, job_words, seconds)
from .numbers import Range, refills
from .report import Job
from .runs import LifeRun, Step
from .svg import Drawing, fitted

GUTTER, COLUMN, GAP = 34, 176, 8
CARD_HEIGHT, JOB_HEIGHT, JOB_GAP, REFILL_HEIGHT, MORE_HEIGHT = 76, 31, 3, 15, 14
TIME_HEIGHT, LANE_PAD, LANE_GAP, EMPTY_LANE = 15, 6, 3, 26
MOST_JOBS = 6


class Row(NamedTuple):
    """Some entries of a life beside one another, in the lanes of all bearers that it has."""
    life: int
    steps: list[Step]
    bearers: list[int]
    filled: dict[tuple[int, int], Range]
    shown_at: int | None
    is_cut: bool

    def filled_before(self, job: Job) -> Range | None:
        """The reserve that was filled just before a job."""
        return self.filled.get((job.entry, job.place))

    def height_of(self, step: Step) -> float:
        """A card with its jobs."""
        shown = step.jobs[:MOST_JOBS]
        more = MORE_HEIGHT if len(step.jobs) > MOST_JOBS else 0
        filled = sum(REFILL_HEIGHT for job in shown if self.filled_before(job))
        return CARD_HEIGHT + (JOB_HEIGHT + JOB_GAP) * len(shown) + filled + more

    def lane_height(self, bearer: int) -> float:
        """How high the lane of a bearer is here."""
        heights = [self.height_of(step) for step in self.steps if step.entry.bearer == bearer]
        return max(heights, default=EMPTY_LANE) + 2 * LANE_PAD

    @property
    def height(self) -> float:
        """Of the row, with its times."""
        return TIME_HEIGHT + sum(self.lane_height(bearer) + LANE_GAP for bearer in self.bearers)


def rows_of(run: LifeRun, width: float) -> list[Row]:
    """The rows of a life that fit into a width."""
    count = max(1, int((width - GUTTER) / COLUMN))
    bearers = sorted({step.entry.bearer for step in run.steps})
    filled = refills(run.life)
    rows, before = [], None
    for at in range(0, len(run.steps), count):
        steps = run.steps[at:at + count]
        is_cut = run.life.ending == 'cut' and at + count >= len(run.steps)
        rows.append(Row(run.life.number, steps, bearers, filled, before, is_cut))
        before = steps[-1].at
    return rows


def _draw_job(drawing: Drawing, row: Row, job: Job, x: float, y: float) -> float:
    """A job, with a refill before it; tells where the next one goes."""
    width = COLUMN - GAP
    filled = row.filled_before(job)
    if filled:
        drawing.box(x, y, width, REFILL_HEIGHT - 2, REFILL)
        drawing.text(x + 5, y + 10, f'refill: {filled}', 9.5, '#fff', bold=True)
        y += REFILL_HEIGHT
    is_sent = job.result not in ('long', 'late', 'spent')
    fill, frame = (SENT, SENT_FRAME) if is_sent else (NOT_SENT, NOT_SENT_FRAME)
    head, rest = job_words(job)
    with drawing.titled(job_title(job)):
        drawing.box(x, y, width, JOB_HEIGHT, fill, frame, dash='' if is_sent else '3 2')
        drawing.text(x + 5, y + 12.5, fitted(head, width - 10, 10.5), 10.5, bold=True)
        drawing.text(x + 5, y + 25, fitted(rest, width - 10, 10), 10, '#444')
    return y + JOB_HEIGHT + JOB_GAP


def _draw_card(drawing: Drawing, row: Row, step: Step, x: float, y: float) -> None:
    """An entry and its jobs."""
    entry, width, group = step.entry, COLUMN - GAP, GROUP_OF[step.entry.answer]
    with drawing.titled(entry_title(step, row.life)):
        drawing.box(x, y, width, CARD_HEIGHT - 4, group.fill, group.frame)
        drawing.text(x + 6, y + 13, entry.kind, 10, '#444')
        drawing.text(x + width - 6, y + 13, f'{entry.number}', 10, '#444', anchor='end')
        drawing.text(x + 6, y + 28, entry.answer, 12.5, bold=True)
        for number, line in enumerate(details(step)[:3]):
            drawing.text(x + 6, y + 42 + 12.5 * number, fitted(line, width - 12, 10.5), 10.5)
    y += CARD_HEIGHT
    for job in step.jobs[:MOST_JOBS]:
        y = _draw_job(drawing, row, job, x, y)
    more = len(step.jobs) - MOST_JOBS
    if more > 0:
        with drawing.titled('\n'.join(job_title(job) for job in step.jobs[MOST_JOBS:])):
            drawing.text(x + 5, y + 10, f'and {more} more', 10, '#444')


def draw_row(drawing: Drawing, row: Row, x: float, y: float, width: float) -> None:
    """A row with its times, its lanes and what is in them."""
    shown = row.shown_at
    for place, step in enumerate(row.steps):
        if step.at != shown:
            drawing.text(x + GUTTER + COLUMN * place + 2, y + 10, seconds(step.at), 9.5, '#777')
        shown = step.at
    top = y = y + TIME_HEIGHT
    for bearer in row.bearers:
        height = row.lane_height(bearer)
        drawing.box(x, y, width, height, '#f6f7f9')
        drawing.text(x + 8, y + 20, f'b{bearer}', 12, '#444', bold=True)
        for place, step in enumerate(row.steps):
            if step.entry.bearer == bearer:
                _draw_card(drawing, row, step, x + GUTTER + COLUMN * place, y + LANE_PAD)
        y += height + LANE_GAP
    if row.is_cut:
        cut = x + GUTTER + COLUMN * len(row.steps) - GAP / 2
        drawing.line(cut, top, cut, y - LANE_GAP, CUT, 2, '5 3')
