"""The picture of a run: its lives under one another, each with how it opened and how it ended."""
from collections import Counter
from html import escape

from . import cells
from .cards import draw_row, rows_of
from .marks import (CUT, GROUP_OF, GROUPS, NOT_SENT, NOT_SENT_FRAME, REFILL, SENT, SENT_FRAME,
                    event_words, opening_words)
from .numbers import passed_over, refills
from .report import Life
from .runs import LifeRun
from .svg import GLYPH, Drawing

MARGIN, HEAD, NOTE, BETWEEN = 14, 24, 20, 12
LEGEND_LINE = 18
WIDTH, CELLS_FROM = 960, 150
MOST_TOLD = 3
FAINT, PASSED_OVER = '#666', '#9a5b00'
ENDINGS = {'end': 'the life ended', 'wasreset': 'not run: the node was reset',
           'cut': 'not run: the flash failed as it opened', None: 'the report ends here'}


class Picture:
    """Lives that were drawn so far; `y` is where the next one goes."""

    def __init__(self, width: float, cells_from: int) -> None:
        self.drawing, self.width, self.cells_from = Drawing(), width, cells_from
        self.y: float = MARGIN

    @property
    def inner(self) -> float:
        """How wide a life is."""
        return self.width - 2 * MARGIN

    def legend(self, has_cells: bool) -> None:
        """What each colour means, and the letters of cells."""
        x: float = MARGIN
        rows = [*((group.name, group.fill, group.frame) for group in GROUPS),
                ('sent', SENT, SENT_FRAME), ('not sent', NOT_SENT, NOT_SENT_FRAME),
                ('refill', REFILL, REFILL)]
        for name, fill, frame in rows:
            width = 26 + GLYPH * 10 * len(name)
            if x + width > self.width - MARGIN:
                x, self.y = MARGIN, self.y + LEGEND_LINE
            self.drawing.box(x, self.y, 12, 12, fill, frame, round_by=2)
            self.drawing.text(x + 17, self.y + 10, name, 10, '#444')
            x += width
        self.y += LEGEND_LINE + 4
        if has_cells:
            self.drawing.text(MARGIN, self.y + 6, cells.LEGEND, 10, '#444')
            self.y += LEGEND_LINE

    def life(self, run: LifeRun, after: Life | None) -> None:
        """A life: its head, its rows, its notes, and a frame around them."""
        top, life = self.y, run.life
        head = opening_words(life.number, life.opening) if life.opening else f'life {life.number}'
        self.drawing.text(MARGIN + 8, self.y + 17, head, 12.5, bold=True)
        self.y += HEAD
        self._rows(run)
        self._notes(run, after)
        self.drawing.box(MARGIN, top, self.inner, self.y - top, 'none', '#b8bec6', round_by=5)
        self.y += BETWEEN

    def _rows(self, run: LifeRun) -> None:
        x, width = MARGIN + 6, self.inner - 12
        if len(run.steps) < self.cells_from:
            for row in rows_of(run, width):
                draw_row(self.drawing, row, x, self.y, width)
                self.y += row.height
            return
        self.y += 4
        for row in cells.cell_rows_of(run, width):
            cells.draw_cell_row(self.drawing, row, x, self.y)
            self.y += row.height

    def _note(self, text: str, colour: str, is_filled: bool = False) -> None:
        if is_filled:
            self.drawing.box(MARGIN + 6, self.y + 1, self.inner - 12, NOTE - 3, colour)
        self.drawing.text(MARGIN + 14, self.y + 14, text, 11, '#fff' if is_filled else colour,
                          bold=is_filled)
        self.y += NOTE

    def _notes(self, run: LifeRun, after: Life | None) -> None:
        """How the life ended, what of its script has no entry, and the numbers it left behind."""
        life, self.y = run.life, self.y + 3
        if life.calls is not None:
            self._note(f'✂ power cut: {life.calls} program and erase calls were begun', CUT,
                       is_filled=True)
        else:
            self._note(ENDINGS[life.ending], FAINT)
        for event in run.unanswered[:MOST_TOLD]:
            self._note(f'no entry: {event_words(event)}', FAINT)
        if len(run.unanswered) > MOST_TOLD:
            self._note(f'no entry: {len(run.unanswered) - MOST_TOLD} lines more of the script',
                       FAINT)
        passed = passed_over(life, after)
        if passed:
            told = ', '.join(f'{it} ({it.count})' for it in passed[:MOST_TOLD])
            more = f' and {len(passed) - MOST_TOLD} more' if len(passed) > MOST_TOLD else ''
            self._note(f'numbers passed over: {told}{more}, reserved and shown by no line',
                       PASSED_OVER)
        self.y += 4


def picture(runs: list[LifeRun], title: str, width: float, cells_from: int) -> str:
    """A run as SVG; a life with so many entries or more is drawn as cells."""
    made = Picture(width, cells_from)
    made.legend(any(len(run.steps) >= cells_from for run in runs))
    for place, run in enumerate(runs):
        made.life(run, runs[place + 1].life if place + 1 < len(runs) else None)
    return made.drawing.document(width, made.y + 2, title)


STYLE = '''body { font: 14px sans-serif; margin: 1em; color: #222 }
table { border-collapse: collapse; margin: 1em 0 } td, th { padding: 2px 10px; text-align: right }
th { border-bottom: 1px solid #999 } td:first-child, th:first-child { text-align: left }
g:hover > rect { stroke: #000; stroke-width: 2 }'''


def counts(runs: list[LifeRun]) -> list[tuple[str, list[int]]]:
    """How often each life has each answer, each result and a refill."""
    tables = []
    for run in runs:
        found: Counter[str] = Counter(f'{step.entry.kind} {step.entry.answer}'
                                      for step in run.steps)
        found += Counter(f'sent {job.result}' for job in run.life.jobs)
        found['refills told'] = len(refills(run.life))
        tables.append(found)
    order = {answer: number for number, answer in enumerate(GROUP_OF)}
    names = sorted({name for found in tables for name in found},
                   key=lambda name: (name.startswith(('sent', 'refills')),
                                     order.get(name.split()[-1], len(order)), name))
    return [(name, [found[name] for found in tables]) for name in names]


def page(runs: list[LifeRun], title: str, drawn: str) -> str:
    """An HTML page that holds the picture, with a table of what is in each life."""
    heads = ''.join(f'<th>life {run.life.number}</th>' for run in runs)
    rows = ''.join(f'<tr><td>{escape(name)}</td>'
                   + ''.join(f'<td>{number or ""}</td>' for number in numbers) + '</tr>\n'
                   for name, numbers in counts(runs))
    return (f'<!DOCTYPE html>\n<html lang="en"><head><meta charset="utf-8">'
            f'<title>{escape(title)}</title><style>{STYLE}</style></head>\n<body>\n'
            f'<h1>{escape(title)}</h1>\n{drawn}'
            f'<table><tr><th></th>{heads}</tr>\n{rows}</table>\n</body></html>\n')
