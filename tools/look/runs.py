"""A report beside its script: each entry with the line that made it, its jobs, and its time.

The entries of a bearer are those of its lines, in order, and those of the node's own between them.
A cut life may have fewer entries than lines. Time is told by `ticked` alone: an entry's time is
that of the last ticks before it, and a life begins at the time at which the one before it ended,
since a report doesn't say how long power was off.
"""
from typing import NamedTuple

from .ends import NO_REPORT, Fault
from .report import OWN_KINDS, Entry, Job, Life
from .script import Event, LifePlan, Script

KIND_OF_EVENT = {'net': 'net', 'peer': 'net', 'talk': 'net', 'bcn': 'bcn', 'beacon': 'bcn',
                 'send': 'send', 'raw': 'raw', 'tick': 'tick', 'seek': 'seek', 'poll': 'poll',
                 'list': 'list'}
"""The kind that an entry tells of an event, by its word in the script."""


class Step(NamedTuple):
    """An entry with the ticks of 10 ms since the run began, the line that made it, None of the
    node's own and where there is no script, and its jobs."""
    at: int
    entry: Entry
    event: Event | None
    jobs: list[Job]


class LifeRun(NamedTuple):
    """A life with its steps in the order of the history, the ticks at which it began, and the lines
    of the script that have no entry."""
    life: Life
    began: int
    steps: list[Step]
    unanswered: list[Event]

    @property
    def ended(self) -> int:
        """The ticks at its last entry."""
        return self.steps[-1].at if self.steps else self.began


class NotOfScript(Exception):
    """A line of the report that isn't of this script, and why."""

    def __init__(self, line: int, why: str) -> None:
        super().__init__(why)
        self.line = line


class _Lines:
    """The lines of a life, by bearer."""

    def __init__(self, plan: LifePlan) -> None:
        self.left: dict[int, list[Event]] = {}
        for event in reversed(plan.events):
            self.left.setdefault(event.bearer, []).append(event)

    def take(self, entry: Entry) -> Event | None:
        """The line that made this entry, None of the node's own."""
        if entry.kind in OWN_KINDS:
            return None
        if not self.left.get(entry.bearer):
            raise NotOfScript(entry.line, f'the script has no such line of b{entry.bearer} left '
                              'in this life')
        event = self.left[entry.bearer].pop()
        if KIND_OF_EVENT[event.word] != entry.kind:
            raise NotOfScript(entry.line, f'line {event.line} of the script is next on '
                              f'b{entry.bearer}, which is {event.word} and no {entry.kind}')
        return event

    def rest(self) -> list[Event]:
        """What no entry was made by, in the order of the script."""
        left = [event for events in self.left.values() for event in events]
        return sorted(left, key=lambda event: event.line)


def _run_life(life: Life, plan: LifePlan | None, began: int) -> LifeRun:
    lines = _Lines(plan) if plan else None
    jobs, steps, at = life.jobs_of(), [], began
    for entry in life.entries:
        if entry.answer == 'ticked':
            if began + int(entry.words[0]) < at:
                raise NotOfScript(entry.line, 'time goes back')
            at = began + int(entry.words[0])
        event = lines.take(entry) if lines else None
        steps.append(Step(at, entry, event, jobs[entry.number]))
    unanswered = lines.rest() if lines else []
    if unanswered and life.ending == 'end':
        raise NotOfScript(life.line, f'line {unanswered[0].line} of the script has no entry in '
                          'this life, which was not cut')
    return LifeRun(life, began, steps, unanswered)


def run_of(lives: list[Life], script: Script | None = None) -> list[LifeRun]:
    """The run that a report tells, with the lines of its script if that is given."""
    runs: list[LifeRun] = []
    for place, life in enumerate(lives):
        if script and place >= len(script.lives):
            raise NotOfScript(life.line, f'the script has {len(script.lives)} lives')
        plan = script.lives[place] if script else None
        runs.append(_run_life(life, plan, runs[-1].ended if runs else 0))
    return runs


def run_of_file(path: str, lives: list[Life], script: Script | None = None) -> list[LifeRun]:
    """The same of a report's file; a report that isn't of the script ends the tool."""
    try:
        return run_of(lives, script)
    except NotOfScript as fault:
        raise Fault(NO_REPORT, f'{path}:{fault.line}: not a report of this script: {fault}') \
            from None
