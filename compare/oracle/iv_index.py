"""The IV Index: IV Update and IV Index Recovery.

Mesh Profile 3.10.5 and 3.10.6; the order of the rows of docs/FORMATS.md, "IV Index".
"""
from typing import NamedTuple

BEGIN_AFTER = 96
FINISH_AFTER = 96
OWN_FINISH_AFTER = 144
RECOVER_AFTER = 192
FURTHEST = 42
HOURS_LIMIT = 0xffff
GREATEST = 0xffffffff
OWN_UPDATE_AT = 0xc00000


class IvState(NamedTuple):
    """The known IV Index, whether an IV Update is in progress, hours in this state and since the
    last recovery."""
    current: int
    in_progress: bool
    hours: int
    since: int

    @property
    def transmit(self) -> int:
        return self.current - 1 if self.in_progress else self.current

    def begun(self) -> 'IvState':
        return IvState(self.current + 1, True, 0, self.since)

    def finished(self) -> 'IvState':
        return IvState(self.current, False, 0, self.since)

    def after_hours(self, hours: int) -> 'IvState':
        return self._replace(hours=min(HOURS_LIMIT, self.hours + hours),
                             since=min(HOURS_LIMIT, self.since + hours))


def on_beacon(state: IvState, heard: int, flag: bool, is_subnet: bool,
              is_sending: bool) -> tuple[str, IvState | None]:
    """The step that a beacon with this IV Index and IV Update flag asks for, and the new state.

    `is_subnet`: its key isn't the primary one, and the node holds that. `is_sending`: an own
    message in segments is unacknowledged.
    """
    ahead = heard - state.current
    if ahead < 0:
        return 'ignore 1', None
    if ahead > FURTHEST:
        return 'ignore 2', None
    if is_subnet and ahead > 0:
        return 'ignore 3', None
    if ahead == 0:
        return _on_same(state, flag, is_sending)
    if ahead == 1 and flag and not state.in_progress:
        return ('ignore 4', None) if state.hours < BEGIN_AFTER else ('begin', state.begun())
    if state.since < RECOVER_AFTER:
        return 'ignore 6', None
    return 'recover', IvState(heard, flag, 0, 0)


def _on_same(state: IvState, flag: bool, is_sending: bool) -> tuple[str, IvState | None]:
    if not state.in_progress or flag:
        return 'ignore 5', None
    if state.hours < FINISH_AFTER:
        return 'ignore 4', None
    return ('wait', None) if is_sending else ('finish', state.finished())


def of_own(state: IvState, mark_seq: int, is_sending: bool) -> IvState | None:
    """Where an hour passed: the state that an IV Update of the node's own leads to."""
    if state.in_progress:
        is_due = state.hours >= OWN_FINISH_AFTER and not is_sending
        return state.finished() if is_due else None
    is_due = state.hours >= BEGIN_AFTER and state.current < GREATEST and mark_seq >= OWN_UPDATE_AT
    return state.begun() if is_due else None
