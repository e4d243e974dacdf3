"""The kinds of random scripts, and a script with the report that is due."""
from random import Random
from typing import NamedTuple

from friend_scripts import FriendScript
from low_power_scripts import LowPowerScript
from scripts import NET_KEYS, FullScript, OddScript, Script

KINDS: dict[str, tuple[int, type[Script]]] = {
    'usual': (3, Script), 'full': (1, FullScript), 'odd': (3, OddScript),
    'friend': (3, FriendScript), 'lpn': (3, LowPowerScript)}
"""The kinds by name, with their weights."""


class Made(NamedTuple):
    """A script, the report that the node of oracle/ makes of it, each NET that its PDUs go
    under, and the word of the command that runs it."""
    text: str
    report: str
    nets: list[str]
    command: str = 'run'


def kind_of(seed: int) -> str:
    """The kind that a seed draws where none is asked for."""
    weights = [weight for weight, _ in KINDS.values()]
    return Random(f'kind {seed}').choices(list(KINDS), weights)[0]


def make(seed: int, kind: str) -> Made:
    script = KINDS[kind][1](seed)
    nets = [key.hex() for key in NET_KEYS]
    if isinstance(script, FriendScript):
        nets += script.credentials.values()
    if isinstance(script, LowPowerScript):
        nets = [NET_KEYS[0].hex(), *script.credentials]
        return Made(script.text, script.run.report(), nets, 'lpn')
    return Made(script.text, script.run.report(), nets)
