"""The description of a pipe: which nodes there are, how they are linked, what they say when."""
from collections.abc import Callable
from dataclasses import dataclass, field

# Sample keys of the Mesh Profile (8.1).
NET_KEY = '7dd7364cd842ad18c17c2b820c84c3d6'
APP_KEY = '63964771734fbd76e3b40519d1d94a48'
IV_INDEX = '12345678'
TICK_MS = 10


class NotADescription(Exception):
    """A line of a description that isn't one."""


@dataclass
class Air:
    """What becomes of a PDU on its way: lost in so many of 100 cases, delayed by a time drawn from a range in milliseconds; where the order is
    kept none overtakes another. Each goes `copies` times, as with a Network Transmit of so many."""
    loss: int = 0
    delay: tuple[int, int] = (10, 10)
    is_ordered: bool = False
    copies: int = 1


@dataclass(frozen=True)
class NodeWords:
    """A node: its name, the address of its first element, their number, the hexadecimal configuration messages that it gets before time begins."""
    name: str
    unicast: int
    elements: int = 1
    config: list[str] = field(default_factory=list)


@dataclass(frozen=True)
class SleeperWords:
    """A Low Power node, played: what it is, and how often it polls."""
    name: str
    unicast: int
    poll_ms: int
    groups: tuple[int, ...]


@dataclass(frozen=True)
class Saying:
    """At a time a node is told a line, or `kill` or `start`."""
    at_ms: int
    name: str
    line: str


@dataclass
class Description:
    """All of a description."""
    seed: int = 1
    step_ms: int = TICK_MS
    end_ms: int = 1000
    net_key: str = NET_KEY
    app_key: str = APP_KEY
    iv_index: str = IV_INDEX
    air: Air = field(default_factory=Air)
    nodes: dict[str, NodeWords] = field(default_factory=dict)
    sleepers: dict[str, SleeperWords] = field(default_factory=dict)
    links: list[tuple[str, str, Air]] = field(default_factory=list)
    sayings: list[Saying] = field(default_factory=list)


def little(number: int) -> str:
    """An address or index as access messages have it, the low octet first."""
    return number.to_bytes(2, 'little').hex()


def _taken(made: Air, words: list[str]) -> Air:
    """The air with what the words change."""
    air, rest = Air(made.loss, made.delay, made.is_ordered, made.copies), iter(words)
    for word in rest:
        match word:
            case 'loss':
                air.loss = int(next(rest))
            case 'delay':
                air.delay = int(next(rest)), int(next(rest))
            case 'order':
                air.is_ordered = {'kept': True, 'free': False}[next(rest)]
            case 'copies':
                air.copies = int(next(rest))
            case _:
                raise NotADescription(f'no word of a link: {word}')
    return air


def _number(made: Description, words: list[str]) -> None:
    setattr(made, {'seed': 'seed', 'step': 'step_ms', 'end': 'end_ms'}[words[0]], int(words[1]))


def _keys(made: Description, words: list[str]) -> None:
    made.net_key, made.app_key, made.iv_index = words[1:4]


def _air(made: Description, words: list[str]) -> None:
    made.air = _taken(made.air, words[1:])


def _node(made: Description, words: list[str]) -> None:
    made.nodes[words[1]] = NodeWords(words[1], int(words[2], 16), int(words[3]) if words[3:] else 1)


def _app_key(made: Description, words: list[str]) -> None:
    made.nodes[words[1]].config.append(f'00001000{made.app_key}')


def _lamp(made: Description, words: list[str]) -> None:
    node = made.nodes[words[1]]
    element = little(node.unicast)
    _app_key(made, words)
    node.config.extend([f'803d{element}01000010', *(f'801b{element}{little(int(group, 16))}0010' for group in words[2:])])


def _relay(made: Description, words: list[str]) -> None:
    made.nodes[words[1]].config.append({'on': '80270100', 'off': '80270000'}[words[2]])


def _friend(made: Description, words: list[str]) -> None:
    made.nodes[words[1]].config.append('801001')


def _config(made: Description, words: list[str]) -> None:
    made.nodes[words[1]].config.append(words[2])


def _sleeper(made: Description, words: list[str]) -> None:
    groups = tuple(int(group, 16) for group in words[4:])
    made.sleepers[words[1]] = SleeperWords(words[1], int(words[2], 16), int(words[3]), groups)


def _link(made: Description, words: list[str]) -> None:
    for name in words[1:3]:
        if name not in made.nodes and name not in made.sleepers:
            raise NotADescription(f'no node {name}')
    made.links.append((words[1], words[2], _taken(made.air, words[3:])))


def _at(made: Description, words: list[str]) -> None:
    if words[2] not in made.nodes:
        raise NotADescription(f'no node {words[2]}')
    made.sayings += [Saying(int(at), words[2], ' '.join(words[3:])) for at in words[1].split(',')]


LINES: dict[str, Callable[[Description, list[str]], None]] = {
    'seed': _number, 'step': _number, 'end': _number, 'keys': _keys, 'air': _air, 'node': _node, 'switch': _app_key, 'lamp': _lamp,
    'relay': _relay, 'friend': _friend, 'config': _config, 'sleeper': _sleeper, 'link': _link, 'at': _at}


def description(text: str) -> Description:
    """Reads a description; a `#` begins a comment."""
    made = Description()
    for number, line in enumerate(text.splitlines(), 1):
        words = line.partition('#')[0].split()
        if not words:
            continue
        try:
            LINES[words[0]](made, words)
        except NotADescription as error:
            raise NotADescription(f'line {number}: {error}') from error
        except (KeyError, ValueError, IndexError, StopIteration) as error:
            raise NotADescription(f'line {number}: {line}') from error
    if made.step_ms % TICK_MS or not made.step_ms:
        raise NotADescription(f'a step is a multiple of {TICK_MS} ms')
    return made
