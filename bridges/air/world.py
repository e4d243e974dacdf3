"""Nodes on one machine, each a process: what one sends, others hear, over links that lose, delay and reorder."""
import hashlib
import heapq
import subprocess
from collections import defaultdict
from dataclasses import dataclass, field
from pathlib import Path

from .links import Arrival, Link
from .outside import talk
from .process import Identity, LiveNode, NodeGone, init
from .reports import OnAir, accepted, drawn_twice, heard_on_air, twice_accepted
from .sleeper import Sleeper
from .words import TICK_MS, Description, NodeWords

# An outside node that configures the nodes and asks them; it is on no link.
OUTSIDE = 0x7fff
STATUS = ' app:001 8204'


@dataclass
class World:
    """A description that runs. A node's file and its report are NAME.node and NAME.report in the folder."""
    program: Path
    folder: Path
    said: Description
    nodes: dict[str, LiveNode] = field(default_factory=dict)
    sleepers: dict[str, Sleeper] = field(default_factory=dict)
    links: list[Link] = field(default_factory=list)
    now_ms: int = 0
    _arrivals: list[Arrival] = field(default_factory=list)
    _number: int = 0
    _seqs: dict[str, int] = field(default_factory=lambda: defaultdict(int))

    def __post_init__(self) -> None:
        for words in self.said.nodes.values():
            self._make(words)
        key, app_key, iv_index = bytes.fromhex(self.said.net_key), bytes.fromhex(self.said.app_key), int(self.said.iv_index, 16)
        self.sleepers = {name: Sleeper(words, key, app_key, iv_index) for name, words in self.said.sleepers.items()}
        self.links = [Link(src, dst, air, self.said.seed) for one, other, air in self.said.links for src, dst in ((one, other), (other, one))]

    def _dev_key(self, name: str) -> str:
        return hashlib.sha256(f'device key of {name}'.encode()).hexdigest()[:32]

    def _make(self, words: NodeWords) -> None:
        node = LiveNode(self.program, self.folder / f'{words.name}.node')
        node.file.unlink(missing_ok=True)
        dev_key = self._dev_key(words.name)
        init(self.program, node.file, Identity(words.unicast, self.said.net_key, dev_key, int(self.said.iv_index, 16), words.elements))
        node.start()
        self.nodes[words.name] = node
        for payload in words.config:
            told = self._outside(words.name, f'dev:{dev_key}', payload)
            if not any(' delivered ' in line for line in told):
                raise ValueError(f'{words.name} did not take {payload}: {told}')

    def _outside(self, name: str, key: str, payload: str) -> list[str]:
        lines = talk(self.said.net_key, key, self.said.iv_index, self._seqs[name] + 1, OUTSIDE, self.said.nodes[name].unicast, payload)
        self._seqs[name] += len(lines)
        return self.nodes[name].ask(*lines)

    def run(self) -> None:
        """Lets all of the time pass."""
        while self.now_ms < self.said.end_ms:
            self.step()

    def step(self) -> None:
        """A step of time: it passes at each node, then what is due is said and heard, then what was sent is on its way."""
        self.now_ms += self.said.step_ms
        lines, killed = self._sayings()
        played = self._heard(lines)
        for name, told in lines.items():
            self.nodes[name].hand(*told)
        for name in killed:
            self.nodes[name].kill()
        for name in lines:
            if name not in killed:
                self._send(name, heard_on_air(self.nodes[name].answers()))
        for name, sleeper in self.sleepers.items():
            self._send(name, played[name] + sleeper.step(self.now_ms))

    def _sayings(self) -> tuple[dict[str, list[str]], list[str]]:
        """The lines of this step by node, and the nodes that are killed in it."""
        due = [said for said in self.said.sayings if self.now_ms - self.said.step_ms < said.at_ms <= self.now_ms]
        started = [said.name for said in due if said.line == 'start']
        killed = [said.name for said in due if said.line == 'kill']
        lines = {name: [f'tick {self.said.step_ms // TICK_MS}'] for name, node in self.nodes.items() if node.is_on}
        for name in started:
            self.nodes[name].start()
            lines[name] = []
        for said in due:
            if said.line not in ('kill', 'start') and said.name in lines:
                lines[said.name].append(said.line)
        return lines, killed

    def _heard(self, lines: dict[str, list[str]]) -> dict[str, list[OnAir]]:
        """Puts what arrives behind the lines of its node; answers what sleepers answer to it at once."""
        played: dict[str, list[OnAir]] = defaultdict(list)
        while self._arrivals and self._arrivals[0].at_ms <= self.now_ms:
            arrival = heapq.heappop(self._arrivals)
            if arrival.dst in self.sleepers:
                played[arrival.dst] += self.sleepers[arrival.dst].hear(self.now_ms, arrival.heard)
            elif arrival.dst in lines:
                lines[arrival.dst].append(arrival.heard.line)
        return played

    def _send(self, name: str, sent: list[OnAir]) -> None:
        for heard in sent:
            for link in self.links:
                if link.src == name:
                    for at_ms in link.arrivals(self.now_ms):
                        self._number += 1
                        heapq.heappush(self._arrivals, Arrival(at_ms, self._number, link.dst, heard))

    def onoff(self, name: str) -> int | None:
        """The state of a lamp, asked from outside; None where it isn't one."""
        told = self._outside(name, f'app:{self.said.app_key}', '8201')
        return next((int(line.split(STATUS)[1][:2], 16) for line in told if STATUS in line), None)

    def close(self) -> None:
        """Ends all nodes, and writes their reports."""
        for name, node in self.nodes.items():
            node.stop()
            (self.folder / f'{name}.report').write_text(''.join(f'{line}\n' for line in node.report), encoding='ascii')

    # What came of it

    def twice(self) -> dict[str, int]:
        """Messages accepted twice, and numbers drawn twice, by node."""
        return {name: len(twice_accepted(node.report)) + len(drawn_twice(node.report)) for name, node in self.nodes.items()}

    def accepted(self, name: str) -> int:
        """How many messages a node accepted."""
        return sum(accepted(line) is not None for line in self.nodes[name].report)

    def audit(self, program: Path) -> dict[str, str]:
        """The verdict of `meshnode audit` on each node."""
        nets = [self.said.net_key, *(net for sleeper in self.sleepers.values() for net in sleeper.nets)]
        keys = ''.join(f'key {net}\n' for net in nets)
        return {name: _verdict(program, keys + ''.join(f'{line}\n' for line in node.report)) for name, node in self.nodes.items()}


def _verdict(program: Path, text: str) -> str:
    try:
        ended = subprocess.run([program, 'audit'], input=text, capture_output=True, text=True, check=False)
    except OSError as error:
        raise NodeGone(f'{program}: {error.strerror}') from error
    return (ended.stdout + ended.stderr).strip()
