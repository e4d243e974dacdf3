"""A node between an air and standard input and output, in real time, until its input ends."""
import os
import select
import sys
from dataclasses import dataclass, field
from typing import Protocol

from .console import Console
from .process import NodeGone
from .reports import OnAir, on_air
from .stream import StreamedNode

BEAT = 0.01
MOST_UNSENT = 256


class Air(Protocol):
    """What carries advertisements."""

    def fileno(self) -> int:
        """For select."""

    @property
    def waiting(self) -> int:
        """How much is still to be sent."""

    def heard(self) -> list[OnAir]:
        """What was heard since this was last asked."""

    def send(self, sent: OnAir) -> None:
        """Puts it behind what waits."""

    def flush(self) -> object:
        """Goes on with what waits."""


@dataclass
class Loss:
    """Tells on standard error that something begins to be lost."""
    text: str
    is_told: bool = False

    def note(self, is_lost: bool) -> None:
        """Tells it, unless the one before was lost too."""
        if is_lost and not self.is_told:
            print(self.text, file=sys.stderr, flush=True)
        self.is_told = is_lost


@dataclass
class Server:
    """A node between an air and a console. What is heard is lost while the node is behind, and what it sends while the air is, as radios lose it; it is told
    where that begins."""
    node: StreamedNode
    air: Air
    console: Console
    unheard: Loss = field(default_factory=lambda: Loss('the node is behind: what is heard is lost'))
    unsent: Loss = field(default_factory=lambda: Loss('the air is behind: what the node sends is lost'))

    def serve(self, stays: bool = False) -> None:
        """Lets the node live until standard input ended and nothing is to be sent any more; with `stays` for longer than that."""
        while self.node.is_on or self.air.waiting:
            if not self.console.is_open and not stays:
                self.node.end()
            self.node.write()
            said = [] if self.node.is_behind else self.console.reads
            ready, _, _ = select.select([self.air, *said, *self.node.reads], self.node.writes, [], BEAT if self.air.waiting else None)
            if sys.stdin in ready:
                self.node.say(self.console.read())
            if heard := self.air.heard():
                is_lost = self.node.is_behind
                self.unheard.note(is_lost)
                self.node.say(it.line for it in heard if not is_lost)
            for line in self.node.read() if self.node.is_on else []:
                print(line, flush=True)
                self._send(on_air(line))
            self.air.flush()

    def _send(self, sent: OnAir | None) -> None:
        if sent is None:
            return
        self.air.flush()
        is_lost = self.air.waiting >= MOST_UNSENT
        self.unsent.note(is_lost)
        if not is_lost:
            self.air.send(sent)


def served(name: str, node: StreamedNode, air: Air, stays: bool = False) -> int:
    """Runs the node; answers how the command ends: 0, or 1 where the node can't be run, didn't end in order, or nobody reads its report."""
    server = Server(node, air, Console())
    try:
        node.start()
        try:
            server.serve(stays)
        except KeyboardInterrupt:
            server.console.is_open = False
            server.serve()
    except NodeGone as gone:
        print(f'{name}: {gone}', file=sys.stderr)
        return 1
    except BrokenPipeError:
        print(f'{name}: nobody reads the report', file=sys.stderr)
        # what is left of it goes nowhere as Python ends
        os.dup2(os.open(os.devnull, os.O_WRONLY), sys.stdout.fileno())
        return 1
    finally:
        node.kill()
    return 0
