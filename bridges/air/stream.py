"""A node that keeps its own time: a process over a file, to which lines are said as they come, and whose report is handed on as it comes."""
import os
import subprocess
from collections.abc import Iterable
from dataclasses import dataclass, field
from pathlib import Path
from typing import IO

from .process import NodeGone

MOST_WAITING = 65536


@dataclass
class StreamedNode:
    """A node of one bearer with the system's clock. Nothing of its report is kept; lines that it doesn't take it tells on standard error itself."""
    program: Path
    file: Path
    _process: subprocess.Popen[bytes] | None = None
    _waiting: bytearray = field(default_factory=bytearray)
    _rest: bytes = b''
    _is_ended: bool = False

    def start(self) -> None:
        """Opens a life. A Ctrl-C doesn't reach the process: who started it ends it."""
        try:
            self._process = subprocess.Popen([self.program.resolve(), 'run', self.file, '--hex', '--clock'], stdin=subprocess.PIPE,
                                             stdout=subprocess.PIPE, start_new_session=True)
        except OSError as error:
            raise NodeGone(f'{self.program}: {error.strerror}') from error
        for pipe in (self._process.stdin, self._process.stdout):
            assert pipe
            os.set_blocking(pipe.fileno(), False)

    @property
    def is_on(self) -> bool:
        """Whether it runs."""
        return self._process is not None

    @property
    def is_behind(self) -> bool:
        """Whether so much waits for it that no more should be said to it."""
        return len(self._waiting) >= MOST_WAITING

    @property
    def reads(self) -> list[IO[bytes]]:
        """What to wait for until it can be read."""
        return [self._process.stdout] if self._process and self._process.stdout else []

    @property
    def writes(self) -> list[IO[bytes]]:
        """What to wait for until it can be written."""
        return [self._process.stdin] if self._process and self._process.stdin and self._waiting else []

    def say(self, lines: Iterable[str]) -> None:
        """Puts lines behind what waits for it."""
        self._waiting += b''.join(line.encode('ascii', 'replace') + b'\n' for line in lines)

    def end(self) -> None:
        """Ends its input, once all was written that waits."""
        self._is_ended = True

    def write(self) -> None:
        """Writes as much of what waits as the pipe takes."""
        if not self._process or not self._process.stdin or self._process.stdin.closed:
            return
        try:
            while self._waiting:
                del self._waiting[:os.write(self._process.stdin.fileno(), self._waiting)]
        except BlockingIOError:
            return
        except BrokenPipeError:
            # why it is gone its end tells
            self._waiting.clear()
        if self._is_ended:
            self._process.stdin.close()

    def read(self) -> list[str]:
        """The whole lines of its report that came. Where it ended otherwise than was asked for, that is told once all of them were read."""
        assert self._process and self._process.stdout
        try:
            more = os.read(self._process.stdout.fileno(), MOST_WAITING)
        except BlockingIOError:
            return []
        *lines, self._rest = (self._rest + more).split(b'\n')
        if not more:
            self._close()
        return [line.decode('ascii') for line in lines]

    def _close(self) -> None:
        status = self._gone()
        if status or not self._is_ended:
            raise NodeGone(f'{self.file.name}: it ended with {status}')

    def kill(self) -> None:
        """Kills it, as a power cut would."""
        if self._process:
            self._process.kill()
            self._gone()

    def _gone(self) -> int:
        assert self._process and self._process.stdout and self._process.stdin
        self._waiting.clear()
        self._process.stdout.close()
        self._process.stdin.close()
        status, self._process = self._process.wait(), None
        return status
