"""A node that runs as a process over a file: lines of the script's grammar in, the lines of its report out."""
import os
import select
import subprocess
from dataclasses import dataclass, field
from pathlib import Path

# No line of the grammar. The node tells it as wrong behind all that it says of the lines before it, so it marks where an answer ends.
MARK = '?'
TOLD = ('e ', 's ', 'life ', 'end')
MOST_LINES = 100
PATIENCE = 60.0


class NodeGone(Exception):
    """The process ended, said nothing in time, or couldn't be begun."""


@dataclass(frozen=True)
class Identity:
    """What a node is provisioned with."""
    unicast: int
    net_key: str
    dev_key: str
    iv_index: int
    elements: int = 1
    flags: int = 0
    net_index: int = 0


def init(program: Path, file: Path, identity: Identity) -> None:
    """Makes the file of a new node."""
    words = [f'{identity.unicast:04x}', str(identity.elements), f'{identity.iv_index:08x}', f'{identity.flags:02x}', f'{identity.net_index:03x}']
    keys = f'{identity.net_key}\n{identity.dev_key}\n'
    try:
        subprocess.run([program.resolve(), 'init', file, *words], input=keys, text=True, check=True, timeout=PATIENCE)
    except OSError as error:
        raise NodeGone(f'{program}: {error.strerror}') from error
    except subprocess.CalledProcessError as error:
        raise NodeGone(f'{file.name}: it wasn\'t made: init ended with {error.returncode}') from error


@dataclass
class LiveNode:
    """A node of one bearer. `report` has all lines that it said over all lives, `wrong` the lines that it didn't take."""
    program: Path
    file: Path
    report: list[str] = field(default_factory=list)
    wrong: list[str] = field(default_factory=list)
    _process: subprocess.Popen[bytes] | None = None
    _rest: bytes = b''

    @property
    def is_on(self) -> bool:
        """Whether it runs."""
        return self._process is not None

    def start(self) -> list[str]:
        """Opens a life; answers its first line. A Ctrl-C doesn't reach the process: who started it ends it."""
        self._rest = b''
        try:
            self._process = subprocess.Popen([self.program.resolve(), 'run', self.file, '--hex'], stdin=subprocess.PIPE, stdout=subprocess.PIPE,
                                             stderr=subprocess.STDOUT, start_new_session=True)
        except OSError as error:
            raise NodeGone(f'{self.program}: {error.strerror}') from error
        return self.ask()

    def hand(self, *lines: str) -> None:
        """Hands it lines, at most MOST_LINES at a time; `answers` has what it says of them."""
        assert self._process and self._process.stdin and len(lines) <= MOST_LINES
        try:
            self._process.stdin.write(''.join(f'{line}\n' for line in (*lines, MARK)).encode('ascii'))
            self._process.stdin.flush()
        except BrokenPipeError as error:
            raise NodeGone(f'{self.file.name}: it reads no more') from error

    def answers(self) -> list[str]:
        """What it says of the lines that were handed last."""
        said: list[str] = []
        while True:
            line = self._line()
            if line.startswith(TOLD):
                said.append(line)
                self.report.append(line)
            elif line.endswith(f': {MARK}'):
                return said
            else:
                self.wrong.append(line)

    def ask(self, *lines: str) -> list[str]:
        """Hands it lines, and answers what it says of them."""
        said = []
        for begin in range(0, max(len(lines), 1), MOST_LINES):
            self.hand(*lines[begin:begin + MOST_LINES])
            said += self.answers()
        return said

    def kill(self) -> None:
        """Kills it, as a power cut would. What it said and nobody read is read."""
        if self._process is None:
            return
        self._process.kill()
        out, _ = self._process.communicate()
        whole, _, _ = (self._rest + out).rpartition(b'\n')
        self.report += [line for line in whole.decode('ascii').splitlines() if line.startswith(TOLD)]
        self._process = None

    def stop(self) -> None:
        """Ends its input, and waits until it is gone."""
        if self._process is None:
            return
        assert self._process.stdin and self._process.stdout
        self._process.stdin.close()
        while (line := self._line(last=True)):
            self.report.append(line)
        self._process.stdout.close()
        status, self._process = self._process.wait(PATIENCE), None
        if status:
            raise NodeGone(f'{self.file.name}: it ended with {status}')

    def _line(self, last: bool = False) -> str:
        """Its next line; with `last` an empty one where there is none more."""
        while b'\n' not in self._rest:
            assert self._process and self._process.stdout
            ready, _, _ = select.select([self._process.stdout], [], [], PATIENCE)
            more = os.read(self._process.stdout.fileno(), 65536) if ready else b''
            if not more and last:
                return ''
            if not more:
                why = 'it ended' if ready else 'nothing in time'
                raise NodeGone(': '.join([self.file.name, why, *self.wrong[-1:]]))
            self._rest += more
        line, _, self._rest = self._rest.partition(b'\n')
        return line.decode('ascii')
