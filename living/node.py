"""A node that runs: `meshnoded` as a process over a file, what it is told, and what it says."""
import os
import signal
import subprocess
import tempfile
import threading
from collections.abc import Callable, Iterable, Iterator
from dataclasses import dataclass, field
from pathlib import Path

# Sample keys of the Mesh Profile (8.1).
NET_KEY = '7dd7364cd842ad18c17c2b820c84c3d6'
DEV_KEY = '9d6dd0e96eb25dc19a40ed9914f8f03f'
APP_KEY = '63964771734fbd76e3b40519d1d94a48'
IV_INDEX = '12345678'
UNICAST = '1201'
CLIENT = '0003'
KEYS = (NET_KEY, DEV_KEY, APP_KEY)


@dataclass(frozen=True)
class Ended:
    """How a command ended."""
    status: int
    said: str
    told: str

    @property
    def is_killed(self) -> bool:
        """Whether a signal ended it that can't be caught."""
        return self.status == -signal.SIGKILL

    def prints_key(self) -> bool:
        """Whether a key stands in what it printed."""
        return any(key in (self.said + self.told).lower() for key in KEYS[:2])


def run(program: Path, *words: str, given: str = '') -> Ended:
    """Runs a command to its end."""
    ran = subprocess.run([program, *words], input=given, capture_output=True, text=True, timeout=60, check=False)
    return Ended(ran.returncode, ran.stdout, ran.stderr)


def init(program: Path, file: Path, elements: int = 1) -> Ended:
    """Makes the file of a node with the sample keys."""
    return run(program, 'init', str(file), UNICAST, str(elements), IV_INDEX, '00', '000', given=f'{NET_KEY}\n{DEV_KEY}\n')


def slot(kind: int, body: bytes) -> bytes:
    """A gated slot of the flash: its kind, 30 octets, its gate (docs/FORMATS.md, Flash)."""
    return bytes([kind]) + body.ljust(30, b'\0') + b'\0'


def image(mark: int, hours: int = 0) -> bytes:
    """The flash of a node with the sample keys, whose mark has this SEQ, in Normal Operation for so many hours: as a new node's but for these two."""
    iv = int(IV_INDEX, 16)
    word = iv * 2 ** 25 + mark
    slots = [
        slot(0xf0, bytes([2]) + (1).to_bytes(4, 'big') + (2 ** 32 - 2).to_bytes(4, 'big')),
        slot(0x01, bytes.fromhex(UNICAST) + bytes([1]) + bytes.fromhex(DEV_KEY)),
        slot(0x02, iv.to_bytes(4, 'big') + bytes([0]) + word.to_bytes(8, 'big') + hours.to_bytes(2, 'big') + (192).to_bytes(2, 'big')),
        slot(0x05, bytes([1]) + bytes(2) + bytes.fromhex(NET_KEY)),
    ]
    return b''.join(slots).ljust(65536, b'\xff')


def talk(key: str, seq: int, payload: str) -> str:
    """The line of an unsegmented message of the client with this number."""
    return f'talk {NET_KEY} {key} {IV_INDEX} 04 {seq:06x} {seq:06x} {CLIENT} {UNICAST} u {payload}'


def configuring(seq: int) -> list[str]:
    """The lines that make a lamp of a new node: an application key, in two segments, and the OnOff Server bound to it. They take three numbers."""
    add = f'00001000{APP_KEY}'
    segments = [f'talk {NET_KEY} dev:{DEV_KEY} {IV_INDEX} 04 {seq:06x} {seq + place:06x} {CLIENT} {UNICAST} {place} {add}'
                for place in range(2)]
    return [*segments, talk(f'dev:{DEV_KEY}', seq + 2, f'803d{UNICAST[2:]}{UNICAST[:2]}01000010')]


def publishing(seq: int, steps: int) -> list[str]:
    """The lines that have the lamp publish its state to the group c000, every so many steps of 100 ms. They take two numbers."""
    payload = f'03{UNICAST[2:]}{UNICAST[:2]}00c0010005{steps:02x}000010'
    return [f'talk {NET_KEY} dev:{DEV_KEY} {IV_INDEX} 04 {seq:06x} {seq + place:06x} {CLIENT} {UNICAST} {place} {payload}' for place in range(2)]


def switching(seq: int, on: bool, transaction: int) -> str:
    """The line of a message that switches the lamp, with no answer."""
    return talk(f'app:{APP_KEY}', seq, f'8203{int(on):02x}{transaction % 256:02x}')


def asking(seq: int) -> str:
    """The line of a message that asks the lamp for its state."""
    return talk(f'app:{APP_KEY}', seq, '8201')


@dataclass
class Living:
    """A node that runs over a file. What it says on standard output is kept, line by line."""
    program: Path
    file: Path
    words: tuple[str, ...] = ('--hex',)
    preload: dict[str, str] = field(default_factory=dict)

    def __post_init__(self) -> None:
        self.lines: list[str] = []
        self._more = threading.Condition()
        self._ended = False
        self._errors = tempfile.TemporaryFile('w+', encoding='ascii')
        self.process = subprocess.Popen(
            self.command(), stdin=subprocess.PIPE, stdout=subprocess.PIPE, stderr=self._errors, env={**os.environ, **self.preload})
        self._reader = threading.Thread(target=self._read, daemon=True)
        self._reader.start()

    def command(self) -> list[str | Path]:
        """What is run."""
        return [self.program, 'run', self.file, *self.words]

    def _read(self) -> None:
        assert self.process.stdout
        for line in self.process.stdout:
            # a line without its end was cut by a kill
            if line.endswith(b'\n'):
                with self._more:
                    self.lines.append(line[:-1].decode('ascii'))
                    self._more.notify_all()
        with self._more:
            self._ended = True
            self._more.notify_all()

    def say(self, *lines: str) -> bool:
        """Hands it lines, and answers whether it took them."""
        assert self.process.stdin
        try:
            self.process.stdin.write(''.join(f'{line}\n' for line in lines).encode('ascii'))
            self.process.stdin.flush()
        except BrokenPipeError:
            return False
        return True

    def wait_for(self, begin: str, timeout: float = 20.0) -> str | None:
        """The first line with this beginning, or None where the node ends without it."""
        at = 0
        with self._more:
            while True:
                for at in range(at, len(self.lines)):
                    if self.lines[at].startswith(begin):
                        return self.lines[at]
                at = len(self.lines)
                if self._ended:
                    return None
                if not self._more.wait(timeout):
                    raise TimeoutError(f'no line {begin} in {timeout} s')

    def write(self, octets: bytes) -> None:
        """Hands it octets as they are."""
        assert self.process.stdin
        self.process.stdin.write(octets)
        self.process.stdin.flush()

    def wait_until(self, is_it: Callable[[list[str]], bool], timeout: float = 20.0) -> bool:
        """Whether this becomes true of what it said, before it ends."""
        with self._more:
            return self._more.wait_for(lambda: self._ended or is_it(self.lines), timeout) and is_it(self.lines)

    def processor_time(self) -> float:
        """How many seconds of a processor it took so far."""
        fields = Path(f'/proc/{self.process.pid}/stat').read_text(encoding='ascii').rpartition(')')[2].split()
        return (int(fields[11]) + int(fields[12])) / os.sysconf('SC_CLK_TCK')

    def kill(self) -> None:
        """Kills it, as a power cut would."""
        self.process.kill()

    def over(self) -> Ended:
        """Ends its input, waits until it is gone, and says how it ended."""
        assert self.process.stdin
        try:
            self.process.stdin.close()
        except BrokenPipeError:
            pass
        status = self.process.wait(60)
        self._reader.join(60)
        assert self.process.stdout
        self.process.stdout.close()
        self._errors.seek(0)
        told = self._errors.read()
        self._errors.close()
        return Ended(status, ''.join(f'{line}\n' for line in self.lines), told)


@dataclass
class Outputs:
    """What the lives of a node printed, one behind another, and what is wrong over all of them."""
    lines: list[str] = field(default_factory=list)
    drawn: dict[tuple[str, str], str] = field(default_factory=dict)
    taken: set[tuple[str, str, str]] = field(default_factory=set)
    last_taken: list[int] = field(default_factory=list)
    wrong: list[str] = field(default_factory=list)
    opened: int = 0

    def add(self, lines: Iterable[str]) -> None:
        """Takes in the lines of a life that is over."""
        for line in lines:
            self.lines.append(line)
            match line.split():
                case ['life', *_]:
                    self.opened += 1
                case ['s', _, _, 'ctl' | 'msg' | 'seg', iv, seq, *_]:
                    self._draw(iv, seq, line)
                case ['e', _, _, _, 'net', 'delivered' | 'control', src, _, iv, seq, *_]:
                    self._take(src, iv, seq, line)

    def _draw(self, iv: str, seq: str, line: str) -> None:
        first = self.drawn.setdefault((iv, seq), line)
        if first is not line:
            self.wrong.append(f'one number twice: {first} / {line}')

    def _take(self, src: str, iv: str, seq: str, line: str) -> None:
        if (src, iv, seq) in self.taken:
            self.wrong.append(f'one message twice: {line}')
        self.taken.add((src, iv, seq))
        self.last_taken = [*self.last_taken[-9:], int(seq, 16)]

    def audited(self, audit: Path, most: int = 4_000_000) -> Iterator[str]:
        """The verdicts of `meshnode audit` on all lines, in inputs of at most so many octets, each of whole lives."""
        lives: list[str] = []
        text = ''
        for line in self.lines:
            if line.startswith('life '):
                if len(text) + sum(map(len, lives)) > most:
                    yield self._verdict(audit, text)
                    text = ''
                text += ''.join(lives)
                lives = []
            lives.append(line + '\n')
        yield self._verdict(audit, text + ''.join(lives))

    @staticmethod
    def _verdict(audit: Path, text: str) -> str:
        ended = run(audit, 'audit', given=f'key {NET_KEY}\n{text}')
        return ended.said.strip() or ended.told.strip()
