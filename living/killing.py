"""Kills a node that runs, again and again over one file, and looks at all that it printed: no number of it is used twice, no message acts
twice, no message that it answered is forgotten, each life opens, and the audit of all outputs together is sound."""
import argparse
import random
import subprocess
import sys
import tempfile
import time
from collections import Counter
from dataclasses import dataclass, field
from pathlib import Path

from node import APP_KEY, DEV_KEY, Ended, Living, Outputs, asking, configuring, init, switching, talk

HERE = Path(__file__).resolve().parent
# More calls to the file than a migration of a new node makes: two a program call or an erase, one that writes and one that syncs.
MIGRATION_CALLS = 40


@dataclass
class Client:
    """Who talks to the node: the numbers that it used, and what it knows of the lamp."""
    rng: random.Random
    seq: int = 1
    sent: list[int] = field(default_factory=list)
    # the values that the lamp may have: that of the last switch that was answered, and those of the switches behind it
    lamp: set[int] = field(default_factory=lambda: {0})
    switches: dict[int, int] = field(default_factory=dict)

    def next(self) -> int:
        """A number that wasn't used."""
        self.seq += 1
        return self.seq

    def line(self) -> str:
        """A line of a bearer: a switch, one that was sent before, a message of the node's own, or time."""
        match self.rng.random():
            case share if share < 0.6 or not self.sent:
                seq = self.next()
                self.sent.append(seq)
                self.switches[seq] = self.rng.randrange(2)
                return switching(seq, bool(self.switches[seq]), seq)
            case share if share < 0.75:
                seq = self.rng.choice(self.sent[-50:])
                return switching(seq, bool(self.switches[seq]), seq)
            case share if share < 0.9:
                return 'raw fffd 00 034b50057e400000010000'
            case _:
                return f'tick {self.rng.randrange(1, 50)}'


@dataclass
class Test:
    """One file, the lives over it, and what was found."""
    program: Path
    file: Path
    client: Client
    losing: Path | None = None
    outputs: Outputs = field(default_factory=Outputs)
    counts: Counter[str] = field(default_factory=Counter)
    wrong: list[str] = field(default_factory=list)

    def living(self, preload: dict[str, str] | None = None) -> Living:
        """A life more, whose input isn't begun."""
        return Living(self.program, self.file, preload=preload or {})

    def over(self, node: Living, is_killed: bool) -> Ended:
        """Takes in what a life printed, once it is over."""
        ended = node.over()
        self.outputs.add(node.lines)
        self.counts['lives'] += 1
        self.counts['opened'] += any(line.startswith('life ') for line in node.lines)
        if ended.is_killed:
            self.counts['killed'] += 1
        elif not is_killed or ended.status != 0:
            self.wrong += [f'a life ended with {ended.status}: {ended.told.strip()}'] * (ended.status != 0)
        if ended.prints_key():
            self.wrong.append('a key was printed')
        return ended

    def make(self) -> None:
        """A node that is a lamp."""
        made = init(self.program, self.file)
        if made.status:
            self.wrong.append(f'init ended with {made.status}: {made.told.strip()}')
        node = self.living()
        first = self.client.next()
        self.client.seq += 2
        node.say(*configuring(first))
        self.over(node, False)
        delivered = sum(' delivered ' in line for line in node.lines)
        if delivered != 2:
            self.wrong.append(f'{delivered} messages of 2 configured the lamp')

    def recall(self, node: Living) -> None:
        """Sends again what was taken before, and asks for the lamp's state."""
        known = [seq for seq in sorted(self.outputs.last_taken)[-3:] if seq in self.client.switches]
        for seq in known:
            node.say(switching(seq, bool(self.client.switches[seq]), seq))
        ask = self.client.next()
        node.say(asking(ask))
        told = node.wait_for(f'e {len(known) + 1} ')
        answers = [line.split()[5] for line in node.lines if line.startswith('e ')][:len(known)]
        if told is None:
            return
        self.counts['recalled'] += len(known)
        self.wrong += [f'a message of before was answered {answer}' for answer in answers if answer != 'replay']
        state = node.wait_for(f's b0 {len(known) + 1}.1 msg')
        if state is None:
            return
        value = int(state.split()[9][4:6], 16)
        if value not in self.client.lamp:
            self.wrong.append(f'the lamp is {value}, and was to be one of {self.client.lamp}')
        self.client.lamp = {value}

    def follow(self, node: Living, sent: list[int]) -> None:
        """What the lamp may be behind a life: of what was answered the last, or one of those behind it."""
        answered = {int(line.split()[8], 16) for line in node.lines if ' net delivered ' in line}
        for seq in sent:
            value = self.client.switches[seq]
            self.client.lamp = {value} if seq in answered else self.client.lamp | {value}

    def kill_at_random(self) -> None:
        """A life that is killed at a moment of its own, by what it is told or as it opens."""
        node = self.living()
        is_early = self.client.rng.random() < 0.1
        if not is_early:
            if node.wait_for('life ') is not None:
                self.recall(node)
        begin = len(self.client.sent)
        for _ in range(0 if is_early else self.client.rng.randrange(1, 120)):
            if not node.say(self.client.line()):
                break
        time.sleep(self.client.rng.random() * 0.02)
        node.kill()
        self.over(node, True)
        self.follow(node, self.client.sent[begin:])

    def kill_by_clock(self) -> None:
        """A life with a clock that is killed at a moment of its own."""
        node = Living(self.program, self.file, words=('--hex', '--clock'))
        begin = len(self.client.sent)
        for _ in range(self.client.rng.randrange(0, 20)):
            if not node.say(self.client.line()):
                break
        time.sleep(self.client.rng.random() * 0.25)
        node.kill()
        self.over(node, True)
        self.counts['killed with a clock'] += 1
        self.follow(node, self.client.sent[begin:])

    def kill_at_call(self, at: int, lines: int) -> None:
        """A life that is killed at a call to its file, over a disk that loses what wasn't synced."""
        node = self.living({'LD_PRELOAD': str(self.losing), 'LOSING_FILE': str(self.file), 'LOSING_AT': str(at),
                            'LOSING_SEED': str(self.client.rng.randrange(1 << 32))})
        begin = len(self.client.sent)
        for _ in range(lines):
            if not node.say(self.client.line()):
                break
        ended = self.over(node, True)
        self.counts['killed at a call'] += ended.is_killed
        self.follow(node, self.client.sent[begin:])

    def age(self) -> None:
        """Makes the file one of format 01, as long as no bank was compacted: then the next life migrates it."""
        octets = bytearray(self.file.read_bytes())
        if octets[:2] == b'\xf0\x02' and octets[0x8000:0x8020] == b'\xff' * 32:
            octets[1] = 1
            self.file.write_bytes(octets)
            self.counts['aged'] += 1

    def kill_in_migration(self, at: int) -> None:
        """A new node's file of format 01, whose first life is killed at this call; the next one opens."""
        kept, self.file = self.file, self.file.with_name('migrated.node')
        self.file.unlink(missing_ok=True)
        init(self.program, self.file)
        self.age()
        node = self.living({'LD_PRELOAD': str(self.losing), 'LOSING_FILE': str(self.file), 'LOSING_AT': str(at), 'LOSING_SEED': str(at)})
        self.counts['killed as it migrates'] += node.over().is_killed and not node.lines
        again = self.living()
        again.over()
        if again.lines != ['life 1 12345678 n 12345678 000000', 'end']:
            self.wrong.append(f'killed at call {at} of its first life, a node said {again.lines}')
        self.file = kept

    def look(self, audit: Path) -> None:
        """A last life that isn't killed, and what is wrong over all lives."""
        node = self.living()
        self.recall(node)
        self.over(node, False)
        self.wrong += self.outputs.wrong
        verdicts = list(self.outputs.audited(audit))
        self.wrong += [f'the audit says {verdict}' for verdict in verdicts if not verdict.startswith('sound ')]
        self.counts['verdicts'] = len(verdicts)
        self.counts['numbers drawn'] = len(self.outputs.drawn)
        self.counts['messages taken'] = len(self.outputs.taken)


def built_losing(folder: Path) -> Path | None:
    """The disk that loses what wasn't synced, where there is a compiler."""
    library = folder / 'losing.so'
    try:
        subprocess.run(['gcc', '-shared', '-fPIC', '-O1', '-o', library, HERE / 'losing.c'], check=True)
    except (OSError, subprocess.CalledProcessError):
        return None
    return library


def tried(program: Path, audit: Path, kills: int, seed: int, folder: Path, kind: type[Test] = Test) -> Test:
    """The kills over one file: half of them at random moments, some of these with a clock, half at a call to the file. Then those of new files as they
    migrate."""
    losing = built_losing(folder)
    client = Client(random.Random(seed))
    test = kind(program, folder / 'lamp.node', client, losing)
    test.make()
    for number in range(kills):
        if number % 10 == 5:
            test.kill_by_clock()
        elif losing is None or number % 2:
            test.kill_at_random()
        else:
            test.kill_at_call(client.rng.randrange(1, 1200 if client.rng.random() < 0.2 else 60), 400)
    for at in range(1, MIGRATION_CALLS + 1 if losing else 1):
        test.kill_in_migration(at)
    test.look(audit)
    return test


def main() -> int:
    words = argparse.ArgumentParser(description=__doc__)
    words.add_argument('program', type=Path, help='meshnoded')
    words.add_argument('audit', type=Path, help='meshnode, for its audit')
    words.add_argument('--kills', type=int, default=100)
    words.add_argument('--seed', type=int, default=1)
    words.add_argument('--folder', type=Path, help='where the file is made (one that goes away, where it isn\'t said)')
    given = words.parse_args()
    begin = time.monotonic()
    with tempfile.TemporaryDirectory(dir=given.folder) as folder:
        test = tried(given.program.resolve(), given.audit.resolve(), given.kills, given.seed, Path(folder))
    counts = ', '.join(f'{count} {name}' for name, count in sorted(test.counts.items()))
    print(f'{given.kills} kills: {counts}; {time.monotonic() - begin:.0f} s')
    for wrong in test.wrong[:20]:
        print(f'wrong: {wrong}')
    return 1 if test.wrong else 0


if __name__ == '__main__':
    sys.exit(main())
