"""A lamp with the library for C on a chip, beside the same one on this machine: what each tells, and the flash that it leaves."""
import subprocess
import sys
import tempfile
from collections.abc import Iterator
from concurrent.futures import ThreadPoolExecutor
from dataclasses import dataclass
from pathlib import Path

from look.ends import DIFFERS, Fault
from look.second_node import REPOSITORY

sys.path.insert(0, str(REPOSITORY / 'living'))
from node import CLIENT, DEV_KEY, IV_INDEX, NET_KEY, UNICAST, asking, configuring, image, publishing, switching  # noqa: E402  (the folder of this is found above)

# At once, as the tests of the repository do.
TOGETHER = 2
# Of the octets of a course all losses of power are tried but within those that are many: of these so many, and of what comes behind them all again.
MANY, FEW, BEHIND = 4096, 16, 768
# The node whose flash `image` makes, and what in a script isn't said to it.
PROVISIONED = f'provision {UNICAST} 1 {IV_INDEX} 00 000 {NET_KEY} {DEV_KEY}\n'
OF_SCRIPT = ('#', 'arm', 'sync')


@dataclass(frozen=True)
class Course:
    """What happens to a lamp whose flash holds this."""
    name: str
    flash: bytes
    lines: list[str]


@dataclass(frozen=True)
class Lived:
    """With which status a lamp ended, what it wrote, the flash that it left, and what it told beside that."""
    status: int
    report: bytes
    flash: bytes
    told: list[str]

    @property
    def octets(self) -> int:
        """How many octets of its flash were changed."""
        return int(self.told[-1].split()[0])


def switchings(first: int, count: int) -> list[str]:
    """Lines that switch a lamp, whose messages have numbers from the first on; not every one changes what it shows."""
    return [switching(it, it % 3 == 0, it) for it in range(first, first + count)]


def by_many(number: int, sources: int) -> list[str]:
    """Lines that switch a lamp, each from another source, by a message with this number."""
    return [switching(number, it % 3 == 0, it).replace(f' {CLIENT} ', f' {0x2000 + it:04x} ') for it in range(sources)]


def kinds() -> list[tuple[str, str]]:
    """Lines of each kind that a lamp meets, with the name of their kind; banks of the flash fill up over them, of which the last has a full replay list."""
    other = 'net 68' + 28 * '5a'
    return [*(('configured', line) for line in [*configuring(1), *publishing(4, 3)]), *[('time', 'tick 100')] * 40,
            *[('sent', 'send 0 0003 07 app:001 8201')] * 40, *[('heard, of nobody that it knows', other)] * 40,
            *(('asked, and answered', asking(6 + it)) for it in range(40)),
            *(('switched', line) for line in switchings(46, 400)),
            *(('switched by more than it can have in its replay list', line) for it in range(2) for line in by_many(it + 1, 540))]


@dataclass(frozen=True)
class Lamp:
    """A program of lamp.c."""
    command: Path
    work: Path

    def lives(self, course: Course, cut: int | None = None) -> Lived:
        """What it does in a course, with a loss of power behind so many octets."""
        with tempfile.TemporaryDirectory(dir=self.work) as folder:
            flash, lines = Path(folder) / 'image', Path(folder) / 'lines'
            flash.write_bytes(course.flash)
            lines.write_text(''.join(f'{line}\n' for line in course.lines))
            done = subprocess.run([str(self.command), str(flash), str(lines), *([] if cut is None else [str(cut)])], capture_output=True, check=False)
            return Lived(done.returncode, done.stdout, flash.read_bytes(), done.stderr.decode().splitlines())


def courses(lamp: Lamp) -> list[Course]:
    """One that is made a lamp, switched and asked; and one whose flash is put together anew while it is switched."""
    made, new = [*configuring(1), switching(4, True, 1), asking(5), switching(6, False, 2), asking(7)], image(0)
    filled = lamp.lives(Course('', new, [*configuring(1), *switchings(4, 600)]))
    return [Course('a lamp', new, made), Course('a full bank', filled.flash, [*switchings(604, 16), asking(620)])]


def places(octets: int, every: int) -> list[int]:
    """Behind how many octets the power goes: one in so many of all, or of many octets some of them and the last ones."""
    if octets < MANY:
        return list(range(0, octets, every))
    return [*range(0, octets - BEHIND, octets // FEW), *range(octets - BEHIND, octets, every)]


def wrong(course: Course, ours: Lamp, theirs: Lamp, every: int) -> Iterator[str]:
    """Where a lamp on the chip does else than one on this machine; how many losses of power were tried is printed."""
    tried = [None, *places(theirs.lives(course).octets, every)]

    def compared(cut: int | None) -> str:
        due, found = theirs.lives(course, cut), ours.lives(course, cut)
        if due.report.count(b'life ') != 1 + (cut is not None) or not due.report.endswith(b'end\n'):
            return f'{course.name}, cut {cut}: no life to its end'
        return '' if found == due else f'{course.name}, cut {cut}: another report, or another flash: it told {found.told[-1:]}'
    with ThreadPoolExecutor(TOGETHER) as together:
        found = list(together.map(compared, tried))
    print(f'lamp: {course.name}: {len(course.lines)} lines, {len(tried) - 1} losses of power', flush=True)
    yield from filter(None, found)


def examples() -> Iterator[tuple[str, list[list[str]]]]:
    """The lives of each script of examples/ with this node, and what happens in them."""
    for script in sorted((REPOSITORY / 'examples').glob('*.mesh')):
        _, is_one, lives = script.read_text().partition(PROVISIONED)
        if is_one:
            yield script.stem, [[line for line in life.splitlines() if line and not line.startswith(OF_SCRIPT)] for life in lives.split('life\n')[1:]]


def wrong_examples(ours: Lamp, theirs: Lamp) -> Iterator[str]:
    """In which life of an example a lamp on the chip does else than one on this machine; how many were lived is printed."""
    count = 0
    for name, lives in examples():
        flash = image(0)
        for number, lines in enumerate(lives, 1):
            course = Course(name, flash, lines)
            due, found = theirs.lives(course), ours.lives(course)
            if found != due or due.status:
                yield f'{name}, life {number}: another report, or another flash: it told {found.told[-1:]}'
            flash, count = due.flash, count + 1
    print(f'lamp: {count} lives of {len(list(examples()))} examples', flush=True)


@dataclass(frozen=True)
class Call:
    """What a call of a node took on the chip: instructions, octets of stack, and of the heap those that were held at once."""
    name: str
    instructions: int
    stack: int
    heap: int


@dataclass(frozen=True)
class Taken:
    """What all calls took, the largest block of the heap, and what was left of it."""
    calls: list[Call]
    largest: int
    left: int

    def of(self, name: str) -> list[Call]:
        """The calls of a name."""
        return [call for call in self.calls if call.name == name]


def taken(measured: Lamp) -> Taken:
    """What is taken over lines of all kinds."""
    lived = measured.lives(Course('', image(0), [line for _, line in kinds()]))
    if lived.status:
        raise Fault(DIFFERS, f'{measured.command} ended with {lived.status}: {lived.told[-1:]}')
    *calls, heap = (row.split() for row in lived.told[:-1])
    return Taken([Call(name, *map(int, numbers)) for name, *numbers in calls], *map(int, heap[1:]))


def of_kinds(lines: list[Call]) -> Iterator[tuple[str, int, int]]:
    """Of each kind of line the instructions of the one in the middle, and the most."""
    named = [kind for kind, _ in kinds()]
    for kind in dict.fromkeys(named):
        found = sorted(line.instructions for it, line in zip(named, lines, strict=True) if it == kind)
        yield kind, found[len(found) // 2], found[-1]
