"""The stack of what was built: its bound, what it is made of, and the number that it is held to."""
import re
import shutil
import tempfile
from collections.abc import Iterator
from pathlib import Path

from look.ends import NO_FILE, Fault

from .depths import functions, listing
from .stack import Calls
from .targets import LIBRARY, PROGRAMS, Target

WRITTEN = Path(__file__).resolve().with_name('stack.bounds')
# What the library for C has names of.
EXPORTED = re.compile(r'main|meshnode_\w+')
# The rows of a built file, and whose stack each is of: of the library the calls of a node have one of their own, and another one to open it.
OF_LIBRARY = {LIBRARY: r'meshnode_(?!node_)\w+', 'meshnode_node_open': r'meshnode_node_open', 'meshnode_node': r'meshnode_node_(?!open$)\w+'}
ROWS = {LIBRARY: {row: re.compile(names) for row, names in OF_LIBRARY.items()}}
# Where a linker is told that the functions of others are, and ours behind them.
OTHERS, TEXT = 0x1000, 0x100000
# What runs before and behind `main`, what is of C beside the program, and what stands between functions.
RUNTIME = re.compile(r'_start|_init|_fini|(?:de)?register_tm_clones|__do_global_dtors_aux|frame_dummy|keep|keep_words|\w*rattle_\w+|.*-0x\w+|\.plt.*')


def calls_of(built: Path, prefix: str) -> Calls:
    """The functions of a program, or of an object or a library, which a linker first has to put together."""
    if built.suffix not in ('.a', '.o'):
        return Calls(*functions(built, f'{prefix}objdump'))
    rows = [line.split() for line in listing([f'{prefix}nm', str(built)]).splitlines()]
    others = sorted({row[-1] for row in rows if row[-2:-1] == ['U']} - {row[-1] for row in rows if len(row) == 3})
    places = [f'--defsym={name}={OTHERS + number * 16}' for number, name in enumerate(others)]
    with tempfile.TemporaryDirectory() as folder:
        whole = Path(folder) / 'whole'
        listing([f'{prefix}ld', '-e', '0', f'-Ttext={TEXT}', *places, '--whole-archive', str(built), '-o', str(whole)])
        return Calls(*functions(whole, f'{prefix}objdump'))


def entries(calls: Calls) -> list[int]:
    """Where a program or a library is entered: main, or what has its name; and what is begun by its place alone, as threads are."""
    names = calls.code.names
    named = [it for it in calls.functions if EXPORTED.fullmatch(names[it])]
    if not named:
        raise Fault(NO_FILE, 'a program without the names of its functions')
    return named + [it for it in calls.uncalled() if it not in named and not RUNTIME.fullmatch(names[it])]


def told(calls: Calls, start: int) -> Iterator[str]:
    """What is printed of an entry."""
    names, below = calls.code.names, calls.below(start)
    yield f'{names[start]}: at most {calls.bounds[start].octets + calls.code.processor.returns:,} octets of stack'
    for it in calls.chain(start):
        yield f'  {calls.bounds[it].octets + calls.code.processor.returns:>9,} {calls.frame(it):>9,}  {names[it]}'
    rounds = {calls.rounds[it] for it in below if it in calls.rounds}
    for group in sorted(rounds, key=lambda it: min(it)):
        yield f'  counted once, and may come again: {", ".join(names[it] for it in sorted(group))} ({sum(map(calls.frame, group)):,})'
    if libraries := calls.libraries(below):
        yield f'  not counted, of the C library: {", ".join(libraries)}'
    for it in sorted(below):
        if reasons := calls.functions[it].unbounded:
            yield f'  not bounded: {names[it]}: {", ".join(sorted(reasons))}'


def host_files(crates: Path) -> dict[str, Path]:
    """What `rt ci` left for x86-64."""
    made = {name: crates / name / 'out' / name for name in PROGRAMS} | {LIBRARY: crates / LIBRARY / 'out' / f'lib{LIBRARY}.a'}
    return {name: it for name, it in made.items() if it.is_file()}


def written() -> dict[str, tuple[int, int]]:
    """The most stack that each of them may take, where it is called and where it is begun beside that, as threads are."""
    rows = (line.split() for line in WRITTEN.read_text().splitlines() if not line.startswith('#'))
    return {name: (int(called), int(begun)) for name, called, begun in rows}


def deepest(calls: Calls, called: re.Pattern = EXPORTED) -> tuple[int, int]:
    """The bounds of what is called by these names, and of what is begun beside that."""
    names, most = calls.code.names, [0, 0]
    for start in entries(calls):
        begun = not EXPORTED.fullmatch(names[start])
        if begun or called.fullmatch(names[start]):
            most[begun] = max(most[begun], calls.bounds[start].octets + calls.code.processor.returns)
    return most[0], most[1]


def stack_of(built: Path, target: Target) -> None:
    """Prints the stack of what was built for a target."""
    calls = calls_of(built, f'{target.debian}-')
    for start in entries(calls):
        print(*told(calls, start), sep='\n')


def too_deep(name: str, calls: Calls) -> Iterator[str]:
    """What is wrong with a stack: that it has no bound, or a greater one than is written."""
    for start in {it for entry in entries(calls) for it in calls.below(entry)}:
        if calls.functions[start].unbounded:
            yield f'the stack of {name} has no bound: {calls.code.names[start]}'
    for row, called in ROWS.get(name, {name: EXPORTED}).items():
        for found, most, what in zip(deepest(calls, called), written()[row], ('', ' a thread'), strict=True):
            if found > most:
                yield f'{row} takes {found:,} octets of stack{what and " in" + what}, and is to take {most:,} at most'


def host_stacks(crates: Path) -> bool:
    """Prints the stack of what `rt ci` left for x86-64, and whether each is as it is written to be."""
    if not shutil.which('objdump') or not shutil.which('ld'):
        raise Fault(NO_FILE, 'no objdump or no ld: the package binutils has them')
    files, wrong = host_files(crates), []
    if not files:
        raise Fault(NO_FILE, f'nothing is built in {crates}: `rt ci` builds it')
    for name, built in files.items():
        calls = calls_of(built, '')
        print(f'{built}:')
        for start in entries(calls):
            print(*told(calls, start), sep='\n')
        wrong += too_deep(name, calls)
    for line in wrong:
        print(f'cross: {line}')
    return not wrong
