"""The tests of the repository over a program for another processor, under QEMU."""
import os
import shlex
import shutil
import subprocess
import sys
from collections.abc import Iterator
from pathlib import Path

from look.second_node import REPOSITORY

from .building import BINDINGS, HERE, Place, linked, linked_here
from .lamps import Lamp, courses, of_kinds, taken, wrong, wrong_examples
from .stacks import calls_of, entries
from .targets import Target

SEED = 424200
# Of a measured stack what may be of those who call, measured.c's `stack` and the sample's function.
OF_CALLER = 256
# Each word of the command is one of the emulator's; a comma in one would be two.
OF_CHIP = '''#!/bin/sh
told="enable=on,target=native,arg={name}"
for word in "$@"; do told="$told,arg=$(printf '%s' "$word" | sed 's/,/,,/g')"; done
exec {emulator} -M {board} -icount shift=0 -nographic -monitor none -serial none -semihosting-config "$told" -kernel {program} < /dev/null
'''
OF_LINUX = '''#!/bin/sh
exec {emulator} {program} "$@"
'''
# What measured_lamp.c stands in front of.
MEASURED = (*(f'meshnode_node_{it}' for it in ('open', 'line', 'write', 'report', 'close')), 'rattle_alloc', 'rattle_realloc', 'rattle_dealloc')
ROWS = REPOSITORY / 'crates' / 'worked_vectors' / 'stdout'


def emulated(place: Place, target: Target, program: Path) -> Path:
    """A command of this machine that runs the program."""
    made = place.work / f'run-{program.name}'
    form = OF_CHIP if target.board else OF_LINUX
    made.write_text(form.format(name=program.name, emulator=shutil.which(target.emulator), board=target.board,
                                program=shlex.quote(str(program))))
    made.chmod(0o755)
    return made


def _passes(words: list[str], changed: dict[str, str] | None = None) -> bool:
    """Whether a test ends with 0, in this environment but for what is changed; its last line is printed, and all of it where it doesn't."""
    environment = {**os.environ, **(changed or {})}
    done = subprocess.run(words, capture_output=True, text=True, errors='replace', check=False, env=environment)
    said = (done.stdout + done.stderr).strip()
    print(said if done.returncode else said.split('\n')[-1], flush=True)
    return not done.returncode


def c_passes(place: Place, target: Target) -> bool:
    """Whether each function of our C does what is due."""
    test = linked(place, target, 'test_target', [str(HERE / 'test_target.c')])
    return _passes([str(emulated(place, target, test)), 'one', '', 'three'])


def examples_pass(command: Path) -> bool:
    """Whether the program writes each report of examples/, octet by octet."""
    found = dict(_examples(command))
    for name in (name for name, is_equal in found.items() if not is_equal):
        print(f'examples: {name} differs')
    print(f'examples: {len(found)} reports, {list(found.values()).count(False)} wrong', flush=True)
    return all(found.values())


def words_of(script: bytes) -> list[str]:
    """The words of the command that the first line of an example tells."""
    return script.decode().split('\n', 1)[0].removeprefix('# meshnode ').split()


def _examples(command: Path) -> Iterator[tuple[str, bool]]:
    for path in sorted((REPOSITORY / 'examples').glob('*.mesh')):
        script, report = path.read_bytes(), path.with_suffix('.report').read_bytes()
        done = subprocess.run([str(command), *words_of(script)], input=script, capture_output=True,
                              check=False)
        yield path.name, (done.returncode, done.stdout) == (0, report)


def worked_pass(command: Path, every: int) -> bool:
    """Whether it writes the reports of worked/, or of one in so many of them."""
    return _passes([sys.executable, '-B', str(REPOSITORY / 'worked' / 'run'), str(command),
                    '--every', str(every)])


def drawn_pass(command: Path, scripts: int) -> bool:
    """Whether it writes what the second node writes of random scripts."""
    return _passes([sys.executable, '-B', str(REPOSITORY / 'compare' / 'compare.py'), str(command),
                    '--scripts', str(scripts), '--seed', str(SEED)])


def rows_pass(place: Place, target: Target, library: Path) -> bool:
    """Whether the library gives what the rows of outside vectors have, through C."""
    rows = linked(place, target, 'rows', [str(BINDINGS / 'rows.c'), str(library)], ours=())
    return _passes([str(emulated(place, target, rows)), str(ROWS)])


def bounds_of(target: Target, library: Path) -> dict[str, int]:
    """The most stack that each call of the library takes."""
    calls = calls_of(library, f'{target.debian}-')
    return {calls.code.names[it].removeprefix('meshnode_'): calls.bounds[it].octets for it in entries(calls)}


def measured_pass(place: Place, target: Target, library: Path) -> bool:
    """Prints what calls of the library take on the board, and whether none goes deeper than its bound."""
    measured = linked(place, target, 'measured', [str(HERE / 'measured.c'), str(library)], ours=())
    done = subprocess.run([str(emulated(place, target, measured))], capture_output=True, text=True, check=False)
    bounds = bounds_of(target, library)
    holds = not done.returncode
    for name, instructions, deep in map(str.split, done.stdout.splitlines()):
        print(f'{name}: {int(instructions):,} instructions; {int(deep):,} octets of stack, at most {bounds[name]:,} of them its own')
        holds = holds and int(deep) <= bounds[name] + OF_CALLER
    return holds


def lamp_pass(place: Place, target: Target, library: Path, every: int) -> bool:
    """Whether a lamp on the board tells and leaves what it does on this machine, wherever its power goes, or at one in so many places."""
    ours = Lamp(emulated(place, target, linked(place, target, 'lamp', [str(HERE / 'lamp.c'), str(library)], ours=())), place.work)
    theirs = Lamp(linked_here(place, 'lamp-here', [str(HERE / 'lamp.c')]), place.work)
    found = [*wrong_examples(ours, theirs), *(line for course in courses(theirs) for line in wrong(course, ours, theirs, every))]
    for line in found:
        print(f'lamp: {line}')
    return not found


def measured_lamp_pass(place: Place, target: Target, library: Path) -> bool:
    """Prints what calls of a node take on the board, and whether none goes deeper than its bound, and the heap is given back."""
    measured = linked(place, target, 'measured_lamp', [str(HERE / 'lamp.c'), str(HERE / 'measured_lamp.c'), str(library),
                                                       *(f'-Wl,--wrap={it}' for it in MEASURED)], ours=())
    found, bounds = taken(Lamp(emulated(place, target, measured), place.work)), bounds_of(target, library)
    holds = found.left == 0
    for name in dict.fromkeys(call.name for call in found.calls):
        calls, bound = found.of(name), bounds[f'node_{name}']
        instructions, deep, heap = (max(getattr(call, of) for call in calls) for of in ('instructions', 'stack', 'heap'))
        print(f'node_{name}: at most {instructions:,} instructions; {deep:,} octets of stack, at most {bound:,} of them its own; '
              f'{heap:,} of the heap at once')
        holds = holds and deep <= bound + OF_CALLER
    for kind, middle, most in of_kinds(found.of('line')):
        print(f'node_line, {kind}: {middle:,} instructions, at most {most:,}')
    print(f'heap: the largest block {found.largest:,} octets; {found.left:,} are left', flush=True)
    return holds


def living_pass(place: Place, command: Path, audit: Path) -> bool:
    """Whether the node that runs does what its user expects, also over kills; none comes at a call to its file, since what makes these is
    of x86-64."""
    empty = place.work / 'no-compiler'
    empty.mkdir(exist_ok=True)
    return _passes([sys.executable, '-B', str(REPOSITORY / 'living' / 'check'), str(command), str(audit)], {'PATH': str(empty)})
