"""The programs for a target, from the crates that `rt ci` proved."""
import os
import re
import shutil
import subprocess
from dataclasses import dataclass
from pathlib import Path

from look.ends import NO_FILE, Fault
from look.second_node import REPOSITORY

from .moving import moved
from .narrowing import narrowed
from .targets import LIBRARY, NOT_BUILT, Target

HERE = Path(__file__).resolve().parent
BINDINGS = REPOSITORY / 'bindings' / 'c'
X86 = 'x86_64-unknown-linux-gnu'
# The flags that the toolchain gives clang for x86-64, but for those of size and place.
CODE = ('-w -Werror -ffunction-sections -fdata-sections -mllvm -no-trap-after-noreturn '
        '-mllvm -trap-unreachable -mllvm -disable-machine-licm '
        '-mllvm -disable-postra-machine-licm -mllvm -sink-common-insts=false '
        '--no-default-config -no-canonical-prefixes -fno-crash-diagnostics').split()
# Of a program the module alone is wanted: what is made of it for x86-64 is thrown away.
KEEPING = '''#!/bin/sh
for word in "$@"; do
    case "$word" in *.bc|*.ll) cp "$word" '{kept}' ;; esac
done
exec '{clang}' "$@" {how}
'''


@dataclass(frozen=True)
class Place:
    """Where the toolchain is, where the proved libraries are, and where is written."""
    kit: Path
    crates: Path
    work: Path

    @property
    def clang(self) -> Path:
        return self.kit / 'toolchain' / 'bin' / 'clang'


def kit() -> Path:
    """The folder of the toolchain."""
    if not shutil.which('rt'):
        raise Fault(NO_FILE, 'no `rt` in PATH: the toolchain is what builds')
    said = subprocess.run(['rt', 'doc'], capture_output=True, text=True, check=True).stdout
    return Path(said.strip()).parent


def run(words: list[str], cwd: Path | None = None, told: Path | None = None) -> str:
    """Runs a command that must succeed, and gives what it said."""
    done = subprocess.run(words, capture_output=True, text=True, errors='replace', cwd=cwd,
                          check=False)
    said = done.stdout + done.stderr
    if told:
        told.write_text(said)
    if done.returncode:
        raise Fault(NOT_BUILT, f'{words[0]} ended with {done.returncode}:\n{said[-2000:]}')
    return said


def crates_named(text: str) -> dict[str, list[str]]:
    """The crates of crates.txt, each with those that it names."""
    rows = (line.partition(':') for line in re.sub('#.*', '', text).splitlines() if ':' in line)
    return {head.split()[0]: names.split() for head, _, names in rows}


def libraries(place: Place, program: str) -> list[str]:
    """The words that give a program its libraries, from the toolchain and from the crates."""
    own = crates_named((REPOSITORY / 'crates.txt').read_text())
    words = []
    for name in ['std', *own[program]]:
        rlib = (place.crates / name / 'out' if name in own else place.kit) / (
            'rlib' if name in own else 'rlibs') / f'{name}.rlib'
        if not rlib.is_dir():
            raise Fault(NO_FILE, f'{rlib} is missing: `rt ci` makes the libraries')
        words += ['--extern', f'{name}={rlib}']
    folders = [place.kit / 'rlibs', *sorted(place.crates.glob('*/out/rlib'))]
    return [*words, *(word for it in folders for word in ('-L', f'dependency={it}'))]


def made_by_toolchain(place: Place, program: str, triple: str) -> Path:
    """What the toolchain makes of a program: its object file, or the library."""
    return place.work / f'{program}.{triple.split("-")[0]}.{"a" if program == LIBRARY else "o"}'


def proved(place: Place, program: str, triple: str, toolchain: Path) -> Path:
    """Has the toolchain prove the program and compile it; the object file."""
    made = made_by_toolchain(place, program, triple)
    kind = ['src/lib.rt', '--crate-type', 'staticlib'] if program == LIBRARY else ['src/main.rt']
    words = [str(place.kit / 'bin' / 'rattle'), 'build', '--crate-name', program, *kind,
             *libraries(place, program),
             '--antt-project', str(place.kit / 'rattle' / 'logic' / 'antt-project.json'),
             '--logic-built', str(place.kit / 'logic_built'), '--jobs', '1',
             '--toolchain', str(toolchain), '--backend', 'llvm', '--target', triple,
             '-o', str(made)]
    said = run(words, REPOSITORY / 'crates' / program, place.work / f'{program}.log')
    verdict = next((it for it in said.splitlines() if it.startswith('logic=proved ')), '')
    if not verdict:
        raise Fault(NOT_BUILT, f'{program} is not proved:\n{said[-2000:]}')
    print(f'cross: {program}: {verdict}', flush=True)
    return made


def toolchain_that_keeps(place: Place, kept: Path, how: str) -> Path:
    """The toolchain's folder with a clang that keeps the module which it is given, and compiles it so."""
    folder = place.work / 'toolchain'
    shutil.rmtree(folder, ignore_errors=True)
    (folder / 'bin').mkdir(parents=True)
    for it in (place.kit / 'toolchain').iterdir():
        if it.name != 'bin':
            (folder / it.name).symlink_to(it)
    for it in (place.kit / 'toolchain' / 'bin').iterdir():
        if it.name != 'clang':
            (folder / 'bin' / it.name).symlink_to(it)
    keeping = folder / 'bin' / 'clang'
    keeping.write_text(KEEPING.format(kept=kept, clang=place.clang, how=how))
    keeping.chmod(0o755)
    return folder


def text_of(place: Place, module: Path) -> str:
    """A module as text, no pass run over it."""
    written = module.with_suffix('.ll')
    run([str(place.clang), '-x', 'ir', str(module), '-S', '-emit-llvm', '-o', str(written), '-w',
         '-Xclang', '-disable-llvm-passes', '-O3', '--target=x86_64-unknown-linux-gnu'])
    return written.read_text('latin-1')


def by_module(place: Place, target: Target, program: str) -> Path:
    """The object file for a processor that the toolchain doesn't compile for."""
    kept = place.work / f'{program}.x86_64.bc'
    proved(place, program, X86, toolchain_that_keeps(place, kept, '' if program == LIBRARY else '-O0'))
    said = run([str(place.clang), f'--target={target.triple}', '-S', '-emit-llvm', '-x', 'c',
                '-o', '-', os.devnull])
    text = text_of(place, kept)
    module = place.work / f'{program}.{target.name}.ll'
    module.write_text(narrowed(text, said) if target.board else moved(text, said, target.name), 'latin-1')
    made = place.work / f'{program}.{target.name}.o'
    run([str(place.clang), f'--target={target.triple}', *target.code_words, *(['-Os'] if target.board else ['-O3', '-fPIE']),
         *CODE, '-c', '-x', 'ir', str(module), '-o', str(made)])
    return made


def linked(place: Place, target: Target, name: str, files: list[str], ours: tuple[str, ...] = ('target.c',)) -> Path:
    """A program that needs no library where it runs, with our C in it where that isn't in its files."""
    made = place.work / name
    chip = ['--specs=rdimon.specs', *target.code_words, '-mthumb', '-nostartfiles', '-Wl,--gc-sections', '-Wl,--no-warn-execstack',
            '-T', str(HERE / 'chip.ld'), str(HERE / 'chip.c')]
    run([target.compiler, *(chip if target.board else ['-static']), '-O2', '-std=c11', '-Wall', '-Wextra', '-Werror',
         f'-I{BINDINGS}', '-o', str(made), *files, *(str(HERE / it) for it in ours), *([] if target.board else ['-lpthread'])])
    return made


def linked_here(place: Place, name: str, files: list[str]) -> Path:
    """A program of this machine, with the library for C that the toolchain made of the same module."""
    made = place.work / name
    run(['gcc', '-O2', '-std=c11', '-Wall', '-Wextra', '-Werror', f'-I{BINDINGS}', '-o', str(made), *files,
         str(made_by_toolchain(place, LIBRARY, X86)), str(place.kit / 'c' / 'liblibc_c.a')])
    return made


def archived(place: Place, target: Target, made: Path) -> Path:
    """The library for C, with what it asks of C beside the C library."""
    ours, library = place.work / 'target.o', place.work / f'lib{LIBRARY}.a'
    thumb = ['-mthumb'] if target.board else ['-fPIC']
    run([target.compiler, *thumb, *(target.code_words if target.board else ()), '-O2', '-std=c11', '-Wall', '-Wextra', '-Werror', '-c',
         '-o', str(ours), str(HERE / 'target.c')])
    library.unlink(missing_ok=True)
    if made.suffix == '.a':
        shutil.copy(made, library)
    run([f'{target.debian}-ar', 'rcs', str(library), str(ours), *([] if made.suffix == '.a' else [str(made)])])
    return library


def build(place: Place, target: Target, program: str) -> Path:
    """A program for the target, or the library."""
    made = proved(place, program, target.triple, place.kit / 'toolchain') if target.is_of_toolchain else by_module(place, target, program)
    return archived(place, target, made) if program == LIBRARY else linked(place, target, program, [str(made)])
