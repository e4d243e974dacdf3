"""Static libraries for C, over the libraries that `rt ci` left in out/, which `rt lib` would build once more."""
import subprocess
import sys
from pathlib import Path

TOP = Path(__file__).resolve().parent.parent
KIT = Path(subprocess.run(['rt', 'doc'], capture_output=True, text=True, check=True).stdout.strip()).parent


def listed():
    """Each crate of crates.txt with the crates and libraries of its line, in their order."""
    rows = (line.partition('#')[0].strip() for line in (TOP / 'crates.txt').read_text().splitlines())
    return {name.split()[0]: deps.split() for name, _, deps in (row.partition(':') for row in rows if row)}


CRATES = listed()


def below(deps, seen):
    """The crates among these, and those that they stand on, lowest first."""
    for dep in deps:
        if dep in CRATES and dep not in seen:
            below(CRATES[dep], seen)
            seen.setdefault(dep)
    return [*seen]


def rlib(name):
    return TOP / 'crates' / name / 'out' / 'rlib' / f'{name}.rlib'


def words(name, deps, archive):
    """The command that proves a crate and compiles it, as rt gives it."""
    out = [str(KIT / 'bin' / 'rattle'), 'build', '--crate-name', name, 'src/lib.rt']
    for dep in ['std', *(it for it in deps if it not in CRATES)]:
        out += ['--extern', f'{dep}={KIT}/rlibs/{dep}.rlib']
    out += ['-L', f'dependency={KIT}/rlibs']
    for dep in (it for it in deps if it in CRATES):
        out += ['--extern', f'{dep}={rlib(dep)}']
    for dep in below(deps, {}):
        out += ['-L', f'dependency={rlib(dep).parent}']
    out += ['--antt-project', f'{KIT}/rattle/logic/antt-project.json', '--logic-built', f'{KIT}/logic_built', '--jobs', '2']
    out += ['--links', f'{name}=', '--crate-type', 'staticlib', '--toolchain', str(KIT / 'toolchain'), '--backend', 'llvm']
    return [*out, '-o', str(archive)]


def build(name, deps, folder, archive):
    """Proves a crate in a folder, with these crates and libraries, and compiles it. What it stands on is proved already."""
    lacking = [it for it in below(deps, {}) if not rlib(it).exists()]
    if lacking:
        sys.exit(f'{name}: {lacking[0]} isn\'t built: run rt ci before')
    (folder / archive).parent.mkdir(parents=True, exist_ok=True)
    ran = subprocess.run(words(name, deps, archive), cwd=folder, capture_output=True, text=True, check=False)
    if ran.returncode:
        sys.exit(f'{name}: {(ran.stdout + ran.stderr)[-2000:]}')
