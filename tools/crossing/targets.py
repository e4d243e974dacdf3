"""The processors that the programs are built for, and the Debian packages that this takes."""
import shutil
from dataclasses import dataclass
from pathlib import Path

from look.ends import Fault

NO_PACKAGE, NOT_BUILT = 7, 8
PROGRAMS, LIBRARY = ('meshnode', 'meshnoded'), 'meshnode_c'


@dataclass(frozen=True)
class Target:
    """A processor: how the toolchain and Debian call it."""
    name: str
    triple: str
    debian: str
    is_of_toolchain: bool
    """Whether the toolchain compiles for it; else the module that it makes for x86-64 is moved."""
    code_words: tuple[str, ...] = ()
    """What clang takes beside the triple."""
    board: str = ''
    """Of a processor without a system, the board that runs it under QEMU; else it is one under Linux."""

    @property
    def compiler(self) -> str:
        """The C compiler, which links."""
        return f'{self.debian}-gcc'

    @property
    def emulator(self) -> str:
        """What runs a program of it."""
        return 'qemu-system-arm' if self.board else f'qemu-{self.name}'

    @property
    def emulators(self) -> str:
        """The package of what runs a program of it."""
        return self.emulator if self.board else 'qemu-user'

    @property
    def makes(self) -> tuple[str, ...]:
        """What is built for it, the first where nothing is said."""
        return (LIBRARY,) if self.board else (*PROGRAMS, LIBRARY)

    def needed(self) -> dict[str, str]:
        """Each package, and a command or a file that it brings."""
        if self.board:
            return {f'gcc-{self.debian}': self.compiler, f'libnewlib-{self.debian}': f'/usr/lib/{self.debian}/newlib/rdimon.specs'}
        architecture = {'aarch64': 'arm64'}.get(self.name, self.name)
        return {f'gcc-{self.debian}': self.compiler,
                f'libc6-dev-{architecture}-cross': f'/usr/{self.debian}/lib/libc.a'}


TARGETS = {target.name: target for target in (
    Target('aarch64', 'aarch64-unknown-linux-gnu', 'aarch64-linux-gnu', True),
    Target('riscv64', 'riscv64-unknown-linux-gnu', 'riscv64-linux-gnu', False,
           ('-march=rv64gc', '-mabi=lp64d')),
    Target('cortex-m4', 'thumbv7em-none-eabi', 'arm-none-eabi', False,
           ('-mcpu=cortex-m4', '-mfloat-abi=soft'), 'mps2-an386'))}


def _is_there(brought: str) -> bool:
    return Path(brought).exists() if brought.startswith('/') else bool(shutil.which(brought))


def missing(target: Target, tests: bool) -> list[str]:
    """The packages that aren't installed."""
    needed = target.needed() | ({target.emulators: target.emulator} if tests else {}) | ({'gcc': 'gcc'} if tests and target.board else {})
    return [package for package, brought in needed.items() if not _is_there(brought)]


def ask_for_packages(target: Target, tests: bool) -> None:
    """Ends where a package is missing: it names all, and installs none."""
    packages = missing(target, tests)
    if packages:
        raise Fault(NO_PACKAGE, 'not installed: ' + ' '.join(packages)
                    + '\n  apt-get install ' + ' '.join(packages))
