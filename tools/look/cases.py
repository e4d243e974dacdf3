"""Scripts with reports that show octets, without the program: by the second node of compare/.

That node has one bearer, so the lines of others are handed to it as lines of that one. Which PDUs
go out doesn't change by it where a script has a sync between what its bearers do.
"""
import re
from collections.abc import Iterator
from typing import NamedTuple

from .report import WITH_OCTETS
from .second_node import REPOSITORY, Life, LowPowerLife, make, report_of

EXAMPLES = REPOSITORY / 'examples'


class Case(NamedTuple):
    """A script and its report with octets."""
    name: str
    script: str
    report: str


def _on_one_bearer(script: str) -> str:
    return re.sub('(?m)^b[0-7] ', 'b0 ', script)


def with_octets(script: str, report: str) -> str:
    """A report of `meshnode run` as `run --hex` writes it."""
    shown = {}
    kind = LowPowerLife if 'lpn' in script.split('\n')[0].split() else Life
    for line in report_of(_on_one_bearer(script), kind=kind).splitlines():
        words = line.split()
        if words[0] == 's' and words[3] in WITH_OCTETS:
            shown[' '.join(words[3:-1])] = words[-1]
    found = []
    for line in report.splitlines():
        result = ' '.join(line.split()[3:])
        found.append(f'{line} {shown[result]}\n' if line[0] == 's' and result in shown
                     else f'{line}\n')
    return ''.join(found)


def examples() -> Iterator[Case]:
    """Each script of examples/ with the report that stands beside it."""
    for path in sorted(EXAMPLES.glob('*.mesh')):
        script = path.read_text()
        yield Case(path.name, script, with_octets(script, path.with_suffix('.report').read_text()))


def drawn(kind: str, seed: int) -> Case:
    """A random script of compare/."""
    made = make(seed, kind)
    return Case(f'{kind} {seed}', made.text, made.report)
