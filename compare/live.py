#!/usr/bin/env python3
"""Compares `meshnoded`, a process for each life over one file, with `meshnode run` on random scripts.

Lines `arm` and `sync` are left out, since a node that runs has none. A batch report has the entries of a life before its jobs, and a node that
runs tells them as they come, so entries and jobs are compared apart. Ends with 1 at the first script of which they differ.
"""
import argparse
import subprocess
import sys
import tempfile
from itertools import zip_longest
from pathlib import Path

from kinds import KINDS, make

TIMEOUT = 600
LEFT_OUT = ('arm', 'sync', '#')
WAS_RESET = 14
# meshnoded is no Low Power node
NODES = [kind for kind in KINDS if kind != 'lpn']


def lives_of(lines: list[str]) -> list[list[str]]:
    """The lines of bearers, by life."""
    lives: list[list[str]] = []
    for line in lines:
        if line == 'life':
            lives.append([])
        else:
            lives[-1].append(line)
    return lives


def run(words: list[str | Path], text: str, *statuses: int) -> str:
    """What a command prints; it ends with one of the statuses."""
    ended = subprocess.run(words, input=text, capture_output=True, text=True, timeout=TIMEOUT, check=False)
    if ended.returncode not in statuses:
        raise RuntimeError(f'{words[0]} ended with {ended.returncode}: {ended.stderr}')
    return ended.stdout


def live_report(meshnoded: Path, file: Path, lines: list[str]) -> list[str]:
    """The report of a script by one process after another."""
    _, unicast, elements, iv_index, flags, net_index, net_key, dev_key = lines[0].split(' ')
    run([meshnoded, 'init', file, unicast, elements, iv_index, flags, net_index], f'{net_key}\n{dev_key}\n', 0)
    report = []
    for number, life in enumerate(lives_of(lines[1:]), 1):
        told = run([meshnoded, 'run', file, '--hex'], ''.join(f'{line}\n' for line in life), 0, WAS_RESET).splitlines()
        report += [told[0].replace('life 1 ', f'life {number} ', 1), *told[1:]]
    return report


def ordered(report: list[str]) -> list[str]:
    """The lines of each life, its entries before its jobs."""
    lives: list[list[str]] = []
    for line in report:
        if line.startswith('life '):
            lives.append([])
        lives[-1].append(line)
    return [line for life in lives for line in sorted(life, key=lambda line: 'les'.find(line[0]) if line != 'end' else 3)]


def compared(meshnoded: Path, meshnode: Path, seed: int, kind: str) -> tuple[int, str]:
    """How many lines a script's report has, and the first that differs."""
    lines = [line for line in make(seed, kind).text.splitlines() if line and not line.startswith(LEFT_OUT)]
    due = ordered(run([meshnode, 'run', '--hex'], ''.join(f'{line}\n' for line in lines), 0).splitlines())
    with tempfile.TemporaryDirectory() as folder:
        found = ordered(live_report(meshnoded, Path(folder) / 'node', lines))
    pairs = zip_longest(due, found, fillvalue='(no line)')
    return len(found), next((f'meshnode  {left}\nmeshnoded {right}' for left, right in pairs if left != right), '')


def main() -> int:
    """Runs it."""
    parser = argparse.ArgumentParser(description=__doc__, formatter_class=argparse.RawDescriptionHelpFormatter)
    parser.add_argument('meshnoded', metavar='MESHNODED', type=lambda path: Path(path).resolve())
    parser.add_argument('meshnode', metavar='MESHNODE', type=lambda path: Path(path).resolve())
    parser.add_argument('--seeds', type=int, default=5, metavar='N', help='scripts of each kind (5)')
    parser.add_argument('--first', type=int, default=1, metavar='SEED', help='the first seed (1)')
    asked = parser.parse_args()
    lines = 0
    for seed in range(asked.first, asked.first + asked.seeds):
        for kind in NODES:
            count, difference = compared(asked.meshnoded, asked.meshnode, seed, kind)
            lines += count
            if difference:
                print(f'seed {seed}, {kind}:\n{difference}')
                return 1
    print(f'{asked.seeds * len(NODES)} scripts, {lines} lines, none differs')
    return 0


if __name__ == '__main__':
    sys.exit(main())
