#!/usr/bin/env python3
"""Compares the program's reports of random scripts with those of the node in oracle/.

Ends with 1 at the first script of which they differ; that script, its seed and the first line that
differs are printed then. Each report is audited by the program as well, which must find it sound,
or, where more credentials are used than an audit takes, find nothing used or accepted twice.
"""
import argparse
import subprocess
import sys
from collections import Counter
from itertools import zip_longest

from kinds import KINDS, Made, kind_of, make

TIMEOUT = 600
KEYS_OF_AUDIT = 16


def run_program(program: str, command: list[str], text: str) -> tuple[str, str]:
    """Its standard output, and what it says is wrong, if anything."""
    done = subprocess.run([program, *command], input=text.encode(), capture_output=True,
                          timeout=TIMEOUT, check=False)
    fault = f'status {done.returncode}: {done.stderr.decode().strip()}' if done.returncode else ''
    return done.stdout.decode(), fault


def first_difference(due: str, found: str) -> str:
    pairs = zip_longest(due.splitlines(), found.splitlines(), fillvalue='(no line)')
    for number, (left, right) in enumerate(pairs, 1):
        if left != right:
            return f'line {number}\n  node    {left}\n  program {right}'
    return 'the ends of lines'


def difference(program: str, made: Made) -> str | None:
    """What is wrong with the program's report, None where nothing is."""
    found, fault = run_program(program, [made.command, '--hex'], made.text)
    if found != made.report:
        return f'{first_difference(made.report, found)}\n{fault}'.strip()
    keys = ''.join(f'key {net}\n' for net in made.nets[:KEYS_OF_AUDIT])
    verdict, audit_fault = run_program(program, ['audit'], keys + found)
    fault = fault or audit_fault
    words = 'sound' if len(made.nets) <= KEYS_OF_AUDIT else ('sound', 'bad')
    if fault or not verdict.startswith(words):
        return f'the report is equal, but the audit says {verdict.strip()} {fault}'.strip()
    return None


def reached(report: str) -> Counter[str]:
    """How often each answer, result and end of a life stands in a report."""
    counts: Counter[str] = Counter()
    for line in report.splitlines():
        words = line.split()
        if words[0] == 'e':
            counts[f'{words[4]} {words[5]}'] += 1
        elif words[0] == 's':
            counts[f'sent {words[3]}'] += 1
        elif words[0] != 'life' or words[2] == 'wasreset':
            counts[f'life {words[-1] if words[0] == "life" else words[0]}'] += 1
    return counts


def main() -> None:
    parser = argparse.ArgumentParser(description=__doc__.split('\n')[0])
    parser.add_argument('program', help='the program, as tools/build meshnode leaves it, or another build')
    parser.add_argument('--scripts', type=int, default=20, help='how many scripts')
    parser.add_argument('--seed', type=int, default=1, help='the seed of the first one')
    parser.add_argument('--kind', choices=sorted(KINDS), help='of this kind alone')
    asked = parser.parse_args()
    counts: Counter[str] = Counter()
    for seed in range(asked.seed, asked.seed + asked.scripts):
        kind = asked.kind or kind_of(seed)
        made = make(seed, kind)
        wrong = difference(asked.program, made)
        if wrong:
            print(made.text, end='')
            sys.exit(f'compare: --kind {kind} --seed {seed}: {wrong}')
        counts += reached(made.report)
        counts[f'script {kind}'] += 1
    for name, count in sorted(counts.items()):
        print(f'{count:8} {name}')
    print(f'{asked.scripts} scripts, no difference')


if __name__ == '__main__':
    main()
