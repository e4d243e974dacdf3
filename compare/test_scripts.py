"""The random scripts, and that a report which differs is told."""
import re
import tempfile
import unittest
from pathlib import Path

from compare import difference, first_difference
from kinds import KINDS, Made, kind_of, make
from oracle.low_power import LowPowerLife
from oracle.node import Life
from oracle.report import report_of

EVENT = re.compile(r'b0 (net|bcn|peer|talk|beacon|send|raw|tick)( [0-9a-f:v/]+| app:\w+| u)+')
LOW_POWER_EVENT = re.compile(r'b0 ((net|peer|list)( [0-9a-f/]+)+|seek|poll)')
LINES_OF_LIFE = 4096


def program_that_prints(folder: str, report: str) -> str:
    """A program that prints a report, and finds each one sound."""
    program, printed = Path(folder) / 'program', Path(folder) / 'report'
    printed.write_text(report)
    program.write_text(f'#!/bin/sh\n[ $1 = audit ] && echo sound 1 || cat {printed}\n')
    program.chmod(0o700)
    return str(program)


class Scripts(unittest.TestCase):
    def test_lines(self) -> None:
        """Every script is of the form, within its bounds, and has the report of a run anew."""
        for kind in KINDS:
            with self.subTest(kind):
                script, report, _, command = make(7, kind)
                life, event = (LowPowerLife, LOW_POWER_EVENT) if command == 'lpn' else (Life, EVENT)
                self.assertEqual(report_of(script, kind=life), report)
                first, *lives = re.split(r'(?m)^life\n', script)
                self.assertTrue(first.startswith('provision '))
                for life in lives:
                    lines = life.splitlines()
                    self.assertLess(len(lines), LINES_OF_LIFE)
                    arms = [line for line in lines if line.startswith('arm ')]
                    self.assertLessEqual(len(arms), 1)
                    for line in lines:
                        self.assertTrue(line in arms or event.fullmatch(line), line)

    def test_seed(self) -> None:
        self.assertEqual(make(8, 'odd'), make(8, 'odd'))
        self.assertNotEqual(make(8, 'odd'), make(9, 'odd'))

    def test_kinds(self) -> None:
        self.assertEqual({kind_of(seed) for seed in range(50)}, set(KINDS))


class Differences(unittest.TestCase):
    def test_first_difference(self) -> None:
        told = first_difference('a\nb\n', 'a\nc\n')
        self.assertEqual(told, 'line 2\n  node    b\n  program c')
        self.assertIn('(no line)', first_difference('a\n', ''))

    def test_difference(self) -> None:
        with tempfile.TemporaryDirectory() as folder:
            due = Made('', 'end\n', [])
            self.assertIsNone(difference(program_that_prints(folder, 'end\n'), due))
            wrong = difference(program_that_prints(folder, 'cut 3\n'), due)
            self.assertIn('program cut 3', wrong)


if __name__ == '__main__':
    unittest.main()
