"""A node whose report is handed on as it comes, with a program that is played."""
import subprocess
import sys
import tempfile
import unittest
from pathlib import Path

from tests.where import BRIDGES  # isort: skip
from air.stream import StreamedNode

# It answers each line with one that sends octets, a line that is `many` with 100,000 octets, and one that is `gone` by its end.
PLAYED = '''#!/usr/bin/env python3
import sys
assert [sys.argv[1], *sys.argv[3:]] == ['run', '--hex', '--clock'], sys.argv
print('life 1 12345678 n 12345678 000000', flush=True)
for number, line in enumerate(sys.stdin, 1):
    if line == 'gone\\n':
        sys.exit(12)
    print('e', number, 'x' * 100000 if line == 'many\\n' else line.strip())
    print('s b0', f'{number}.1', 'ctl 12345678 000000 2aff', flush=True)
print('end', flush=True)
'''


class Serving(unittest.TestCase):
    """A node that is a program which is played."""

    def setUp(self) -> None:
        gone = tempfile.TemporaryDirectory()
        self.addCleanup(gone.cleanup)
        self.folder = Path(gone.name)
        self.program = self.folder / 'played'
        self.program.write_text(PLAYED, encoding='ascii')
        self.program.chmod(0o700)

    def unit(self, said: str) -> subprocess.CompletedProcess[str]:
        """The command `unit` with these lines; nobody has the socket."""
        return subprocess.run([sys.executable, '-B', BRIDGES / 'unit', self.program, 'node', self.folder / 'unit'], input=said,
                              capture_output=True, text=True, check=False, timeout=60, cwd=self.folder)

    def test_what_it_says_is_handed_on(self) -> None:
        ended = self.unit('one\ntwo\nnot ended')
        self.assertEqual(ended.stdout.splitlines(), ['life 1 12345678 n 12345678 000000', 'e 1 one', 's b0 1.1 ctl 12345678 000000 2aff',
                                                     'e 2 two', 's b0 2.1 ctl 12345678 000000 2aff', 'end'])
        self.assertEqual((ended.returncode, ended.stderr), (0, ''))

    def test_more_than_pipes_hold_goes_through(self) -> None:
        ended = self.unit('many\n' * 40 + 'x\n' * 2000)
        self.assertEqual((ended.returncode, len(ended.stdout.splitlines()), ended.stderr), (0, 2 + 2 * 2040, ''))

    def test_an_end_of_its_own_is_told(self) -> None:
        ended = self.unit('one\ngone\n')
        self.assertEqual((ended.returncode, len(ended.stdout.splitlines()), ended.stderr), (1, 3, 'unit: node: it ended with 12\n'))

    def test_a_reader_that_is_gone_is_told(self) -> None:
        with subprocess.Popen([sys.executable, '-B', BRIDGES / 'unit', self.program, 'node', self.folder / 'unit'], stdin=subprocess.PIPE,
                              stdout=subprocess.PIPE, stderr=subprocess.PIPE, text=True, cwd=self.folder) as running:
            assert running.stdin and running.stdout and running.stderr
            self.assertTrue(running.stdout.readline().startswith('life '))
            running.stdout.close()
            running.stdin.write('one\n')
            running.stdin.close()
            self.assertEqual((running.stderr.read(), running.wait(60)), ('unit: nobody reads the report\n', 1))

    def test_it_is_behind_while_it_reads_nothing(self) -> None:
        node = StreamedNode(self.program, self.folder / 'node')
        node.start()
        self.addCleanup(node.kill)
        node.say('many' for _ in range(40))
        for _ in range(40):
            node.say(['x' * 10000])
            node.write()
        self.assertTrue(node.is_behind)
        node.end()
        lines = []
        while node.is_on:
            node.write()
            lines += node.read()
        self.assertFalse(node.is_behind)
        self.assertEqual((len(lines), lines[-1]), (2 + 2 * 80, 'end'))
