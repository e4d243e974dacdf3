"""A friend and a Low Power node, both of oracle/: and that a wrong one is found."""
import unittest

from oracle.low_power import LowPowerLife
from oracle.node import Heard, Life
from oracle.report import report_of
from pair import Pair, Wrong, by_oracle


class WithoutRepeat(LowPowerLife):
    """Takes an answer that came before for the next one."""

    def _refusal(self, heard: Heard | None) -> str | None:
        self.closed_by = None
        return super()._refusal(heard)


class WithOneFsn(LowPowerLife):
    """Polls with FSN 0 alone."""

    def poll(self) -> None:
        self.fsn = 0
        super().poll()


def with_lives(kind: type[Life]) -> None:
    """Pairs with Low Power nodes of this kind, until one is wrong."""
    for seed in range(1, 6):
        Pair(lambda command, script: report_of(script, kind=kind if command == 'lpn' else Life), seed).run()


class Pairs(unittest.TestCase):
    def test_right(self) -> None:
        pair = Pair(by_oracle, 1)
        pair.run()
        self.assertGreater(len(pair.taken), 5)
        self.assertEqual(pair.taken, sorted(set(pair.taken)))

    def test_wrong(self) -> None:
        for kind in (WithoutRepeat, WithOneFsn):
            with self.subTest(kind.__name__), self.assertRaises(Wrong):
                with_lives(kind)


if __name__ == '__main__':
    unittest.main()
