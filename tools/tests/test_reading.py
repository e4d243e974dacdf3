"""Scripts and reports are read as the program reads them."""
import unittest

from look.report import NotReport, read_report
from look.runs import NotOfScript, run_of
from look.script import LOW_POWER, NODE, Grammar, Refused, TooLong, read_script

from .worked import all_rows, answered


def read(text: str, grammar: Grammar) -> str:
    """What the program answers a text by."""
    try:
        read_script(text, grammar)
    except Refused as refused:
        return str(refused)
    except TooLong:
        return 'toolong'
    return 'ok'


class Scripts(unittest.TestCase):
    def test_refused(self) -> None:
        """Each text of worked/ that is no script fails at the line and by the rule of the
        program, and its nearest texts that are scripts don't."""
        for command, grammar in (('run', NODE), ('lpn', LOW_POWER)):
            for it in answered(command):
                self.assertEqual(read(it.text, grammar), it.answer, it.title)

    def test_failing_words(self) -> None:
        """The word that fails is marked."""
        head = f'provision 1201 1 12345678 00 000 {"0" * 32} {"0" * 32}\nlife\n'
        for line, place in (('b0 raw fffd 80 7f', 4), ('b0 raw 0000 00 7f', 3), ('b8 tick 1', 1),
                            ('b0 ticks 1', 2), ('b0 send 1 0003 07 dev 00', 3), ('arm 1 0', 3),
                            (f'b0 beacon {"0" * 32} 02 00000000', 4), ('b0 tick 1 1', None)):
            with self.assertRaises(Refused) as told:
                read_script(head + line)
            self.assertEqual((told.exception.line, told.exception.place), (3, place), line)


class Reports(unittest.TestCase):
    def test_worked(self) -> None:
        """The report of each worked script is read, and is one of that script."""
        for row in all_rows():
            grammar = LOW_POWER if row.words[0] == 'lpn' else NODE
            runs = run_of(read_report(row.report), read_script(row.script, grammar))
            shown = sum(len(run.steps) for run in runs)
            self.assertEqual(shown, row.report.count('\ne '), row.title)

    def test_of_another_script(self) -> None:
        head = f'provision 1201 1 12345678 00 000 {"0" * 32} {"0" * 32}\nlife\n'
        report = 'life 1 12345678 n 12345678 000000\ne 1 b0 1 raw planned\nend\n'
        for script, line in ((head + 'b0 tick 1\n', 2), (head, 2),
                             (head + 'b1 raw 0001 00 7f\n', 2),
                             (head + 'b0 raw 0001 00 7f\nb0 tick 1\n', 1)):
            with self.assertRaises(NotOfScript) as told:
                run_of(read_report(report), read_script(script))
            self.assertEqual(told.exception.line, line)

    def test_refused(self) -> None:
        """Lines that stand in no life, or not where they may."""
        opened = 'life 1 12345678 n 12345678 000000\n'
        for text, line in (('end\n', 1), (opened + opened, 2), (opened + 'end\nend\n', 3),
                           (opened + 'e 2 b0 1 raw planned\n', 2),
                           (opened + 'e 1 b0 2 raw planned\n', 2),
                           (opened + 'e 1 b0 1 tick planned\n', 2),
                           (opened + 's b0 1.1 spent 12345678\n', 2),
                           (opened + 'e 1 b1 1 raw planned\ns b0 1.1 spent 12345678\n', 3)):
            with self.assertRaises(NotReport) as told:
                read_report(text)
            self.assertEqual(told.exception.line, line, text)

    def test_as_it_comes(self) -> None:
        """Each entry with its jobs at once, and a life that has no end yet."""
        lives = read_report('life 1 12345678 n 12345678 000000\ne 1 b0 1 raw planned\n'
                            's b0 1.1 ctl 12345678 000000 00 1201 fffd 7f\n'
                            'e 2 b0 2 tick ticked 100\n')
        self.assertEqual([len(lives[0].entries), len(lives[0].jobs), lives[0].ending], [2, 1, None])


if __name__ == '__main__':
    unittest.main()
