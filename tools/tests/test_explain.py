"""Explanations: of all that the program says, and of what docs/FORMATS.md lists."""
import re
import subprocess
import unittest

from look import meanings, report, script
from look.ends import Fault
from look.explaining import audit_fault, explained
from look.second_node import REPOSITORY

from .worked import all_rows, answered

FORMATS = (REPOSITORY / 'docs' / 'FORMATS.md').read_text()
EXPLAIN = REPOSITORY / 'tools' / 'explain'


def table(head: str) -> list[list[str]]:
    """The rows of the table of FORMATS that begins with this line."""
    rows = FORMATS.split(f'{head}\n', 1)[1].split('\n\n', 1)[0].splitlines()[1:]
    return [[cell.strip() for cell in row.strip('|').split(' | ')] for row in rows]


def first_words(cells: list[str]) -> set[str]:
    """The first word of each thing in backticks."""
    return {said.split()[0] for cell in cells for said in re.findall('`([^`]+)`', cell)}


class Formats(unittest.TestCase):
    def test_answers(self) -> None:
        """Each answer of FORMATS, with its words and the kinds that it is to."""
        found = {}
        for said, kinds, _ in table('| Answer | To | Where |'):
            for answer in re.findall('`([^`]+)`', said):
                word, *rest = answer.split()
                found.setdefault(word, (set(), rest))[0].update(re.findall('`([^`]+)`', kinds))
        self.assertEqual(set(found), set(meanings.ANSWERS))
        self.assertEqual(set(found), set(report.ANSWERS))
        for word, (kinds, rest) in found.items():
            due, forms = report.ANSWERS[word]
            self.assertEqual(kinds or set(due), set(due), word)
            self.assertEqual(rest[0] if rest else '', forms[0].name if forms else '', word)

    def test_results(self) -> None:
        said = [cell for row in table('| Result | What became of the job |') for cell in row]
        found = {words[0]: words[1:] for words in
                 (it.split() for cell in said for it in re.findall('`([^`]+)`', cell)) if words[1:]}
        due = {word: [form.name for form in forms] for word, forms in report.RESULTS.items()}
        self.assertEqual(found, due)
        self.assertEqual(set(meanings.RESULTS), set(due))

    def test_lines(self) -> None:
        """Each line of a script with its words."""
        found = {}
        for cells in table('| Line | Meaning |')[:12]:
            for said in re.findall('`([^`]+)`', cells[0]):
                words = said.removeprefix('bK ').removeprefix('b0 ').split()
                found[words[0]] = words[1:]
        due = {word: [form.name for form in it.words]
               for grammar in (script.NODE, script.LOW_POWER)
               for word, it in {**grammar.lines, **grammar.events}.items()}
        self.assertEqual(found, due)

    def test_ends(self) -> None:
        """Exit statuses with their names, verdicts, rules."""
        exits = {row[1].strip('`'): int(row[0]) for row in table('| Number | Printed | Where |')
                 if row[1].startswith('`')}
        self.assertEqual(exits, {meanings.SAID[word]: number
                                 for word, (number, _) in meanings.EXITS.items()})
        of_daemon = {row[1].strip('`'): int(row[0]) for row in table('| Number | Told | Where |') if row[1].startswith('`')}
        self.assertEqual(of_daemon, {word: number for word, (number, _) in meanings.DAEMON_EXITS.items()})
        reasons = {said for row in table('| Behind `nofile` | Is | Do |') for said in re.findall('`([^`]+)`', row[0]) if said != 'os error'}
        self.assertEqual(reasons, set(meanings.NO_FILE))
        verdicts = {row[0].strip('`') for row in table('| Verdict | Exactly where |')}
        self.assertEqual(verdicts, {meanings.SAID[word] for word in meanings.VERDICTS})
        rules = {int(row[0]) for row in table('| Rule | Broken where | For example |')}
        self.assertEqual(rules, set(script.RULES))
        self.assertEqual(rules, set(meanings.RULES_TO_DO))


class Said(unittest.TestCase):
    def test_refusals(self) -> None:
        """Each refusal of worked/ is explained over its text."""
        for it in answered('run'):
            if it.answer.startswith('script'):
                lines = explained(it.answer.split(), it.text)
                self.assertIn(f'rule {it.answer.split()[2]}', lines[0])

    def test_audits(self) -> None:
        """The first line that is of no audit's input is the program's, and verdicts are explained
        over their text."""
        for it in answered('audit'):
            fault = audit_fault(it.text)
            if it.answer != 'toolong':
                due = it.answer if it.answer.startswith('report') else 'None'
                self.assertEqual(str(fault), due, it.title)
                self.assertTrue(explained(it.answer.split(), it.text))

    def test_why_bad(self) -> None:
        """The fields that the octets have, where a key given opens them (the sample message #1)."""
        told = ('s b0 2.1 ctl 12345678 000001 01 1201 fffd 034b50057e400000010000 '
                '68eca487516765b5e5bfdacbaf6cb7fb6bff871f035444ce83a670df')
        text = f'key 7dd7364cd842ad18c17c2b820c84c3d6\n{told}\n'
        self.assertIn('TTL 00, SEQ 000001, SRC 1201, DST fffd', explained(['bad', '2'], text)[-1])
        self.assertIn('none of the 0 keys', explained(['bad', '1'], f'{told}\n')[-1])

    def test_lines_of_reports(self) -> None:
        """Each line of each worked report."""
        for line in {line for row in all_rows() for line in row.report.splitlines()}:
            self.assertTrue(explained(line.split()), line)

    def test_of_a_node_that_runs(self) -> None:
        """How `meshnoded` ends, with the reason behind it, and lines that it doesn't take."""
        for said, due in (('nofile: it has 12 octets, and not 65536', 'made it longer'), ('nofile: slot 4 is damaged', 'look at the disk'),
                          ('nofile: Permission denied (os error 13)', 'refused a call'), ('notmade: there is such a file', 'name another one'),
                          ('noclock: os error 11', 'no thread, or no clock'), ('cut', 'exit status 12'), ('memory; cut', 'as by a loss of power'),
                          ('memory', 'meshnoded ends so too'), ('wasreset', 'exit status 14'), ('line 3: rule 3: foo', 'breaks rule 3'),
                          ('keys: standard input isn\'t two words of 32 hexadecimal digits', 'do: Give the network key and the device key'),
                          ('usage: see meshnoded --help', 'do: meshnoded --help lists them'),
                          ('line 3: rule 1: ', '(an empty word)'), ('line 4: not ended', 'no LF')):
            self.assertIn(due, ' '.join(explained(said.split(' '))), said)

    def test_unknown(self) -> None:
        for said in ('x', 'usage; cut', 'line 3: rule 2: a', 'nofile slot', 'replay 1', 'replay 12345678', 'script 5', 'script 5 8', 'usage 2', 'e 1',
                     'b9 tick', 'noterased', 'sound'):
            with self.assertRaises(Fault, msg=said) as told:
                explained(said.split())
            self.assertEqual(told.exception.status, 6)

    def test_another_text(self) -> None:
        for said, text in (('script 1 2', 'provision\n'), ('script 1 2', HEAD), ('report 1', ''),
                           ('bad 3', 'end\n'), ('bad 1', 'end\n')):
            with self.assertRaises(Fault, msg=said) as told:
                explained(said.split(), text)
            self.assertEqual(told.exception.status, 3)

    def test_command(self) -> None:
        """What --help lists, and what is read from standard input."""
        done = subprocess.run([EXPLAIN, '--help'], capture_output=True, text=True, check=True)
        for word in (*meanings.ANSWERS, *meanings.RESULTS, *meanings.SAID.values(), *script.EVENTS, *meanings.DAEMON_EXITS,
                     *meanings.NO_FILE, *meanings.NOT_MADE, *re.findall(r'`(meshnoded? [a-z]+)', FORMATS)):
            self.assertIn(word, done.stdout)
        done = subprocess.run([EXPLAIN], input='replay 12345678 3129ab\n', capture_output=True,
                              text=True, check=True)
        self.assertIn('SEQ      3129ab', done.stdout)


HEAD = f'provision 1201 1 12345678 00 000 {"0" * 32} {"0" * 32}\nlife\n'

if __name__ == '__main__':
    unittest.main()
