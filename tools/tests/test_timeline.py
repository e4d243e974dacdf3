"""Pictures: the numbers that they tell, and what is in them."""
import unittest
from xml.etree import ElementTree

from look.cards import MOST_JOBS
from look.cases import EXAMPLES, examples
from look.marks import GROUP_OF, seconds
from look.numbers import Range, passed_over, refills
from look.page import CELLS_FROM, WIDTH, page, picture
from look.report import ANSWERS, Life, read_report
from look.runs import run_of
from look.script import read_any
from look.second_node import REPOSITORY

SVG = '{http://www.w3.org/2000/svg}'


def lives_of(name: str) -> list[Life]:
    """The lives of a report of examples/."""
    return read_report((EXAMPLES / f'{name}.report').read_text())


def drawn(name: str, cells_from: int) -> ElementTree.Element:
    """The picture of an example."""
    script = read_any((EXAMPLES / f'{name}.mesh').read_text())
    return ElementTree.fromstring(picture(run_of(lives_of(name), script), name, 960, cells_from))


class Numbers(unittest.TestCase):
    def test_lamp(self) -> None:
        """The first number of a life is the first of a reserve; what was left of it is lost."""
        lives = lives_of('lamp')
        self.assertEqual([refills(life) for life in lives],
                         [{(2, 1): Range(0x12345678, 0, 0xff)}, {},
                          {(2, 1): Range(0x12345678, 0x100, 0x1ff)}])
        self.assertEqual([passed_over(*pair) for pair in zip(lives, [*lives[1:], None])],
                         [[Range(0x12345678, 4, 0xff)], [], []])

    def test_iv_update(self) -> None:
        """Nothing is told of numbers under an IV Index that ended."""
        lives = lives_of('iv_update')
        self.assertEqual(passed_over(lives[0], lives[1]), [Range(5, 1, 0xff)])
        self.assertEqual(passed_over(lives[1], lives[2]), [])

    def test_holes(self) -> None:
        """Numbers between two that a cut life shows."""
        lives = read_report('life 1 00000005 n 00000005 000000\ne 1 b0 1 tick ticked 1\n'
                            's b0 1.1 late 00000005 000001\ns b0 1.2 late 00000005 000004\ncut 3\n'
                            'life 2 00000005 n 00000005 000100\nend\n')
        self.assertEqual(passed_over(*lives),
                         [Range(5, 0, 0), Range(5, 2, 3), Range(5, 5, 0xff)])

    def test_many(self) -> None:
        """A refill before each number that is a multiple of 256, once."""
        lines = ['life 1 00000005 n 00000005 000100']
        lines += [f'e {n} b0 {n} raw planned' for n in range(1, 601)]
        lines += [f's b0 {n}.1 ctl 00000005 {0xff + n:06x} 00 1201 fffd 7f' for n in range(1, 601)]
        life = read_report('\n'.join([*lines, 'end', '']))[0]
        self.assertEqual(refills(life), {(1, 1): Range(5, 0x100, 0x1ff),
                                         (257, 1): Range(5, 0x200, 0x2ff),
                                         (513, 1): Range(5, 0x300, 0x3ff)})

    def test_seconds(self) -> None:
        for ticks, text in ((0, '0.00 s'), (105, '1.05 s'), (6000, '1 min 0.00 s'),
                            (34560000, '96 h 0 min 0.00 s')):
            self.assertEqual(seconds(ticks), text)


class Pictures(unittest.TestCase):
    def test_every_answer(self) -> None:
        self.assertEqual(set(GROUP_OF), set(ANSWERS))

    def test_whole(self) -> None:
        """Each entry and each job of every example is there with its title, in cards and in
        cells, and nothing reaches past an edge."""
        for case in examples():
            name = case.name.removesuffix('.mesh')
            for cells_from in (1, 150):
                tree = drawn(name, cells_from)
                titles = [title.text for title in tree.iter(f'{SVG}title')]
                for life in lives_of(name):
                    for entry in life.entries:
                        head = f'life {life.number}, entry {entry.number}, b{entry.bearer}, '
                        self.assertEqual(sum(title.startswith(head) for title in titles), 1)
                    for job in life.jobs:
                        self.assertTrue(any(f'job {job.entry}.{job.place} of' in title
                                            for title in titles))
                self._inside(tree)

    def _inside(self, tree: ElementTree.Element) -> None:
        width, height = float(tree.get('width')), float(tree.get('height'))
        for box in tree.iter(f'{SVG}rect'):
            if box.get('x'):
                self.assertLessEqual(float(box.get('x')) + float(box.get('width')), width)
                self.assertLessEqual(float(box.get('y')) + float(box.get('height')), height)

    def test_marks(self) -> None:
        """Cuts, numbers passed over, lines without an entry, and jobs beyond those shown."""
        text = ' '.join(drawn('power_cut', 150).itertext())
        self.assertEqual(text.count('power cut:'), 2)
        self.assertIn('no entry: line 8, b0 peer 0101 → 1201', text)
        self.assertIn('000004 to 0000ff (252)', ' '.join(drawn('lamp', 150).itertext()))
        jobs = ''.join(f's b0 1.{n} late 00000005 {n:06x}\n' for n in range(1, MOST_JOBS + 4))
        report = f'life 1 00000005 n 00000005 000000\ne 1 b0 1 tick ticked 1\n{jobs}end\n'
        text = picture(run_of(read_report(report)), 'x', 960, 150)
        self.assertIn('and 3 more', text)

    def test_shown(self) -> None:
        """The pictures of docs/ are drawn by `timeline REPORT PICTURE --script SCRIPT`."""
        for path in (REPOSITORY / 'docs' / 'pictures').glob('*.svg'):
            script = read_any((EXAMPLES / f'{path.stem}.mesh').read_text())
            due = picture(run_of(lives_of(path.stem), script), f'{path.stem}.mesh', WIDTH,
                          CELLS_FROM)
            self.assertEqual(path.read_text(), due)

    def test_page(self) -> None:
        """A table of what each life has."""
        text = page(run_of(lives_of('lamp')), 'lamp', '<svg/>')
        self.assertIn('<tr><td>net delivered</td><td>3</td><td></td><td>1</td></tr>', text)
        self.assertIn('<tr><td>sent msg</td><td>3</td><td></td><td>1</td></tr>', text)


if __name__ == '__main__':
    unittest.main()
