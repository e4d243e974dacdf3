"""A lamp on a chip beside one on this machine: where its power goes, what is told of a difference, and of what calls take."""
import contextlib
import io
import re
import unittest
from collections.abc import Callable
from dataclasses import dataclass

from crossing import lamps
from crossing.lamps import Course, Lived

COURSE = Course('a course', b'', ['one', 'two'])


@dataclass
class Told:
    """A lamp of which is said what it does."""
    does: Callable[[int | None], Lived]

    def lives(self, _: Course, cut: int | None = None) -> Lived:
        return self.does(cut)


def lived(cut: int | None) -> Lived:
    """Ten octets of flash, and a second life behind a loss of power."""
    report = 'life 1\n' if cut is None else f'life 1\nlife 1 {cut}\n'
    return Lived(0, f'{report}end\n'.encode(), bytes([0 if cut is None else cut]), ['10 octets'])


class Powers(unittest.TestCase):
    """Losses of power."""

    def wrong(self, ours: Callable[[int | None], Lived], theirs: Callable[[int | None], Lived] = lived, every: int = 1) -> tuple[list[str], str]:
        with contextlib.redirect_stdout(io.StringIO()) as printed:
            found = list(lamps.wrong(COURSE, Told(ours), Told(theirs), every))
        return found, printed.getvalue()

    def test_each_place_is_tried(self) -> None:
        tried = []
        self.assertEqual(self.wrong(lambda cut: tried.append(cut) or lived(cut)), ([], 'lamp: a course: 2 lines, 10 losses of power\n'))
        self.assertEqual(sorted(tried, key=str), [*range(10), None])
        self.assertEqual(self.wrong(lived, every=4)[1], 'lamp: a course: 2 lines, 3 losses of power\n')

    def test_of_many_octets_some_places_and_the_last_ones(self) -> None:
        found = lamps.places(33952, 1)
        self.assertEqual(found[-lamps.BEHIND:], list(range(33952 - lamps.BEHIND, 33952)))
        self.assertEqual(len(found), lamps.BEHIND + lamps.FEW)

    def test_a_difference_is_told(self) -> None:
        def other(cut: int | None) -> Lived:
            return lived(cut) if cut != 3 else Lived(0, lived(3).report, b'other', ['10 octets'])
        self.assertEqual(self.wrong(other)[0], ["a course, cut 3: another report, or another flash: it told ['10 octets']"])

    def test_a_life_that_does_not_go_on_is_told(self) -> None:
        def ends(cut: int | None) -> Lived:
            return lived(cut) if cut != 3 else Lived(0, b'life 1\nend\n', b'', ['10 octets'])
        self.assertEqual(self.wrong(ends, ends)[0], ['a course, cut 3: no life to its end'])


class Examples(unittest.TestCase):
    """What happens in the scripts of examples/."""

    def test_each_life_has_its_lines(self) -> None:
        found = dict(lamps.examples())
        self.assertEqual([len(life) for life in found['lamp']], [4, 1, 2])
        self.assertGreater(len(found), 5)
        for name, lives in found.items():
            with self.subTest(name=name):
                self.assertTrue(all(re.match(r'b\d ', line) for life in lives for line in life))

    def test_a_difference_is_told(self) -> None:
        """And the flash of a life is that of the one before."""
        def does(course: Course, name: str) -> Lived:
            return Lived(0, b'other' if name == 'ours' and len(course.flash) == 1 else b'', b'.', ['no octets'])

        @dataclass
        class Named:
            name: str

            def lives(self, course: Course, _: int | None = None) -> Lived:
                return does(course, self.name)
        with contextlib.redirect_stdout(io.StringIO()):
            found = list(lamps.wrong_examples(Named('ours'), Named('theirs')))
        self.assertEqual(len(found), sum(len(lives) - 1 for _, lives in lamps.examples()))


class Weighed(unittest.TestCase):
    """What calls take."""

    def test_rows_are_read(self) -> None:
        told = ['open 500 40 9000', *[f'line {it} {it} {it}' for it in range(len(lamps.kinds()))], 'close 3 4 5', 'heap 65536 0', '10 octets']
        found = lamps.taken(Told(lambda _: Lived(0, b'', b'', told)))
        self.assertEqual((found.largest, found.left), (65536, 0))
        self.assertEqual([(call.instructions, call.stack, call.heap) for call in found.of('open')], [(500, 40, 9000)])
        kinds = list(lamps.of_kinds(found.of('line')))
        self.assertEqual(kinds[0], ('configured', 2, 4))
        self.assertEqual([kind for kind, _, _ in kinds], list(dict.fromkeys(kind for kind, _ in lamps.kinds())))


if __name__ == '__main__':
    unittest.main()
