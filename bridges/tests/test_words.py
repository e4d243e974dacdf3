"""Descriptions, and the links that they make."""
import unittest

from tests.where import BRIDGES  # isort: skip
from air.links import Link
from air.outside import talk
from air.words import Air, NotADescription, description


class Words(unittest.TestCase):
    """What a description says."""

    def test_examples_are_descriptions(self) -> None:
        for path in sorted((BRIDGES / 'examples').iterdir()):
            with self.subTest(path.name):
                self.assertTrue(description(path.read_text(encoding='utf-8')).links)

    def test_a_lamp_is_bound_and_subscribed(self) -> None:
        said = description('node a 1201\nlamp a c001 c002\n')
        self.assertEqual(said.nodes['a'].config[1:], ['803d011201000010', '801b011201c00010', '801b011202c00010'])

    def test_a_link_changes_the_air_for_itself_alone(self) -> None:
        said = description('node a 0001\nnode b 0002\nair loss 30 delay 10 40\nlink a b loss 0 order kept\nlink a b\n')
        self.assertEqual(said.links[0][2], Air(0, (10, 40), True))
        self.assertEqual(said.links[1][2], Air(30, (10, 40)))

    def test_a_saying_stands_at_each_of_its_times(self) -> None:
        said = description('node a 0001\nat 10,250 a tick 1\n')
        self.assertEqual([(one.at_ms, one.line) for one in said.sayings], [(10, 'tick 1'), (250, 'tick 1')])

    def test_a_wrong_line_is_told(self) -> None:
        for text in ('nodes a', 'node a', 'node a xyz', 'link a b', 'node a 0001\nlink a a lost 3', 'at 5 a tick 1', 'step 15'):
            with self.subTest(text), self.assertRaises(NotADescription):
                description(text)


class Links(unittest.TestCase):
    """What becomes of a PDU on its way."""

    def drawn(self, air: Air, seed: int = 1) -> list[list[int]]:
        link = Link('a', 'b', air, seed)
        return [link.arrivals(10 * place) for place in range(1000)]

    def test_a_seed_tells_all_draws(self) -> None:
        air = Air(30, (10, 90))
        self.assertEqual(self.drawn(air), self.drawn(air))
        self.assertNotEqual(self.drawn(air), self.drawn(air, 2))

    def test_about_as_many_are_lost_as_said(self) -> None:
        lost = sum(not found for found in self.drawn(Air(30)))
        self.assertTrue(250 < lost < 350, lost)

    def test_none_overtakes_where_the_order_is_kept(self) -> None:
        kept = [at for found in self.drawn(Air(0, (10, 90), True)) for at in found]
        free = [at for found in self.drawn(Air(0, (10, 90))) for at in found]
        self.assertEqual(kept, sorted(kept))
        self.assertNotEqual(free, sorted(free))

    def test_copies_come_and_are_lost_one_by_one(self) -> None:
        counts = {len(found) for found in self.drawn(Air(50, (10, 10), False, 3))}
        self.assertEqual(counts, {0, 1, 2, 3})


class Outside(unittest.TestCase):
    """Lines of an outside node."""

    def test_eleven_octets_are_one_line(self) -> None:
        self.assertEqual(talk('k', 'dev:d', 'i', 1, 3, 0x1201, '00' * 11), [f'talk k dev:d i 04 000001 000001 0003 1201 u {"00" * 11}'])

    def test_twenty_one_octets_are_three_lines(self) -> None:
        self.assertEqual([line.split(' ')[9] for line in talk('k', 'dev:d', 'i', 1, 3, 0x1201, '00' * 21)], ['0', '1', '2'])
        self.assertEqual(len(talk('k', 'dev:d', 'i', 1, 3, 0x1201, '00' * 20)), 2)
