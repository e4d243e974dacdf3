"""Nodes that run, over a pipe."""
import subprocess
import sys
import tempfile
import unittest
from pathlib import Path

from tests.where import BRIDGES, MESHNODE, MESHNODED, takes_programs  # isort: skip
from air.words import description
from air.world import World


@takes_programs
class Piped(unittest.TestCase):
    """The examples, and what holds of each."""

    def world(self, name: str, seed: int | None = None) -> World:
        """The world of an example that ran."""
        gone = tempfile.TemporaryDirectory()
        self.addCleanup(gone.cleanup)
        said = description((BRIDGES / 'examples' / f'{name}.pipe').read_text(encoding='utf-8'))
        said.seed = said.seed if seed is None else seed
        world = World(MESHNODED, Path(gone.name), said)
        self.addCleanup(lambda: [node.kill() for node in world.nodes.values()])
        world.run()
        return world

    def is_sound(self, world: World) -> None:
        """Nothing was accepted or drawn twice, and each audit is sound."""
        world.close()
        self.assertEqual(set(world.twice().values()), {0}, world.twice())
        for name, verdict in world.audit(MESHNODE).items():
            self.assertTrue(verdict.startswith('sound'), f'{name}: {verdict}')
        for node in world.nodes.values():
            self.assertEqual(node.wrong, [])

    def test_all_lamps_of_a_group_switch(self) -> None:
        world = self.world('lamps')
        self.assertEqual([world.onoff(name) for name in ('kitchen', 'hall', 'attic')], [1, 1, 1])
        self.assertGreater(sum(link.lost for link in world.links), 10)
        self.is_sound(world)

    def test_the_command_tells_what_came_of_it(self) -> None:
        with tempfile.TemporaryDirectory() as folder:
            words = [BRIDGES / 'pipe', MESHNODED, BRIDGES / 'examples' / 'killed.pipe', folder, '--audit', MESHNODE]
            ended = subprocess.run([sys.executable, '-B', *words], capture_output=True, text=True, check=True, timeout=60)
            reports = sorted(path.name for path in Path(folder).glob('*.report'))
        self.assertRegex(ended.stdout, 'kitchen: [0-9]+ accepted, 0 twice, onoff 1, sound [0-9]+')
        self.assertEqual(reports, ['hall.report', 'kitchen.report', 'switch.report'])

    def test_a_seed_tells_the_run(self) -> None:
        first, second = self.world('killed', 2), self.world('killed', 2)
        self.assertEqual(first.nodes['kitchen'].report, second.nodes['kitchen'].report)

    def test_a_sleeping_lamp_gets_what_its_friend_kept(self) -> None:
        world = self.world('friend')
        payloads = [payload.hex() for _, _, payload in world.sleepers['lamp'].taken]
        self.assertIn('82030107', payloads)
        self.assertIn('82030008', payloads)
        self.assertEqual(len(world.sleepers['lamp'].taken), len({name[:2] for name in world.sleepers['lamp'].taken}))
        self.is_sound(world)

    def test_a_node_that_is_killed_amid_goes_on(self) -> None:
        world = self.world('killed')
        lives = [line for line in world.nodes['hall'].report if line.startswith('life ')]
        self.assertEqual(len(lives), 2)
        self.assertEqual((world.onoff('kitchen'), world.onoff('hall')), (1, 1))
        self.is_sound(world)
