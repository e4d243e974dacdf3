"""The sizes of a profile, and node_limits with them."""
import importlib.machinery
import importlib.util
import unittest
from pathlib import Path

from look.ends import Fault
from look.second_node import REPOSITORY

TOOLS = REPOSITORY / 'tools'


def _module():
    loader = importlib.machinery.SourceFileLoader('profile_tool', str(TOOLS / 'profile'))
    made = importlib.util.module_from_spec(importlib.util.spec_from_loader('profile_tool', loader))
    loader.exec_module(made)
    return made


profile = _module()
LIMITS = (REPOSITORY / profile.LIMITS).read_text()


class Profiles(unittest.TestCase):
    """Profiles over node_limits as it is."""

    def test_each_that_is_here_changes_its_sizes_alone(self) -> None:
        for path in sorted(Path(TOOLS / 'profiles').glob('*.sizes')):
            sizes = profile.sizes_of(path.read_text())
            found = profile.with_sizes(LIMITS, sizes)
            changed = [(old, new) for old, new in zip(LIMITS.splitlines(), found.splitlines(), strict=True) if old != new]
            self.assertEqual([new.split(' = ')[1] for _, new in changed], [f'{sizes[old.split()[2][:-1]]};' for old, _ in changed])
            self.assertEqual(len(changed), len(sizes), path.name)

    def test_what_is_refused(self) -> None:
        for text in ('REPLAY_ENTRIES', 'REPLAY_ENTRIES 064', 'REPLAY_ENTRIES 64\nREPLAY_ENTRIES 64', 'REPLAY_ENTRIES -1', 'replay 64'):
            with self.assertRaises(Fault, msg=text):
                profile.sizes_of(text)
        for name in ('FRIEND_QUEUE', 'SNAPSHOT_RECORDS', 'ANOTHER'):
            with self.assertRaises(Fault, msg=name):
                profile.with_sizes(LIMITS, {name: 4})


if __name__ == '__main__':
    unittest.main()
