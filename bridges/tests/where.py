"""Where the programs are, and the folders of the bridges; tests that need a program are skipped where it isn't built.

MESHNODED and MESHNODE name other builds than those that `rt ci` leaves.
"""
import os
import sys
import unittest
from pathlib import Path

BRIDGES = Path(__file__).resolve().parents[1]
ROOT = BRIDGES.parent
sys.path[:0] = [str(BRIDGES), str(ROOT / 'compare')]
MESHNODED = Path(os.environ.get('MESHNODED', ROOT / 'crates/meshnoded/out/meshnoded'))
MESHNODE = Path(os.environ.get('MESHNODE', ROOT / 'crates/meshnode/out/meshnode'))
takes_programs = unittest.skipUnless(os.access(MESHNODED, os.X_OK) and os.access(MESHNODE, os.X_OK), 'meshnoded and meshnode are not built')
