"""What is used here of the second node of compare/: its ciphers and PDUs, what a line of a script
is heard as, the reports that it makes, and the random scripts."""
import sys
from pathlib import Path

REPOSITORY = Path(__file__).resolve().parents[2]
sys.path.insert(0, str(REPOSITORY / 'compare'))

from kinds import make  # noqa: E402  (the folder of this and of what follows is found above)
from oracle.ciphers import beacon_keys, k2, virtual_address  # noqa: E402
from oracle.low_power import LowPowerLife  # noqa: E402
from oracle.node import Life  # noqa: E402
from oracle.pdus import NetworkPdu, open_network  # noqa: E402
from oracle.report import report_of  # noqa: E402
from oracle.script import heard_octets, material  # noqa: E402

__all__ = ['REPOSITORY', 'Life', 'LowPowerLife', 'NetworkPdu', 'beacon_keys', 'heard_octets', 'k2', 'make', 'material',
           'open_network', 'report_of', 'virtual_address']
