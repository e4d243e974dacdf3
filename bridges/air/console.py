"""Standard input and output of a command around a node."""
import os
import sys
from dataclasses import dataclass
from typing import TextIO


@dataclass
class Console:
    """Reads lines for the node."""
    is_open: bool = True
    _rest: bytes = b''

    @property
    def reads(self) -> list[TextIO]:
        """What to wait for until it can be read."""
        return [sys.stdin] if self.is_open else []

    def read(self) -> list[str]:
        """The lines that came, once standard input has something. A last line without its end isn't one, as for the node."""
        more = os.read(sys.stdin.fileno(), 65536)
        self.is_open = bool(more)
        *lines, self._rest = (self._rest + more).split(b'\n')
        return [line.decode('ascii', 'replace') for line in lines if line]
