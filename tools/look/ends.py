"""How a tool ends, and how it reads and writes files.

Each fault that a tool tells of has an exit status of its own; tools/README.md lists them.
"""
import argparse
import os
import sys
from collections.abc import Callable
from pathlib import Path

DONE, DIFFERS, USAGE, NO_SCRIPT, NO_REPORT, NO_FILE, NO_MEANING = range(7)


class Fault(Exception):
    """A tool can't go on: the line that it prints, and its exit status."""

    def __init__(self, status: int, text: str) -> None:
        super().__init__(text)
        self.status = status


def read_text(path: str) -> str:
    """The octets of a file, or of standard input for `-`, as one character each."""
    try:
        octets = sys.stdin.buffer.read() if path == '-' else Path(path).read_bytes()
    except OSError as error:
        raise Fault(NO_FILE, f'{path}: {error.strerror}') from error
    return octets.decode('latin-1')


def write_octets(path: str, octets: bytes) -> None:
    """Writes a file, or standard output for `-`."""
    try:
        if path == '-':
            sys.stdout.buffer.write(octets)
        else:
            Path(path).parent.mkdir(parents=True, exist_ok=True)
            Path(path).write_bytes(octets)
    except OSError as error:
        raise Fault(NO_FILE, f'{path}: {error.strerror}') from error


def run_tool(parser: argparse.ArgumentParser,
             tool: Callable[[argparse.Namespace], int | None]) -> None:
    """Runs a tool over the words of the command line, and ends with its status."""
    try:
        status = tool(parser.parse_args())
        sys.stdout.flush()
    except Fault as fault:
        print(f'{parser.prog}: {fault}', file=sys.stderr)
        status = fault.status
    except BrokenPipeError:
        # nothing more can be printed, and what is left in the buffer is to go nowhere
        os.dup2(os.open(os.devnull, os.O_WRONLY), sys.stdout.fileno())
        status = NO_FILE
    sys.exit(status or DONE)
