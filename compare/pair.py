#!/usr/bin/env python3
"""A friend and a Low Power node over whole lives, each of them the program: what one sends the other hears.

    pair.py PROGRAM [--pairs N] [--seed S]

An outside node sends messages to the Low Power node and to an address that it had listed; the friend stores them, and the Low Power node
polls. Polls and answers get lost, answers come once more behind the next Poll, and power is cut on either side. Ends with 1 where a message that was stored in a friendship isn't taken
by the Low Power node, once and in its turn, as long as that friendship stands; or where one is taken twice in all its lives.
"""
import argparse
import subprocess
import sys
from collections.abc import Callable
from random import Random

from oracle.low_power import LowPowerLife
from oracle.node import Life
from oracle.report import report_of

TIMEOUT = 600
IV = '12345678'
NET_KEY = '7dd7364cd842ad18c17c2b820c84c3d6'
DEVICE_KEYS = ('9d6dd0e96eb25dc19a40ed9914f8f03f', 'f7a2a44f8e8a8029064f173ddc1e2b00')
FRIEND, LOW_POWER, OUTSIDE, GROUP = '0100', '1201', '0003', 'c000'
UPDATE = '02'
QUEUE = 16
STEPS = 60

Node = Callable[[str, str], str]
"""The report, with octets, of a script: by the word of the command."""


class Wrong(Exception):
    """What is wrong with a pair."""


def by_program(program: str) -> Node:
    """The program."""
    def node(command: str, script: str) -> str:
        done = subprocess.run([program, command, '--hex'], input=script.encode(), capture_output=True,
                              timeout=TIMEOUT, check=False)
        if done.returncode:
            raise Wrong(f'{command}: status {done.returncode}: {done.stderr.decode().strip()}')
        return done.stdout.decode()
    return node


def by_oracle(command: str, script: str) -> str:
    """The node of oracle/."""
    return report_of(script, kind=LowPowerLife if command == 'lpn' else Life)


class Side:
    """One node: its script so far, and how much of the report of its present life was looked at."""

    def __init__(self, node: Node, command: str, address: str, device_key: str) -> None:
        self.node, self.command = node, command
        self.lines = [f'provision {address} 1 {IV} 00 000 {NET_KEY} {device_key}']
        self.entries = self.jobs = 0
        self.is_cut = False

    def power_on(self) -> None:
        self.lines.append('life')
        self.entries = self.jobs = 0
        self.is_cut = False

    def take(self, line: str) -> tuple[list[str], list[str]]:
        """The answers and the octets that a line has for its effect; none after a cut."""
        self.lines.append(line)
        if self.is_cut:
            return [], []
        report = self.node(self.command, ''.join(f'{it}\n' for it in self.lines)).splitlines()
        began = max(place for place, it in enumerate(report) if it.startswith('life '))
        life = report[began + 1:]
        answers = [it.split(' ', 4)[4] for it in life if it.startswith('e ')]
        octets = [it.rsplit(' ', 1)[1] for it in life if it.startswith('s ')]
        self.is_cut = life[-1].startswith('cut')
        new = answers[self.entries:], octets[self.jobs:]
        self.entries, self.jobs = len(answers), len(octets)
        return new


class Pair:
    """Both nodes; the messages that wait at the friend, and those that the Low Power node took in all its lives."""

    def __init__(self, node: Node, seed: int) -> None:
        self.random = Random(seed)
        self.friend = Side(node, 'run', FRIEND, DEVICE_KEYS[0])
        self.low_power = Side(node, 'lpn', LOW_POWER, DEVICE_KEYS[1])
        self.seq = 0
        self.waiting: list[str] = []
        self.taken: list[str] = []
        self.last = ''
        self.stands = self.is_listed = self.is_open = self.has_more = False
        self.friend.power_on()
        self.low_power.power_on()

    def run(self) -> None:
        """All steps, and then Polls that aren't lost until nothing waits."""
        rows = ((10, self._send), (10, self._poll), (1, self._list), (1, self._seek), (1, self._cut_friend), (1, self._cut_low_power))
        for _ in range(STEPS):
            if not self.stands:
                self._seek()
            self.random.choices([it for _, it in rows], [weight for weight, _ in rows])[0]()
        if self.stands:
            self._drain()

    # What the Low Power node does.

    def _told(self, line: str, is_lost: bool = False, answer_is_lost: bool = False, comes_again: bool = False) -> None:
        """What it sends for a line goes to the friend, and what that sends for it comes back, perhaps behind the
        answer before."""
        _, sent = self.low_power.take(f'b0 {line}')
        if comes_again and self.last:
            self._hears(self.last)
        for octets in sent if not is_lost else []:
            for answer in self.friend.take(f'b0 net {octets}')[1]:
                if not answer_is_lost:
                    self._hears(answer)
        self._look()

    def _hears(self, octets: str) -> None:
        """What it sends for what it hears goes to the friend: the Poll that answers an Offer."""
        answers, sent = self.low_power.take(f'b0 net {octets}')
        if answers and answers != ['net unasked']:
            self.last = octets
        for answer in answers:
            self._note(answer.split(' '))
        for poll in sent:
            self.stands = True
            for answer in self.friend.take(f'b0 net {poll}')[1]:
                self._hears(answer)

    def _note(self, answer: list[str]) -> None:
        """A message is taken in its turn, and only once; an Update tells whether more waits."""
        if answer[:2] != ['net', 'control']:
            return
        src, seq, opcode, params = answer[2], answer[5], answer[6], answer[7]
        self.is_open = False
        if opcode == UPDATE:
            self.has_more = params[-2:] != '00'
        if src != OUTSIDE:
            return
        if seq in self.taken:
            raise Wrong(f'message {seq} was taken twice')
        if not self.waiting or seq != self.waiting[0]:
            raise Wrong(f'message {seq} was taken, and not the first of {self.waiting}')
        self.taken.append(self.waiting.pop(0))

    def _look(self) -> None:
        """Where power was cut, the friendship is over, and what waited for it."""
        for side in (self.friend, self.low_power):
            if side.is_cut:
                self._over()
                side.power_on()

    def _over(self) -> None:
        self.stands = self.is_open = False
        self.waiting = []
        self.last = ''
        self.is_listed = False

    def _seek(self) -> None:
        self._over()
        self._told('seek')

    def _poll(self) -> None:
        self.is_open = True
        chance = self.random.random()
        self._told('poll', is_lost=chance < 0.15, answer_is_lost=0.15 <= chance < 0.35, comes_again=chance > 0.85)

    def _list(self) -> None:
        """With no Poll open: the Confirm comes under friendship credentials too, so it would close one, and the message that
        it was sent for would be lost."""
        if self.stands and not self.is_open:
            self._told(f'list {GROUP}')
            self.is_listed = self.stands

    def _drain(self) -> None:
        for _ in range(2 * QUEUE + 4):
            self._told('poll')
            if not self.stands:
                return
            if not self.waiting and not self.is_open:
                return
        raise Wrong(f'{len(self.waiting)} messages were stored and not taken: {self.waiting}')

    # What else happens.

    def _send(self) -> None:
        """A message of the outside node, which the friend stores; no more than its queue holds."""
        if len(self.waiting) == QUEUE:
            return
        self.seq += 1
        dst = GROUP if self.is_listed and self.random.random() < 0.5 else LOW_POWER
        self.friend.take(f'b0 peer {NET_KEY} {IV} 1 05 {self.seq:06x} {OUTSIDE} {dst} 7f')
        if self.stands:
            self.waiting.append(f'{self.seq:06x}')
        self._look()

    def _cut_friend(self) -> None:
        self._arm(self.friend)

    def _cut_low_power(self) -> None:
        self._arm(self.low_power)

    def _arm(self, side: Side) -> None:
        """Once in a life: one of the calls of the flash that follow is torn."""
        began = max(place for place, line in enumerate(side.lines) if line == 'life')
        if not any(line.startswith('arm ') for line in side.lines[began:]):
            side.take(f"arm {self.random.randrange(8)} {self.random.choice(('00', 'ff', 'f0'))}")
            self._look()


def main() -> None:
    parser = argparse.ArgumentParser(description=__doc__, formatter_class=argparse.RawDescriptionHelpFormatter)
    parser.add_argument('program', help='the program, as tools/build meshnode leaves it, or oracle')
    parser.add_argument('--pairs', type=int, default=10, help='how many pairs (10)')
    parser.add_argument('--seed', type=int, default=1, help='the seed of the first one (1)')
    asked = parser.parse_args()
    node = by_oracle if asked.program == 'oracle' else by_program(asked.program)
    taken = 0
    for seed in range(asked.seed, asked.seed + asked.pairs):
        pair = Pair(node, seed)
        try:
            pair.run()
        except Wrong as wrong:
            for side in (pair.friend, pair.low_power):
                print(f'# meshnode {side.command}', *side.lines, sep='\n')
            sys.exit(f'pair: --seed {seed}: {wrong}')
        taken += len(pair.taken)
    print(f'{asked.pairs} pairs, {taken} messages taken, each once and in its turn')


if __name__ == '__main__':
    main()
