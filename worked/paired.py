"""A friend and a Low Power node that hand each other what they send, over whole lives: the program runs both, `run` and `lpn`.

A run is the same each time, so each side is a script that grows: behind each line it is run again, and what it sent since goes to the other
side as a line `net`. What is asked of the two reports is what the standard promises: each message that the friend kept is taken once, in
order, whatever is lost on the way; and whatever becomes of either side's power, no message is taken twice.
"""
import collections
import re

from rows import spelled

FRIEND = spelled('provision 0100 1 12345678 00 000 NK 00112233445566778899aabbccddeeff')
LOW_POWER = spelled('provision 1201 1 12345678 00 000 NK DK')
FIRST_SEND = re.compile(r'^s b0 \S+ (?:ctl|msg|rep|relay) .* ([0-9a-f]{26,})$', re.M)
TAKEN = re.compile(r'^e \d+ b0 \d+ net (?:control|delivered) (0003) \w{4} \w{8} (\w{6}) ', re.M)


class Side:
    """One of the two: its command, its script so far, and what it sent in the life that is on."""

    def __init__(self, call, words, provision):
        self.call, self.words, self.lines, self.sent = call, [*words, '--hex'], [provision, 'life'], 0

    def report(self):
        status, report, said = self.call(self.words, ''.join(f'{line}\n' for line in self.lines))
        if status:
            raise ValueError(f'{self.words}: status {status} {said.strip()}')
        return report

    def does(self, line):
        """The octets that it sends for a line."""
        self.lines.append(line)
        life = self.report().split('\nlife ')[-1]
        sent = FIRST_SEND.findall(life)
        new, self.sent = sent[self.sent :], len(sent)
        return new

    def powers_on(self):
        self.lines.append('life')
        self.sent = 0

    def taken(self):
        """The SEQs of the messages of 0003 that it took, over all lives."""
        return [int(seq, 16) for _, seq in TAKEN.findall(self.report())]


class Pair:
    """A friend and a Low Power node, whose radio is on while it waits for an answer alone."""

    def __init__(self, call):
        self.friend, self.node = Side(call, ['run'], FRIEND), Side(call, ['lpn'], LOW_POWER)
        self.seq = 0

    def hears(self, side, octets):
        return [more for pdu in octets for more in side.does(f'b0 net {pdu}')]

    def seeks(self):
        """A friendship from the Request to the answer to the first Poll."""
        offers = self.hears(self.friend, self.node.does('b0 seek'))
        polls = self.hears(self.node, offers)
        return self.hears(self.node, self.hears(self.friend, polls))

    def polls(self, loses_poll=False, loses_answer=False, times=1):
        """A Poll and its answer, of which either may be lost, and which may be heard more than once."""
        polls = self.node.does('b0 poll')
        answers = [] if loses_poll else self.hears(self.friend, polls)
        return [] if loses_answer else self.hears(self.node, answers * times)

    def lists(self, address):
        self.hears(self.node, self.hears(self.friend, self.node.does(f'b0 list {address:04x}')))

    def message(self, dst=0x1201, payload=None):
        """0003 sends a message that the friend alone hears: a control message, or an access message under the device key."""
        self.seq += 1
        if payload is None:
            self.friend.does(spelled(f'b0 peer NK 12345678 1 05 {self.seq:06x} 0003 {dst:04x} 7f'))
        else:
            self.friend.does(spelled(f'b0 talk NK dev:DK 12345678 05 {self.seq:06x} {self.seq:06x} 0003 {dst:04x} u {payload}'))
        return self.seq


def unlike(title, due, found):
    return None if due == found else f'{title}: it took {found}, and not {due}'


def whole_life(call):
    """An Offer, lists, and messages of both kinds, to it and to a group; nothing is lost on the way."""
    pair = Pair(call)
    pair.seeks()
    pair.lists(0xc000)
    due = [pair.message(), pair.message(payload='8201'), pair.message(0xc000), pair.message(payload='800c')]
    pair.message(0xc001)
    for _ in range(6):
        pair.polls()
    due.append(pair.message())
    pair.polls()
    return unlike('whole life', due, pair.node.taken())


def lossy(call):
    """Polls and answers are lost, and answers are heard again, before and behind the next Poll."""
    pair = Pair(call)
    pair.seeks()
    due = [pair.message() for _ in range(5)]
    for step in range(14):
        pair.polls(loses_poll=step % 4 == 1, loses_answer=step % 3 == 1, times=1 + step % 2)
    return unlike('lossy', due, pair.node.taken())


def full_queue(call):
    """Of 18 messages the last 16 are kept (MshPRF 3.5.5), and handed over in order."""
    pair = Pair(call)
    pair.seeks()
    sent = [pair.message() for _ in range(18)]
    for _ in range(18):
        pair.polls()
    return unlike('full queue', sent[-16:], pair.node.taken())


def node_is_cut(call):
    """The Low Power node's power is cut at each call of the message that it takes: it asks for a friend again, and takes what comes then."""
    for calls, mask in [(0, '00'), (0, 'ff'), (1, '00'), (1, '0f'), (1, 'ff'), (2, '00')]:
        pair = Pair(call)
        pair.seeks()
        first = pair.message()
        pair.node.lines.append(f'arm {calls} {mask}')
        pair.polls()
        pair.node.powers_on()
        pair.seeks()
        later = [pair.message(), pair.message()]
        for _ in range(4):
            pair.polls()
        found = pair.node.taken()
        if found not in ([first, *later], later):
            return f'node cut {calls} {mask}: it took {found}'
    return None


def friend_is_cut(call):
    """The friend's power is cut as it hears a message: it knows no friendship then, and answers no Poll until it is asked again."""
    for calls, mask in [(0, '00'), (1, '00'), (1, 'ff')]:
        pair = Pair(call)
        pair.seeks()
        due = [pair.message()]
        pair.polls()
        pair.friend.lines.append(f'arm {calls} {mask}')
        pair.friend.does(spelled('b0 peer NK 12345678 1 05 000001 0004 0100 7f'))
        pair.friend.powers_on()
        if pair.polls():
            return f'friend cut {calls} {mask}: a Poll of before is answered'
        pair.seeks()
        due += [pair.message(), pair.message()]
        for _ in range(3):
            pair.polls()
        if pair.node.taken() != due:
            return unlike(f'friend cut {calls} {mask}', due, pair.node.taken())
    return None


def twice(call):
    """Both are cut again and again: no message is taken twice, and an audit of each report finds nothing used or accepted twice."""
    pair = Pair(call)
    for round_ in range(5):
        pair.seeks()
        for _ in range(3):
            pair.message()
        pair.node.lines.append(f'arm {round_} {"00" if round_ % 2 else "ff"}')
        for _ in range(4):
            pair.polls(times=2)
        pair.node.powers_on()
        if round_ % 2:
            pair.friend.powers_on()
    seqs = collections.Counter(pair.node.taken())
    if max(seqs.values(), default=0) > 1:
        return f'twice: {seqs}'
    for side in (pair.friend, pair.node):
        status, verdict, said = call(['audit'], spelled('key NK\n') + side.report())
        if status or verdict.startswith(('reuse', 'twice')):
            return f'twice: an audit of {side.words} says {verdict.strip()} {said.strip()}'
    return None


CASES = [whole_life, lossy, full_queue, node_is_cut, friend_is_cut, twice]
