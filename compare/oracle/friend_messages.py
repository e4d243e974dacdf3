"""What the control messages of friendships do, and what they ask to be sent.

Mesh Profile 3.6.5.1 to 3.6.5.9 (their octets), 3.6.6.2 to 3.6.6.4 (what they are for); under which
credentials each has an effect is docs/FORMATS.md's, "Friendship".
"""
from collections.abc import Callable
from typing import NamedTuple

from .friends import Friends, Friendship, KeptPdu, OwnMessage, Request, StoredPdu
from .pdus import NetworkPdu
from .records import ALL_FRIENDS, Records, is_unicast

(POLL, UPDATE, REQUEST, OFFER, CLEAR, CLEAR_CONFIRM, LIST_ADD, LIST_REMOVE,
 LIST_CONFIRM) = range(1, 10)
OFFERED = bytes.fromhex('6410107f')
"""ReceiveWindow, QueueSize, SubscriptionListSize and RSSI of every offer (3.6.5.4)."""


class Control(NamedTuple):
    """A control message from the first element; under the master credentials of the network key
    `net`, or under those of the friendship, where that is None."""
    text: bytes
    dst: int
    ttl: int = 0
    net: int | None = None


class Answer(NamedTuple):
    """The answer to a Poll, under the credentials of the friendship."""
    message: Control | StoredPdu | OwnMessage | KeptPdu
    lpn: int
    fsn: int


class Asked(NamedTuple):
    """A control message that was accepted; `lpn` tells whose friendship it was heard under, and
    is None under master credentials. `net` is a network key index."""
    friends: Friends
    records: Records
    now: int
    net: int
    lpn: int | None
    pdu: NetworkPdu

    @property
    def own_slot(self) -> Friendship | None:
        """The friendship, or the offer, of its SRC, if it was heard under that."""
        return self.friends.of(self.pdu.src) if self.lpn == self.pdu.src else None


Sends = list[Control | Answer]


def take(asked: Asked, opcode: int, params: bytes) -> Sends:
    """What a message asks to be sent, in order; one that fits no row has no effect."""
    message, lengths = MESSAGES.get(opcode, (None, ()))
    return message(asked, params) if len(params) in lengths else []


def _u16(octets: bytes) -> int:
    return int.from_bytes(octets, 'big')


def _addresses(octets: bytes) -> list[int]:
    return [_u16(octets[at:at + 2]) for at in range(0, len(octets), 2)]


def _request(asked: Asked, params: bytes) -> Sends:
    """A Friend Request goes to all friends with TTL 0, and to a node that is one (3.6.6.3.1)."""
    records, src = asked.records, asked.pdu.src
    if (asked.lpn is not None or (asked.pdu.dst, asked.pdu.ttl) != (ALL_FRIENDS, 0)
            or not records.friend):
        return []
    request = Request(params[0], params[1], int.from_bytes(params[2:5], 'big'), _u16(params[5:7]),
                      params[7], _u16(params[8:10]))
    key = records.nets[asked.net].sending
    counter = asked.friends.offer(asked.now, src, asked.net, key, request)
    if counter is None:
        return []
    return [Control(bytes([OFFER]) + OFFERED + counter.to_bytes(2, 'big'), src, net=asked.net)]


def _update(asked: Asked) -> bytes:
    """Flags, the IV Index, and that no more data waits (3.6.5.2)."""
    records, row = asked.records, asked.records.nets.get(asked.net)
    flags = (row is not None and row.phase == 2) | records.iv.in_progress << 1
    return bytes([UPDATE, flags]) + records.iv.current.to_bytes(4, 'big') + b'\0'


def _poll(asked: Asked, params: bytes) -> Sends:
    """The first Poll makes the friendship, and has the Friend of before told (3.6.6.3.1)."""
    slot, fsn = asked.own_slot, params[0] & 1
    if slot is None:
        return []
    is_first, is_again = not slot.stands, slot.fsn == fsn
    slot.poll(asked.now, fsn)
    if is_again:
        return [Answer(slot.kept, slot.lpn, fsn)] if slot.kept else []
    message = slot.queue[0] if slot.queue else Control(_update(asked), slot.lpn)
    previous = slot.request.previous
    sends: Sends = [Answer(message, slot.lpn, fsn)]
    if is_first and is_unicast(previous) and previous != asked.friends.own:
        clear = bytes([CLEAR]) + _two_numbers(slot.lpn, slot.request.counter)
        sends.append(Control(clear, previous, asked.records.ttl, asked.net))
    return sends


def _two_numbers(first: int, second: int) -> bytes:
    return first.to_bytes(2, 'big') + second.to_bytes(2, 'big')


def _list_message(change: Callable[[Friendship, list[int]], None]
                  ) -> Callable[[Asked, bytes], Sends]:
    """Friend Subscription List Add and Remove (3.6.6.4.3)."""
    def take_list(asked: Asked, params: bytes) -> Sends:
        slot = asked.own_slot
        if slot is None or not slot.stands:
            return []
        slot.renew(asked.now)
        change(slot, _addresses(params[1:]))
        return [Control(bytes([LIST_CONFIRM, params[0]]), slot.lpn)]
    return take_list


def _clear(asked: Asked, params: bytes) -> Sends:
    """A Friend Clear that ends a friendship is confirmed (3.6.6.3.2)."""
    lpn, counter = _u16(params[:2]), _u16(params[2:])
    if asked.lpn is not None or not asked.friends.clear(lpn, counter):
        return []
    confirm = bytes([CLEAR_CONFIRM]) + _two_numbers(lpn, counter)
    return [Control(confirm, asked.pdu.src, asked.records.ttl, asked.net)]


ONE_TO_FIVE_ADDRESSES = (3, 5, 7, 9, 11)
MESSAGES: dict[int, tuple[Callable[[Asked, bytes], Sends], tuple[int, ...]]] = {
    POLL: (_poll, (1,)),
    REQUEST: (_request, (10,)),
    CLEAR: (_clear, (4,)),
    LIST_ADD: (_list_message(Friendship.add), ONE_TO_FIVE_ADDRESSES),
    LIST_REMOVE: (_list_message(Friendship.remove), ONE_TO_FIVE_ADDRESSES),
}
