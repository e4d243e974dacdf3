"""Friendships: what the node keeps for Low Power nodes, as their Friend.

Mesh Profile 3.6.6 (friendship), 3.5.5 (the Friend Queue), 3.8.6.3.1 (friendship credentials);
sizes, times and what is stored are those of docs/FORMATS.md, "Friendship". Ticks have 10 ms.
"""
from dataclasses import dataclass, field
from typing import NamedTuple

from .ciphers import Material, k2
from .pdus import Key, NetworkPdu
from .records import is_unicast

SLOTS = 2
QUEUE = 16
ADDRESSES = 16
OFFER_TIMEOUT = 100
TICKS_OF_POLL_TIMEOUT = 10
CLEAR_WINDOW = 256
COUNTERS = 0x10000
UNSEGMENTED_PAYLOAD = 11

QUEUE_SIZES = range(1, QUEUE.bit_length())
RECEIVE_DELAYS = range(0x0a, 0x100)
POLL_TIMEOUTS = range(0x00000a, 0x34bc00)
LAST_UNICAST = 0x7fff


class Request(NamedTuple):
    """The fields of a Friend Request (3.6.5.3)."""
    criteria: int
    receive_delay: int
    poll_timeout: int
    previous: int
    elements: int
    counter: int

    def fits(self, lpn: int) -> bool:
        """Whether each field is in its range."""
        return (self.criteria & 7 in QUEUE_SIZES and self.receive_delay in RECEIVE_DELAYS
                and self.poll_timeout in POLL_TIMEOUTS
                and (self.previous == 0 or is_unicast(self.previous))
                and self.elements > 0 and lpn + self.elements - 1 <= LAST_UNICAST)


class StoredPdu(NamedTuple):
    """A network PDU of another node, as it goes to the Low Power node."""
    iv_index: int
    pdu: NetworkPdu


class OwnMessage(NamedTuple):
    """An access message of this node, sealed once it goes."""
    net: int
    key: Key
    ttl: int
    src: int
    dst: int
    payload: bytes


class KeptPdu(NamedTuple):
    """The octets that answered the last Poll, with the SRC, IV Index and SEQ that they show."""
    src: int
    iv_index: int
    seq: int
    octets: bytes


@dataclass
class Friendship:
    """A friendship, or an offer, which has had no Poll: its `fsn` is None.

    `is_answered` tells whether the first entry of the queue answered the last Poll.
    """
    lpn: int
    net: int
    request: Request
    material: Material
    until: int
    fsn: int | None = None
    kept: KeptPdu | None = None
    is_answered: bool = False
    addresses: list[int] = field(default_factory=list)
    queue: list[StoredPdu | OwnMessage] = field(default_factory=list)

    @property
    def stands(self) -> bool:
        return self.fsn is not None

    def has_element(self, address: int) -> bool:
        return self.lpn <= address < self.lpn + self.request.elements

    def renew(self, now: int) -> None:
        self.until = now + TICKS_OF_POLL_TIMEOUT * self.request.poll_timeout

    def put(self, entry: StoredPdu | OwnMessage) -> None:
        """A 17th entry takes the place of the oldest, also where that answered the last Poll."""
        if len(self.queue) == QUEUE:
            self.queue.pop(0)
            self.is_answered = False
        self.queue.append(entry)

    def poll(self, now: int, fsn: int) -> None:
        """Another FSN than before drops what was answered."""
        self.renew(now)
        if fsn == self.fsn:
            return
        if self.is_answered:
            self.queue.pop(0)
        self.fsn, self.kept, self.is_answered = fsn, None, bool(self.queue)

    def add(self, addresses: list[int]) -> None:
        for address in addresses:
            if address not in self.addresses and len(self.addresses) < ADDRESSES:
                self.addresses.append(address)

    def remove(self, addresses: list[int]) -> None:
        self.addresses = [held for held in self.addresses if held not in addresses]

    def is_cleared_by(self, lpn: int, counter: int) -> bool:
        """Whether a Friend Clear of these fields ends it (3.6.6.3.2)."""
        above = (counter - self.request.counter) % COUNTERS
        return self.stands and self.lpn == lpn and above < CLEAR_WINDOW


class Friends:
    """The friendships and offers of a life, in the order of the offers.

    `own` is the address of the first element; `offers` counts the offers of this life.
    """

    def __init__(self, own: int) -> None:
        self.own = own
        self.slots: list[Friendship] = []
        self.offers = 0

    def of(self, lpn: int) -> Friendship | None:
        return next((slot for slot in self.slots if slot.lpn == lpn), None)

    def befriends(self, address: int) -> bool:
        """Whether this is an address of a friendship."""
        return any(slot.stands and slot.has_element(address) for slot in self.slots)

    def poll_timeouts(self) -> dict[int, int]:
        return {slot.lpn: slot.request.poll_timeout for slot in self.slots if slot.stands}

    def tick(self, now: int) -> None:
        self.slots = [slot for slot in self.slots if now < slot.until]

    def end(self) -> None:
        self.slots = []

    def offer(self, now: int, lpn: int, net: int, net_key: bytes, request: Request) -> int | None:
        """The FriendCounter of an offer, which stands in place of what this node had before."""
        others = [slot for slot in self.slots if slot.lpn != lpn]
        if len(others) >= SLOTS or not request.fits(lpn):
            return None
        counter = self.offers
        fields = (lpn, self.own, request.counter, counter)
        p = b'\1' + b''.join(number.to_bytes(2, 'big') for number in fields)
        until = now + OFFER_TIMEOUT
        self.slots = [*others, Friendship(lpn, net, request, k2(net_key, p), until)]
        self.offers = (counter + 1) % COUNTERS
        return counter

    def clear(self, lpn: int, counter: int) -> bool:
        """Whether a friendship was ended."""
        count = len(self.slots)
        self.slots = [slot for slot in self.slots if not slot.is_cleared_by(lpn, counter)]
        return len(self.slots) < count

    def put(self, iv_index: int, pdu: NetworkPdu) -> None:
        """A PDU that was heard under master credentials, for those that it is for."""
        is_segment = pdu.transport[0] >> 7
        if is_segment or pdu.ttl < 2:
            return
        stored = StoredPdu(iv_index, pdu._replace(ttl=pdu.ttl - 1))
        for slot in self.slots:
            is_for = slot.has_element(pdu.dst) or pdu.dst in slot.addresses
            if slot.stands and is_for and not slot.has_element(pdu.src):
                slot.put(stored)

    def put_own(self, message: OwnMessage) -> bool:
        """Stores a message of this node, if it goes unsegmented to an address of a friendship."""
        if len(message.payload) > UNSEGMENTED_PAYLOAD or not self.befriends(message.dst):
            return False
        for slot in self.slots:
            if slot.stands and slot.has_element(message.dst):
                slot.put(message)
        return True

    def keep(self, lpn: int, fsn: int, kept: KeptPdu) -> bool:
        """Notes the octets that answered a Poll, if they are awaited still."""
        slot = self.of(lpn)
        if slot is None or not slot.stands or slot.fsn != fsn or slot.kept is not None:
            return False
        slot.kept = kept
        return True
