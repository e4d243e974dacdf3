"""A life of a Low Power node: whom it looks for, polls and has listed, and which PDUs it takes.

Mesh Profile 3.6.5 (control messages of a friendship), 3.6.6 (what both sides do) and 3.8.6.3.1
(credentials); the order of answers and what is this project's own are those of docs/FORMATS.md, "Low
Power node". What it draws, seals and stores is as of any node, under its first network key. One bearer.
"""
from typing import NamedTuple

from . import pdus
from .ciphers import Material, k2
from .flash import Flash
from .node import Heard, Job, Life
from .pdus import Key, LowerPdu
from .records import ALL_FRIENDS, ALL_NODES, Records, is_unicast

POLL, REQUEST, OFFER, LIST_ADD = 0x01, 0x03, 0x04, 0x07
OFFER_PARAMS = 6
CRITERIA, RECEIVE_DELAY, POLL_TIMEOUT = 0x01, 0x64, 0x000258
COUNTERS = 0x10000
TRANSACTIONS = 0x100
LISTED = 16
SEG = 0x80

PduName = tuple[int, int, int]
"""SRC, IV Index and SEQ of a PDU."""


class Friendship(NamedTuple):
    """A friend, with the two counters of the credentials."""
    friend: int
    lpn_counter: int
    friend_counter: int


class LowPowerLife(Life):
    """What such a node knows of its friend, beside what a power cut takes of any node."""

    def __init__(self, records: Records, flash: Flash) -> None:
        super().__init__(records, flash)
        self.seeks = 0
        self.awaited: int | None = None
        self.friendship: Friendship | None = None
        self.previous = 0
        self.fsn = 0
        self.is_polling = False
        self.closed_by: PduName | None = None
        self.listed: list[int] = []
        self.lists = 0

    # What it is told to do.

    def seek(self) -> None:
        """A Friend Request (3.6.5.3), with which a friendship is over."""
        counter, self.seeks = self.seeks, (self.seeks + 1) % COUNTERS
        self.awaited, self.friendship, self.is_polling = counter, None, False
        text = (bytes([REQUEST, CRITERIA, RECEIVE_DELAY]) + POLL_TIMEOUT.to_bytes(3, 'big')
                + self.previous.to_bytes(2, 'big') + bytes([self.records.elements])
                + counter.to_bytes(2, 'big'))
        self._do('seek', 'sought', [self._own_job(self._master(self._net), ALL_FRIENDS, text)])

    def poll(self) -> None:
        """A Poll with the present FSN (3.6.6.4.2)."""
        if self.friendship is None:
            self._enter('poll', 'nofriend')
            return
        self.is_polling = True
        self._do('poll', 'polled', [self._friend_job_of(bytes([POLL, self.fsn]))])

    def add_to_list(self, address: int) -> None:
        """A Friend Subscription List Add of one address (3.6.5.7)."""
        if self.friendship is None:
            self._enter('list', 'nofriend')
            return
        if address not in self.listed:
            if len(self.listed) == LISTED:
                self._enter('list', f'toomany {LISTED}')
                return
            self.listed.append(address)
        text = bytes([LIST_ADD, self.lists]) + address.to_bytes(2, 'big')
        self.lists = (self.lists + 1) % TRANSACTIONS
        self._do('list', 'listed', [self._friend_job_of(text)])

    # What is sent: from the first element, with TTL 0.

    @property
    def _net(self) -> int:
        """The index of the first network key."""
        return min(self.records.nets)

    def _material(self) -> Material:
        """The friendship credentials."""
        fields = self.records.unicast, *self.friendship
        p = b'\1' + b''.join(field.to_bytes(2, 'big') for field in fields)
        return k2(self.records.nets[self._net].sending, p)

    def _own_job(self, material: Material, dst: int, text: bytes) -> Job:
        src = self.records.unicast
        return None, lambda place: self._control(place, material, 0, src, dst, text)

    def _friend_job_of(self, text: bytes) -> Job:
        return self._own_job(self._material(), self.friendship.friend, text)

    # A network PDU is heard.

    def hear(self, octets: bytes) -> None:
        heard = self._read(octets)
        refusal = self._refusal(heard)
        if refusal:
            self._enter('net', refusal)
            return
        if heard.lpn is not None:
            self.fsn, self.is_polling, self.closed_by = 1 - self.fsn, False, _name(heard)
        answer, jobs = self._taken(heard, pdus.read_lower(heard.pdu))
        self._do('net', answer, jobs)

    def _read(self, octets: bytes) -> Heard | None:
        """By the first network key, the old value before the new, then by the friendship."""
        iv = self.records.iv.current
        iv -= (iv ^ octets[0] >> 7) & 1
        if iv < 0:
            return None
        tried = [(k2(key), None) for key in self.records.nets[self._net].values]
        if self.friendship:
            tried.append((self._material(), self.records.unicast))
        for material, lpn in tried:
            pdu = pdus.open_network(material, iv, octets)
            if pdu:
                return Heard(self._net, iv, pdu, lpn)
        return None

    def _refusal(self, heard: Heard | None) -> str | None:
        """The answer of a PDU that doesn't get past the friendship."""
        if heard is None:
            return 'unread'
        pdu = heard.pdu
        rows = ((not is_unicast(pdu.src) or pdu.dst == 0, 'badaddress'),
                (self.records.has_element(pdu.src), 'own'),
                (not self._is_mine(pdu.dst), 'notmine'),
                (bool(pdu.transport[0] & SEG), 'segmented'),
                (pdus.read_lower(pdu) is None, 'malformed'),
                (heard.lpn is not None and not self.is_polling, 'unasked'),
                (_name(heard) == self.closed_by, 'repeat'))
        return next((answer for holds, answer in rows if holds), None)

    def _is_mine(self, address: int) -> bool:
        return self.records.has_element(address) or address in (ALL_NODES, *self.listed)

    def _taken(self, heard: Heard, lower: LowerPdu) -> tuple[str, list[Job]]:
        """The answer of a PDU that passed, with its record put, and what it asks for."""
        name, pdu = _name(heard), heard.pdu
        entry = self.records.replay_entry(pdu.src)
        if entry and name[1:] <= entry:
            return f'replay {entry[0]:08x} {entry[1]:06x}', []
        opened = None if lower.ctl else self._open(heard, lower, name, lower.text)
        if not lower.ctl and opened is None:
            return 'nokey', []
        if entry is None and not self.records.has_replay_place():
            return 'listfull 512', []
        self.flash.put(lambda: self.records.accept(name))
        shown = f'{pdu.src:04x} {pdu.dst:04x} {name[1]:08x} {name[2]:06x}'
        if opened:
            return f'delivered {shown} dev {opened.payload.hex()}', []
        answer = f"control {shown} {lower.opcode:02x} {lower.text.hex() or '-'}"
        return answer, self._offer_jobs(heard, lower)

    def _keys_tried(self, heard: Heard, lower: LowerPdu) -> list[tuple[int | None, Key]]:
        """The device key alone."""
        return [] if lower.akf else super()._keys_tried(heard, lower)

    def _offer_jobs(self, heard: Heard, lower: LowerPdu) -> list[Job]:
        """The first Offer makes a friendship, and is answered by a Poll (3.6.6.4.1)."""
        is_offer = lower.opcode == OFFER and len(lower.text) == OFFER_PARAMS
        if not is_offer or heard.lpn is not None or self.awaited is None:
            return []
        self.friendship = Friendship(heard.pdu.src, self.awaited,
                                     int.from_bytes(lower.text[4:], 'big'))
        self.previous, self.awaited = heard.pdu.src, None
        self.fsn, self.is_polling, self.closed_by = 0, True, None
        return [self._friend_job_of(bytes([POLL, self.fsn]))]


def _name(heard: Heard) -> PduName:
    return heard.pdu.src, heard.iv_index, heard.pdu.seq
