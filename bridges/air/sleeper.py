"""A Low Power node, played: it asks for a friend, polls, and takes what the friend kept for it.

`meshnoded` is no Low Power node; this one is as short as can be: unsegmented messages under one application key, no replies, time by the pipe.
Mesh Profile 3.6.5, 3.6.6. The ciphers are those of compare/oracle.
"""
from dataclasses import dataclass, field

from oracle.ciphers import Material, k2
from oracle.pdus import NetworkPdu, UpperFields, open_network, open_upper, read_lower, seal_network

from .reports import MESSAGE, OnAir
from .words import SleeperWords

ALL_FRIENDS = 0xfffd
POLL, UPDATE, REQUEST, OFFER, LIST_ADD = 1, 2, 3, 4, 7
# criteria with room for 8 messages, ReceiveDelay 80 ms, PollTimeout 10 s
CRITERIA, RECEIVE_DELAY, POLL_TIMEOUT = 0x4b, 0x50, 100
OFFER_WAIT_MS, ANSWER_WAIT_MS, MOST_TRIES = 1100, 300, 8
ONOFF_SETS = (0x8202, 0x8203)


@dataclass
class Sleeper:
    """What it knows. `taken` has each message that it took, `nets` the credentials of its friendships as scripts write them."""
    words: SleeperWords
    net_key: bytes
    app_key: bytes
    iv_index: int
    taken: list[tuple[int, int, bytes]] = field(default_factory=list)
    nets: list[str] = field(default_factory=list)
    polls: int = 0
    onoff: int = 0
    _friend: int = 0
    _credentials: Material | None = None
    _counter: int = -1
    _seq: int = 0
    _fsn: int = 0
    _tries: int = 0
    _at_ms: int = 0
    _is_open: bool = False
    _listed: bool = False
    _lists: int = 0
    _closed_by: tuple[int, int] = (0, 0)
    _seen: dict[int, int] = field(default_factory=dict)

    def step(self, now_ms: int) -> list[OnAir]:
        """What it sends of its own at a time."""
        if now_ms < self._at_ms:
            return []
        if not self._credentials or self._tries >= MOST_TRIES:
            return [self._request(now_ms)]
        self._tries += 1
        return [self._poll(now_ms)]

    def hear(self, now_ms: int, heard: OnAir) -> list[OnAir]:
        """What it answers at once to a PDU."""
        if heard.kind != MESSAGE:
            return []
        if self._credentials and (pdu := open_network(self._credentials, self.iv_index, heard.octets)):
            return self._answered(now_ms, pdu)
        pdu = open_network(k2(self.net_key), self.iv_index, heard.octets)
        if pdu and pdu.ctl and pdu.dst == self.words.unicast and pdu.transport[0] == OFFER and not self._credentials:
            return self._offered(now_ms, pdu)
        return []

    def _sealed(self, material: Material, dst: int, transport: bytes) -> OnAir:
        self._seq += 1
        return OnAir(MESSAGE, seal_network(material, self.iv_index, NetworkPdu(1, 0, self._seq, self.words.unicast, dst, transport)))

    def _request(self, now_ms: int) -> OnAir:
        self._counter += 1
        self._credentials, self._tries, self._fsn, self._listed = None, 0, 0, False
        self._at_ms = now_ms + OFFER_WAIT_MS
        fields = (bytes([REQUEST, CRITERIA, RECEIVE_DELAY]) + POLL_TIMEOUT.to_bytes(3, 'big') + self._friend.to_bytes(2, 'big') + b'\1'
                  + self._counter.to_bytes(2, 'big'))
        return self._sealed(k2(self.net_key), ALL_FRIENDS, fields)

    def _offered(self, now_ms: int, pdu: NetworkPdu) -> list[OnAir]:
        self._friend = pdu.src
        ends = [number.to_bytes(2, 'big') for number in (self.words.unicast, pdu.src, self._counter)] + [pdu.transport[5:7]]
        self._credentials = k2(self.net_key, b'\1' + b''.join(ends))
        self.nets.append('/'.join([self.net_key.hex(), *(end.hex() for end in ends)]))
        return [self._poll(now_ms)]

    def _poll(self, now_ms: int) -> OnAir:
        assert self._credentials
        self.polls += 1
        self._is_open = True
        self._at_ms = now_ms + ANSWER_WAIT_MS
        return self._sealed(self._credentials, self._friend, bytes([POLL, self._fsn]))

    def _answered(self, now_ms: int, pdu: NetworkPdu) -> list[OnAir]:
        is_repeat = (pdu.src, pdu.seq) == self._closed_by
        if not self._is_open or is_repeat or pdu.ctl and pdu.transport[0] != UPDATE:
            return []
        self._is_open, self._tries, self._closed_by = False, 0, (pdu.src, pdu.seq)
        self._fsn = 1 - self._fsn
        if not pdu.ctl:
            self._take(pdu)
            return [self._poll(now_ms)]
        self._at_ms = now_ms + self.words.poll_ms
        return [] if self._listed or not self.words.groups else [self._list()]

    def _list(self) -> OnAir:
        assert self._credentials
        self._listed = True
        self._lists += 1
        groups = b''.join(group.to_bytes(2, 'big') for group in self.words.groups[:5])
        return self._sealed(self._credentials, self._friend, bytes([LIST_ADD, self._lists % 256]) + groups)

    def _take(self, pdu: NetworkPdu) -> None:
        """Takes a message that is news, by its source's number."""
        if pdu.seq <= self._seen.get(pdu.src, -1):
            return
        self._seen[pdu.src] = pdu.seq
        lower = read_lower(pdu)
        if lower and not lower.segment and lower.akf:
            fields = UpperFields(True, pdu.seq, pdu.src, pdu.dst, self.iv_index)
            payload = open_upper(self.app_key, fields, lower.text)
            if payload:
                self.taken.append((pdu.src, pdu.seq, payload))
                self.onoff = payload[2] if int.from_bytes(payload[:2], 'big') in ONOFF_SETS else self.onoff
