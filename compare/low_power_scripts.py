"""Random scripts of a Low Power node: Requests, Offers, Polls, lists, and what friends and others send it.

The node of oracle/ goes along, so most of what comes under friendship credentials is read.
"""
from random import Random

from oracle import pdus
from oracle.ciphers import Material, k2
from oracle.low_power import COUNTERS, LowPowerLife
from oracle.pdus import NetworkPdu, UpperFields
from oracle.records import Records
from oracle.report import Run
from scripts import APP_KEYS, DEVICE_KEY, NET_KEYS, UNICAST, LifeOver, Script

FRIENDS = (0x0100, 0x0102)
OTHERS = (0x0300, 0x0301, 0x0302)
GROUPS = (0xc000, 0xc001, 0xc002, 0xc100, 0xfeff)
IVS = (0x12345678, 5, 6, 0)


class LowPowerScript(Script):
    """`credentials` has the NET of each friendship that was made."""

    def __init__(self, seed: int) -> None:
        self.random = Random(seed)
        choice = self.random.choice
        iv = choice(IVS)
        elements, flags = choice((1, 1, 2, 4)), choice((0, 0, 2)) if iv else 0
        provision = (f'provision {UNICAST:04x} {elements} {iv:08x} {flags:02x} {choice((0, 0x456)):03x}'
                     f' {NET_KEYS[0].hex()} {DEVICE_KEY.hex()}')
        self.lines = [provision]
        self.run = Run(provision, kind=LowPowerLife)
        self.seqs: dict[int, int] = {}
        self.credentials: list[str] = []
        self.last = ''
        for number in range(self.random.randrange(1, 5)):
            self._life(is_first=number == 0)
        self.run.end()

    @property
    def life(self) -> LowPowerLife:
        return self.run.life

    def _fill_life(self, is_first: bool) -> None:
        total = self.random.randrange(5, 60)
        armed_at = self.random.randrange(total) if self.random.random() < 0.4 else None
        for number in range(total):
            if number == armed_at:
                self._arm(self.random.randrange(12))
            self._step()
            self._note()

    def _step(self) -> None:
        if self.life.friendship is None and self.random.random() < 0.5:
            (self._seek if self.life.awaited is None else self._offer)()
            return
        rows = ((2, self._seek), (12, self._poll), (6, self._list), (3, self._offer), (10, self._update),
                (10, self._stored), (4, self._unread), (3, self._odd), (5, self._access), (6, self._again),
                (1, self._old))
        self._drawn(rows)()

    def _note(self) -> None:
        """Notes the credentials of a friendship, and the last line, to be heard again."""
        made = self.life.friendship
        if made:
            word = (f'{NET_KEYS[0].hex()}/{UNICAST:04x}/{made.friend:04x}/{made.lpn_counter:04x}'
                    f'/{made.friend_counter:04x}')
            if word not in self.credentials:
                self.credentials.append(word)

    # What it is told.

    def _seek(self) -> None:
        self._event('seek')

    def _poll(self) -> None:
        for _ in range(self.random.choice((1, 1, 1, 2, 3))):
            self._event('poll')

    def _list(self) -> None:
        """An address, or now and then so many that the list is full."""
        for _ in range(40 if self.random.random() < 0.05 else 1):
            more = 0xc200 + self.random.randrange(24)
            self._event(f'list {self.random.choice((*GROUPS, *[more] * 5)):04x}')

    # What is heard.

    def _net(self) -> str:
        """The NET of the friendship, most often; else master, or of one that is over."""
        chance = self.random.random()
        if self.credentials and chance < 0.8:
            return self.credentials[-1]
        return self.random.choice((NET_KEYS[0].hex(), NET_KEYS[1].hex(), *self.credentials))

    def _dst(self) -> int:
        own = UNICAST + self.random.randrange(self.records.elements)
        return self.random.choice((own, own, own, *self.life.listed[:2], *GROUPS[:2], 0xffff, 0xfffd, 9))

    def _heard(self, ctl: int, src: int, dst: int, text: str, net: str) -> None:
        ttl, seq = self.random.choice((0, 0, 1, 5)), self._next_seq(src)
        self.last = (f'peer {net} {self._peer_iv():08x} {ctl} {ttl:02x} {seq:06x} {src:04x} {dst:04x} {text}')
        self._event(self.last)

    def _offer(self) -> None:
        """One of the right length most often, and under master credentials."""
        counter = self.random.choice((0, 0, 1, COUNTERS - 1))
        text = f'0464101{self.random.randrange(16):x}7f{counter:04x}'
        if self.random.random() < 0.1:
            text = self.random.choice((text[:-2], text + '00', '04'))
        net = NET_KEYS[0].hex() if self.random.random() < 0.9 else self._net()
        self._heard(1, self.random.choice(FRIENDS), UNICAST, text, net)

    def _update(self) -> None:
        friend = self.life.friendship.friend if self.life.friendship else FRIENDS[0]
        self._heard(1, friend, UNICAST, f'0200{self.records.iv.current:08x}00', self._net())

    def _stored(self) -> None:
        self._heard(1, self.random.choice(OTHERS), self._dst(), self.random.choice(('7f', '0a050004', '09ab')),
                    self._net())

    def _unread(self) -> None:
        """Segments, and PDUs that are none."""
        ctl, text = self.random.choice(((0, '80000001' + 'ab' * 12), (0, '80'), (1, 'ff'), (1, '8100080000'),
                                        (0, '0011223344'), (0, '00')))
        self._heard(ctl, self.random.choice(OTHERS), self._dst(), text, self._net())

    def _odd(self) -> None:
        src, dst = self.random.choice(((UNICAST, UNICAST), (0xc000, UNICAST), (0, UNICAST), (OTHERS[0], 0)))
        self._heard(1, src, dst, '7f', self._net())

    def _access(self) -> None:
        """Under the device key, the one of another node, or an application key; as octets."""
        src, dst = self.random.choice(OTHERS), self._dst()
        is_app = self.random.random() < 0.2
        key = APP_KEYS[0] if is_app else self.random.choice((DEVICE_KEY, DEVICE_KEY, NET_KEYS[1]))
        seq, iv = self._next_seq(src), self._peer_iv()
        payload = self._octets(self.random.choice((1, 2, 8, 11)))
        upper = pdus.seal_upper(key, UpperFields(is_app, seq, src, dst, iv), payload)
        text = bytes([pdus.first_octet(is_app, key)]) + upper
        octets = pdus.seal_network(self._material(), iv, NetworkPdu(0, 3, seq, src, dst, text))
        self.last = f'net {octets.hex()}'
        self._event(self.last)

    def _material(self) -> Material:
        key, *friendship = self._net().split('/')
        return k2(bytes.fromhex(key), b'\1' + bytes.fromhex(''.join(friendship)) if friendship else b'\0')

    def _again(self) -> None:
        """The PDU that was heard last once more, at once or behind a Poll."""
        if self.random.random() < 0.5:
            self._event('poll')
        if self.last:
            self._event(self.last)

    def _old(self) -> None:
        """A PDU with a number that its source used before."""
        src = self.random.choice(OTHERS)
        self.seqs[src] = max(1, self.seqs.get(src, 1) - self.random.randrange(1, 4))
        self._heard(1, src, UNICAST, '7f', self._net())
