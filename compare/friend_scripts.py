"""Random scripts of friendships: Low Power nodes that ask, poll and go, and messages for them.

The node of oracle/ goes along, so most Polls come under credentials that stand.
"""
from oracle.ciphers import Material, k2
from oracle.friends import COUNTERS, Friendship
from oracle.pdus import little
from oracle.records import ALL_FRIENDS
from scripts import NET_KEYS, UNICAST, Script

LPNS = (0x0201, 0x0202, 0x0203, 0x0300)
OTHER_FRIEND = 0x0100
GROUPS = (0xc000, 0xc001, 0xc002, 0x8001, 0xffff)
COUNTERS_DRAWN = (0, 0, 0, 1, 0xff, 0xfffe)


class FriendScript(Script):
    """`credentials` has the NET of each friendship or offer that was made, by its material."""

    def __init__(self, seed: int) -> None:
        self.credentials: dict[Material, str] = {}
        super().__init__(seed)

    def _step(self) -> None:
        if not self._slots and self.random.random() < 0.6:
            self._request()
            return
        rows = ((6, self._request), (24, self._poll), (7, self._list), (3, self._clear),
                (22, self._for_lpn), (3, self._burst), (12, self._own_for_lpn),
                (9, self._asks), (5, self._setting), (8, self._friend_time), (4, self._odd_poll),
                (2, self._segmented), (14, super()._step))
        self._drawn(rows)()

    # What stands.

    @property
    def _slots(self) -> list[Friendship]:
        return self.run.life.friends.slots

    def _slot(self) -> Friendship | None:
        return self.random.choice(self._slots) if self._slots else None

    def _lpn(self) -> int:
        """Most often one with a friendship or an offer."""
        slot = self._slot()
        return slot.lpn if slot and self.random.random() < 0.9 else self.random.choice(LPNS)

    def _credentials(self, lpn: int) -> str:
        """The NET of what stands, or sometimes of what doesn't."""
        slot = self.run.life.friends.of(lpn)
        if slot and self.random.random() < 0.96 and slot.material in self.credentials:
            return self.credentials[slot.material]
        stale = sorted(self.credentials.values())
        if stale and self.random.random() < 0.8:
            return self.random.choice(stale)
        return f'{NET_KEYS[0].hex()}/{lpn:04x}/{UNICAST:04x}/0000/{self.random.randrange(3):04x}'

    def _address_of(self, lpn: int) -> int:
        """Most often of its first element."""
        return lpn + self.random.choice((0, 0, 0, 1, 2))

    # What a Low Power node sends.

    def _request(self) -> None:
        """A Friend Request, most often with fields in their ranges, and a Poll behind it."""
        choice, chance = self.random.choice, self.random.random
        lpn = choice(LPNS)
        net = choice(sorted(self.records.nets))
        row, counter = self.records.nets[net], choice(COUNTERS_DRAWN)
        offers = self.run.life.friends.offers
        word = f'{row.sending.hex()}/{lpn:04x}/{UNICAST:04x}/{counter:04x}/{offers:04x}'
        criteria, delay = choice((1, 3, 4, 0x4b)), choice((0x0a, 0x50, 0xff))
        timeout = choice((0x0a, 0x0b, 0x14, 0x64, 0x057e40, 0x057e40))
        previous = choice((0, 0, OTHER_FRIEND))
        elements = choice((1, 1, 2, 3))
        dst, ttl = ALL_FRIENDS, 0
        if chance() < 0.25:
            field = self.random.randrange(7)
            criteria = choice((0, 5, 7, 8)) if field == 0 else criteria
            delay = choice((0, 9)) if field == 1 else delay
            timeout = choice((9, 0x34bbff, 0x34bc00)) if field == 2 else timeout
            previous = choice((UNICAST, UNICAST + 1, 0x8000, lpn)) if field == 3 else previous
            elements = choice((0, 255)) if field == 4 else elements
            dst = choice((UNICAST, 0xffff)) if field == 5 else dst
            ttl = choice((1, 2, 5)) if field == 6 else ttl
        text = (f'03{criteria:02x}{delay:02x}{timeout:06x}{previous:04x}{elements:02x}'
                f'{counter:04x}')
        heard_by = choice(row.values).hex() if chance() < 0.98 else self._credentials(lpn)
        self._peer(1, ttl, self._next_seq(lpn), lpn, dst, text, heard_by)
        self._note(word, lpn)
        if chance() < (0.8 if self.run.life.friends.of(lpn) else 0.1):
            self._poll_of(lpn)

    def _note(self, word: str, lpn: int) -> None:
        """Notes the credentials that the last event made."""
        key, *fields = word.split('/')
        material = k2(bytes.fromhex(key), b'\1' + bytes.fromhex(''.join(fields)))
        slot = self.run.life.friends.of(lpn)
        if slot and slot.material == material:
            self.credentials[material] = word

    def _poll(self) -> None:
        self._poll_of(self._lpn())

    def _poll_of(self, lpn: int) -> None:
        """Polls, each with the other FSN, or with the one before."""
        for _ in range(self.random.choice((1, 1, 1, 2, 4))):
            slot = self.run.life.friends.of(lpn)
            before = slot.fsn if slot and slot.stands else self.random.randrange(2)
            fsn = before if self.random.random() < 0.3 else 1 - before
            self._friendly(lpn, f'01{fsn:02x}')

    def _friendly(self, lpn: int, text: str, ttl: int = 0, dst: int = UNICAST) -> None:
        """A control message under friendship credentials."""
        net, iv = self._credentials(lpn), self._peer_iv()
        self._peer(1, ttl, self._next_seq(lpn), lpn, dst, text, net, iv)

    def _odd_poll(self) -> None:
        """Polls with padding, of another length, to other addresses, with a TTL, under other
        credentials, from another element."""
        choice, lpn = self.random.choice, self._lpn()
        text = choice(('0100', '0101', '01fe', '01ff', '0102', '01', '010000'))
        ttl, dst = choice((0, 1, 2, 7)), choice((UNICAST, ALL_FRIENDS, 0xffff, 0xc001, 9))
        if self.random.random() < 0.5:
            self._friendly(lpn, text, ttl, dst)
            return
        src = choice((lpn + 1, choice(LPNS), lpn))
        net = choice((self._credentials(lpn), self._net_key().hex()))
        self._peer(1, ttl, self._next_seq(src), src, dst, text, net)

    def _segmented(self) -> None:
        """A control message of a friendship in segments."""
        lpn = self._lpn()
        text = bytes.fromhex(self.random.choice(('01', '00', '07c000', '07c000c001c002c003c004',
                                                 '0ac001')))
        opcode = 1 if len(text) == 1 else self.random.choice((7, 8))
        seq, net = self._next_seq(lpn), self._credentials(lpn)
        seg_n = (len(text) + 7) // 8 - 1
        self.seqs[lpn] = seq + seg_n + 1
        for seg_o in range(seg_n + 1):
            fields = (seq & 0x1fff) << 10 | seg_o << 5 | seg_n
            piece = text[8 * seg_o:8 * seg_o + 8].hex()
            self._peer(1, 0, seq + seg_o, lpn, UNICAST, f'{0x80 | opcode:02x}{fields:06x}{piece}',
                       net)

    def _list(self) -> None:
        """Lists of up to five addresses, sometimes so many that they fill what is held; and lists
        of another length."""
        choice, number = self.random.choice, self.random.randrange
        lpn = self._lpn()
        fills = self.random.random() < 0.2
        for _ in range(4 if fills else choice((1, 1, 2))):
            opcode, count = (7, 5) if fills else (choice((7, 7, 8)), number(1, 6))
            some = [choice((*GROUPS, *LPNS, 0xc100 + number(24), 0xc100 + number(24)))
                    for _ in range(count)]
            addresses = ''.join(f'{address:04x}' for address in some)
            if self.random.random() < 0.05:
                addresses = addresses[:-2]
            self._friendly(lpn, f'{opcode:02x}{number(256):02x}{addresses}')

    def _clear(self) -> None:
        choice, slot = self.random.choice, self._slot()
        above = choice((0, 0, 1, 255, 256, COUNTERS - 1))
        counter = (slot.request.counter + above) % COUNTERS if slot else 0
        lpn = slot.lpn if slot else choice(LPNS)
        src = choice((OTHER_FRIEND, OTHER_FRIEND, lpn))
        net = self._credentials(lpn) if self.random.random() < 0.1 else self._net_key().hex()
        text = f'{choice((5, 5, 5, 5, 6)):02x}{lpn:04x}{counter:04x}'
        self._peer(1, choice((0, 0, 3)), self._next_seq(src), src, UNICAST, text, net)

    def _asks(self) -> None:
        """An access message of a Low Power node, whose reply is stored if it is short."""
        lpn = self._lpn()
        src = self._address_of(lpn)
        apps = sorted(self.records.apps)
        if apps and self.random.random() < 0.5:
            row = self.records.apps[self.random.choice(apps)]
            key, payload = f'app:{row.key.hex()}', self._model_payload()
            master = self.records.nets[row.net].key.hex()
        else:
            key, payload = f'dev:{self.records.device_key.hex()}', self._asked_of_server(lpn)
            master = self._net_key().hex()
        if len(payload) > 11:
            return
        net = self._credentials(lpn) if self.random.random() < 0.7 else master
        seq, ttl = self._next_seq(src), self.random.choice((0, 0, 4))
        self._event(f'talk {net} {key} {self._peer_iv():08x} {ttl:02x} {seq:06x} {seq:06x}'
                    f' {src:04x} {UNICAST:04x} u {payload.hex()}')

    def _asked_of_server(self, lpn: int) -> bytes:
        """Composition Data comes in segments; Friend Set with 00 ends what is asked under."""
        texts = ('800c', '800d05', '800d07', '8008ff', '8009', '8042', f'802d{lpn:04x}', '801000',
                 '801001', '8026')
        weights = (3, 2, 2, 2, 2, 2, 1, 0.6, 1, 2)
        return bytes.fromhex(self.random.choices(texts, weights)[0])

    # What is for a Low Power node.

    def _for_lpn(self) -> None:
        """A PDU to one of its addresses or of its list, or to no address of either."""
        slot = self._slot()
        choice = self.random.choice
        lpn = slot.lpn if slot else choice(LPNS)
        held = slot.addresses if slot else []
        dst = choice((self._address_of(lpn), self._address_of(lpn), *held[:3], choice(GROUPS)))
        src = choice((3, 4, 0x101, self._address_of(choice(LPNS))))
        ttl, seq = choice((0, 1, 2, 2, 3, 5)), self._next_seq(src)
        net = self._credentials(lpn) if self.random.random() < 0.08 else self._net_key().hex()
        ctl, text = choice(((0, '0089511bf1d1a8'), (0, '66' + '5a' * 15), (1, '7f'),
                            (1, '0a050004'), (0, '80000001' + 'ab' * 12)))
        self._peer(ctl, ttl, seq, src, dst, text, net, self._peer_iv())

    def _burst(self) -> None:
        """So many messages that the queue is full, and Polls in between."""
        lpn = self._lpn()
        for _ in range(self.random.choice((3, 8, 17, 19))):
            if self.random.random() < 0.15:
                self._poll_of(lpn)
            self._peer(1, 5, self._next_seq(3), 3, lpn, '7f')

    def _own_for_lpn(self) -> None:
        choice, lpn = self.random.choice, self._lpn()
        slot = self.run.life.friends.of(lpn)
        held = slot.addresses if slot else []
        dst = choice((self._address_of(lpn), self._address_of(lpn), *(a for a in held[:2]
                                                                       if a >= 0xc000)))
        if self.random.random() < 0.1:
            self._event(f'raw {dst:04x} 03 7f')
            return
        key = choice(('dev', f'dev:{NET_KEYS[1].hex()}', f'app:{self._app():03x}'))
        place = self.random.randrange(self.records.elements)
        payload = self._octets(choice((1, 2, 8, 11, 11, 12, 30)))
        self._event(f'send {place} {dst:04x} {choice((0, 3, 7)):02x} {key} {payload.hex()}')

    # Settings and time.

    def _setting(self) -> None:
        """A publication to a Low Power node, its PollTimeout, Friend, and a Key Refresh."""
        choice, lpn = self.random.choice, self._lpn()
        rest = bytes([choice((0, 5, 0xff)), choice((1, 0x0a, 0x41)), 0])
        publication = (b'\3' + self._element() + little(lpn, 2) + little(self._app(), 2) + rest
                       + self._model())
        timeout = b'\x80\x2d' + little(choice((lpn, lpn, lpn + 1, 9)), 2)
        friend = self._one_of('800f', '801000', '801001', '801001')
        net = little(choice(sorted(self.records.nets)), 2)
        update, phase = b'\x80\x45' + net + choice(NET_KEYS), b'\x80\x16' + net + b'\2'
        rows = ((4, publication), (4, timeout), (1, friend), (2, update), (3, phase))
        self._configure(self.random.choices([row[1] for row in rows], [row[0] for row in rows])[0])

    def _friend_time(self) -> None:
        """Around the ends of an offer and of the shorter PollTimeouts."""
        self._ticks((1, 10, 49, 50, 98, 99, 100, 101, 109, 110, 199, 200, 300, 999, 1000))
