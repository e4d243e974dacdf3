"""Random scripts, drawn line by line.

The node of oracle/ goes along, so that most messages are under keys that it holds, most settings
are of tables that it has, and the lines of a life that power cuts end there. A seed and a kind
tell the whole script. Numbers in the tables of weights are how often a row is drawn, of their sum.
"""
from collections.abc import Callable
from random import Random

from oracle import pdus
from oracle.ciphers import cmac, k2
from oracle.flash import SECTORS_OF_BANK, SLOTS
from oracle.pdus import NetworkPdu, UpperFields, little
from oracle.records import LEVEL, ON_OFF, AppRow, Records
from oracle.report import Run

UNICAST = 0x1201
PRIMARY, OTHER_NET = 0x000, 0x456
FIRST_APP = 0x123
DEVICE_KEY = bytes.fromhex('9d6dd0e96eb25dc19a40ed9914f8f03f')
SAMPLE_NETS = ('7dd7364cd842ad18c17c2b820c84c3d6', 'f7a2a44f8e8a8029064f173ddc1e2b00')
SAMPLE_APPS = ('63964771734fbd76e3b40519d1d94a48', '3216d1509884b533248541792b877f98')
SAMPLE_LABEL = '0073e7e4d8b9440faf8415df4c56c0e1'
MODELS = (little(ON_OFF, 2), little(LEVEL, 2))
FILLED_LIFE = 3500


class LifeOver(Exception):
    """Power was cut, so no line of this life counts any more."""


def _made(samples: tuple[str, ...], name: str, count: int) -> list[bytes]:
    """Sample keys of the standard, and more."""
    more = [cmac(bytes(16), f'{name}{number}'.encode()) for number in range(count)]
    return [bytes.fromhex(sample) for sample in samples] + more


NET_KEYS = _made(SAMPLE_NETS, 'net', 4)
APP_KEYS = _made(SAMPLE_APPS, 'app', 4)
LABELS = _made((SAMPLE_LABEL,), 'label', 2)


class Script:
    """The usual kind: what peers configure, send and ask, time, beacons, own messages, cuts."""

    def __init__(self, seed: int) -> None:
        self.random = Random(seed)
        choice = self.random.choice
        iv = choice((0x12345678, 5, 6))
        flags = choice((0, 0, 0, 2)) if iv != 5 else 0
        self.first_net = choice((PRIMARY, OTHER_NET))
        elements = choice((1, 1, 2, 4))
        provision = (f'provision {UNICAST:04x} {elements} {iv:08x} {flags:02x} {self.first_net:03x}'
                     f' {NET_KEYS[0].hex()} {DEVICE_KEY.hex()}')
        self.lines = [provision]
        self.run = Run(provision)
        self.seqs = {src: self.random.randrange(1, 50) for src in (3, 4, 0x101, 0x102)}
        for number in range(self.random.randrange(1, 5)):
            self._life(is_first=number == 0)
        self.run.end()

    @property
    def text(self) -> str:
        return ''.join(line + '\n' for line in self.lines)

    @property
    def records(self) -> Records:
        return self.run.records

    # Lines.

    def _life(self, is_first: bool) -> None:
        self._line('life')
        self.first_line = len(self.lines)
        try:
            if self.run.life:
                self._fill_life(is_first)
        except LifeOver:
            pass

    def _line(self, line: str) -> None:
        self.lines.append(line)
        self.run.take(line)

    def _event(self, event: str) -> None:
        self._line(f'b0 {event}')
        if self.run.life is None:
            raise LifeOver

    def _fill_life(self, is_first: bool) -> None:
        total = self.random.randrange(10, 90)
        armed_at = self.random.randrange(total) if self.random.random() < 0.5 else None
        for number in range(total):
            if number == armed_at:
                self._arm(self.random.randrange(40))
            if is_first and number < 6 and self.random.random() < 0.8:
                self._configure(self._setting_up(number))
            else:
                self._step()

    def _arm(self, calls: int) -> None:
        self._line(f"arm {calls} {self.random.choice(('00', 'ff', 'f0', '55', 'ff'))}")

    def _setting_up(self, number: int) -> bytes:
        """The first messages: a key, its bindings on the first and the last element, a label."""
        if number == 0:
            return b'\0' + self._packed(self.first_net, FIRST_APP) + APP_KEYS[0]
        if number == 5:
            return b'\x80\x20' + little(UNICAST, 2) + LABELS[0] + MODELS[0]
        element = UNICAST if number <= 2 else UNICAST + self.records.elements - 1
        return b'\x80\x3d' + little(element, 2) + little(FIRST_APP, 2) + MODELS[(number - 1) % 2]

    def _step(self) -> None:
        rows = ((24, self._configuration), (24, self._model_message), (12, self._time),
                (2, self._own_control), (4, self._own_message), (3, self._beacon),
                (4, self._control), (2, self._piece_again), (3, self._acknowledgment),
                (2, self._line_again))
        self._drawn(rows)()

    def _drawn(self, rows: tuple[tuple[float, Callable], ...]) -> Callable:
        return self.random.choices([row[1] for row in rows], [row[0] for row in rows])[0]

    def _octets(self, count: int) -> bytes:
        return self.random.randbytes(count)

    def _next_seq(self, src: int) -> int:
        seq = self.seqs.setdefault(src, 1)
        self.seqs[src] = seq + 1
        return seq

    # What a peer sends.

    def _peer(self, ctl: int, ttl: int, seq: int, src: int, dst: int, transport: str,
              net: str = '', iv: int | None = None) -> None:
        net = net or self._net_key().hex()
        iv = self.records.iv.current if iv is None else iv
        self._event(f'peer {net} {iv:08x} {ctl} {ttl:02x} {seq:06x} {src:04x} {dst:04x}'
                    f' {transport}')

    def _net_key(self) -> bytes:
        """Most often one that is held, old or new."""
        if self.random.random() < 0.04:
            return self.random.choice(NET_KEYS)
        rows = self.records.nets
        return self.random.choice(rows[self.random.choice(sorted(rows))].values)

    def _configure(self, payload: bytes, dst: int = UNICAST) -> None:
        key = DEVICE_KEY if self.random.random() < 0.98 else NET_KEYS[1]
        self._talk(self._net_key(), f'dev:{key.hex()}', f'{dst:04x}', payload)

    def _configuration(self) -> None:
        usual = self.random.random() < 0.95
        dst = UNICAST if usual else self.random.choice((UNICAST + 1, 0xffff, UNICAST + 4))
        self._configure(self._drawn(CONFIGURATION)(self), dst)

    def _model_message(self) -> None:
        net_key, app_key = self._net_key(), self.random.choice(APP_KEYS)
        if self.records.apps and self.random.random() < 0.95:
            row = self.records.apps[self.random.choice(sorted(self.records.apps))]
            app_key = self.random.choice(row.values)
            if self.random.random() < 0.95:
                net_key = self.random.choice(self.records.nets[row.net].values)
        self._talk(net_key, f'app:{app_key.hex()}', self._destination(), self._model_payload())

    def _destination(self) -> str:
        kind = self.random.random()
        if kind < 0.15:
            return f'v:{self.random.choice(LABELS).hex()}'
        if kind < 0.3:
            groups = (0xc000, 0xc001, 0xc002, 0xffff, 0xfffd, 0xfffe, 0xfffc)
            return f'{self.random.choice(groups):04x}'
        return f'{UNICAST + self.random.randrange(self.records.elements):04x}'

    def _talk(self, net_key: bytes, key: str, dst: str, payload: bytes) -> None:
        """An access message, whole or in segments, in some order, with pieces twice or missing."""
        choice, chance = self.random.choice, self.random.random
        src = choice((3, 3, 3, 4, 0x101))
        iv = self._peer_iv()
        ttl = choice((4, 4, 4, 0, 1, 2, 7))
        auth = self.seqs[src]
        if chance() < 0.03:
            auth = max(0, auth - self.random.randrange(1, 6))
        head = f'talk {net_key.hex()} {key} {iv:08x} {ttl:02x} {auth:06x}'
        if len(payload) <= 11 and chance() < 0.93:
            self.seqs[src] = max(self.seqs[src], auth + 1)
            self._event(f'{head} {auth:06x} {src:04x} {dst} u {payload.hex()}')
            return
        seq = auth
        for seg_o in self._pieces((len(payload) + 15) // 12):
            if chance() < 0.05:
                self._ticks((1, 10, 40, 49, 50, 51, 55, 100, 300, 999, 1000))
            line = f'{head} {seq:06x} {src:04x} {dst} {seg_o} {payload.hex()}'
            seq += 1 + (self.random.randrange(3) if chance() < 0.05 else 0)
            self.seqs[src] = max(self.seqs[src], seq)
            self._event(line)

    def _peer_iv(self) -> int:
        iv = self.records.iv
        if iv.in_progress and self.random.random() < 0.5:
            return iv.transmit
        if self.random.random() < 0.05:
            return max(0, iv.current - self.random.choice((1, 1, 2)))
        return iv.current

    def _pieces(self, count: int) -> list[int]:
        chance = self.random.random
        pieces = list(range(count))
        if chance() < 0.2:
            self.random.shuffle(pieces)
        if chance() < 0.1:
            pieces.insert(self.random.randrange(count + 1), self.random.choice(pieces))
        if chance() < 0.05 and count > 1:
            pieces.pop()
        if chance() < 0.05:
            pieces.append(self.random.choice(pieces))
        return pieces

    def _control(self) -> None:
        choice = self.random.choice
        src = choice((5, 3, UNICAST))
        dst = choice((9, UNICAST, 0xfffd, 0xc001, 0xffff))
        text = choice(('7f', '0a050004', '8000000102', '800004011122334455667788'))
        self._peer(1, choice((0, 1, 2, 5)), self._next_seq(src), src, dst, text)

    def _beacon(self) -> None:
        choice, current = self.random.choice, self.records.iv.current
        iv = max(1, current + choice((0, 0, 1, 1, -1, 5, 42, 43)))
        flags = choice((0, 1, 2, 3, 2, 0))
        self._event(f'beacon {self._net_key().hex()} {flags:02x} {iv:08x}')

    def _piece_again(self) -> None:
        """A piece of a message that was accepted from segments."""
        accepted = self.run.life.accepted
        if not accepted:
            return
        src, iv, auth = max(accepted)
        seq = self._next_seq(src)
        if 0 < seq - auth < 8000:
            fields = (auth & 0x1fff) << 10 | 1
            self._peer(0, 4, seq, src, UNICAST, f"80{fields:06x}{'ab' * 12}", iv=iv)

    def _acknowledgment(self) -> None:
        """Of an own message in segments, by its destination or another node."""
        messages = self.run.life.sending.messages
        if not messages:
            return
        message = self.random.choice(messages)
        is_from_dst = message.dst < 0x8000 and self.random.random() < 0.8
        src = message.dst if is_from_dst else 4
        on_behalf = 0x8000 if self.random.random() < 0.2 else 0
        fields = on_behalf | (message.pair[1] & 0x1fff) << 2
        whole = (1 << message.seg_n + 1) - 1
        block = self.random.choice((0, 1, 2, 3, 7, 0xffffffff, whole))
        seq = self._next_seq(src)
        self._peer(1, 4, seq, src, UNICAST, f'00{fields:04x}{block:08x}')

    def _line_again(self) -> None:
        """A PDU that was heard a while ago."""
        near = [line for line in self.lines[-8:] if line.startswith(('b0 talk', 'b0 peer'))]
        if near:
            self._event(self.random.choice(near).removeprefix('b0 '))

    # What the node does.

    def _ticks(self, numbers: tuple[int, ...]) -> None:
        self._event(f'tick {self.random.choice(numbers)}')

    def _time(self) -> None:
        short = (1, 5, 10, 49, 50, 51, 55, 99, 100, 101, 200, 500, 599, 600, 1000, 6000)
        hours = (360000, 34560000, 51840000) if self.random.random() < 0.3 else ()
        self._ticks(short + hours)

    def _own_control(self) -> None:
        self._event(f'raw fffd {self.random.choice((0, 5)):02x} 7f')

    def _own_message(self) -> None:
        choice = self.random.choice
        app = f'app:{self._app():03x}'
        key = choice(('dev', f'dev:{NET_KEYS[1].hex()}', app, app))
        place = self.random.randrange(self.records.elements)
        dst, ttl = choice((3, 4, 0xc001, 0xffff)), choice((0, 3, 7))
        payload = self._octets(choice((1, 11, 12, 20, 40)))
        self._event(f'send {place} {dst:04x} {ttl:02x} {key} {payload.hex()}')

    # Fields of messages; what isn't there is drawn too.

    def _net(self) -> int:
        if self.random.random() < 0.8:
            return self.random.choice(sorted(self.records.nets))
        return self.random.choice((0, 1, 2, 3, OTHER_NET, 5))

    def _app(self) -> int:
        if self.records.apps and self.random.random() < 0.8:
            return self.random.choice(sorted(self.records.apps))
        return self.random.choice((0, 1, 2, 3, FIRST_APP, 4, 5, 6, 7, 8))

    def _net_of(self, app: int) -> int:
        row: AppRow | None = self.records.apps.get(app)
        return row.net if row and self.random.random() < 0.9 else self._net()

    def _element(self) -> bytes:
        elements = self.records.elements
        is_held = self.random.random() < 0.95
        return little(UNICAST + (self.random.randrange(elements) if is_held else elements), 2)

    def _model(self) -> bytes:
        others = (b'\0\0', b'\1\x10', b'\1\0\0\x10')
        return self.random.choices((*MODELS, *others), (10, 10, 1, 1, 1))[0]

    def _group(self) -> bytes:
        groups = (0xc000, 0xc001, 0xc001, 0xc002, 0xfffd, 0xfffe, 0xffff, 0, UNICAST, 0x8001)
        return little(self.random.choice(groups), 2)

    @staticmethod
    def _packed(first: int, second: int) -> bytes:
        return little(first | second << 12, 3)

    def _one_of(self, *texts: str) -> bytes:
        return bytes.fromhex(self.random.choice(texts))

    # Configuration messages.

    def _app_key_add(self) -> bytes:
        return b'\0' + self._packed(self._net(), self._app()) + self.random.choice(APP_KEYS)

    def _app_key_update(self) -> bytes:
        app = self._app()
        return b'\1' + self._packed(self._net_of(app), app) + self.random.choice(APP_KEYS)

    def _app_key_delete(self) -> bytes:
        app = self._app()
        return b'\x80\0' + self._packed(self._net_of(app), app)

    def _switches(self) -> bytes:
        """Gets and Sets of the states of an octet or two."""
        beacon = ('8009', '800a00', '800a01', '800a01', '800a02')
        ttl = ('800c', *(f'800d{ttl:02x}' for ttl in (0, 1, 2, 5, 7, 7, 0x7f, 0x80)))
        friend, gatt = ('800f', '801000', '801001'), ('8012', '801300', '801301', '801302')
        transmit = ('8023', f'8024{self.random.randrange(256):02x}')
        relay = ('8026', '80270000', '80270105', '80270100', '80270200')
        rows = (beacon, ttl, friend, gatt, transmit, relay)
        return self._one_of(*self.random.choices(rows, (3, 3, 2, 1, 1, 3))[0])

    def _net_key_message(self) -> bytes:
        opcode = self.random.choices((0x40, 0x45, 0x41, 0x42), (3, 3, 2, 1))[0]
        if opcode == 0x42:
            return b'\x80\x42'
        key = b'' if opcode == 0x41 else self.random.choice(NET_KEYS)
        return bytes([0x80, opcode]) + little(self._net(), 2) + key

    def _phase_set(self) -> bytes:
        transition = bytes([self.random.choice((2, 3, 2, 3, 1, 4))])
        return b'\x80\x16' + little(self._net(), 2) + transition

    def _publication_set(self) -> bytes:
        choice = self.random.choice
        address = choice((0xc000, 0xc001, 3, 0, 0xffff, 0x8001))
        rest = bytes([choice((0, 5, 0xff, 0x7f, 0x80)),
                      choice((0, 1, 0x41, 0x45, 0x81, 0x0a, 0x3f)), choice((0, 1))])
        return (b'\3' + self._element() + little(address, 2) + little(self._app(), 2) + rest
                + self._model())

    def _subscription(self) -> bytes:
        opcode = self.random.choice((0x1b, 0x1b, 0x1b, 0x1c, 0x1e))
        return bytes([0x80, opcode]) + self._element() + self._group() + self._model()

    def _label(self) -> bytes:
        opcode = self.random.choice((0x20, 0x20, 0x20, 0x21, 0x22))
        label = self.random.choice(LABELS)
        return bytes([0x80, opcode]) + self._element() + label + self._model()

    def _heartbeat_set(self) -> bytes:
        choice = self.random.choice
        destination = choice((0xfffd, 0xc000, 3, 0, 0x8000))
        rest = bytes([choice((0, 1, 2, 3, 4, 0xff, 0x11, 0x12)),
                      choice((0, 1, 1, 2, 3, 0x11, 0x12)), choice((0, 5, 0x7f, 0x80))])
        features = choice((0, 7))
        return (b'\x80\x39' + little(destination, 2) + rest + little(features, 2)
                + little(self._net(), 2))

    def _binding(self) -> bytes:
        opcode = self.random.choices((0x3d, 0x3f), (14, 2))[0]
        return bytes([0x80, opcode]) + self._element() + little(self._app(), 2) + self._model()

    def _other_get(self) -> bytes:
        net = little(self._net(), 2).hex()
        page = self.random.choice((0, 1, 255))
        poll = self.random.choice(('802d0102', '802d0300'))
        rows = (f'8001{net}', f'8008{page:02x}', f'8015{net}', poll, '8038')
        return bytes.fromhex(self.random.choices(rows, (2, 1, 2, 1, 2))[0])

    def _element_get(self) -> bytes:
        opcode = self.random.choices((0x18, 0x1d), (2, 1))[0]
        return bytes([0x80, opcode]) + self._element() + self._model()

    def _no_configuration(self) -> bytes:
        junk = self._octets(self.random.randrange(1, 20)).hex()
        return self._one_of('8201', '7f', '8002', 'c00001', '800800ff', '00', '80', '824d00', junk)

    # Messages to models.

    def _model_payload(self) -> bytes:
        choice = self.random.choice
        tid = bytes([choice((1, 1, 2, 3))])
        if self.random.random() < 0.6:
            times = (0, 1, 5, 0x0a, 0x14, 0x41, 0x42, 0x81, 0xc1, 0x3f, 0x3e, 0x7e)
            tid += bytes([choice(times), choice((0, 0, 1, 2, 20, 255))])
        level = choice((0, 1, -1, 100, -100, 1000, -1000, 32767, -32768,
                        self.random.randrange(-32768, 32768)))
        delta = choice((level, level, 70000, -70000, 2**31 - 1, -2**31))
        kind = choice(('get', 'on', 'on', 'on', 'level', 'level', 'delta', 'delta', 'delta',
                       'move', 'move', 'move', 'none'))
        if kind == 'on':
            return self._one_of('8202', '8202', '8203') + bytes([choice((0, 1, 1, 0, 2))]) + tid
        if kind == 'level':
            return self._one_of('8206', '8207') + little(level, 2) + tid
        if kind == 'delta':
            return self._one_of('8209', '8209', '820a') + little(delta, 4) + tid
        if kind == 'move':
            return self._one_of('820b', '820b', '820c') + little(level, 2) + tid
        if kind == 'get':
            return self._one_of('8201', '8205', '8205')
        return self._one_of('820100', '82020101ff', '8204', '8208', '82', '820b0000', '8209640000',
                            '01', '8002')


CONFIGURATION: tuple[tuple[float, Callable[[Script], bytes]], ...] = (
    (6, Script._app_key_add), (4, Script._app_key_update), (2, Script._app_key_delete),
    (13, Script._switches), (9, Script._net_key_message), (5, Script._phase_set),
    (8, Script._publication_set), (8, Script._subscription), (6, Script._label),
    (5, Script._heartbeat_set), (16, Script._binding), (8, Script._other_get),
    (3, Script._element_get), (0.15, lambda _: b'\x80\x49'), (2, Script._no_configuration))


class FullScript(Script):
    """Tables that are full or nearly so, and a bank that is: compactions, and cuts within them."""

    def _fill_life(self, is_first: bool) -> None:
        chance, number = self.random.random, self.random.randrange
        if is_first or chance() < 0.2:
            self._fill_tables()
        for _ in range(number(60)):
            self._step()
        if is_first or chance() < 0.5:
            self._fill_bank()
        if chance() < 0.8:
            compaction = SECTORS_OF_BANK + 2 * self.records.snapshot_size() + 2
            near = (number(compaction + 30), compaction + number(-6, 30), number(20))
            self._arm(self.random.choice(near))
        for _ in range(number(20, 80)):
            self._step()

    def _fill_tables(self) -> None:
        number, choice = self.random.randrange, self.random.choice
        for app in range(number(1, 9)):
            self._configure(b'\0' + self._packed(self.first_net, app) + APP_KEYS[app % 6])
        for _ in range(number(40)):
            app = little(self._app(), 2)
            self._configure(b'\x80\x3d' + self._element() + app + choice(MODELS))
        for _ in range(number(50)):
            group = little(number(0xc000, 0xc010), 2)
            self._configure(b'\x80\x1b' + self._element() + group + choice(MODELS))
        for _ in range(number(4)):
            self._configure(b'\x80\x20' + self._element() + choice(LABELS) + choice(MODELS))
        for _ in range(number(8)):
            element, model, app = choice(self.records.bindings or [(UNICAST, ON_OFF, 0)])
            rest = bytes([0xff, choice((1, 0x41)), 0])
            self._configure(b'\3' + little(element, 2) + little(0xc000, 2) + little(app, 2) + rest
                            + little(model, 2))

    def _fill_bank(self) -> None:
        """Control messages, each with a Replay record, up to a few slots below the last."""
        while (self.run.flash.used < SLOTS - self.random.randrange(12)
               and len(self.lines) - self.first_line <= FILLED_LIFE):
            src = self.random.choice((5, 6, 7, 8, 9))
            net = self.records.nets[min(self.records.nets)].key.hex()
            self._peer(1, 0, self._next_seq(src), src, UNICAST, '7f', net)


class OddScript(Script):
    """The usual kind, and PDUs at the edges of what can be read, turned bits, and noise."""

    def _step(self) -> None:
        if self.random.random() < 0.75:
            super()._step()
            return
        odd = (self._long_mic, self._control_pieces, self._odd_control, self._noise,
               self._noisy_beacon, self._friendship, self._odd_piece, self._odd_access,
               self._to_own)
        src = self.random.choice((3, 4, 0x101))
        self.random.choice(odd)(src, self._next_seq(src))

    def _long_mic(self, src: int, seq: int) -> None:
        """An access message in segments with a TransMIC of 8 octets."""
        apps = sorted(self.records.apps)
        app = self.random.choice(apps) if apps and self.random.random() < 0.5 else None
        is_app = app is not None
        key = self.records.apps[app].key if is_app else DEVICE_KEY
        payload = self._model_payload() if is_app else self._drawn(CONFIGURATION)(self)
        dst = UNICAST if self.random.random() < 0.8 else 0xffff
        fields = UpperFields(is_app, seq, src, dst, self.records.iv.current, mic_size=8)
        upper = pdus.seal_upper(key, fields, payload)
        first = pdus.first_octet(is_app, key)
        count = pdus.last_piece(upper) + 1
        self.seqs[src] = seq + count
        for seg_o in range(count):
            text = bytearray(pdus.segment_text(first, seq, seg_o, upper))
            text[1] |= 0x80
            self._peer(0, self.random.choice((0, 4)), seq + seg_o, src, dst, text.hex())

    def _control_pieces(self, src: int, seq: int) -> None:
        """A control message in segments, with RFU bits and pieces to another address."""
        opcode = self.random.choice((0, 0, 1, 3, 0x0a, 0x7f))
        text = self._octets(self.random.choice((1, 6, 8, 9, 16, 20, 100)))
        own = self.run.life.sending.messages
        if opcode == 0 and own and self.random.random() < 0.5:
            fields = 0x8000 | (own[0].pair[1] & 0x1fff) << 2
            text = fields.to_bytes(2, 'big') + b'\xff' * 4
        seg_n = (len(text) + 7) // 8 - 1
        self.seqs[src] = seq + seg_n + 1
        for seg_o in range(seg_n + 1):
            fields = (seq & 0x1fff) << 10 | seg_o << 5 | seg_n
            fields |= 0x800000 if self.random.random() < 0.3 else 0
            is_stray = seg_o == 0 and self.random.random() < 0.1
            piece = text[8 * seg_o:8 * seg_o + 8].hex()
            self._peer(1, 4, seq + seg_o, src, 0xffff if is_stray else UNICAST,
                       f'{0x80 | opcode:02x}{fields:06x}{piece}')

    def _odd_control(self, src: int, seq: int) -> None:
        choice = self.random.choice
        dst = choice((UNICAST, 0xfffd, 0xfffe, 0xffff, 0xc001, 9))
        opcode = choice((0, 1, 2, 3, 4, 5, 6, 7, 8, 9, 0xa, 0x40))
        params = self._octets(self.random.randrange(12)).hex()
        self._peer(1, choice((0, 1, 5)), seq, src, dst, f'{opcode:02x}{params}')

    def _turned(self, octets: bytes) -> bytes:
        """With one bit turned."""
        turned = bytearray(octets)
        bit = self.random.randrange(8 * len(turned))
        turned[bit // 8] ^= 1 << bit % 8
        return bytes(turned)

    def _noise(self, src: int, seq: int) -> None:
        pdu = NetworkPdu(1, self.random.choice((0, 3)), seq, src, UNICAST, b'\x7f')
        octets = pdus.seal_network(k2(self._net_key()), self.records.iv.current, pdu)
        if self.random.random() < 0.5:
            octets = self._turned(octets)
        else:
            front = self.random.randrange(1, len(octets) + 1)
            octets = octets[:front] + self._octets(self.random.randrange(4))
        self._event(f'net {octets.hex()}')

    def _noisy_beacon(self, *_: int) -> None:
        flags = self.random.choice((0, 2, 4, 0x81))
        octets = pdus.beacon(self._net_key(), flags, self.records.iv.current)
        if self.random.random() < 0.5:
            octets = self._turned(octets)
        if self.random.random() < 0.2:
            octets = octets[:-1]
        self._event(f'bcn {octets.hex()}')

    def _friendship(self, src: int, seq: int) -> None:
        """A Poll under the credentials of no friendship, or a Friend Request."""
        if self.random.random() < 0.5:
            net = f'{self._net_key().hex()}/0201/1201/0000/0000'
            self._peer(1, 0, seq, 0x0201, UNICAST, '0100', net)
        else:
            self._peer(1, 0, seq, src, 0xfffd, '034b50057e400000010000')

    def _odd_piece(self, src: int, seq: int) -> None:
        """Pieces at the edges of what is a lower transport PDU."""
        seg_n, seg_o = self.random.randrange(3), self.random.randrange(4)
        fields = (seq & 0x1fff) << 10 | seg_o << 5 | seg_n
        piece = bytes(self.random.choice((1, 4, 5, 11, 12))).hex()
        self._peer(0, 4, seq, src, UNICAST, f'80{fields:06x}{piece}')

    def _odd_access(self, src: int, seq: int) -> None:
        first = self.random.choice((0, 0x3f, 0x40, 0x66))
        rest = bytes(self.random.randrange(1, 16)).hex()
        self._peer(0, 4, seq, src, UNICAST, f'{first:02x}{rest}')

    def _to_own(self, src: int, seq: int) -> None:
        """To an element, or to the address behind the last."""
        self._peer(1, 5, seq, src, UNICAST + self.random.randrange(4), '7f')
