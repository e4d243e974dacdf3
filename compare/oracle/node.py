"""A life of the node: its events, each with its answer, its records and what is sent for it.

Mesh Profile 3.4.5 and 3.4.6 (network layer), 3.5 and 3.6 (transport), 3.8.8 (replay list), 3.9
(beacons), 3.10 (Key Refresh, IV Update); the order of answers, records and jobs is that of
docs/FORMATS.md, "The report", "What is stored" and "What is sent". One bearer.
"""
from collections.abc import Callable
from typing import NamedTuple

from . import configuration, friend_messages, iv_index, pdus
from .ciphers import Material, k2
from .flash import Flash
from .friends import UNSEGMENTED_PAYLOAD, Friends, KeptPdu, OwnMessage, StoredPdu
from .iv_index import IvState
from .models import ModelServers
from .pdus import Key, LowerPdu, NetworkPdu, UpperFields
from .publications import Heartbeat, Publisher
from .records import PublicationRow, Records, is_unicast, is_virtual
from .segments import MessageName, Own, Reassembly, Sending, all_pieces

CACHE = 128
HOUR = 360_000
BEACON_INTERVAL = 1000
FURTHEST_SEGMENT = 0x1fff
ACKNOWLEDGMENT, HEARTBEAT = 0x00, 0x0a

Job = tuple[int | None, Callable[[str], None]]
"""The index of the network key whose master credentials it goes under, None under those of a
friendship; and what is sent, given the place that its line tells."""


class Heard(NamedTuple):
    """A network PDU with the network key index and the IV Index that it was heard under; under
    friendship credentials with these, and with the address of the Low Power node."""
    net: int
    iv_index: int
    pdu: NetworkPdu
    lpn: int | None = None
    friendship: Material | None = None


class Opened(NamedTuple):
    """An access payload with its key, the key's index and the label of a virtual address."""
    payload: bytes
    key: Key
    app: int | None
    label: bytes


class Outcome(NamedTuple):
    """Of a PDU: its answer, a BlockAck, what a control message asks for, the replies by place of
    the element, and whether the phase of a network key changed."""
    answer: str
    block: int | None = None
    asked: tuple[Job, ...] = ()
    replies: tuple[tuple[int, bytes], ...] = ()
    key: Key | None = None
    moves_phase: bool = False


class Line(NamedTuple):
    """What was sent: the line of a report but for its place, and the octets of a network PDU."""
    place: str
    text: str
    octets: str = ''


def app_key(app: int, value: bytes) -> Key:
    return Key(f'app:{app:03x}', value)


class Life:
    """What a power cut takes, over the records that it leaves."""

    def __init__(self, records: Records, flash: Flash) -> None:
        self.records = records
        self.flash = flash
        self.now = 0
        self.next = records.mark
        self.cache: list[tuple[int, int, int]] = []
        self.reassembly = Reassembly()
        self.accepted: set[MessageName] = set()
        self.sending = Sending()
        self.servers = ModelServers(records)
        self.publisher = Publisher(records.publications)
        self.heartbeat: Heartbeat | None = None
        self.friends = Friends(records.unicast)
        self.entries: list[tuple[str, str]] = []
        self.lines: list[Line] = []

    # What a life keeps of its events.

    def _enter(self, kind: str, answer: str) -> int:
        self.entries.append((kind, answer))
        return len(self.entries)

    def _do(self, kind: str, answer: str, jobs: list[Job]) -> None:
        """Enters an event, and does its jobs, of which those under a key not held aren't made."""
        entry = self._enter(kind, answer)
        held = [send for net, send in jobs if net is None or net in self.records.nets]
        for number, send in enumerate(held, 1):
            send(f'{entry}.{number}')

    def note_reset(self, kind: str) -> None:
        """An event behind a Node Reset."""
        self._enter(kind, 'reset')

    # Numbers and the IV Index.

    def _draw(self) -> tuple[int, int]:
        """An IV Index and a sequence number, below the mark on flash."""
        if self.next >= self.records.mark:
            self.flash.put(self.records.reserve)
        pair = self.next
        self.next = (pair[0], pair[1] + 1)
        return pair

    def _move_iv(self, iv: IvState) -> None:
        rises = iv.transmit > self.records.iv.transmit
        self.flash.put(lambda: self.records.move_iv(iv))
        if rises:
            self.next = self.records.mark

    # What is sent.

    def _master(self, net: int) -> Material:
        """The master credentials that are sent under (3.4.6.3)."""
        return k2(self.records.nets[net].sending)

    def _send_pdu(self, place: str, shown: str, material: Material, iv: int,
                  pdu: NetworkPdu) -> bytes:
        octets = pdus.seal_network(material, iv, pdu)
        self.lines.append(Line(place, shown, octets.hex()))
        return octets

    def _pass_on(self, place: str, material: Material, iv: int, pdu: NetworkPdu) -> None:
        """A PDU of another node."""
        shown = (f'relay {iv:08x} {pdu.seq:06x} {pdu.ctl} {pdu.ttl:02x} {pdu.src:04x}'
                 f' {pdu.dst:04x} {pdu.transport.hex()}')
        self._send_pdu(place, shown, material, iv, pdu)

    def _relay(self, place: str, heard: Heard) -> None:
        pdu = heard.pdu._replace(ttl=heard.pdu.ttl - 1)
        self._pass_on(place, self._master(heard.net), heard.iv_index, pdu)

    def _control(self, place: str, material: Material, ttl: int, src: int, dst: int,
                 text: bytes) -> KeptPdu:
        iv, seq = self._draw()
        shown = f'ctl {iv:08x} {seq:06x} {ttl:02x} {src:04x} {dst:04x} {text.hex()}'
        pdu = NetworkPdu(1, ttl, seq, src, dst, text)
        return KeptPdu(src, iv, seq, self._send_pdu(place, shown, material, iv, pdu))

    def _control_job(self, net: int, ttl: int, src: int, dst: int, text: bytes) -> Job:
        return net, lambda place: self._control(place, self._master(net), ttl, src, dst, text)

    def _sealed(self, message: OwnMessage) -> tuple[tuple[int, int], str, bytes]:
        """The pair that it draws, what its line shows, and its upper transport PDU."""
        _, key, ttl, src, dst, payload = message
        iv, seq = self._draw()
        upper = pdus.seal_upper(key.value, UpperFields(key.is_app, seq, src, dst, iv), payload)
        shown = f'{iv:08x} {seq:06x} {ttl:02x} {src:04x} {dst:04x} {key.name} {payload.hex()}'
        return (iv, seq), shown, upper

    def _short_message(self, place: str, material: Material, message: OwnMessage) -> KeptPdu:
        """An access message in one PDU."""
        (iv, seq), shown, upper = self._sealed(message)
        text = bytes([message.key.first_octet]) + upper
        pdu = NetworkPdu(0, message.ttl, seq, message.src, message.dst, text)
        octets = self._send_pdu(place, f'msg {shown}', material, iv, pdu)
        return KeptPdu(message.src, iv, seq, octets)

    def _long_message(self, place: str, message: OwnMessage) -> None:
        """An access message that begins to go in segments, which is an event of its own."""
        pair, shown, upper = self._sealed(message)
        self.lines.append(Line(place, f'long {shown}'))
        self._begin(Own(pair, message.src, message.dst, message.ttl, message.net,
                        message.key.first_octet, upper, self.now))

    def _message_jobs(self, message: OwnMessage) -> list[Job]:
        """None where it is stored for a Low Power node instead of being sent."""
        if self.friends.put_own(message):
            return []
        net = message.net
        if len(message.payload) > UNSEGMENTED_PAYLOAD:
            return [(net, lambda place: self._long_message(place, message))]
        return [(net, lambda place: self._short_message(place, self._master(net), message))]

    def _begin(self, message: Own) -> None:
        """The segments go at once. `moved` takes another bearer."""
        if self.friends.befriends(message.dst):
            self._enter('begin', 'befriended')
            return
        if self.sending.is_full:
            self._enter('begin', f'sendfull {len(self.sending.messages)}')
            return
        entry = self._enter('begin', 'begun')
        self.sending.messages.append(message)
        for seg_o in range(message.seg_n + 1):
            pair = self._draw() if seg_o else message.pair
            self._segment(f'{entry}.{seg_o + 1}', message, seg_o, pair)

    def _segment(self, place: str, message: Own, seg_o: int, pair: tuple[int, int]) -> None:
        iv, seq = pair
        if iv != message.pair[0] or seq > message.pair[1] + FURTHEST_SEGMENT:
            self.lines.append(Line(place, f'late {iv:08x} {seq:06x}'))
            return
        ttl, src, dst, auth = message.ttl, message.src, message.dst, message.pair[1]
        shown = (f'seg {iv:08x} {seq:06x} {ttl:02x} {src:04x} {dst:04x} {seg_o} {message.seg_n}'
                 f' {auth:06x}')
        text = pdus.segment_text(message.first, auth, seg_o, message.upper)
        pdu = NetworkPdu(0, ttl, seq, src, dst, text)
        self._send_pdu(place, shown, self._master(message.net), iv, pdu)

    def _segment_job(self, message: Own, seg_o: int) -> Job:
        return message.net, lambda place: self._segment(place, message, seg_o, self._draw())

    def _beacon_jobs(self) -> list[Job]:
        """Of each network key, by the state at this event (3.10.4.2, 3.10.5)."""
        def job(net: int) -> Job:
            row, iv = self.records.nets[net], self.records.iv
            flags = (row.phase == 2) | iv.in_progress << 1
            octets = pdus.beacon(row.sending, flags, iv.current).hex()
            return net, lambda place: self.lines.append(Line(place, f'bcn {octets}'))
        return [job(net) for net in sorted(self.records.nets)] if self.records.beacon else []

    # A network PDU is heard.

    def hear(self, octets: bytes) -> None:
        heard = self._read(octets)
        refusal = self._passed_over(heard)
        if refusal:
            self._enter('net', refusal)
            return
        if heard.lpn is None:
            self.friends.put(heard.iv_index, heard.pdu)
        outcome = self._outcome(heard)
        self._do('net', outcome.answer, self._jobs_of(heard, outcome))

    def _read(self, octets: bytes) -> Heard | None:
        """The first reading, by network key index, the old key before the new, and then by
        friendship in the order of the offers."""
        iv = self.records.iv.current
        iv -= (iv ^ octets[0] >> 7) & 1
        if iv < 0:
            return None
        for net in sorted(self.records.nets):
            for key in self.records.nets[net].values:
                pdu = pdus.open_network(k2(key), iv, octets)
                if pdu:
                    return Heard(net, iv, pdu)
        for slot in self.friends.slots:
            pdu = pdus.open_network(slot.material, iv, octets)
            if pdu:
                return Heard(slot.net, iv, pdu, slot.lpn, slot.material)
        return None

    def _passed_over(self, heard: Heard | None) -> str | None:
        """The answer of a PDU that doesn't get past the network layer's looks."""
        if heard is None:
            return 'unread'
        src, dst = heard.pdu.src, heard.pdu.dst
        if not is_unicast(src) or dst == 0:
            return 'badaddress'
        if self.records.has_element(src):
            return 'own'
        name = (src, heard.iv_index, heard.pdu.seq)
        if name in self.cache:
            return 'cached'
        self.cache = [*self.cache, name][-CACHE:]
        return None

    def _outcome(self, heard: Heard) -> Outcome:
        """What a PDU that wasn't heard before is answered, with its records put."""
        pdu = heard.pdu
        if not self.records.is_mine(pdu.dst):
            return Outcome('notmine')
        lower = pdus.read_lower(pdu)
        if lower is None:
            return Outcome('malformed')
        seq = lower.segment.seq_auth if lower.segment else pdu.seq
        name = (pdu.src, heard.iv_index, seq)
        block = all_pieces(lower.segment.seg_n) if lower.segment else None
        entry = self.records.replay_entry(pdu.src)
        if lower.segment and entry == name[1:] and name in self.accepted:
            return Outcome('again', block)
        if entry and name[1:] <= entry:
            return Outcome(f'replay {entry[0]:08x} {entry[1]:06x}')
        whole = lower.text
        if lower.segment:
            taken = self.reassembly.take(self.now, name, heard.net, pdu, lower, self._ttl(pdu))
            if taken.whole is None:
                return Outcome(taken.answer, 0 if taken.answer.startswith('noroom') else None)
            whole = taken.whole
        return self._whole(heard, lower, name, whole, block)

    def _whole(self, heard: Heard, lower: LowerPdu, name: MessageName, text: bytes,
               block: int | None) -> Outcome:
        """Of a whole message; one that no key opens is acknowledged all the same."""
        opened = None if lower.ctl else self._open(heard, lower, name, text)
        if not lower.ctl and opened is None:
            return Outcome('nokey', block)
        if self.records.replay_entry(name[0]) is None and not self.records.has_replay_place():
            return Outcome('listfull 512')
        self.flash.put(lambda: self.records.accept(name))
        if lower.segment:
            self.accepted.add(name)
        src, iv, seq = name
        shown = f'{src:04x} {heard.pdu.dst:04x} {iv:08x} {seq:06x}'
        if opened:
            return self._delivered(heard, opened, shown)._replace(block=block)
        if lower.opcode == ACKNOWLEDGMENT:
            self.sending.acknowledge(src, text)
        asked = self._friend_jobs(heard, lower.opcode, text)
        return Outcome(f"control {shown} {lower.opcode:02x} {text.hex() or '-'}", block, asked)

    def _keys_tried(self, heard: Heard, lower: LowerPdu) -> list[tuple[int | None, Key]]:
        if not lower.akf:
            is_for_element = is_unicast(heard.pdu.dst)
            return [(None, Key('dev', self.records.device_key))] if is_for_element else []
        rows = sorted((app, row) for app, row in self.records.apps.items() if row.net == heard.net)
        return [(app, app_key(app, value)) for app, row in rows for value in row.values
                if pdus.first_octet(True, value) & 0x3f == lower.aid]

    def _open(self, heard: Heard, lower: LowerPdu, name: MessageName,
              upper: bytes) -> Opened | None:
        """The payload by the first key that opens it, of a virtual address by label and key."""
        (src, iv, seq), dst = name, heard.pdu.dst
        labels = self.records.labels_of(dst) if is_virtual(dst) else [b'']
        for label in labels:
            for app, key in self._keys_tried(heard, lower):
                size = 8 if lower.szmic else 4
                fields = UpperFields(key.is_app, seq, src, dst, iv, label, size)
                payload = pdus.open_upper(key.value, fields, upper)
                if payload is not None:
                    return Opened(payload, key, app, label)
        return None

    def _delivered(self, heard: Heard, opened: Opened, shown: str) -> Outcome:
        answer = f'delivered {shown} {opened.key.name} {opened.payload.hex()}'
        outcome = Outcome(answer, key=opened.key)
        if opened.key.is_app:
            effects = self.servers.take(self.now, heard.pdu.src, heard.pdu.dst, opened.label,
                                        opened.app, opened.payload)
            for name, value in effects.values.items():
                self.flash.put(lambda name=name, value=value:
                               self.records.model_values.update({name: value}))
            return outcome._replace(replies=tuple(effects.replies))
        if heard.pdu.dst != self.records.unicast:
            return outcome
        return self._configured(heard.net, opened.payload, outcome)

    def _configured(self, net: int, payload: bytes, outcome: Outcome) -> Outcome:
        asked = configuration.Asked(self.records, self.heartbeat, net, self.now,
                                    self.friends.poll_timeouts())
        answer = configuration.answer(asked, payload)
        if answer is None:
            return outcome
        before = {index: row.phase for index, row in self.records.nets.items()}
        if answer.ends_friendships:
            self.friends.end()
        if answer.change:
            self.flash.put(answer.change)
            self.publisher.note(self.records.publications, self.now)
        self.heartbeat = answer.heartbeat or self.heartbeat
        moves_phase = any(before.get(index, row.phase) != row.phase
                          for index, row in self.records.nets.items())
        return outcome._replace(replies=((0, answer.reply),), moves_phase=moves_phase)

    def _friend_jobs(self, heard: Heard, opcode: int, params: bytes) -> tuple[Job, ...]:
        """What a control message of a friendship asks to be sent."""
        asked = friend_messages.Asked(self.friends, self.records, self.now, heard.net, heard.lpn,
                                      heard.pdu)
        return tuple(self._friend_job(heard.friendship, send)
                     for send in friend_messages.take(asked, opcode, params))

    def _friend_job(self, material: Material | None,
                    send: friend_messages.Control | friend_messages.Answer) -> Job:
        """Octets of a stored PDU are noted at once, those of other answers behind their line."""
        own = self.records.unicast
        if isinstance(send, friend_messages.Control):
            if send.net is not None:
                return self._control_job(send.net, send.ttl, own, send.dst, send.text)
            return None, lambda place: self._control(place, material, send.ttl, own, send.dst,
                                                     send.text)
        message, lpn, fsn = send
        if isinstance(message, KeptPdu):
            return None, lambda place: self._repeat(place, message)
        if isinstance(message, StoredPdu):
            iv, pdu = message
            octets = pdus.seal_network(material, iv, pdu)
            self.friends.keep(lpn, fsn, KeptPdu(pdu.src, iv, pdu.seq, octets))
            return None, lambda place: self._pass_on(place, material, iv, pdu)

        def answer(place: str) -> None:
            if isinstance(message, OwnMessage):
                kept = self._short_message(place, material, message)
            else:
                kept = self._control(place, material, message.ttl, own, message.dst, message.text)
            self._enter('kept', 'kept' if self.friends.keep(lpn, fsn, kept) else 'dropped')
        return None, answer

    def _repeat(self, place: str, kept: KeptPdu) -> None:
        """The octets that answered the same Poll before."""
        src, iv, seq, octets = kept
        self.lines.append(Line(place, f'rep {src:04x} {iv:08x} {seq:06x}', octets.hex()))

    def _ttl(self, pdu: NetworkPdu) -> int:
        """Of an acknowledgment or a reply."""
        return self.records.ttl if pdu.ttl else 0

    def _jobs_of(self, heard: Heard, outcome: Outcome) -> list[Job]:
        net, pdu, records = heard.net, heard.pdu, self.records
        jobs: list[Job] = []
        if records.relay and pdu.ttl >= 2 and not records.has_element(pdu.dst):
            jobs.append((net, lambda place: self._relay(place, heard)))
        if outcome.block is not None and is_unicast(pdu.dst):
            seq_zero = pdus.read_lower(pdu).segment.seq_zero
            text = pdus.acknowledgment(seq_zero, outcome.block)
            jobs.append(self._control_job(net, self._ttl(pdu), pdu.dst, pdu.src, text))
        jobs += outcome.asked
        for place, reply in outcome.replies:
            src = records.unicast + place
            message = OwnMessage(net, outcome.key, self._ttl(pdu), src, pdu.src, reply)
            jobs += self._message_jobs(message)
        return jobs + (self._beacon_jobs() if outcome.moves_phase else [])

    # A beacon is heard.

    def hear_beacon(self, octets: bytes) -> None:
        """Its step of the phase is stored before that of the IV Index."""
        found = self._beacon_key(octets)
        if found is None:
            self._enter('bcn', 'unread')
            return
        net, is_updated = found
        flags, heard = octets[1], int.from_bytes(octets[10:14], 'big')
        is_subnet = net != 0 and 0 in self.records.nets
        is_sending = bool(self.sending.messages)
        step, iv = iv_index.on_beacon(self.records.iv, heard, bool(flags & 2), is_subnet,
                                      is_sending)
        key_step = self._key_step(net, is_updated, bool(flags & 1))
        if iv:
            self._move_iv(iv)
        if step == 'recover':
            self.sending = Sending()
        self._enter('bcn', f'beacon {net:03x} {key_step} {step}')

    def _beacon_key(self, octets: bytes) -> tuple[int, bool] | None:
        """The first network key that these octets are a beacon of, and whether the new value."""
        if len(octets) != 22:
            return None
        flags, heard = octets[1], int.from_bytes(octets[10:14], 'big')
        for net in sorted(self.records.nets):
            for number, key in enumerate(self.records.nets[net].values):
                if pdus.beacon(key, flags, heard) == octets:
                    return net, number == 1
        return None

    def _key_step(self, net: int, is_updated: bool, refreshes: bool) -> str:
        """What a beacon does to the phase, stored (3.10.4.1 to 3.10.4.3)."""
        if is_updated and not refreshes:
            self.flash.put(lambda: self.records.finish_refresh(net))
            return 'phase0'
        if is_updated and self.records.nets[net].phase == 1:
            self.flash.put(lambda: self.records.enter_phase_2(net))
            return 'phase2'
        return 'same'

    # Time passes.

    def tick(self, ticks: int) -> None:
        before, now = self.now, self.now + ticks
        moves_iv = self._hours(now // HOUR - before // HOUR)
        self.now = now
        self.friends.tick(now)
        jobs = [self._control_job(message.net, message.ack_ttl, message.dst, message.name[0],
                                  pdus.acknowledgment(message.seq_zero, message.block))
                for message in self.reassembly.acks_due(now)]
        jobs += [self._segment_job(message, seg_o) for message in self.sending.due(now)
                 for seg_o in message.pieces_due()]
        if moves_iv or now // BEACON_INTERVAL > before // BEACON_INTERVAL:
            jobs += self._beacon_jobs()
        for name, row in self.publisher.due(now):
            jobs += self._publication_jobs(name[0], row, self.servers.status(now, name))
        if self.heartbeat and self.heartbeat.is_due(now):
            jobs.append(self._heartbeat_job(self.heartbeat))
        self._do('tick', f'ticked {now}', jobs)

    def _hours(self, hours: int) -> bool:
        """Stores hours that passed, and an IV Update that begins or ends of its own."""
        if not hours:
            return False
        after = self.records.iv.after_hours(hours)
        self.flash.put(lambda: self.records.move_iv(after))
        iv = iv_index.of_own(after, self.records.mark[1], bool(self.sending.messages))
        if iv:
            self._move_iv(iv)
        return iv is not None

    def _publication_jobs(self, element: int, row: PublicationRow, status: bytes) -> list[Job]:
        ttl = self.records.ttl if row.ttl == configuration.DEFAULT_TTL else row.ttl
        key = app_key(row.app, self.records.app_sending(row.app))
        net = self.records.apps[row.app].net
        return self._message_jobs(OwnMessage(net, key, ttl, element, row.address, status))

    def _heartbeat_job(self, beats: Heartbeat) -> Job:
        """A heartbeat (3.6.5.10) with the features in use, Relay and Friend."""
        features = self.records.relay | self.records.friend << 2
        text = bytes([HEARTBEAT, beats.ttl]) + features.to_bytes(2, 'big')
        return self._control_job(beats.net, beats.ttl, self.records.unicast, beats.destination,
                                 text)

    # The node sends.

    def send(self, place: int, dst: int, ttl: int, key: str, payload: bytes) -> None:
        """An access message; `key` is `dev`, `dev:` with a device key, or `app:` with an index."""
        app = int(key[4:], 16) if key.startswith('app:') else None
        if app is not None and app not in self.records.apps:
            self._enter('send', f'noappkey {app:03x}')
            return
        if app is None:
            net = min(self.records.nets)
            sealed_by = Key('dev', bytes.fromhex(key[4:]) or self.records.device_key)
        else:
            net = self.records.apps[app].net
            sealed_by = app_key(app, self.records.app_sending(app))
        message = OwnMessage(net, sealed_by, ttl, self.records.unicast + place, dst, payload)
        self._do('send', 'planned', self._message_jobs(message))

    def send_control(self, dst: int, ttl: int, text: bytes) -> None:
        job = self._control_job(min(self.records.nets), ttl, self.records.unicast, dst, text)
        self._do('raw', 'planned', [job])
