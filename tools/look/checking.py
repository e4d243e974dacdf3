"""Compares what tshark reads from a capture with what script and report tell of each PDU.

What tshark 4.0 doesn't read isn't due: a network PDU under the credentials of a friendship, for
which its tables have no place; one of fewer than 18 octets; the payload under a device key to an
address that isn't unicast, and one to a virtual address that was sealed without a label.
"""
import shutil
import subprocess
import tempfile
from collections.abc import Iterator
from pathlib import Path
from typing import NamedTuple

from .capturing import capture_of
from .hearing import HEARD, octets_heard
from .forms import is_unicast, is_virtual
from .keys import Keys, keys_of
from .report import Job, report_of
from .runs import LifeRun, Step, run_of_file
from .script import script_of
from .second_node import beacon_keys, k2, open_network, virtual_address
from .wireshark import options, tables

FIELDS = {'interface': 'frame.interface_name', 'direction': 'frame.packet_flags_direction',
          'time': 'frame.time_epoch', 'IVI': 'btmesh.ivi', 'CTL': 'btmesh.ctl',
          'TTL': 'btmesh.ttl', 'SEQ': 'btmesh.seq', 'SRC': 'btmesh.src', 'DST': 'btmesh.dst',
          'transport PDU': 'btmesh.transp_pdu', 'payload': 'btmesh.access.decrypted',
          'SegO': 'btmesh.sego', 'SegN': 'btmesh.segn', 'SeqZero': 'btmesh.seqzero_data',
          'beacon': 'beacon.type', 'flags': 'beacon.flags', 'Network ID': 'beacon.network_id',
          'IV Index': 'beacon.ivindex'}
"""The fields that are compared, by what they are called in a difference."""
OF_OCTETS = ('transport PDU', 'payload', 'Network ID', 'interface', 'time')
SEQ_ZERO = 0x1fff
BEACON_SIZE, SHORTEST_READ = 22, 18
ACCESS, CONTROL = 0, 1

Fields = dict[str, int | str | None]
"""What is due or was read; None where nothing is to be read."""
UNREAD: Fields = {'SEQ': None, 'SRC': None}


class Due(NamedTuple):
    """A packet of the capture, and the fields that are due."""
    of: str
    octets: bytes
    fields: Fields


def tshark() -> str | None:
    """Where tshark is, if it is installed."""
    return shutil.which('tshark')


def _network(iv: str, ctl: int, ttl: str, seq: str, src: str, dst: str | int) -> Fields:
    dst = int(dst, 16) if isinstance(dst, str) else dst
    return {'IVI': int(iv, 16) & 1, 'CTL': ctl, 'TTL': int(ttl, 16), 'SEQ': int(seq, 16),
            'SRC': int(src, 16), 'DST': dst}


def _payload(key: str, fields: Fields, payload: str) -> Fields:
    """The payload of a message without a label, where tshark tries the key."""
    dst = fields['DST']
    is_tried = is_unicast(dst) or key != 'dev' and not is_virtual(dst)
    return {'payload': payload.lower()} if is_tried else {}


def _of_peer(words: tuple[str, ...]) -> Fields:
    _, iv, ctl, ttl, seq, src, dst, transport = words
    return _network(iv, int(ctl), ttl, seq, src, dst) | {'transport PDU': transport.lower()}


def _of_talk(words: tuple[str, ...]) -> Fields:
    _, key, iv, ttl, auth, seq, src, dst, piece, payload = words
    has_label = dst.startswith('v:')
    to = virtual_address(bytes.fromhex(dst[2:])) if has_label else dst
    fields = _network(iv, ACCESS, ttl, seq, src, to)
    if piece == 'u' and has_label and key.startswith('app:'):
        return fields | {'payload': payload.lower()}
    if piece == 'u':
        return fields | _payload(key[:3], fields, payload)
    return fields | {'SegO': int(piece), 'SeqZero': int(auth, 16) & SEQ_ZERO}


def _of_beacon(octets: bytes) -> Fields:
    """By the places of its fields (Mesh Profile 3.9.3); of other octets nothing is due."""
    if len(octets) != BEACON_SIZE or octets[0] != 1:
        return {}
    return {'beacon': 1, 'flags': octets[1], 'Network ID': octets[2:10].hex(),
            'IV Index': int.from_bytes(octets[10:14], 'big')}


def _of_heard(step: Step, octets: bytes) -> Fields:
    """What a line tells of a PDU that was heard; of octets alone its entry may tell more."""
    word, words, entry = step.event.word, step.event.words, step.entry
    if word == 'beacon':
        network_id, _ = beacon_keys(bytes.fromhex(words[0]))
        return _of_beacon(octets) | {'flags': int(words[1], 16), 'IV Index': int(words[2], 16),
                                     'Network ID': network_id.hex()}
    if word == 'bcn':
        return _of_beacon(octets)
    if word == 'net':
        if entry.answer not in ('control', 'delivered'):
            return {}
        src, dst, iv = entry.words[:3]
        return {'IVI': int(iv, 16) & 1, 'SRC': int(src, 16), 'DST': int(dst, 16),
                'CTL': CONTROL if entry.answer == 'control' else ACCESS}
    return _of_peer(words) if word == 'peer' else _of_talk(words)


def _of_job(job: Job) -> Fields:
    """What a line tells of a PDU that was sent."""
    words = job.words
    if job.result == 'bcn':
        return _of_beacon(job.octets)
    if job.result == 'rep':
        src, iv, seq = words
        return {'IVI': int(iv, 16) & 1, 'SRC': int(src, 16), 'SEQ': int(seq, 16)}
    if job.result == 'relay':
        iv, seq, ctl, ttl, src, dst, transport = words
        return _network(iv, int(ctl), ttl, seq, src, dst) | {'transport PDU': transport}
    iv, seq, ttl, src, dst, *rest = words
    fields = _network(iv, CONTROL if job.result == 'ctl' else ACCESS, ttl, seq, src, dst)
    if job.result == 'ctl':
        return fields | {'transport PDU': rest[0]}
    if job.result == 'msg':
        return fields | _payload(rest[0], fields, rest[1])
    return fields | {'SegO': int(rest[0]), 'SegN': int(rest[1]),
                     'SeqZero': int(rest[2], 16) & SEQ_ZERO}


class _Long:
    """The payloads of own messages in segments, each due where its last piece first goes out,
    unless a piece before it hasn't."""

    def __init__(self) -> None:
        self.begun: dict[tuple[str, ...], tuple[Fields, set[int]]] = {}

    def due(self, job: Job) -> Fields:
        """The payload, where all pieces are out with this job for the first time."""
        if job.result == 'long':
            iv, seq, _, src, dst, key, payload = job.words
            told = _payload(key, {'DST': int(dst, 16)}, payload)
            self.begun[iv, src, seq] = told, set()
        if job.result != 'seg':
            return {}
        iv, _, _, src, _, piece, last, auth = job.words
        told, pieces = self.begun.get((iv, src, auth), ({}, set()))
        is_last = len(pieces) == int(last) and int(piece) not in pieces
        pieces.add(int(piece))
        return told if is_last else {}


def dues(runs: list[LifeRun]) -> Iterator[Due]:
    """What is due of each packet, in the order of the capture."""
    for run in runs:
        long = _Long()
        for step in run.steps:
            at = {'time': f'{step.at // 100}.{step.at % 100:02}0000000',
                  'interface': f'b{step.entry.bearer}'}
            place = f'life {run.life.number}, entry {step.entry.number}'
            if step.event and step.event.word in HEARD:
                octets = octets_heard(step.event)
                yield Due(place, octets, at | {'direction': 1} | _of_heard(step, octets))
            for job in step.jobs:
                told = long.due(job)
                if job.octets is not None:
                    yield Due(f'{place}, job {job.place}', job.octets,
                              at | {'direction': 2} | _of_job(job) | told)


def is_readable(octets: bytes, keys: Keys) -> bool:
    """Whether a network PDU opens under a network key and an IV Index of the tables, and isn't too
    short."""
    if len(octets) < SHORTEST_READ:
        return False
    nets = dict.fromkeys(net for net, _ in keys.rows())
    return any(open_network(k2(net), iv, octets) is not None
               for net in nets for iv in keys.iv_indexes if iv & 1 == octets[0] >> 7)


def _read(path: Path, keys: Keys) -> list[Fields]:
    """The fields of each packet by tshark; in two passes, since a message in segments is opened
    in the second."""
    words = [tshark(), '-2', '-r', str(path), *options(tables(keys)), '-T', 'fields',
             '-E', 'occurrence=f', *(word for name in FIELDS.values() for word in ('-e', name))]
    done = subprocess.run(words, capture_output=True, text=True, check=True)
    return [{name: _value(name, text) for name, text in zip(FIELDS, line.split('\t'))}
            for line in done.stdout.splitlines()]


def _value(name: str, text: str) -> int | str | None:
    if text == '':
        return None
    return text.replace(':', '') if name in OF_OCTETS else int(text, 0)


class Compared(NamedTuple):
    """How many packets were compared, how many of them tshark has no key for or doesn't read, and
    each difference."""
    packets: int
    unread: int
    differences: list[str]


def compare(name: str, script_text: str, report_text: str) -> Compared:
    """Makes the capture of a script and its report, and compares what tshark reads from it."""
    script = script_of(name, script_text)
    runs = run_of_file(name, report_of(name, report_text), script)
    keys = keys_of(script, runs)
    octets, _ = capture_of(name, runs)
    with tempfile.TemporaryDirectory() as folder:
        path = Path(folder) / 'run.pcapng'
        path.write_bytes(octets)
        read = _read(path, keys)
    due = list(dues(runs))
    if len(due) != len(read):
        return Compared(len(due), 0, [f'{name}: {len(read)} packets, and not {len(due)}'])
    unread, differences = 0, []
    for number, (one, found) in enumerate(zip(due, read), 1):
        wanted = one.fields
        if 'IVI' in wanted and not is_readable(one.octets, keys):
            unread += 1
            wanted = {field: wanted[field] for field in ('time', 'interface', 'direction')} | UNREAD
        differences += [f'{name}: packet {number}, {one.of}: {field} is {found[field]}, and not '
                        f'{value}' for field, value in wanted.items() if found[field] != value]
    return Compared(len(due), unread, differences)
