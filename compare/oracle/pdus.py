"""The octets of PDUs and of beacons.

Mesh Profile 3.4.4 and 3.8.7 (network PDU), 3.5.2 (lower transport PDU), 3.5.3.1 (SeqAuth), 3.6.2
and 3.8.7.1 (upper transport PDU), 3.8.5 (nonces), 3.9.3 (Secure Network beacon).
"""
from dataclasses import dataclass
from typing import NamedTuple

from .ciphers import Material, beacon_keys, ccm_open, ccm_seal, cmac, encrypt_block, k4, xor

PIECE = 12
CONTROL_PIECE = 8


class NetworkPdu(NamedTuple):
    """Its fields; `transport` is the transport PDU."""
    ctl: int
    ttl: int
    seq: int
    src: int
    dst: int
    transport: bytes


class Segment(NamedTuple):
    """The fields that a segment has more than a whole message, and SeqAuth."""
    seq_zero: int
    seg_o: int
    seg_n: int
    seq_auth: int


class Key(NamedTuple):
    """A key of an access message with its name, `dev` or `app:` and an index."""
    name: str
    value: bytes

    @property
    def is_app(self) -> bool:
        return self.name != 'dev'

    @property
    def first_octet(self) -> int:
        """AKF and AID of a message under it."""
        return first_octet(self.is_app, self.value)


@dataclass(frozen=True)
class LowerPdu:
    """`opcode` is 0 of an access message, the other fields 0 of a control message."""
    ctl: int
    text: bytes
    opcode: int = 0
    akf: int = 0
    aid: int = 0
    szmic: int = 0
    segment: Segment | None = None

    @property
    def kind(self) -> tuple[int, ...]:
        """What all segments of a message have in common."""
        return self.ctl, self.opcode, self.akf, self.aid, self.szmic


class UpperFields(NamedTuple):
    """What an access message is sealed under beside its key; `seq` is that of SeqAuth."""
    is_app: bool
    seq: int
    src: int
    dst: int
    iv_index: int
    label: bytes = b''
    mic_size: int = 4


def little(number: int, width: int) -> bytes:
    """Numbers of messages stand with the low octet first (3.1.1.2)."""
    return (number & (1 << 8 * width) - 1).to_bytes(width, 'little')


def _big(number: int, width: int) -> bytes:
    return number.to_bytes(width, 'big')


def _mic_size(ctl: int) -> int:
    return 8 if ctl else 4


def _privacy_mask(material: Material, iv_index: int, privacy_random: bytes) -> bytes:
    return encrypt_block(material.privacy, bytes(5) + _big(iv_index, 4) + privacy_random)


def _network_nonce(head: bytes, iv_index: int) -> bytes:
    return b'\0' + head + b'\0\0' + _big(iv_index, 4)


def seal_network(material: Material, iv_index: int, pdu: NetworkPdu) -> bytes:
    head = bytes([pdu.ctl << 7 | pdu.ttl]) + _big(pdu.seq, 3) + _big(pdu.src, 2)
    text = _big(pdu.dst, 2) + pdu.transport
    sealed = ccm_seal(material.encryption, _network_nonce(head, iv_index), text, _mic_size(pdu.ctl))
    mask = _privacy_mask(material, iv_index, sealed[:7])
    return bytes([(iv_index & 1) << 7 | material.nid]) + xor(head, mask) + sealed


def open_network(material: Material, iv_index: int, octets: bytes) -> NetworkPdu | None:
    """The PDU that seals to these octets; that IVI fits isn't looked at."""
    if len(octets) < 14 or octets[0] & 0x7f != material.nid:
        return None
    head = xor(octets[1:7], _privacy_mask(material, iv_index, octets[7:14]))
    ctl, ttl = head[0] >> 7, head[0] & 0x7f
    size = _mic_size(ctl)
    if not 1 <= len(octets) - 9 - size <= (12 if ctl else 16):
        return None
    text = ccm_open(material.encryption, _network_nonce(head, iv_index), octets[7:], size)
    if text is None:
        return None
    seq, src = int.from_bytes(head[1:4], 'big'), int.from_bytes(head[4:], 'big')
    return NetworkPdu(ctl, ttl, seq, src, int.from_bytes(text[:2], 'big'), text[2:])


def seq_auth_of(seq: int, seq_zero: int) -> int:
    """The greatest number up to `seq` with these low 13 bits; negative where there is none."""
    return seq - (seq - seq_zero) % 0x2000


def read_lower(pdu: NetworkPdu) -> LowerPdu | None:
    """The lower transport PDU, None where it is malformed."""
    text = pdu.transport
    akf = 0 if pdu.ctl else text[0] >> 6 & 1
    first = {'opcode': text[0] & 0x7f} if pdu.ctl else {'akf': akf, 'aid': text[0] & 0x3f * akf}
    if text[0] >> 7:
        return _read_segment(pdu, first)
    if not pdu.ctl and len(text) < 6:
        return None
    return LowerPdu(pdu.ctl, text[1:], **first)


def _read_segment(pdu: NetworkPdu, first: dict[str, int]) -> LowerPdu | None:
    piece = pdu.transport[4:]
    fields = int.from_bytes(pdu.transport[1:4], 'big')
    seq_zero, seg_o, seg_n = fields >> 10 & 0x1fff, fields >> 5 & 0x1f, fields & 0x1f
    full = CONTROL_PIECE if pdu.ctl else PIECE
    seq_auth = seq_auth_of(pdu.seq, seq_zero)
    fits = len(piece) == full if seg_o < seg_n else 1 <= len(piece) <= full
    if seg_o > seg_n or not fits or seq_auth < 0:
        return None
    szmic = 0 if pdu.ctl else fields >> 23
    segment = Segment(seq_zero, seg_o, seg_n, seq_auth)
    return LowerPdu(pdu.ctl, piece, szmic=szmic, segment=segment, **first)


def first_octet(is_app: bool, key: bytes) -> int:
    """AKF and AID of an access message under this key."""
    return 0x40 | k4(key) if is_app else 0


def last_piece(upper: bytes) -> int:
    """SegN of an upper transport PDU."""
    return -(-len(upper) // PIECE) - 1


def segment_text(first: int, seq_auth: int, seg_o: int, upper: bytes) -> bytes:
    """The lower transport PDU of one piece of an access message, SZMIC 0."""
    fields = (seq_auth & 0x1fff) << 10 | seg_o << 5 | last_piece(upper)
    piece = upper[PIECE * seg_o:PIECE * seg_o + PIECE]
    return bytes([0x80 | first]) + _big(fields, 3) + piece


def acknowledgment(seq_zero: int, block: int) -> bytes:
    """A Segment Acknowledgment with OBO 0 (3.5.2.3.1)."""
    return b'\0' + _big(seq_zero << 2, 2) + _big(block, 4)


def _upper_nonce(fields: UpperFields) -> bytes:
    kind = bytes([1 if fields.is_app else 2, 0x80 if fields.mic_size == 8 else 0])
    addresses = _big(fields.src, 2) + _big(fields.dst, 2)
    return kind + _big(fields.seq, 3) + addresses + _big(fields.iv_index, 4)


def seal_upper(key: bytes, fields: UpperFields, payload: bytes) -> bytes:
    return ccm_seal(key, _upper_nonce(fields), payload, fields.mic_size, fields.label)


def open_upper(key: bytes, fields: UpperFields, upper: bytes) -> bytes | None:
    """The payload, None where no payload of an octet or more seals to this under the key."""
    if len(upper) <= fields.mic_size:
        return None
    return ccm_open(key, _upper_nonce(fields), upper, fields.mic_size, fields.label)


def beacon(net_key: bytes, flags: int, iv_index: int) -> bytes:
    network_id, beacon_key = beacon_keys(net_key)
    text = bytes([flags]) + network_id + _big(iv_index, 4)
    return b'\1' + text + cmac(beacon_key, text)[:8]
