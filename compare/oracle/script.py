"""Lines of a script, and the PDUs that outside nodes make for them: docs/FORMATS.md, "The script".

What is taken is the grammar with one bearer, b0. Scripts that break a rule of it aren't looked at.
"""
from . import pdus
from .ciphers import Material, k2, virtual_address
from .low_power import LowPowerLife
from .node import Life
from .pdus import NetworkPdu, UpperFields

KINDS = {'net': 'net', 'peer': 'net', 'talk': 'net', 'bcn': 'bcn', 'beacon': 'bcn',
         'send': 'send', 'raw': 'raw', 'tick': 'tick', 'seek': 'seek', 'poll': 'poll',
         'list': 'list'}
"""The kind that the report tells of an event, by its word."""


def material(word: str) -> Material:
    """KEY, or KEY/LPN/FRIEND/LPNCOUNTER/FRIENDCOUNTER of a friendship."""
    key, *friendship = word.split('/')
    p = b'\1' + bytes.fromhex(''.join(friendship)) if friendship else b'\0'
    return k2(bytes.fromhex(key), p)


def _peer_octets(words: list[str]) -> bytes:
    net, iv, ctl, ttl, seq, src, dst, transport = words
    pdu = NetworkPdu(int(ctl), int(ttl, 16), int(seq, 16), int(src, 16), int(dst, 16),
                     bytes.fromhex(transport))
    return pdus.seal_network(material(net), int(iv, 16), pdu)


def _talk_octets(words: list[str]) -> bytes:
    """One PDU of an access message, `u` or the SegO of a segment."""
    net, named_key, iv, ttl, auth, seq, src, to, seg_o, payload = words
    is_app, key = named_key.startswith('app:'), bytes.fromhex(named_key[4:])
    label = bytes.fromhex(to[2:]) if to.startswith('v:') else b''
    dst = virtual_address(label) if label else int(to, 16)
    fields = UpperFields(is_app, int(auth, 16), int(src, 16), dst, int(iv, 16), label)
    upper = pdus.seal_upper(key, fields, bytes.fromhex(payload))
    first = pdus.first_octet(is_app, key)
    if seg_o == 'u':
        transport = bytes([first]) + upper
    else:
        transport = pdus.segment_text(first, fields.seq, int(seg_o), upper)
    pdu = NetworkPdu(0, int(ttl, 16), int(seq, 16), fields.src, dst, transport)
    return pdus.seal_network(material(net), fields.iv_index, pdu)


def _beacon_octets(words: list[str]) -> bytes:
    net_key, flags, iv = words
    return pdus.beacon(bytes.fromhex(net_key), int(flags, 16), int(iv, 16))


def heard_octets(word: str, words: list[str]) -> bytes:
    """What a bearer hears by a line `b0 WORD WORDS`."""
    if word in ('net', 'bcn'):
        return bytes.fromhex(words[0])
    makers = {'peer': _peer_octets, 'talk': _talk_octets, 'beacon': _beacon_octets}
    return makers[word](words)


def do_event(life: Life, word: str, words: list[str]) -> None:
    """The event of a line `b0 WORD WORDS`."""
    if life.records.was_reset:
        life.note_reset(KINDS[word])
    elif word == 'tick':
        life.tick(int(words[0]))
    elif word == 'send':
        place, dst, ttl, key, payload = words
        life.send(int(place), int(dst, 16), int(ttl, 16), key, bytes.fromhex(payload))
    elif word == 'raw':
        dst, ttl, text = words
        life.send_control(int(dst, 16), int(ttl, 16), bytes.fromhex(text))
    elif isinstance(life, LowPowerLife) and word in ('seek', 'poll'):
        life.seek() if word == 'seek' else life.poll()
    elif isinstance(life, LowPowerLife) and word == 'list':
        life.add_to_list(int(words[0], 16))
    elif KINDS[word] == 'bcn':
        life.hear_beacon(heard_octets(word, words))
    else:
        life.hear(heard_octets(word, words))
