"""AES-128, AES-CMAC, AES-CCM, and the keys that are derived with them.

FIPS 197; RFC 4493; RFC 3610 with two octets of length; Mesh Profile 3.8.2.4 to 3.8.2.8 (s1, k1 to
k4), 3.4.2.3 (virtual addresses), 3.9.3.1 (the beacon key). Octets are `bytes` throughout.
"""
from functools import lru_cache
from typing import NamedTuple

BLOCK = 16


class Material(NamedTuple):
    """What k2 derives from a network key."""
    nid: int
    encryption: bytes
    privacy: bytes


def _twice(octet: int) -> int:
    """The product with x in the field of FIPS 197, 4.2."""
    return octet << 1 ^ (0x11b if octet & 0x80 else 0)


def _substitution_box() -> list[int]:
    """FIPS 197, 5.1.1: the inverse, of 0 it is 0, and then the affine map."""
    powers = [1]
    for _ in range(254):
        powers.append(powers[-1] ^ _twice(powers[-1]))
    inverse = {0: 0} | {powers[i]: powers[-i % 255] for i in range(255)}
    box = []
    for octet in range(256):
        mapped = 0x63
        for turn in range(5):
            mapped ^= (inverse[octet] << turn | inverse[octet] >> 8 - turn) & 0xff
        box.append(mapped)
    return box


TWICE = [_twice(octet) for octet in range(256)]
BOX = _substitution_box()
SHIFTED = [(place + 4 * (place % 4)) % BLOCK for place in range(BLOCK)]


def xor(a: bytes, b: bytes) -> bytes:
    """As many octets as the shorter one has."""
    return bytes(x ^ y for x, y in zip(a, b))


@lru_cache(maxsize=256)
def _round_keys(key: bytes) -> list[bytes]:
    """FIPS 197, 5.2: eleven keys of 16 octets."""
    words = [list(key[at:at + 4]) for at in range(0, BLOCK, 4)]
    constant = 1
    for number in range(4, 44):
        word = words[-1]
        if number % 4 == 0:
            word = [BOX[octet] for octet in word[1:] + word[:1]]
            word[0] ^= constant
            constant = _twice(constant)
        words.append([a ^ b for a, b in zip(words[-4], word)])
    return [bytes(sum(words[at:at + 4], [])) for at in range(0, 44, 4)]


def _mix_columns(state: list[int]) -> list[int]:
    """FIPS 197, 5.1.3."""
    mixed = []
    for at in range(0, BLOCK, 4):
        a, b, c, d = state[at:at + 4]
        every = a ^ b ^ c ^ d
        mixed += [a ^ every ^ TWICE[a ^ b], b ^ every ^ TWICE[b ^ c],
                  c ^ every ^ TWICE[c ^ d], d ^ every ^ TWICE[d ^ a]]
    return mixed


def encrypt_block(key: bytes, block: bytes) -> bytes:
    """FIPS 197, 5.1: one block of 16 octets under a key of 16."""
    keys = _round_keys(key)
    state = list(xor(block, keys[0]))
    for round_key in keys[1:10]:
        mixed = _mix_columns([BOX[state[place]] for place in SHIFTED])
        state = [a ^ b for a, b in zip(mixed, round_key)]
    return xor([BOX[state[place]] for place in SHIFTED], keys[10])


def _chained(key: bytes, blocks: bytes) -> bytes:
    """The last block of a chaining that begins with zeros."""
    last = bytes(BLOCK)
    for at in range(0, len(blocks), BLOCK):
        last = encrypt_block(key, xor(last, blocks[at:at + BLOCK]))
    return last


def cmac(key: bytes, text: bytes) -> bytes:
    """RFC 4493, 2.4."""
    def doubled(number: int) -> int:
        return number << 1 & (1 << 128) - 1 ^ (0x87 if number >> 127 else 0)

    subkey = doubled(int.from_bytes(encrypt_block(key, bytes(BLOCK)), 'big'))
    count = max(1, -(-len(text) // BLOCK))
    front, rest = text[:BLOCK * (count - 1)], text[BLOCK * (count - 1):]
    if len(rest) < BLOCK:
        subkey = doubled(subkey)
        rest = (rest + b'\x80').ljust(BLOCK, b'\0')
    return _chained(key, front + xor(rest, subkey.to_bytes(BLOCK, 'big')))


def _padded(text: bytes) -> bytes:
    return text + bytes(-len(text) % BLOCK)


def _ccm_mic(key: bytes, nonce: bytes, text: bytes, size: int, data: bytes) -> bytes:
    """RFC 3610, 2.2, before it is encrypted."""
    flags = (0x40 if data else 0) | (size - 2) // 2 << 3 | 1
    blocks = bytes([flags]) + nonce + len(text).to_bytes(2, 'big')
    if data:
        blocks += _padded(len(data).to_bytes(2, 'big') + data)
    return _chained(key, blocks + _padded(text))[:size]


def _ccm_stream(key: bytes, nonce: bytes, first: int, length: int) -> bytes:
    """RFC 3610, 2.3: the key stream from its block `first` on."""
    count = -(-length // BLOCK)
    return b''.join(encrypt_block(key, b'\1' + nonce + number.to_bytes(2, 'big'))
                    for number in range(first, first + count))


def ccm_seal(key: bytes, nonce: bytes, text: bytes, size: int, data: bytes = b'') -> bytes:
    """The sealed text with its MIC of `size` octets behind; the nonce has 13 octets."""
    mic = xor(_ccm_mic(key, nonce, text, size, data), _ccm_stream(key, nonce, 0, size))
    return xor(text, _ccm_stream(key, nonce, 1, len(text))) + mic


def ccm_open(key: bytes, nonce: bytes, octets: bytes, size: int, data: bytes = b'') -> bytes | None:
    """The text that seals to these octets, None where there is none."""
    sealed, mic = octets[:-size], octets[-size:]
    text = xor(sealed, _ccm_stream(key, nonce, 1, len(sealed)))
    due = xor(_ccm_mic(key, nonce, text, size, data), _ccm_stream(key, nonce, 0, size))
    return text if mic == due else None


def s1(text: bytes) -> bytes:
    return cmac(bytes(BLOCK), text)


def k1(n: bytes, salt: bytes, p: bytes) -> bytes:
    return cmac(cmac(salt, n), p)


@lru_cache(maxsize=256)
def k2(n: bytes, p: bytes = b'\0') -> Material:
    """The material of a network key; with the one octet 00 that of the master credentials."""
    t = cmac(s1(b'smk2'), n)
    t1 = cmac(t, p + b'\1')
    t2 = cmac(t, t1 + p + b'\2')
    t3 = cmac(t, t2 + p + b'\3')
    return Material(t1[15] & 0x7f, t2, t3)


def k3(n: bytes) -> bytes:
    return cmac(cmac(s1(b'smk3'), n), b'id64\1')[8:]


@lru_cache(maxsize=256)
def k4(n: bytes) -> int:
    return cmac(cmac(s1(b'smk4'), n), b'id6\1')[15] & 0x3f


@lru_cache(maxsize=256)
def beacon_keys(net_key: bytes) -> tuple[bytes, bytes]:
    """The Network ID and the beacon key."""
    return k3(net_key), k1(net_key, s1(b'nkbk'), b'id128\1')


@lru_cache(maxsize=256)
def virtual_address(label: bytes) -> int:
    return 0x8000 | int.from_bytes(cmac(s1(b'vtad'), label)[14:], 'big') & 0x3fff
