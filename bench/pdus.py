"""The scripts' lines, with PDUs that outside nodes seal: a small AES-CCM of this benchmark's own, by octets."""

NET_KEY = '7dd7364cd842ad18c17c2b820c84c3d6'
DEV_KEY = '9d6dd0e96eb25dc19a40ed9914f8f03f'
IV = 0x12345678
PROVISION = f'provision 1201 1 {IV:08x} 00 000 {NET_KEY} {DEV_KEY}\n'
# Of the network key: NID, EncryptionKey, PrivacyKey (sample data of the Mesh Profile).
MASTER = (0x68, bytes.fromhex('0953fa93e7caac9638f58820220a398e'), bytes.fromhex('8b84eedec100067d670971dd2aa700cf'))
ALIKE = (0x68, bytes([3] * 16), bytes([4] * 16))


def times(a, b):
    total = 0
    while a:
        if a & 1:
            total ^= b
        a, b = a >> 1, (b << 1) ^ (0x11b if b & 0x80 else 0)
    return total


def boxed(a):
    inverse = next((b for b in range(256) if times(a, b) == 1), 0)
    return inverse ^ 0x63 ^ sum_of((inverse << n | inverse >> 8 - n) & 0xff for n in (1, 2, 3, 4))


def sum_of(octets):
    total = 0
    for octet in octets:
        total ^= octet
    return total


SBOX = [boxed(a) for a in range(256)]
TWICE = [times(2, a) for a in SBOX]
THRICE = [times(3, a) for a in SBOX]
SHIFTED = [(i + 4 * (i % 4)) % 16 for i in range(16)]


def round_keys(key, made={}):
    if key not in made:
        words = [list(key[i:i + 4]) for i in range(0, 16, 4)]
        constant = 1
        for i in range(4, 44):
            word = words[i - 1]
            if i % 4 == 0:
                word = [SBOX[o] for o in word[1:] + word[:1]]
                word[0] ^= constant
                constant = times(2, constant)
            words.append([a ^ b for a, b in zip(words[i - 4], word)])
        made[key] = [sum(words[i:i + 4], []) for i in range(0, 44, 4)]
    return made[key]


def aes(key, block):
    keys = round_keys(key)
    state = [a ^ b for a, b in zip(block, keys[0])]
    for round_key in keys[1:10]:
        turned = [state[i] for i in SHIFTED]
        mixed = []
        for c in range(0, 16, 4):
            w, x, y, z = turned[c:c + 4]
            mixed += [TWICE[w] ^ THRICE[x] ^ SBOX[y] ^ SBOX[z], SBOX[w] ^ TWICE[x] ^ THRICE[y] ^ SBOX[z],
                      SBOX[w] ^ SBOX[x] ^ TWICE[y] ^ THRICE[z], THRICE[w] ^ SBOX[x] ^ SBOX[y] ^ TWICE[z]]
        state = [a ^ b for a, b in zip(mixed, round_key)]
    return bytes(SBOX[state[i]] ^ k for i, k in zip(SHIFTED, keys[10]))


def xor(a, b):
    return bytes(x ^ y for x, y in zip(a, b))


def ccm(key, nonce, text, size):
    tag = aes(key, bytes([8 * ((size - 2) // 2) + 1]) + nonce + len(text).to_bytes(2, 'big'))
    for i in range(0, len(text), 16):
        tag = aes(key, xor(tag, text[i:i + 16].ljust(16, b'\0')))
    stream = [aes(key, b'\1' + nonce + i.to_bytes(2, 'big')) for i in range((len(text) + 15) // 16 + 1)]
    return xor(text, b''.join(stream[1:])) + xor(tag, stream[0])[:size]


def seal(material, ctl, ttl, seq, src, dst, tpdu):
    """A network PDU."""
    nid, encryption, privacy = material
    header = bytes([ctl << 7 | ttl]) + seq.to_bytes(3, 'big') + src.to_bytes(2, 'big')
    sealed = ccm(encryption, b'\0' + header + b'\0\0' + IV.to_bytes(4, 'big'), dst.to_bytes(2, 'big') + tpdu, 8 if ctl else 4)
    mask = aes(privacy, bytes(5) + IV.to_bytes(4, 'big') + sealed[:7])
    return (bytes([(IV & 1) << 7 | nid]) + xor(header, mask) + sealed).hex()


def control_pdu(seq):
    """The control PDU that the peers seal."""
    return seal((0x68, bytes([1] * 16), bytes([2] * 16)), 1, 0, seq, 0x1201, 0xfffd, bytes.fromhex('034b50057e400000010000'))


def message(seq, payload=b'\x80\x08\0'):
    """A network PDU with an access message under the device key, a Composition Data Get if it isn't said."""
    nonce = b'\2\0' + seq.to_bytes(3, 'big') + b'\0\3' + b'\x12\1' + IV.to_bytes(4, 'big')
    return seal(MASTER, 0, 4, seq, 0x0003, 0x1201, b'\0' + ccm(bytes.fromhex(DEV_KEY), nonce, payload, 4))


APP_KEY, APP_AID = '63964771734fbd76e3b40519d1d94a48', 0x26
# What configures the node by its client: an application key in two segments, to which the OnOff Server of 1201 is bound; relaying.
ADD_KEY = f'talk {NET_KEY} dev:{DEV_KEY} {IV:08x} 04 000001 {{}} 0003 1201 {{}} 00000000{APP_KEY}\n'
ASKED = f'talk {NET_KEY} dev:{DEV_KEY} {IV:08x} 04 {{}} {{}} 0003 1201 u {{}}\n'
BOUND = [f'b0 {ADD_KEY.format("000001", 0)}', f'b0 {ADD_KEY.format("000002", 1)}', f'b0 {ASKED.format("000003", "000003", "803d011200000010")}']
RELAYS = [f'b0 {ASKED.format("000001", "000001", "80270100")}']


def switch(seq):
    """A network PDU with an OnOff Set under the application key: on and off by turns, each with a transaction of its own."""
    nonce = b'\1\0' + seq.to_bytes(3, 'big') + b'\0\3' + b'\x12\1' + IV.to_bytes(4, 'big')
    sealed = ccm(bytes.fromhex(APP_KEY), nonce, b'\x82\2' + bytes([seq & 1, seq & 0xff]), 4)
    return seal(MASTER, 0, 4, seq, 0x0003, 0x1201, bytes([0x40 | APP_AID]) + sealed)


# The lines that stand before events of this name.
BEFORE = {'onoff': BOUND, 'relayed': RELAYS}


# The name, what it is, and the line of the event with a number.
EVENTS = [
    ('raw', '`raw`: a control PDU is sent', lambda i: 'b0 raw fffd 00 034b50057e400000010000\n'),
    ('send', '`send`: an access message is sent', lambda i: 'b0 send 0 0003 04 dev 800800\n'),
    ('taken', 'heard and delivered, a message of no model', lambda i: f'b0 net {message(i + 1, bytes([0x7e, 1]))}\n'),
    ('control', 'heard, a control PDU accepted', lambda i: f'b0 net {seal(MASTER, 1, 1, i + 1, 5, 0x1201, bytes([0x7f]))}\n'),
    ('heard', 'heard and delivered, a Composition Data Get, and its reply', lambda i: f'b0 net {message(i + 1)}\n'),
    ('onoff', 'heard and delivered, an OnOff Set, its reply, and two records', lambda i: f'b0 net {switch(i + 16)}\n'),
    ('relayed', 'heard, not for this node, and relayed', lambda i: f'b0 net {seal(MASTER, 1, 5, i + 16, 5, 9, bytes([0x7f]))}\n'),
    ('notmine', 'heard, not for this node', lambda i: f'b0 net {seal(MASTER, 1, 1, i + 1, 5, 9, bytes([0x7f]))}\n'),
    ('again', 'heard once more (cached)', lambda i: f'b0 net {seal(MASTER, 1, 1, 1, 5, 9, bytes([0x7f]))}\n'),
    ('foreign', 'another network, another NID', lambda i: f'b0 net {seal((0x7f, *ALIKE[1:]), 1, 1, i + 1, 5, 9, bytes([0x7f] * 11))}\n'),
    ('alike', 'another network, the same NID', lambda i: f'b0 net {seal(ALIKE, 1, 1, i + 1, 5, 9, bytes([0x7f] * 11))}\n'),
    ('beacon', 'a beacon of another network', lambda i: f'b0 bcn 0100{i:016x}12345678{i:016x}\n'),
    ('peer', '`peer`: sealed, and then not for this node', lambda i: f'b0 peer {NET_KEY} {IV:08x} 1 01 {i + 1:06x} 0005 0009 7f\n'),
    ('talk', '`talk`: sealed, and then delivered',
     lambda i: f'b0 talk {NET_KEY} dev:{DEV_KEY} {IV:08x} 04 {i + 1:06x} {i + 1:06x} 0003 1201 u 800800\n'),
    ('tick', '`tick`', lambda i: 'b0 tick 1\n'),
]
