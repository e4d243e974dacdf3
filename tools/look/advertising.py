"""Advertising PDUs of Bluetooth LE, as a sniffer of the link layer shows them.

Bluetooth Core 5.0, volume 6, part B: 2.1 (access address), 2.3.1.3 (ADV_NONCONN_IND), 3.1.1 (CRC).
Mesh Profile 3.3.1: a network PDU and a beacon are one AD structure each.
"""
MESH_MESSAGE, MESH_BEACON = 0x2a, 0x2b
ACCESS_ADDRESS = bytes.fromhex('d6be898e')
NON_CONNECTABLE, RANDOM_ADDRESS = 0x02, 0x40
CRC_BITS, CRC_START, CRC_TAPS = 24, 0xaaaaaa, 0xda6000


def crc(octets: bytes) -> bytes:
    """The CRC of a PDU on an advertising channel, x^24+x^10+x^9+x^6+x^4+x^3+x+1 from 555555.

    Bits go low one first, so register and taps stand with their bits turned around.
    """
    register = CRC_START
    for octet in octets:
        register ^= octet
        for _ in range(8):
            register = register >> 1 ^ (CRC_TAPS if register & 1 else 0)
    return register.to_bytes(CRC_BITS // 8, 'little')


def advertisement(ad_type: int, data: bytes, address: bytes) -> bytes:
    """An ADV_NONCONN_IND with one AD structure, with access address and CRC; `address` is that of
    the advertiser, six octets as they are written. More than 29 octets of data are more than an
    advertising PDU holds, and are put in all the same."""
    structure = bytes([len(data) + 1, ad_type]) + data
    body = address[::-1] + structure
    pdu = bytes([NON_CONNECTABLE | RANDOM_ADDRESS, len(body)]) + body
    return ACCESS_ADDRESS + pdu + crc(pdu)
