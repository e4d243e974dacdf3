"""Names of messages by their opcodes: docs/FORMATS.md, "Upper transport PDU", "OnOff and Level",
"The Configuration Server"."""

CONTROL = {
    0x00: 'Segment Acknowledgment', 0x01: 'Friend Poll', 0x02: 'Friend Update',
    0x03: 'Friend Request', 0x04: 'Friend Offer', 0x05: 'Friend Clear',
    0x06: 'Clear Confirm', 0x07: 'List Add', 0x08: 'List Remove', 0x09: 'List Confirm',
    0x0a: 'Heartbeat'}
"""Control messages, as FORMATS calls them."""

ACCESS = {
    0x8201: 'OnOff Get', 0x8202: 'OnOff Set', 0x8203: 'OnOff Set Unacknowledged',
    0x8204: 'OnOff Status', 0x8205: 'Level Get', 0x8206: 'Level Set',
    0x8207: 'Level Set Unacknowledged', 0x8208: 'Level Status', 0x8209: 'Delta Set',
    0x820a: 'Delta Set Unacknowledged', 0x820b: 'Move Set', 0x820c: 'Move Set Unacknowledged',
    0x00: 'AppKey Add', 0x01: 'AppKey Update', 0x02: 'Composition Data Status',
    0x03: 'Model Publication Set', 0x06: 'Heartbeat Publication Status', 0x8000: 'AppKey Delete',
    0x8001: 'AppKey Get', 0x8002: 'AppKey List', 0x8003: 'AppKey Status',
    0x8008: 'Composition Data Get', 0x8009: 'Beacon Get', 0x800a: 'Beacon Set',
    0x800b: 'Beacon Status', 0x800c: 'Default TTL Get', 0x800d: 'Default TTL Set',
    0x800e: 'Default TTL Status', 0x800f: 'Friend Get', 0x8010: 'Friend Set',
    0x8011: 'Friend Status', 0x8012: 'GATT Proxy Get', 0x8013: 'GATT Proxy Set',
    0x8014: 'GATT Proxy Status', 0x8015: 'Key Refresh Phase Get', 0x8016: 'Key Refresh Phase Set',
    0x8017: 'Key Refresh Phase Status', 0x8018: 'Model Publication Get',
    0x8019: 'Model Publication Status', 0x801b: 'Model Subscription Add',
    0x801c: 'Model Subscription Delete', 0x801d: 'Model Subscription Delete All',
    0x801e: 'Model Subscription Overwrite', 0x801f: 'Model Subscription Status',
    0x8020: 'Virtual Address Add', 0x8021: 'Virtual Address Delete',
    0x8022: 'Virtual Address Overwrite', 0x8023: 'Network Transmit Get',
    0x8024: 'Network Transmit Set', 0x8025: 'Network Transmit Status', 0x8026: 'Relay Get',
    0x8027: 'Relay Set', 0x8028: 'Relay Status', 0x802d: 'Low Power Node PollTimeout Get',
    0x802e: 'Low Power Node PollTimeout Status', 0x8038: 'Heartbeat Publication Get',
    0x8039: 'Heartbeat Publication Set', 0x803d: 'Model App Bind', 0x803e: 'Model App Status',
    0x803f: 'Model App Unbind', 0x8040: 'NetKey Add', 0x8041: 'NetKey Delete',
    0x8042: 'NetKey Get', 0x8043: 'NetKey List', 0x8044: 'NetKey Status', 0x8045: 'NetKey Update',
    0x8049: 'Node Reset', 0x804a: 'Node Reset Status'}
"""Access messages by their opcode of one octet or two; those of the Configuration Server come under
the device key alone."""


def spaced(octets: str) -> str:
    """Hexadecimal digits by two octets, for the eye."""
    return ' '.join(octets[at:at + 4] for at in range(0, len(octets), 4))


def control_words(opcode: str, params: str) -> str:
    """A control message with its name, or with its opcode where it has none."""
    name = CONTROL.get(int(opcode, 16), f'opcode {opcode}')
    return name if params in ('', '-') else f'{name} {spaced(params)}'


def access_words(key: str, payload: str) -> str:
    """An access payload with its name, where it has one under this key."""
    digits = 2 if int(payload[:1], 16) < 8 else 4
    opcode = int(payload[:digits], 16) if len(payload) >= digits else None
    is_model = opcode is not None and opcode & 0xff00 == 0x8200
    name = ACCESS.get(opcode) if is_model != key.startswith('dev') else None
    return f'{name} {spaced(payload[digits:])}'.rstrip() if name else spaced(payload)


def transport_words(ctl: str, transport: str) -> str:
    """A transport PDU: of an unsegmented control message with its name."""
    is_plain = ctl == '1' and int(transport[:2], 16) < 0x80
    return control_words(transport[:2], transport[2:]) if is_plain else spaced(transport)
