"""The tables in which Wireshark's mesh dissector looks for keys, as files and as a command line.

The tables are of Wireshark 4.0: `btmesh_nw_keys` (network key, application key, IV Index),
`btmesh_dev_keys` (device key, address), `btmesh_label_uuids` (label). A row of the first one needs
an application key also where none is known; zeros stand there then. Credentials of friendships have
no place in them.
"""
from collections.abc import Iterator

from .keys import Keys

NO_APP_KEY = bytes(16)

Rows = list[tuple[str, ...]]


def _octets(octets: bytes) -> str:
    return f'0x{octets.hex()}'


def tables(keys: Keys) -> dict[str, Rows]:
    """The rows of each table by its name; a table without rows is left out."""
    networks = [(_octets(net), _octets(app or NO_APP_KEY), f'0x{iv:08x}')
                for net, app in keys.rows() for iv in keys.iv_indexes]
    devices = [(_octets(key), f'0x{address:04x}') for key, address in keys.devices]
    labels = [(_octets(label),) for label in keys.labels]
    found: dict[str, Rows] = {'btmesh_nw_keys': networks, 'btmesh_dev_keys': devices,
                              'btmesh_label_uuids': labels}
    return {name: rows for name, rows in found.items() if rows}


def _row(words: tuple[str, ...]) -> str:
    return ','.join(f'"{word}"' for word in words)


def table_text(rows: Rows) -> str:
    """A table as a file of a profile."""
    return ''.join(f'{_row(row)}\n' for row in rows)


def options(found: dict[str, Rows]) -> Iterator[str]:
    """The words of a command line of wireshark or tshark that give these tables."""
    for name, rows in found.items():
        for row in rows:
            yield from ('-o', f'uat:{name}:{_row(row)}')
