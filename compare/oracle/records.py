"""What the records on flash say, and how a change of it is told.

Mesh Profile 3.10.4 (keys by phase of a Key Refresh), 3.8.8 (replay list), 4.2 (states); sizes and
what a snapshot has are those of docs/FORMATS.md, "Flash" and "Replay list".
"""
from dataclasses import dataclass

from .ciphers import virtual_address
from .iv_index import RECOVER_AFTER, IvState

NET_KEYS = 4
APP_KEYS = 8
BINDINGS = 32
SUBSCRIPTIONS = 32
PUBLICATIONS = 8
REPLAY_ENTRIES = 512
BLOCK_OF_NUMBERS = 256

CONFIGURATION, ON_OFF, LEVEL = 0x0000, 0x1000, 0x1002
ALL_FRIENDS, ALL_RELAYS, ALL_NODES = 0xfffd, 0xfffe, 0xffff
FIRST_VIRTUAL, FIRST_GROUP = 0x8000, 0xc000

ModelName = tuple[int, int]
"""The address of an element, and a model."""


def is_unicast(address: int) -> bool:
    return 0 < address < FIRST_VIRTUAL


def is_virtual(address: int) -> bool:
    return FIRST_VIRTUAL <= address < FIRST_GROUP


@dataclass
class NetRow:
    """A network key; `updated` is its new value in the phases 1 and 2."""
    key: bytes
    updated: bytes | None = None
    phase: int = 0

    @property
    def values(self) -> list[bytes]:
        """What is heard under, in the order of trying."""
        return [self.key] if self.updated is None else [self.key, self.updated]

    @property
    def sending(self) -> bytes:
        return self.updated if self.phase == 2 else self.key


@dataclass
class AppRow:
    """An application key, of the network key with the index `net`."""
    net: int
    key: bytes
    updated: bytes | None = None

    @property
    def values(self) -> list[bytes]:
        return [self.key] if self.updated is None else [self.key, self.updated]


@dataclass(frozen=True)
class PublicationRow:
    """A Model Publication (4.2.2)."""
    address: int
    app: int
    ttl: int
    period: int
    retransmit: int


class Records:
    """All that outlasts a power cut."""

    def __init__(self, unicast: int, elements: int, iv: IvState, net: int, net_key: bytes,
                 device_key: bytes) -> None:
        self.unicast = unicast
        self.elements = elements
        self.device_key = device_key
        self.iv = iv
        self.mark = (iv.transmit, 0)
        self.nets = {net: NetRow(net_key)}
        self.apps: dict[int, AppRow] = {}
        self.bindings: list[tuple[int, int, int]] = []
        self.groups: list[tuple[int, int, int]] = []
        self.labels: list[tuple[int, int, bytes]] = []
        self.publications: dict[ModelName, PublicationRow] = {}
        self.beacon = 0
        self.ttl = 7
        self.friend = 1
        self.relay = 1
        self.relay_retransmit = 0
        self.network_transmit = 0
        self.model_values: dict[ModelName, int] = {}
        self.replay: dict[int, tuple[int, int]] = {}
        self.was_reset = False

    def snapshot_size(self) -> int:
        """How many records say all this anew."""
        keys = sum(len(row.values) + (row.phase == 2) for row in self.nets.values())
        keys += sum(len(row.values) for row in self.apps.values())
        tables = (self.bindings, self.groups, self.labels, self.publications)
        features = ((self.beacon, 0), (self.ttl, 7), (self.friend, 1), (self.network_transmit, 0),
                    ((self.relay, self.relay_retransmit), (1, 0)))
        values = sum(value != 0 for value in self.model_values.values())
        replay = sum(not self.is_expired(pair) for pair in self.replay.values())
        return (2 + keys + sum(map(len, tables)) + sum(value != first for value, first in features)
                + values + self.was_reset + (replay + 1) // 2)

    # Addresses.

    def has_element(self, address: int) -> bool:
        return self.unicast <= address < self.unicast + self.elements

    def is_fixed_group(self, address: int) -> bool:
        """Whether the first element hears this fixed group (3.4.2.4)."""
        return (address == ALL_NODES or (address == ALL_FRIENDS and self.friend == 1)
                or (address == ALL_RELAYS and self.relay == 1))

    def is_mine(self, address: int) -> bool:
        return (self.has_element(address) or self.is_fixed_group(address)
                or any(group == address for _, _, group in self.groups)
                or any(virtual_address(label) == address for _, _, label in self.labels))

    def labels_of(self, address: int) -> list[bytes]:
        return [label for _, _, label in self.labels if virtual_address(label) == address]

    # The replay list, the IV Index and the numbers.

    def is_expired(self, pair: tuple[int, int]) -> bool:
        return pair[0] + 1 < self.iv.current

    def replay_entry(self, src: int) -> tuple[int, int] | None:
        entry = self.replay.get(src)
        return None if entry is None or self.is_expired(entry) else entry

    def has_replay_place(self) -> bool:
        """Whether a source without an entry has a place."""
        return sum(not self.is_expired(pair) for pair in self.replay.values()) < REPLAY_ENTRIES

    def accept(self, name: tuple[int, int, int]) -> None:
        self.replay[name[0]] = name[1:]

    def move_iv(self, iv: IvState) -> None:
        if iv.transmit > self.iv.transmit:
            self.mark = (iv.transmit, 0)
        self.iv = iv

    def reserve(self) -> None:
        self.mark = (self.mark[0], self.mark[1] + BLOCK_OF_NUMBERS)

    # Keys.

    def app_sending(self, app: int) -> bytes:
        row = self.apps[app]
        return row.values[-1] if self.nets[row.net].phase == 2 else row.key

    def update_net(self, net: int, key: bytes) -> None:
        self.nets[net] = NetRow(self.nets[net].key, key, 1)

    def enter_phase_2(self, net: int) -> None:
        self.nets[net].phase = 2

    def finish_refresh(self, net: int) -> None:
        """Phase 0: the old values are gone (3.10.4.3)."""
        self.nets[net] = NetRow(self.nets[net].values[-1])
        for row in self.apps.values():
            if row.net == net:
                row.key, row.updated = row.values[-1], None

    def delete_app(self, app: int) -> None:
        del self.apps[app]
        self.bindings = [binding for binding in self.bindings if binding[2] != app]
        self.publications = {name: row for name, row in self.publications.items()
                             if row.app != app}

    def delete_net(self, net: int) -> None:
        for app in [app for app, row in self.apps.items() if row.net == net]:
            self.delete_app(app)
        del self.nets[net]

    # Subscriptions.

    def subscriptions(self, name: ModelName) -> int:
        """How many a model has, to groups and to labels."""
        return sum(row[:2] == name for row in self.groups + self.labels)

    def clear_subscriptions(self, name: ModelName) -> None:
        self.groups = [row for row in self.groups if row[:2] != name]
        self.labels = [row for row in self.labels if row[:2] != name]


def provisioned(unicast: int, elements: int, iv_index: int, flags: int, net: int, net_key: bytes,
                device_key: bytes) -> Records:
    """A node as it is provisioned (5.4.2.5); bit 1 of the flags is IV Update."""
    iv = IvState(iv_index, bool(flags & 2), 0, RECOVER_AFTER)
    return Records(unicast, elements, iv, net, net_key, device_key)
