"""The Configuration Server: what a message changes, and its reply.

Mesh Profile 4.3.2 (messages), 4.3.5 (status codes), 4.4.1 (behaviour), 4.2.1 (Composition Data).
Refusals are tried in the order of docs/FORMATS.md, "The Configuration Server".
"""
from collections.abc import Callable
from typing import NamedTuple

from . import records as sizes
from .ciphers import virtual_address
from .pdus import little
from .publications import MOST_LOG, WITHOUT_END, Heartbeat, heartbeats_of
from .records import AppRow, ModelName, NetRow, PublicationRow, Records, is_virtual

SUCCESS, INVALID_ADDRESS, INVALID_MODEL, INVALID_APP_KEY, INVALID_NET_KEY = range(5)
NO_ROOM, KEY_INDEX_HELD, INVALID_PUBLICATION, NO_SUBSCRIPTIONS = range(5, 9)
CANNOT_UPDATE, CANNOT_REMOVE, CANNOT_BIND, CANNOT_SET = 0x0b, 0x0c, 0x0d, 0x0f

COMPANY_PRODUCT_VERSION = bytes.fromhex('ffff01000100')
REPLAY_SIZE_AND_FEATURES = bytes.fromhex('00020500')
DEFAULT_TTL = 0xff

Change = Callable[[], None]


class Answer(NamedTuple):
    """The reply, the change that one record stores, a Heartbeat Publication that is set, and
    whether friendships and offers end."""
    reply: bytes
    change: Change | None = None
    heartbeat: Heartbeat | None = None
    ends_friendships: bool = False


class Step(NamedTuple):
    """A status, and the change where there is one."""
    status: int
    change: Change | None = None


class Asked(NamedTuple):
    """What a message is asked of; `now` is its tick, `net` the network key heard under, and
    `poll_timeouts` has the PollTimeout of each friendship by its Low Power node."""
    records: Records
    heartbeat: Heartbeat | None
    net: int
    now: int
    poll_timeouts: dict[int, int]


def answer(asked: Asked, payload: bytes) -> Answer | None:
    """Of an access payload under the device key; None where it isn't answered."""
    width = 2 if payload[0] & 0x80 else 1
    name, lengths = MESSAGES.get(payload[:width].hex(), (None, ()))
    params = payload[width:]
    return name(asked, params) if len(params) in lengths else None


def _u16(octets: bytes) -> int:
    return int.from_bytes(octets, 'little')


def _index(octets: bytes) -> int:
    """A key index has 12 bits (4.3.1.1)."""
    return _u16(octets) & 0xfff


def _two_indexes(octets: bytes) -> tuple[int, int]:
    packed = int.from_bytes(octets, 'little')
    return packed & 0xfff, packed >> 12


def _packed(indexes: list[int]) -> bytes:
    pairs = zip(indexes[::2], indexes[1::2])
    octets = b''.join(little(first | second << 12, 3) for first, second in pairs)
    return octets + (little(indexes[-1], 2) if len(indexes) % 2 else b'')


# Network keys.

def _key_reply(reply: str, step: Step, shown: bytes) -> Answer:
    return Answer(bytes.fromhex(reply) + bytes([step.status]) + shown, step.change)


def _net_key_add(asked: Asked, params: bytes) -> Answer:
    net, key, rows = _index(params[:2]), params[2:], asked.records.nets
    if net in rows:
        step = Step(SUCCESS if rows[net].key == key else KEY_INDEX_HELD)
    elif len(rows) >= sizes.NET_KEYS:
        step = Step(NO_ROOM)
    else:
        step = Step(SUCCESS, lambda: rows.update({net: NetRow(key)}))
    return _key_reply('8044', step, little(net, 2))


def _net_key_update(asked: Asked, params: bytes) -> Answer:
    net, key, records = _index(params[:2]), params[2:], asked.records
    row = records.nets.get(net)
    if row is None:
        step = Step(INVALID_NET_KEY)
    elif row.phase == 1 and row.updated == key:
        step = Step(SUCCESS)
    elif row.phase != 0:
        step = Step(CANNOT_UPDATE)
    else:
        step = Step(SUCCESS, lambda: records.update_net(net, key))
    return _key_reply('8044', step, little(net, 2))


def _net_key_delete(asked: Asked, params: bytes) -> Answer:
    net, records = _index(params), asked.records
    if net not in records.nets:
        step = Step(SUCCESS)
    elif net == asked.net or len(records.nets) == 1:
        step = Step(CANNOT_REMOVE)
    else:
        step = Step(SUCCESS, lambda: records.delete_net(net))
    return _key_reply('8044', step, little(net, 2))


def _net_key_get(asked: Asked, _: bytes) -> Answer:
    return Answer(b'\x80\x43' + _packed(sorted(asked.records.nets)))


def _phase_get(asked: Asked, params: bytes) -> Answer:
    net = _index(params)
    row = asked.records.nets.get(net)
    step, phase = (Step(SUCCESS), row.phase) if row else (Step(INVALID_NET_KEY), 0)
    return _key_reply('8017', step, little(net, 2) + bytes([phase]))


def _phase_set(asked: Asked, params: bytes) -> Answer | None:
    net, transition, records = _index(params[:2]), params[2], asked.records
    if transition not in (2, 3):
        return None
    row = records.nets.get(net)
    phase = row.phase if row else 0
    step = Step(SUCCESS if row else INVALID_NET_KEY)
    if row and transition == 2 and phase == 0:
        step = Step(CANNOT_SET)
    elif transition == 2 and phase == 1:
        step, phase = Step(SUCCESS, lambda: records.enter_phase_2(net)), 2
    elif transition == 3 and phase != 0:
        step, phase = Step(SUCCESS, lambda: records.finish_refresh(net)), 0
    return _key_reply('8017', step, little(net, 2) + bytes([phase]))


# Application keys.

def _app_key_add(asked: Asked, params: bytes) -> Answer:
    (net, app), key, records = _two_indexes(params[:3]), params[3:], asked.records
    row = records.apps.get(app)
    if net not in records.nets:
        step = Step(INVALID_NET_KEY)
    elif row:
        step = Step(SUCCESS if (row.net, row.key) == (net, key) else KEY_INDEX_HELD)
    elif len(records.apps) >= sizes.APP_KEYS:
        step = Step(NO_ROOM)
    else:
        step = Step(SUCCESS, lambda: records.apps.update({app: AppRow(net, key)}))
    return _key_reply('8003', step, params[:3])


def _app_key_update(asked: Asked, params: bytes) -> Answer:
    (net, app), key, records = _two_indexes(params[:3]), params[3:], asked.records
    row = records.apps.get(app)
    if row is None:
        step = Step(INVALID_APP_KEY)
    elif row.net != net:
        step = Step(INVALID_NET_KEY)
    elif records.nets[net].phase != 1 or row.updated not in (None, key):
        step = Step(CANNOT_UPDATE)
    elif row.updated == key:
        step = Step(SUCCESS)
    else:
        step = Step(SUCCESS, lambda: records.apps.update({app: AppRow(net, row.key, key)}))
    return _key_reply('8003', step, params[:3])


def _app_key_delete(asked: Asked, params: bytes) -> Answer:
    (net, app), records = _two_indexes(params), asked.records
    row = records.apps.get(app)
    if net not in records.nets or (row and row.net != net):
        step = Step(INVALID_NET_KEY)
    elif row is None:
        step = Step(SUCCESS)
    else:
        step = Step(SUCCESS, lambda: records.delete_app(app))
    return _key_reply('8003', step, params)


def _app_key_get(asked: Asked, params: bytes) -> Answer:
    net, records = _index(params), asked.records
    if net not in records.nets:
        return _key_reply('8002', Step(INVALID_NET_KEY), little(net, 2))
    apps = [app for app in sorted(records.apps) if records.apps[app].net == net]
    return _key_reply('8002', Step(SUCCESS), little(net, 2) + _packed(apps))


# Composition Data and states of an octet or two.

def _composition_get(asked: Asked, _: bytes) -> Answer:
    models = little(sizes.ON_OFF, 2) + little(sizes.LEVEL, 2)
    page = COMPANY_PRODUCT_VERSION + REPLAY_SIZE_AND_FEATURES
    page += b'\0\0\3\0' + little(sizes.CONFIGURATION, 2) + models
    page += (b'\0\0\2\0' + models) * (asked.records.elements - 1)
    return Answer(b'\2\0' + page)


def _getter(reply: str, *names: str) -> Callable[[Asked, bytes], Answer]:
    """A Get of one-octet states, by their names in the records."""
    def get(asked: Asked, _: bytes) -> Answer:
        values = bytes(getattr(asked.records, name) for name in names)
        return Answer(bytes.fromhex(reply) + values)
    return get


def _setter(reply: str, is_value: Callable[[int], bool],
            *names: str) -> Callable[[Asked, bytes], Answer | None]:
    """A Set of such states, of which the first one has values that aren't named."""
    def set_states(asked: Asked, params: bytes) -> Answer | None:
        if not is_value(params[0]):
            return None

        def change() -> None:
            for name, value in zip(names, params):
                setattr(asked.records, name, value)

        before = bytes(getattr(asked.records, name) for name in names)
        return Answer(bytes.fromhex(reply) + params, None if before == params else change)
    return set_states


def _friend_set(asked: Asked, params: bytes) -> Answer | None:
    """Friend Set with 00 ends friendships, also where Friend is off already (4.4.1.2.6)."""
    answer = _setter('8011', _is_switch, 'friend')(asked, params)
    return answer and answer._replace(ends_friendships=params == b'\0')


def _is_switch(value: int) -> bool:
    return value <= 1


def _is_ttl(value: int) -> bool:
    return value == 0 or 2 <= value <= 0x7f


def _is_octet(_: int) -> bool:
    return True


def _gatt_proxy(_: Asked, params: bytes) -> Answer | None:
    """Get and Set; there is no proxy."""
    return Answer(b'\x80\x14\2') if not params or _is_switch(params[0]) else None


def _poll_timeout_get(asked: Asked, params: bytes) -> Answer:
    timeout = asked.poll_timeouts.get(_u16(params), 0)
    return Answer(b'\x80\x2e' + params + little(timeout, 3))


def _node_reset(asked: Asked, _: bytes) -> Answer:
    def change() -> None:
        asked.records.was_reset = True
    return Answer(b'\x80\x4a', change)


# Models.

def _named(asked: Asked, element: int, model: bytes, of_configuration: int) -> int:
    """The status of an element and a model; `of_configuration` is that of model 0000."""
    records = asked.records
    if not records.has_element(element):
        return INVALID_ADDRESS
    if len(model) == 4:
        return INVALID_MODEL
    if _u16(model) in (sizes.ON_OFF, sizes.LEVEL):
        return SUCCESS
    is_configuration = _u16(model) == sizes.CONFIGURATION and element == records.unicast
    return of_configuration if is_configuration else INVALID_MODEL


def _about_model(params: bytes, width: int) -> tuple[bytes, ModelName, bytes]:
    """The fields between an element and a model, the model's name, and its octets."""
    element, fields, model = _u16(params[:2]), params[2:2 + width], params[2 + width:]
    return fields, (element, _u16(model)), model


def _bind_step(asked: Asked, binding: tuple[int, int, int], unbinds: bool) -> Step:
    records = asked.records
    if binding[2] not in records.apps:
        return Step(INVALID_APP_KEY)
    if unbinds:
        is_held = binding in records.bindings
        return Step(SUCCESS, (lambda: records.bindings.remove(binding)) if is_held else None)
    if binding in records.bindings:
        return Step(SUCCESS)
    if len(records.bindings) >= sizes.BINDINGS:
        return Step(NO_ROOM)
    return Step(SUCCESS, lambda: records.bindings.append(binding))


def _binding(unbinds: bool) -> Callable[[Asked, bytes], Answer]:
    def bind(asked: Asked, params: bytes) -> Answer:
        fields, name, model = _about_model(params, 2)
        step = Step(_named(asked, name[0], model, CANNOT_BIND))
        if step.status == SUCCESS:
            step = _bind_step(asked, (*name, _index(fields)), unbinds)
        return _key_reply('803e', step, params[:2] + little(_index(fields), 2) + model)
    return bind


def _publication_get(asked: Asked, params: bytes) -> Answer:
    _, name, model = _about_model(params, 0)
    status = _named(asked, name[0], model, INVALID_PUBLICATION)
    row = asked.records.publications.get(name) if status == SUCCESS else None
    shown = bytes(7)
    if row:
        shown = little(row.address, 2) + little(row.app, 2)
        shown += bytes([row.ttl, row.period, row.retransmit])
    return _key_reply('8019', Step(status), params[:2] + shown + model)


def _publication_step(asked: Asked, name: ModelName, row: PublicationRow) -> Step:
    records = asked.records
    if is_virtual(row.address):
        return Step(INVALID_ADDRESS)
    if row.address and row.app not in records.apps:
        return Step(INVALID_APP_KEY)
    if row.address and (*name, row.app) not in records.bindings:
        return Step(INVALID_PUBLICATION)
    if len(records.publications.keys() - {name}) >= sizes.PUBLICATIONS:
        return Step(NO_ROOM)
    if records.publications.get(name) == row:
        return Step(SUCCESS)
    return Step(SUCCESS, lambda: records.publications.update({name: row}))


def _publication_set(asked: Asked, params: bytes) -> Answer | None:
    fields, name, model = _about_model(params, 7)
    row = PublicationRow(_u16(fields[:2]), _index(fields[2:4]), *fields[4:])
    if 0x7f < row.ttl < DEFAULT_TTL:
        return None
    step = Step(_named(asked, name[0], model, INVALID_PUBLICATION))
    if step.status == SUCCESS:
        step = _publication_step(asked, name, row)
    shown = params[:4] + little(row.app, 2) + fields[4:] + model
    return _key_reply('8019', step, shown)


# Subscriptions, to groups and to labels. A table is `groups` or `labels` of the records.

def _subscribed(asked: Asked, table: str, name: ModelName, value: int | bytes) -> Step:
    """A subscription more."""
    records, row = asked.records, (*name, value)
    if row in getattr(records, table):
        return Step(SUCCESS)
    if len(records.groups) + len(records.labels) >= sizes.SUBSCRIPTIONS:
        return Step(NO_ROOM)
    return Step(SUCCESS, lambda: getattr(records, table).append(row))


def _unsubscribed(asked: Asked, table: str, name: ModelName, value: int | bytes) -> Step:
    rows, row = getattr(asked.records, table), (*name, value)
    return Step(SUCCESS, (lambda: rows.remove(row)) if row in rows else None)


def _overwritten(asked: Asked, table: str, name: ModelName, value: int | bytes) -> Step:
    """The one subscription of a model."""
    records, row = asked.records, (*name, value)
    own = records.subscriptions(name)
    if row in getattr(records, table) and own == 1:
        return Step(SUCCESS)
    if len(records.groups) + len(records.labels) - own >= sizes.SUBSCRIPTIONS:
        return Step(NO_ROOM)

    def change() -> None:
        records.clear_subscriptions(name)
        getattr(records, table).append(row)
    return Step(SUCCESS, change)


SubscriptionStep = Callable[[Asked, str, ModelName, int | bytes], Step]


def _to_group(take: SubscriptionStep) -> Callable[[Asked, bytes], Answer]:
    def subscribe(asked: Asked, params: bytes) -> Answer:
        fields, name, model = _about_model(params, 2)
        group = _u16(fields)
        step = Step(_named(asked, name[0], model, NO_SUBSCRIPTIONS))
        if step.status == SUCCESS:
            is_group = sizes.FIRST_GROUP <= group < sizes.ALL_NODES
            step = take(asked, 'groups', name, group) if is_group else Step(INVALID_ADDRESS)
        return _key_reply('801f', step, params)
    return subscribe


def _to_label(take: SubscriptionStep) -> Callable[[Asked, bytes], Answer]:
    def subscribe(asked: Asked, params: bytes) -> Answer:
        label, name, model = _about_model(params, 16)
        step = Step(_named(asked, name[0], model, NO_SUBSCRIPTIONS))
        if step.status == SUCCESS:
            step = take(asked, 'labels', name, label)
        shown = params[:2] + little(virtual_address(label), 2) + model
        return _key_reply('801f', step, shown)
    return subscribe


def _subscription_delete_all(asked: Asked, params: bytes) -> Answer:
    _, name, model = _about_model(params, 0)
    records, step = asked.records, Step(_named(asked, name[0], model, NO_SUBSCRIPTIONS))
    if step.status == SUCCESS and records.subscriptions(name):
        step = Step(SUCCESS, lambda: records.clear_subscriptions(name))
    return _key_reply('801f', step, params[:2] + bytes(2) + model)


# Heartbeats.

def _heartbeat_get(asked: Asked, _: bytes) -> Answer:
    shown = asked.heartbeat.octets() if asked.heartbeat else bytes(9)
    return Answer(b'\6\0' + shown)


def _heartbeat_set(asked: Asked, params: bytes) -> Answer | None:
    destination, (count, period, ttl) = _u16(params[:2]), params[2:5]
    features, net = _u16(params[5:7]), _index(params[7:])
    if MOST_LOG < count < WITHOUT_END or period > MOST_LOG or ttl > 0x7f:
        return None
    status = SUCCESS if net in asked.records.nets else INVALID_NET_KEY
    if is_virtual(destination):
        status = INVALID_ADDRESS
    beats = Heartbeat(destination, heartbeats_of(count), period, ttl, features, net, asked.now)
    reply = b'\6' + bytes([status]) + params[:7] + little(net, 2)
    return Answer(reply, heartbeat=beats if status == SUCCESS else None)


MESSAGES: dict[str, tuple[Callable[[Asked, bytes], Answer | None], tuple[int, ...]]] = {
    '00': (_app_key_add, (19,)),
    '01': (_app_key_update, (19,)),
    '03': (_publication_set, (11, 13)),
    '8000': (_app_key_delete, (3,)),
    '8001': (_app_key_get, (2,)),
    '8008': (_composition_get, (1,)),
    '8009': (_getter('800b', 'beacon'), (0,)),
    '800a': (_setter('800b', _is_switch, 'beacon'), (1,)),
    '800c': (_getter('800e', 'ttl'), (0,)),
    '800d': (_setter('800e', _is_ttl, 'ttl'), (1,)),
    '800f': (_getter('8011', 'friend'), (0,)),
    '8010': (_friend_set, (1,)),
    '8012': (_gatt_proxy, (0,)),
    '8013': (_gatt_proxy, (1,)),
    '8015': (_phase_get, (2,)),
    '8016': (_phase_set, (3,)),
    '8018': (_publication_get, (4, 6)),
    '801b': (_to_group(_subscribed), (6, 8)),
    '801c': (_to_group(_unsubscribed), (6, 8)),
    '801d': (_subscription_delete_all, (4, 6)),
    '801e': (_to_group(_overwritten), (6, 8)),
    '8020': (_to_label(_subscribed), (20, 22)),
    '8021': (_to_label(_unsubscribed), (20, 22)),
    '8022': (_to_label(_overwritten), (20, 22)),
    '8023': (_getter('8025', 'network_transmit'), (0,)),
    '8024': (_setter('8025', _is_octet, 'network_transmit'), (1,)),
    '8026': (_getter('8028', 'relay', 'relay_retransmit'), (0,)),
    '8027': (_setter('8028', _is_switch, 'relay', 'relay_retransmit'), (2,)),
    '802d': (_poll_timeout_get, (2,)),
    '8038': (_heartbeat_get, (0,)),
    '8039': (_heartbeat_set, (9,)),
    '803d': (_binding(unbinds=False), (6, 8)),
    '803f': (_binding(unbinds=True), (6, 8)),
    '8040': (_net_key_add, (18,)),
    '8041': (_net_key_delete, (2,)),
    '8042': (_net_key_get, (0,)),
    '8045': (_net_key_update, (18,)),
    '8049': (_node_reset, (0,)),
}
