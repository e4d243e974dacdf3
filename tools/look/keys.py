"""The keys, labels and IV Indexes that a run shows: those provisioned, those that its script names,
and those that configuration messages handed to the node while it ran."""
from .hearing import octets_heard
from .report import Opening
from .runs import LifeRun, Step
from .script import Event, Script

APP_KEY_ADD, APP_KEY_UPDATE = b'\x00', b'\x01'
NET_KEY_ADD, NET_KEY_UPDATE = b'\x80\x40', b'\x80\x45'
LABEL_ADD, LABEL_OVERWRITE = b'\x80\x20', b'\x80\x22'
KEY_SIZE, INDEX_BITS = 16, 12
IV_OF_BEACON = slice(10, 14)


class Keys:
    """What was found so far; each list and table is in the order of finding.

    `nets` and `apps` are by the index of the network key; `pairs` are a network key and an
    application key that one message went under, `devices` a device key and an address of its node,
    `friendships` credentials as a script writes them.
    """

    def __init__(self, script: Script) -> None:
        provision = script.provision
        self.nets: dict[int, list[bytes]] = {provision.net: [provision.net_key]}
        self.apps: dict[int, list[bytes]] = {}
        self.outside: list[bytes] = []
        self.pairs: list[tuple[bytes, bytes]] = []
        self.devices: list[tuple[bytes, int]] = []
        self.labels: list[bytes] = []
        self.friendships: list[str] = []
        self.iv_indexes: list[int] = []
        self.unicast = provision.unicast
        for place in range(provision.elements):
            _note(self.devices, (provision.device_key, provision.unicast + place))

    def rows(self) -> list[tuple[bytes, bytes | None]]:
        """Each network key with each application key that goes with it, or with None."""
        found: list[tuple[bytes, bytes | None]] = []
        for index, values in self.nets.items():
            for value in values:
                for app in self.apps.get(index, []):
                    _note(found, (value, app))
        for pair in self.pairs:
            _note(found, pair)
        paired = {net for net, _ in found}
        every = [value for values in self.nets.values() for value in values]
        alone = [value for value in every + self.outside if value not in paired]
        return found + [(value, None) for value in dict.fromkeys(alone)]

    def take_event(self, event: Event) -> None:
        """What a line of the script names."""
        fields = _FIELDS.get(event.word)
        if fields:
            fields(self, event.words)

    def take_step(self, step: Step) -> None:
        """What an entry and its jobs tell."""
        entry = step.entry
        if entry.answer == 'beacon' and step.event:
            octets = octets_heard(step.event)
            _note(self.iv_indexes, int.from_bytes(octets[IV_OF_BEACON], 'big'))
        if entry.answer in ('control', 'delivered'):
            _note(self.iv_indexes, int(entry.words[2], 16))
        if entry.answer == 'delivered':
            _, dst, _, _, key, payload = entry.words
            if key == 'dev' and int(dst, 16) == self.unicast:
                self._take_configuration(bytes.fromhex(payload))
        for iv in filter(None, (job.field('IV') for job in step.jobs)):
            _note(self.iv_indexes, int(iv, 16))

    def _take_configuration(self, payload: bytes) -> None:
        """A key or a label that was handed to the node, whatever it answered."""
        one, two = payload[:1], payload[:2]
        if one in (APP_KEY_ADD, APP_KEY_UPDATE) and len(payload) == 4 + KEY_SIZE:
            net = int.from_bytes(payload[1:4], 'little') & (1 << INDEX_BITS) - 1
            _note(self.apps.setdefault(net, []), payload[4:])
        elif two in (NET_KEY_ADD, NET_KEY_UPDATE) and len(payload) == 4 + KEY_SIZE:
            _note(self.nets.setdefault(int.from_bytes(payload[2:4], 'little'), []), payload[4:])
        elif two in (LABEL_ADD, LABEL_OVERWRITE) and len(payload) >= 4 + KEY_SIZE:
            _note(self.labels, payload[4:4 + KEY_SIZE])

    def _take_net(self, word: str) -> bytes:
        """The network key of a NET."""
        if '/' in word:
            _note(self.friendships, word)
        key = bytes.fromhex(word.split('/')[0])
        _note(self.outside, key)
        return key

    def _take_peer(self, words: tuple[str, ...]) -> None:
        self._take_net(words[0])
        _note(self.iv_indexes, int(words[1], 16))

    def _take_talk(self, words: tuple[str, ...]) -> None:
        net, named, dst = self._take_net(words[0]), words[1], words[7]
        key = bytes.fromhex(named[4:])
        _note(self.iv_indexes, int(words[2], 16))
        if dst.startswith('v:'):
            _note(self.labels, bytes.fromhex(dst[2:]))
        if named.startswith('app:'):
            _note(self.pairs, (net, key))
        elif not dst.startswith('v:'):
            _note(self.devices, (key, int(dst, 16)))

    def _take_beacon(self, words: tuple[str, ...]) -> None:
        _note(self.outside, bytes.fromhex(words[0]))

    def _take_send(self, words: tuple[str, ...]) -> None:
        if words[3].startswith('dev:'):
            _note(self.devices, (bytes.fromhex(words[3][4:]), int(words[1], 16)))


_FIELDS = {'peer': Keys._take_peer, 'talk': Keys._take_talk, 'beacon': Keys._take_beacon,
           'send': Keys._take_send}



def _note(found: list, item: object) -> None:
    """Keeps an item that isn't in the list yet."""
    if item not in found:
        found.append(item)


def _note_opening(keys: Keys, opening: Opening, hears_octets: bool) -> None:
    """The IV Indexes of a life, and the one before, which octets alone may be heard under."""
    found = [opening.transmit, opening.current]
    if hears_octets and opening.current:
        found.append(opening.current - 1)
    for iv in found:
        _note(keys.iv_indexes, iv)


def keys_of(script: Script, runs: list[LifeRun]) -> Keys:
    """What a whole run shows, also in lines of the script that no entry answers."""
    keys = Keys(script)
    events = [event for life in script.lives for event in life.events]
    hears_octets = any(event.word == 'net' for event in events)
    for run in runs:
        if run.life.opening:
            _note_opening(keys, run.life.opening, hears_octets)
        for step in run.steps:
            keys.take_step(step)
    for event in events:
        keys.take_event(event)
    return keys
