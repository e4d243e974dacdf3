"""Parts: OnOff and Level, long messages with losses, publications, heartbeats, relay, beacons."""
from air.reports import OnAir
from core import GROUP, NODE, PUBLISHED, Ask, Check, little

LONG = 377
VENDOR = 'c0ff05'


def models(check: Check) -> None:
    """OnOff and Level by unicast, group and label."""
    for step, dst, asked, due in (
            ('OnOff Get', NODE, '8201', '820400'), ('OnOff Set 1', NODE, '820201T', '820401')):
        check.app(step, dst, asked, due)
    check.app('OnOff Get by element 0002', NODE, '8201', '820401', element=1)
    check.unanswered('OnOff Set Unacknowledged 0', '820300T')
    check.app('OnOff Set 1 to group c001', GROUP, '820201T', '820401')
    check.to_label('OnOff Set 0 to the label', 0x1001, '820200T', '820400')
    check.app('OnOff Get to all-nodes', 0xffff, '8201', '820400')
    check.app('OnOff Get to all-relays', 0xfffe, '8201', '820400', 'Relay is on')
    check.app('OnOff Set 1 in 1 s, delay 100 ms', NODE, '820201T4114', '8204')
    check.pump(1.3)
    check.app('OnOff Get behind it', NODE, '8201', '820401')
    asked = '820200' + check.tid()
    check.answer('OnOff Set 0 in one segment', asked, '820400', lambda: check.daemon.send(NODE, 1, bytes.fromhex(asked), segmented=True))
    check.app('Level Set 1234', NODE, '82063412T', '82083412')
    check.app('Level Delta Set -1000', NODE, '820918fcffffT', '82084c0e')
    check.app('Level Set to group c001', GROUP, '82060080T', '82080080')
    check.to_label('Level Set to the label', 0x1003, '8206ff7fT', '8208ff7f')
    check.app('Level Move Set -4096 in 100 ms', NODE, '820b00f0T4100', '8208')
    check.pump(0.5)
    check.app('Level Move Set 0', NODE, '820b0000T', '8208', 'it stops')


def _long(factor: int, size: int = LONG) -> bytes:
    return bytes.fromhex(VENDOR) + bytes(place * factor % 256 for place in range(size))


def _to_node(check: Check, step: str, payload: bytes, note: str) -> None:
    check.begin()
    check.daemon.send(NODE, 1, payload)
    is_acked = check.until(lambda: 'ob_sar_removal' in check.said(), 75)
    is_quiet = check.quiet()
    count = check.delivered().count(payload)
    sent = sum('send_seg() segN' in line for line in check.said().splitlines())
    check.row(step, payload[:8].hex() + '..', f'{count} delivered, {len(check.lines("ctl"))} acknowledgments', is_acked and is_quiet and count == 1,
              f'meshd sent {sent} segments{note}')


def _from_node(check: Check, step: str, dst: int, payload: bytes, note: str = '') -> None:
    check.begin()
    check.over.waiting.append(f'send 0 {dst:04x} 05 app:001 {payload.hex()}')

    def came() -> int:
        return sum(message.payload == payload for message in check.messages())
    check.until(came, 25)
    check.pump(4)
    check.row(step, payload[:8].hex() + '..', f'{came()} received, {len(check.lines("seg"))} segments sent', came() == 1, note)


def long_messages(check: Check) -> None:
    """380 octets both ways, with losses."""
    check.quiet()
    _to_node(check, '380 octets to the node (32 segments)', _long(1), '')
    count = [0]

    def third(heard: OnAir) -> bool:
        count[0] += 1
        return count[0] <= 32 and count[0] % 3 == 0
    check.over.lost_in = third
    _to_node(check, 'the same, each third segment lost once', _long(7), '')
    check.over.lost_in = None
    payload = _long(9, 97)
    check.begin()
    check.daemon.send(GROUP, 1, payload)
    check.until(check.delivered, 15)
    check.quiet()
    count, acks = check.delivered().count(payload), len(check.lines('ctl'))
    check.row('100 octets to group c001', payload[:8].hex() + '..', f'{count} delivered, {acks} acknowledgments',
              check.delivered() == [payload] and not acks, 'meshd sends each segment several times; none is acknowledged')
    _from_node(check, '380 octets from the node to 0001', 0x0001, _long(5), 'no round after the acknowledgment')
    lost: set[str] = set()

    def once(line: str) -> bool:
        words = line.split(' ')
        is_lost = words[3] == 'seg' and words[9] in ('1', '4', '8') and words[9] not in lost
        lost.update({words[9]} if is_lost else ())
        return is_lost
    check.over.lost_out = once
    _from_node(check, '100 octets from the node, segments 1, 4, 8 lost once', 0x0001, _long(3, 97))
    check.over.lost_out = None
    _from_node(check, '63 octets from the node to group c010', PUBLISHED, _long(11, 60), 'each segment goes in each round')


def publications(check: Check) -> None:
    """The node publishes by time."""
    def published() -> list[str]:
        return [message.payload.hex() for message in check.messages() if message.dst == f'{PUBLISHED:04x}']
    check.begin()
    check.until(lambda: len(published()) >= 3, 9)
    check.row('OnOff Status published to c010 each 2 s', '(time)', ', '.join(published()), len(published()) >= 3)
    check.over.kill()
    check.over.power_on()
    check.begin()
    check.until(published, 5)
    check.row('it is published by the next life too', '(killed)', ', '.join(published()) or 'nothing', published())
    check.config(Ask('Model Publication Set c010, no period', '03{first}{published}0100050001{onoff}', '801900'))
    check.begin()
    for value in (1, 0):
        check.daemon.send(NODE, 1, bytes.fromhex(f'8203{value:02x}{check.tid()}'))
        check.pump(1.0)
    check.row('Status published when the state changes (left out)', '820301, 820300', ', '.join(published()) or 'nothing', not published(),
              'left out: by time alone')
    check.config(Ask('Model Publication Set 0000', '03{first}00000100000000{onoff}', '801900', 'off'),
                 Ask('Model Publication Get', '8018{first}{onoff}', '801900'))
    check.begin()
    check.pump(3)
    check.row('nothing is published any more', '(time)', str(len(published())), not published())


def heartbeats(check: Check) -> None:
    """meshd counts the node's heartbeats."""
    check.local('Heartbeat Subscription Set', '803b' + little(NODE) + '010006', '803c00')
    check.config(Ask('Heartbeat Publication Set to 0001, 4 x 2 s', '8039010003020a00000000', '0600'))
    check.pump(9)
    # status, source, destination, period, count log, least and most hops
    got = check.local('Heartbeat Subscription Get', '803a', '803c')
    sent = [line for line in check.over.node.report if ' ctl ' in line and line.split(' ')[9].startswith('0a')]
    check.row('heartbeats counted by meshd', '(time)', got.hex(), len(got) > 10 and got[8] >= 3, f'{len(sent)} sent')
    check.config(Ask('Heartbeat Publication Get', '8038', '0600'),
                 Ask('Heartbeat Publication Set to 0001, of Relay alone', '8039010000000a01000000', '0600'))
    mark = len(check.over.node.report)
    check.config(Ask('Relay Set 00', '80270000', '80280000'), Ask('Relay Set 01', '80270111', '80280111'))
    check.pump(1)
    beats = [line for line in check.over.node.report[mark:] if ' ctl ' in line and line.split(' ')[9].startswith('0a')]
    check.row('a heartbeat when the Relay feature changes (left out)', '8027..', f'{len(beats)} heartbeats', not beats,
              'Mesh Profile 4.2.17.5 asks for it')
    check.over.kill()
    check.over.power_on()
    check.config(Ask('Heartbeat Publication Get, killed and run again', '8038', '0600000000000000000000', 'it is not kept'),
                 Ask('Heartbeat Publication Set 0000', '8039000000000000000000', '0600', 'off'))


def relay(check: Check) -> None:
    """A message for another node goes on, and doesn't with Relay off."""
    for value, count in (('0111', 1), ('0000', 0)):
        check.config(Ask(f'Relay Set {value[:2]}', f'8027{value}', f'8028{value}'))
        check.quiet(1)
        check.begin()
        check.daemon.send(0x0300, 1, bytes.fromhex('820101'))
        check.pump(1)
        found = check.lines('relay')
        check.row('a message to 0300', '820101', f'{len(found)} relayed', len(found) == count)


def beacons(check: Check) -> None:
    """Secure Network beacons both ways, and none."""
    check.begin()
    is_sent = check.until(lambda: check.lines('bcn'), 14)
    check.pump(0.5)
    sent = [line.split(' ')[-1] for line in check.lines('bcn') if line.startswith('s ')]
    check.row('Secure Network beacon of the node', '(time)', sent[0] if sent else 'nothing', is_sent and 'cmac compare failed' not in check.said())
    check.event('Secure Network beacon of meshd', '', 'bcn beacon 000 same ignore 5', 25)
    check.config(Ask('Beacon Set 00', '800a00', '800b00'))
    check.begin()
    check.pump(11)
    count = sum(line.startswith('s ') for line in check.lines('bcn'))
    check.row('no beacon in 11 s', '(time)', str(count), not count)
    check.config(Ask('Beacon Set 01', '800a01', '800b01'))


def subnet(check: Check) -> None:
    """A second network key with an application key of its own."""
    daemon = check.daemon
    daemon.keys('CreateSubnet', 0x345)
    daemon.keys('CreateAppKey', 0x345, 0x6a7)
    check.by_meshd('NetKey Add 345', '804400', lambda: daemon.add_net_key(NODE, 0x345))
    check.config(Ask('NetKey Get', '8042', '8043'))
    check.by_meshd('AppKey Add 6a7 of 345', '800300', lambda: daemon.add_app_key(NODE, 0x6a7))
    check.config(Ask('AppKey Get 345', '80014503', '8002004503'), Ask('Model App Bind 6a7', '803d{first}a706{onoff}', '803e00'))
    check.local('NetKey Add', '', '804400', lambda: daemon.add_net_key(1, 0x345))
    check.local('AppKey Add', '', '800300', lambda: daemon.add_app_key(1, 0x6a7))
    check.local('Model App Bind', '803d0100a7060110', '803e00')
    check.keys.append(daemon.subnet(0x345))
    check.app('OnOff Set 1 under network key 345', NODE, '820201T', '820401', app=0x6a7)
    check.config(Ask('Default TTL Get over 345', '800c', '800e05'),
                 Ask('NetKey Delete 345, over 345', '80414503', '80440c', '0c: the key that it came under'), net=0x345)
