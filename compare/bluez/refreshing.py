"""Parts: Key Refresh driven from either side, and IV Update from either side."""
import json

from core import NODE, NODE_HOURS, UUID, Ask, Check

NEAR_THE_END = 0x7ffffd


def key_refresh(check: Check) -> None:
    """Of network key 000: meshd follows the node's beacon to phase 2, the node meshd's to phase 0."""
    daemon = check.daemon
    daemon.keys('UpdateSubnet', 0)
    daemon.keys('UpdateAppKey', 1)
    check.by_meshd('NetKey Update 000', '804400', lambda: daemon.add_net_key(NODE, 0, 0, True))
    check.by_meshd('AppKey Update 001', '800300', lambda: daemon.add_app_key(NODE, 1, 0, True))
    check.config(Ask('Key Refresh Phase Get', '80150000', '801700000001'))
    check.app('OnOff Set in phase 1', NODE, '820200T', '820400', 'under the old keys')
    check.local('NetKey Update', '', '804400', lambda: daemon.add_net_key(1, 0, 0, True))
    check.local('AppKey Update', '', '800300', lambda: daemon.add_app_key(1, 1, 0, True))
    check.app('OnOff Set, both in phase 1', NODE, '820201T', '820401')
    mark = len(daemon.log_text())
    check.config(Ask('Key Refresh Phase Set 02', '8016000002', '801700000002', 'its Status comes under the new key'))
    moved = 'Beacon based KR phase 2 change'
    is_moved = check.until(lambda: moved in daemon.log_text()[mark:], 15)
    check.row("meshd goes to phase 2 by the node's beacon", '', f'log: {moved}' if is_moved else 'nothing', is_moved)
    daemon.set_phase(0, 2)
    check.keys.append(daemon.subnet(0))
    check.app('OnOff Set, both in phase 2', NODE, '820201T', '820401', 'under the new keys')
    check.to_label('OnOff Set to the label in phase 2', 0x1001, '820200T', '820400')
    check.config(Ask('Default TTL Get in phase 2', '800c', '800e05'))
    daemon.set_phase(0, 3)
    check.local('Key Refresh Phase Set 03', '8016000003', '8017')
    _event(check, "the node goes to phase 0 by meshd's beacon", 'beacon 000 phase0', 25)
    check.config(Ask('Key Refresh Phase Get', '80150000', '801700000000'))
    check.app('OnOff Set behind the refresh', NODE, '820201T', '820401')


def _event(check: Check, step: str, line: str, seconds: float) -> None:
    """A line that may have come since the last step began."""
    is_there = check.until(lambda: any(line in told for told in check.lines()), seconds)
    check.row(step, check.beacon(), line if is_there else 'nothing', is_there)


def key_refresh_killed(check: Check) -> None:
    """Of network key 345, the other way round; the node is killed as it hears the beacon."""
    daemon = check.daemon
    daemon.keys('UpdateSubnet', 0x345)
    daemon.keys('UpdateAppKey', 0x6a7)
    check.by_meshd('NetKey Update 345', '804400', lambda: daemon.add_net_key(NODE, 0x345, 0, True))
    check.by_meshd('AppKey Update 6a7', '800300', lambda: daemon.add_app_key(NODE, 0x6a7, 0, True))
    check.local('NetKey Update', '', '804400', lambda: daemon.add_net_key(1, 0x345, 0, True))
    check.local('AppKey Update', '', '800300', lambda: daemon.add_app_key(1, 0x6a7, 0, True))
    check.quiet(1)
    check.over.kill()
    check.local('Key Refresh Phase Set 02', '8016450302', '8017')
    daemon.set_phase(0x345, 2)
    check.pump(1.5)
    check.over.power_on()
    check.config(Ask('Key Refresh Phase Get 345, killed and run again', '80154503', '801700450301', 'it was off when the beacon came'))
    # In phase 2 meshd sends one beacon under the new key and goes on under the old one; its Beacon state off and on makes it send the new one.
    check.local('Beacon Set 00', '800a00', '800b00')
    check.local('Beacon Set 01', '800a01', '800b01')
    _event(check, "the node goes to phase 2 by meshd's beacon", 'beacon 345 phase2', 25)
    check.keys.append(daemon.subnet(0x345))
    check.over.kill()
    check.over.power_on()
    check.config(Ask('Key Refresh Phase Get 345, killed and run again', '80154503', '801700450302'))
    check.app('OnOff Set under 345 in phase 2', NODE, '820200T', '820400', app=0x6a7)
    mark = len(daemon.log_text())
    check.config(Ask('Key Refresh Phase Set 03 of 345', '8016450303', '801700450300'))
    moved = 'Beacon based KR phase 3 change'
    is_moved = check.until(lambda: moved in daemon.log_text()[mark:], 15)
    check.row("meshd goes to phase 0 by the node's beacon", '', f'log: {moved}' if is_moved else 'nothing', is_moved)
    daemon.set_phase(0x345, 3)
    check.app('OnOff Set under 345 behind it', NODE, '820201T', '820401', app=0x6a7)
    check.config(Ask('NetKey Delete 345', '80414503', '80440045'), Ask('NetKey Get', '8042', '80430000', '000 alone'))


def _near_the_end(check: Check) -> None:
    """meshd's SEQ is set to shortly before it begins an IV Update."""
    path = check.folder / 'storage' / UUID.hex() / 'node.json'
    stored = json.loads(path.read_text(encoding='utf-8'))
    stored['sequenceNumber'] = NEAR_THE_END
    path.write_text(json.dumps(stored), encoding='utf-8')


def _iv_of_meshd(check: Check) -> str:
    return f'IvIndex {check.daemon.of_node("IvIndex")}, IvUpdate {bool(check.daemon.of_node("IvUpdate"))} of meshd'


def iv_update(check: Check) -> None:
    """meshd begins an IV Update and ends it; the node follows its beacons, and is killed in between."""
    daemon, over = check.daemon, check.over
    before = check.newest()[0]
    over.tell(f'tick {NODE_HOURS}')
    daemon.stop()
    _near_the_end(check)
    check.begin()
    daemon.start()
    daemon.attach()
    check.logged("meshd takes the IV state of the node's beacon", '', 'iv_upd_state = IV_UPD_NORMAL', 20)
    check.begin()
    for place in range(20):
        daemon.send(0x0300, 1, bytes.fromhex(f'8203{place & 1:02x}{check.tid()}'))
        if 'iv_upd_state = IV_UPD_UPDATING' in check.said():
            break
    _event(check, "IV Update begins: meshd's SEQ is past 800000", 'beacon 000 same begin', 20)
    check.row('IV Index of meshd', '', _iv_of_meshd(check), daemon.of_node('IvIndex') == before + 1)
    over.kill()
    over.power_on()
    check.quiet(1)
    check.app('OnOff Set in progress, killed and run again', NODE, '820200T', '820400')
    check.row('the node still sends under the old IV Index', '', f'{check.newest()[0]:08x} {check.newest()[1]:06x}', check.newest()[0] == before)
    over.tell(f'tick {NODE_HOURS}')
    check.begin()
    _event(check, "IV Update ends by meshd's beacon", 'beacon 000 same finish', 30)
    check.app('OnOff Set under the new IV Index', NODE, '820201T', '820401')
    check.row('the node sends under it', '', f'{check.newest()[0]:08x} {check.newest()[1]:06x}', check.newest()[0] == before + 1)
    check.replayed('messages of before the IV Update again', check.accepted_pdus()[-150:-1])
    newest = check.newest()
    over.kill()
    over.power_on()
    check.replayed('killed, run again, and messages of before again', check.accepted_pdus()[-150:])
    check.app('OnOff Get', NODE, '8201', '820401')
    check.row('IV Index is kept, SEQ has risen', f'{newest[0]:08x} {newest[1]:06x}', f'{check.newest()[0]:08x} {check.newest()[1]:06x}',
              check.newest() > newest)


def iv_update_by_node(check: Check) -> None:
    """The node hears of an IV Update first, by a third node; meshd follows the node's beacon, and the node ends it of its own."""
    daemon, over = check.daemon, check.over
    iv_index = check.newest()[0] + 1
    over.tell(f'tick {NODE_HOURS}')
    check.pump(0.5)
    check.begin()
    over.tell(f'beacon {check.keys[0].hex()} 02 {iv_index:08x}')
    is_begun = any('beacon 000 same begin' in line for line in check.lines())
    is_followed = check.until(lambda: daemon.of_node('IvIndex') == iv_index, 20)
    sent = [line.split(' ')[-1] for line in check.lines('bcn') if line.startswith('s ')]
    check.row("IV Update begins by another node's beacon; meshd follows the node's", sent[0] if sent else '', _iv_of_meshd(check),
              is_begun and is_followed and daemon.of_node('IvUpdate'))
    check.app('OnOff Set in progress', NODE, '820200T', '820400')
    over.is_deaf = True
    check.begin()
    over.tell('tick 52200000')
    over.is_deaf = False
    sent = [line.split(' ')[-1] for line in check.lines('bcn') if line.startswith('s ')]
    check.row('the node ends it of its own, past 144 hours', '(time)', sent[0] if sent else 'nothing', sent and sent[0].startswith('0100'))
    is_ended = check.until(lambda: not daemon.of_node('IvUpdate'), 25)
    check.row('meshd ended it too', '', _iv_of_meshd(check), is_ended and daemon.of_node('IvIndex') == iv_index)
    check.app('OnOff Set under the new IV Index', NODE, '820201T', '820401')
    check.row('the node sends under it', '', f'{check.newest()[0]:08x} {check.newest()[1]:06x}', check.newest()[0] == iv_index)
    check.replayed('messages of before again', check.accepted_pdus()[-150:-1])
