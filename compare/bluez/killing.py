"""Parts: the node is killed amid messages, meshd starts anew, old PDUs come again; and what holds of all that the node said."""
import subprocess

from air.reports import MESSAGE, OnAir, drawn_twice, twice_accepted
from core import ANSWERS_IN, NODE, Ask, Check

DELAYS = (0.0, 0.0005, 0.001, 0.002, 0.004, 0.008)
COMPLAINTS = ('verify failed', 'cmac compare', 'Failed to parse', 'Unsupported Ctl', 'illegal parms', 'Failed to send')


def kills(check: Check) -> None:
    """The node is killed as it handles OnOff Set, at several moments."""
    check.app('OnOff Set 0 before the kills', NODE, '820200T', '820400')
    value = 0
    for delay in DELAYS:
        value = 1 - value
        check.quiet(0.6)
        newest = check.newest()
        check.begin()
        asked = f'8202{value:02x}{check.tid()}'
        check.over.cut_at, check.over.cut_after = 1, delay
        check.daemon.send(NODE, 1, bytes.fromhex(asked))
        check.until(lambda: not check.over.node.is_on, 5)
        check.pump(0.3)
        check.row(f'killed {delay * 1000:g} ms after OnOff Set {value} came', asked, 'no answer' if not check.messages() else 'answered',
                  not check.over.node.is_on and not check.messages())
        _again(check, value)
        check.row('SEQ has risen', f'{newest[0]:08x} {newest[1]:06x}', f'{check.newest()[0]:08x} {check.newest()[1]:06x}', check.newest() > newest)


def _again(check: Check, value: int) -> None:
    """The node runs again; the PDU that it was killed at comes once more, and acts exactly if it was not accepted before."""
    pdu, word = check.over.answered[-1]
    check.over.power_on()
    check.replayed('old messages of meshd again', [old for old in check.accepted_pdus() if old != pdu][-60:])
    before = len(check.over.answered)
    told = check.over.tell(f'net {pdu}')
    now = check.over.answered[before][1]
    check.pump(0.5)
    is_once = (word == 'cut' and now in ('delivered', 'replay')) or (word == 'delivered' and now == 'replay')
    check.row('the one that it was killed at again', f'before: {word}', now, is_once and bool(told))
    due = f'8204{value:02x}' if now == 'delivered' or word == 'delivered' else '8204'
    check.app('OnOff Get', NODE, '8201', due, 'its entry was stored, perhaps not its effect' if due == '8204' else '')
    check.app(f'OnOff Set {value}', NODE, f'8202{value:02x}T', f'8204{value:02x}')


def killed_in_segments(check: Check) -> None:
    """The node is killed amid a long message, and as AppKey Add is whole."""
    check.quiet()
    payload = bytes.fromhex('c0ff05') + bytes(place * 11 % 256 for place in range(377))
    check.begin()
    check.over.cut_at, check.over.cut_after = 13, 0.0
    check.daemon.send(NODE, 1, payload)
    check.until(lambda: not check.over.node.is_on, 10)
    check.pump(1.5)
    check.over.power_on()
    check.until(lambda: 'ob_sar_removal' in check.said(), 70)
    check.quiet()
    count = check.delivered().count(payload)
    sent = sum('send_seg() segN' in line for line in check.said().splitlines())
    check.row('killed at the 13th of 32 segments, off for 1.5 s', payload[:8].hex() + '..', f'{count} delivered', count == 1,
              f'meshd sent {sent} segments')
    check.app('OnOff Set 1 behind it', NODE, '820201T', '820401')
    check.daemon.keys('CreateAppKey', 0, 0x00b)
    check.begin()
    check.over.cut_at, check.over.cut_after = 2, 0.003
    check.daemon.add_app_key(NODE, 0x00b)
    check.until(lambda: not check.over.node.is_on, 5)
    word = check.over.answered[-1][1]
    check.pump(1)
    check.over.power_on()
    is_answered = check.until(lambda: [m for m in check.messages() if m.payload.hex().startswith('800300')], 10)
    told = 'answered in the new life' if is_answered else 'never answered' + (', its pieces replay' if check.lines('replay') else '')
    check.row('killed at the last segment of AppKey Add 00b', f'before the kill: {word}', told, True, 'a message cut behind its replay entry is lost')
    # meshd repeats for 60 s what nobody acknowledges, and what it queues meanwhile comes too late
    check.quiet(5, 90)
    check.by_meshd('AppKey Add 00b again', '800300', lambda: check.daemon.add_app_key(NODE, 0x00b))
    check.config(Ask('AppKey Get', '80010000', '80020000000'))


def day(check: Check) -> None:
    """24 hours of the node, an hour at a time; the lamp is switched in each, and the node is killed behind every third."""
    answered = 0
    for hour in range(24):
        check.over.tell('tick 360000')
        value = hour % 2
        check.begin()
        check.daemon.send(NODE, 1, bytes.fromhex(f'8202{value:02x}{check.tid()}'))
        answered += check.until(lambda due=f'8204{value:02x}': [m for m in check.messages() if m.payload.hex() == due], ANSWERS_IN)
        if hour % 3 == 2:
            check.over.kill()
            check.over.power_on()
    check.row('24 hours, an hour at a time, killed 8 times', '24 times OnOff Set', f'{answered} answered', answered == 24)


def meshd_again(check: Check) -> None:
    """meshd starts anew; then old PDUs of the node come to it again."""
    check.daemon.stop()
    check.daemon.start()
    check.daemon.attach()
    check.app('OnOff Get, meshd started anew', NODE, '8201', '8204')
    old = [bytes.fromhex(line.split(' ')[-1]) for line in check.over.node.report if line.startswith('s ') and ' msg ' in line][-30:]
    check.begin()
    for octets in old:
        check.over.socket.send(OnAir(MESSAGE, octets))
        check.pump(0.02)
    check.pump(1)
    count = len(check.messages())
    check.row('old messages of the node to meshd again', f'{len(old)} network PDUs', f'{count} taken', not count,
              f'"Ignoring replayed packet" {check.said().count("Ignoring replayed")} times')


def whole(check: Check) -> None:
    """What holds over all lives of the node."""
    report = check.over.node.report
    lives = sum(line.startswith('life ') for line in report)
    keys = ''.join(f'key {key.hex()}\n' for key in dict.fromkeys(check.keys))
    text = keys + ''.join(f'{line}\n' for line in report)
    ended = subprocess.run([check.audit, 'audit'], input=text, capture_output=True, text=True, check=False)
    verdict = (ended.stdout + ended.stderr).strip()
    check.row(f'meshnode audit of {lives} lives', f'{len(report)} lines', verdict, verdict.startswith('sound'))
    check.row('messages accepted twice', '', str(len(twice_accepted(report))), not twice_accepted(report))
    check.row('numbers drawn twice', '', str(len(drawn_twice(report))), not drawn_twice(report))
    check.row('lines that the node did not take', '', '; '.join(check.over.node.wrong) or 'none', not check.over.node.wrong)
    found = [word for word in COMPLAINTS if word in check.daemon.log_text()]
    check.row("complaints in meshd's log", '', ', '.join(found) or 'none', not found)
