"""Worked scripts with a case for each octet of a PDU, and for each call of the flash at which power can be cut while something is stored.

A record takes two calls, of which the second one writes its gate. So the records of an event outlive a cut one after another, in their order.
"""
from made import count_after, end_after
from rows import NAMES, Row, spelled

MASKS = ['00', 'ff', 'f0', '0f', '55', 'aa']
LIFE = 'life 1 12345678 n 12345678 000000\n'


def turned_bits():
    """PDU A with the lowest or the highest bit of one octet turned, for each octet; and then as it is."""
    pdu = bytes.fromhex(dict(NAMES)['PDU-A'])
    turned = [pdu[:at] + bytes([pdu[at] ^ bit]) + pdu[at + 1 :] for at in range(len(pdu)) for bit in (0x01, 0x80)]
    script = ''.join(f'b0 net {octets.hex()}\n' for octets in turned)
    entries = ''.join(f'e {place} b0 {place} net unread\n' for place in range(1, len(turned) + 1))
    last = f'e {len(turned) + 1} b0 {len(turned) + 1} net waiting 1\n'
    yield Row('no octet of a PDU can be changed in its lowest or in its highest bit', f'START-000\n{script}b0 net PDU-A\n', f'{LIFE}{entries}{last}end\n')


def at_every_call_of_an_hour():
    """144 hours pass in IV Update in Progress: their record, and then that of its end. The next life is asked by a beacon that would end
    it: after 0 hours that is ignored, after 144 it does, and where it is over there is nothing to end."""
    start = 'provision 1201 1 00000006 02 000 NK DK\nlife\n'
    seconds = [
        '00000006 p 00000005 000000\ne 1 b0 1 bcn beacon 000 same ignore 4\n',
        '00000006 p 00000005 000000\ne 1 b0 1 bcn beacon 000 same finish\n',
        '00000006 n 00000006 000000\ne 1 b0 1 bcn beacon 000 same ignore 5\n',
    ]
    for calls in range(5):
        for mask in MASKS:
            ticked = 'e 1 b0 1 tick ticked 51840000\n' if calls >= 4 else ''
            first = f'life 1 00000006 p 00000005 000000\n{ticked}{end_after(calls, 4)}'
            script = f'{start}arm {calls} {mask}\nb0 tick 51840000\nlife\nb0 beacon NK 00 00000006\n'
            second = f'life 2 {seconds[count_after(calls, mask)]}end\n'
            yield Row(f'144 hours end an IV Update: arm {calls} {mask}', script, first + second)


def at_every_call_of_a_beacon():
    """A beacon that moves the phase of a network key and the IV Index: first the record of the phase, then that of the IV state. The next
    life is asked for the phase; numbers go on under the transmit IV Index of before, or start at 0 under a new one."""
    update = ''.join(f'b0 talk NK dev:DK 00000005 04 000001 {piece + 1:06x} 0003 1201 {piece} 80450000NK2\n' for piece in range(2))
    updated = 'e 2 b0 2 net waiting 1\ne 3 b0 3 net delivered 0003 1201 00000005 000001 dev 80450000NK2\n'
    sent = 's b0 3.1 ctl 00000005 000000 07 1201 0003 00000400000003\ns b0 3.2 msg 00000005 000001 07 1201 0003 dev 8044000000\n'
    asks = 'b0 talk NK2 dev:DK 00000005 04 000003 000003 0003 1201 u 80150000\n'
    entry = 'e 1 b0 1 net delivered 0003 1201 00000005 000003 dev 80150000\n'
    begins = ('00000005 00', '00000005 n 00000005', '03', 'phase2 begin', '02', ('00000006 p 00000005', '00000005', '000100'))
    ends = ('00000006 02', '00000006 p 00000005', '00', 'phase0 finish', '00', ('00000006 n 00000006', '00000006', '000000'))
    for before, state, flags, answer, phase, (moved, transmit, start) in [begins, ends]:
        seconds = [
            (state, '00000005', '000100', '01'),
            (state, '00000005', '000100', phase),
            (moved, transmit, start, phase),
        ]
        for calls in range(5):
            for mask in MASKS:
                heard = f'e 4 b0 4 bcn beacon 000 {answer}\n' if calls >= 4 else ''
                iv, pair, seq, told = seconds[count_after(calls, mask)]
                last = 'end\n' if calls >= 4 else f'cut {9 + calls}\n'
                script = (
                    f'provision 1201 1 {before} 000 NK DK\nlife\nb0 tick 34560000\n{update}'
                    f'arm {calls} {mask}\nb0 beacon NK2 {flags} 00000006\nlife\n{asks}'
                )
                first = f'life 1 {state} 000000\ne 1 b0 1 tick ticked 34560000\n{updated}{heard}{sent}{last}'
                reply = f's b0 1.1 msg {pair} {seq} 07 1201 0003 dev 8017000000{told}\n'
                second = f'life 2 {iv} {seq}\n{entry}{reply}end\n'
                yield Row(f'a beacon, {answer}: arm {calls} {mask}', script, first + second)


def four_lamps():
    """Lines that configure a node of four lamps, all in one group, with their entries and what is sent: a key, and of each lamp its binding
    and its subscription."""
    script = ''.join(f'b0 talk NK dev:DK 12345678 04 000001 {piece + 1:06x} 0003 1201 {piece} 00003012AK\n' for piece in range(2))
    entries = 'e 1 b0 1 net waiting 1\ne 2 b0 2 net delivered 0003 1201 12345678 000001 dev 00003012AK\n'
    sent = 's b0 2.1 ctl 12345678 000000 07 1201 0003 00000400000003\ns b0 2.2 msg 12345678 000001 07 1201 0003 dev 800300003012\n'
    asked = [(f'803d0{lamp}1223010010', f'803e000{lamp}1223010010') for lamp in range(1, 5)]
    asked += [(f'801b0{lamp}1201c00010', f'801f000{lamp}1201c00010') for lamp in range(1, 5)]
    for number, (message, reply) in enumerate(asked, 3):
        script += f'b0 talk NK dev:DK 12345678 04 {number:06x} {number:06x} 0003 1201 u {message}\n'
        entries += f'e {number} b0 {number} net delivered 0003 1201 12345678 {number:06x} dev {message}\n'
        sent += f's b0 {number}.1 msg 12345678 {number - 1:06x} 07 1201 0003 dev {reply}\n'
    return script, entries, sent


def at_every_call_of_four_lamps():
    """One message switches four lamps on: five records, its own and one of each lamp, by element. In the next life each is asked."""
    script, entries, sent = four_lamps()
    switches = 'b0 talk NK app:AK 12345678 00 000010 000010 0003 c001 u 82030101\n'
    asks = ''.join(f'b0 talk NK app:AK 12345678 04 {lamp + 16:06x} {lamp + 16:06x} 0003 120{lamp} u 8201\n' for lamp in range(1, 5))
    heard = ''.join(f'e {lamp} b0 {lamp} net delivered 0003 120{lamp} 12345678 {lamp + 16:06x} app:123 8201\n' for lamp in range(1, 5))
    # nineteen records were put before: of each of nine messages its name and what it asks for, and the numbers once
    before = 2 * (2 * 9 + 1)
    for calls in range(11):
        for mask in ['00', 'ff', 'f0', '55']:
            switched = 'e 11 b0 11 net delivered 0003 c001 12345678 000010 app:123 82030101\n' if calls >= 10 else ''
            last = 'end\n' if calls >= 10 else f'cut {before + calls + 1}\n'
            count = count_after(calls, mask)
            is_on = lambda lamp: '01' if lamp < count else '00'
            told = ''.join(f's b0 {lamp}.1 msg 12345678 {lamp + 255:06x} 07 120{lamp} 0003 app:123 8204{is_on(lamp)}\n' for lamp in range(1, 5))
            yield Row(
                f'four lamps that are switched on: arm {calls} {mask}',
                f'provision 1201 4 12345678 00 000 NK DK\nlife\n{script}arm {calls} {mask}\n{switches}life\n{asks}',
                f'{LIFE}{entries}{switched}{sent}{last}life 2 12345678 n 12345678 000100\n{heard}{told}end\n',
            )


def at_every_call_of_a_low_power_node():
    """A Low Power node takes a message that its friend stored for it. The next life makes a friendship with the same credentials, and hears
    that message again: it is taken where it wasn't recorded, and else a replay."""
    offer = 'b0 peer NK 12345678 1 00 {:06x} 0100 1201 046410107f0000\n'.format
    stored = 'b0 peer NK/1201/0100/0000/0000 12345678 1 01 000009 0300 1201 7f\n'
    begun = 'e 1 b0 1 seek sought\ne 2 b0 2 net control 0100 1201 12345678 {:06x} 04 6410107f0000\n'.format
    taken, replayed = 'e 3 b0 3 net control 0300 1201 12345678 000009 7f -\n', 'e 3 b0 3 net replay 12345678 000009\n'
    sent = 's b0 1.1 ctl 12345678 {:06x} 00 1201 fffd 0301640002580000010000\ns b0 2.1 ctl 12345678 {:06x} 00 1201 0100 0100\n'.format
    for calls in range(3):
        for mask in MASKS:
            last = f'cut {5 + calls}\n' if calls < 2 else 'end\n'
            first = f'{LIFE}{begun(1)}{taken if calls == 2 else ""}{sent(0, 1)}{last}'
            heard = replayed if count_after(calls, mask) else taken
            second = f'life 2 12345678 n 12345678 000100\n{begun(2)}{heard}{sent(0x100, 0x101)}end\n'
            script = f'START-000\nb0 seek\n{offer(1)}arm {calls} {mask}\n{stored}life\nb0 seek\n{offer(2)}{stored}'
            yield Row(f'a Low Power node takes a message: arm {calls} {mask}', script, first + second, ['lpn'])


EVERY = [turned_bits, at_every_call_of_an_hour, at_every_call_of_a_beacon, at_every_call_of_four_lamps, at_every_call_of_a_low_power_node]


def all_made():
    for made in EVERY:
        yield from made()
