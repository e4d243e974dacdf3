"""Parts: the node is configured, and meshd's own elements are."""
from core import GROUP, LABEL, NODE, PUBLISHED, Ask, Check, little

FIRST = (
    Ask('Composition Data Get 0', '800800', '0200'),
    Ask('Composition Data Get ff', '8008ff', '0200', 'answered with page 0'),
)

MODELS = tuple(ask for model, name in (('{onoff}', 'OnOff'), ('{level}', 'Level')) for ask in (
    Ask(f'Model App Bind, {name} Server', '803d{first}0100' + model, '803e00'),
    Ask(f'Model Subscription Add c001, {name}', '801b{first}{group}' + model, '801f00'),
    Ask(f'Model Subscription Virtual Address Add, {name}', '8020{first}{label}' + model, '801f00', '3 segments, TransMIC of 8 octets')))

REST = (
    Ask('Model App Bind of an unknown model', '803d{first}01000013', '803e02'),
    Ask('Model Subscription Add, unknown element', '801b0912{group}{onoff}', '801f01'),
    Ask('Model Subscription Add c002', '801b{first}{other}{onoff}', '801f00'),
    Ask('Model Subscription Delete c002', '801c{first}{other}{onoff}', '801f00'),
    Ask('Default TTL Set 05', '800d05', '800e05'),
    Ask('Default TTL Get', '800c', '800e05'),
    Ask('Relay Set 01, 3 x 20 ms', '80270111', '80280111'),
    Ask('Relay Get', '8026', '80280111'),
    Ask('Beacon Set 01', '800a01', '800b01'),
    Ask('Beacon Get', '8009', '800b01'),
    Ask('Friend Set 01', '801001', '801101'),
    Ask('Friend Get', '800f', '801101'),
    Ask('Friend Set 00', '801000', '801100'),
    Ask('GATT Proxy Get', '8012', '801402'),
    Ask('GATT Proxy Set 01', '801301', '801402', 'there is none'),
    Ask('Network Transmit Set 12', '802412', '802512'),
    Ask('Network Transmit Get', '8023', '802512'),
    Ask('Model Publication Set c010, 2 s', '03{first}{published}0100054201{onoff}', '801900', '2 segments, TransMIC of 8 octets'),
    Ask('Model Publication Get', '8018{first}{onoff}', '801900'),
    Ask('Low Power Node PollTimeout Get', '802d0100', '802e0100000000'),
    Ask('Key Refresh Phase Get', '80150000', '801700000000'),
    Ask('NetKey Get', '8042', '80430000'),
)

CHANGED = (
    Ask('Model App Unbind', '803f{first}0100{level}', '803e00'),
    Ask('Model App Bind again', '803d{first}0100{level}', '803e00'),
    Ask('Model Subscription Delete All', '801d{first}{level}', '801f00'),
    Ask('Model Subscription Overwrite c001', '801e{first}{group}{level}', '801f00'),
    Ask('Model Subscription Virtual Address Overwrite', '8022{first}{label}{level}', '801f00'),
    Ask('Model Subscription Virtual Address Delete', '8021{first}{label}{level}', '801f00'),
    Ask('AppKey Add 001 with another value', '000010000102030405060708090a0b0c0d0e0f10', '800306', '06: the index is held'),
)

# what README.md says is left out: delivered, and not answered
LEFT_OUT = (
    ('Model Subscription Get', '8029{first}{onoff}'), ('Model App Get', '804b{first}{onoff}'), ('Node Identity Get', '80460000'),
    ('Heartbeat Subscription Get', '803a'), ('Model Publication Virtual Address Set', '801a{first}{label}01000500010010'))


def configure(check: Check) -> None:
    """The node gets keys, bindings, subscriptions, features and a publication."""
    check.config(*FIRST)
    check.by_meshd('AppKey Add 001', '800300', lambda: check.daemon.add_app_key(NODE, 1), '2 segments')
    check.config(Ask('AppKey Get', '80010000', '8002000000'))
    check.config(*MODELS, *REST)


def local_side(check: Check) -> None:
    """meshd's own elements get the key, bindings, a subscription, and publications to the label."""
    check.local('AppKey Add', '', '800300', lambda: check.daemon.add_app_key(1, 1))
    for element, models in ((1, (0x1001, 0x1003, 0x1000, 0x1002)), (2, (0x1001, 0x1003))):
        for model in models:
            check.local('Model App Bind', '803d' + little(element) + '0100' + little(model), '803e00')
    check.local('Model Subscription Add', '801b0100' + little(PUBLISHED) + '0110', '801f00')
    for model in (0x1001, 0x1003):
        check.local('Model Publication Virtual Address Set', '801a0100' + LABEL.hex() + '0100050001' + little(model), '801900')


def changed(check: Check) -> None:
    """Bindings and subscriptions change; messages that are left out."""
    check.config(CHANGED[0])
    check.unanswered('Level Get, unbound', '8205', 'delivered, not answered')
    check.config(*CHANGED[1:])
    for name, asked in LEFT_OUT:
        check.unanswered(f'{name} (left out)', asked, "meshd's client would wait in vain", is_dev=True)


def second_element(check: Check) -> None:
    """The second element switches alone, and both in a group."""
    check.config(Ask('Model App Bind, OnOff Server of 1202', '803d{second}0100{onoff}', '803e00'),
                 Ask('Model Subscription Add c001, of 1202', '801b{second}{group}{onoff}', '801f00'))
    check.app('OnOff Set 1 to 1202', NODE + 1, '820201T', '820401', src=NODE + 1)
    check.app('OnOff Set 0 to 1201', NODE, '820200T', '820400')
    check.app('OnOff Get to 1202', NODE + 1, '8201', '820401', src=NODE + 1)
    check.begin()
    asked = '820201' + check.tid()
    check.daemon.send(GROUP, 1, bytes.fromhex(asked))

    def answers() -> list[str]:
        return sorted(f'{m.src:04x} {m.payload.hex()}' for src in (NODE, NODE + 1) for m in check.messages(src) if m.dst != f'{PUBLISHED:04x}')
    check.until(lambda: len(answers()) == 2, 5)
    check.row('OnOff Set 1 to c001, both elements', asked, ', '.join(answers()), answers() == ['1201 820401', '1202 820401'])
    check.config(Ask('Model Subscription Delete All of 1202', '801d{second}{onoff}', '801f00'))


def reset(check: Check) -> None:
    """The node is reset, and is none any more."""
    check.config(Ask('Node Reset', '8049', '804a'))
    check.begin()
    check.daemon.send(NODE, 1, bytes.fromhex('8201'))
    check.pump(1.5)
    check.row('OnOff Get after the reset', '8201', '; '.join(' '.join(line.split(' ')[4:]) for line in check.lines('net')), not check.messages())
