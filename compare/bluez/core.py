"""The check's tools: a step is asked, what answers it is awaited, and a row is kept of it."""
import time
from collections.abc import Callable
from dataclasses import dataclass, field
from functools import partial
from pathlib import Path
from typing import NamedTuple

from air.process import Identity, LiveNode, init
from air.reports import delivered, drawn
from air.unit import UnitBridge, UnitSocket
from daemon import Daemon, Received

NODE = 0x1201
ELEMENTS = 2
DEV_KEY = '9d6dd0e96eb25dc19a40ed9914f8f03f'
# a sample of the standard (8.): its virtual address is b529
LABEL = bytes.fromhex('0073e7e4d8b9440faf8415df4c56c0e1')
UUID = bytes.fromhex('0a0b0c0d0e0f40118012131415161718')
GROUP, OTHER_GROUP, PUBLISHED = 0xc001, 0xc002, 0xc010
ONOFF, LEVEL = 0x1000, 0x1002
# What stands for 96 hours in meshd, and 100 hours in ticks of the node
MESHD_HOURS = 8.0
NODE_HOURS = 36_000_000
ANSWERS_IN = 8.0


class Ask(NamedTuple):
    """A step: what is asked, in hexadecimal, and how the answer begins. Fields in braces are those of `FIELDS`."""
    step: str
    asked: str
    due: str
    note: str = ''


def little(number: int, width: int = 2) -> str:
    """A number as messages have it, the low octet first."""
    return number.to_bytes(width, 'little').hex()


FIELDS = {'first': little(NODE), 'second': little(NODE + 1), 'group': little(GROUP), 'other': little(OTHER_GROUP), 'published': little(PUBLISHED),
          'label': LABEL.hex(), 'onoff': little(ONOFF), 'level': little(LEVEL)}


@dataclass(frozen=True)
class Row:
    """A row of the table."""
    step: str
    asked: str
    answered: str
    is_due: bool
    note: str = ''

    def cells(self) -> str:
        """The row in a table of Markdown."""
        words = (self.step, self.asked, self.answered, 'yes' if self.is_due else '**no**', self.note)
        return '| ' + ' | '.join(word.replace('|', '/') for word in words) + ' |'


@dataclass
class Check:
    """meshd, the node, and the rows so far."""
    folder: Path
    meshnoded: Path
    audit: Path
    shim: Path
    rows: list[Row] = field(default_factory=list)
    keys: list[bytes] = field(default_factory=list)
    began: float = field(default_factory=time.monotonic)
    part: str = ''
    _tid: int = 0

    def __post_init__(self) -> None:
        self.over = UnitBridge(LiveNode(self.meshnoded, self.folder / 'lamp.node'), UnitSocket(self.folder / 'unit'),
                               open(self.folder / 'check.log', 'w', encoding='utf-8'))
        self.daemon = Daemon(self.folder, self.shim, self.over, MESHD_HOURS)
        self.begin()

    def made(self, iv_index: int, flags: int) -> None:
        """Makes the node, under the network key of meshd."""
        self.keys.append(self.daemon.subnet(0))
        init(self.meshnoded, self.folder / 'lamp.node', Identity(NODE, self.keys[0].hex(), DEV_KEY, iv_index, ELEMENTS, flags))
        self.over.power_on()

    # What came since the step began

    def begin(self) -> None:
        """A step begins."""
        self._message, self._line, self._log = len(self.daemon.received), len(self.over.node.report), len(self.daemon.log_text())
        self._came = len(self.over.came)

    def messages(self, src: int = NODE) -> list[Received]:
        """Messages of this source to the application."""
        return [message for message in self.daemon.received[self._message:] if message.src == src]

    def lines(self, word: str = '') -> list[str]:
        """Lines of the node's report with this word."""
        return [line for line in self.over.node.report[self._line:] if f' {word} ' in f'{line} ' or not word]

    def delivered(self) -> list[bytes]:
        """Payloads that were delivered to the node."""
        return [payload for line in self.lines() if (payload := delivered(line)) is not None]

    def said(self) -> str:
        """What meshd logged."""
        return self.daemon.log_text()[self._log:]

    def beacon(self) -> str:
        """The last beacon of meshd that came to the node."""
        return next((heard.octets.hex() for heard in reversed(self.over.came) if heard.kind == 0x2b), '')

    def newest(self) -> tuple[int, int]:
        """The greatest (IV Index, SEQ) of the node."""
        return max(filter(None, map(drawn, self.over.node.report)), default=(0, 0))

    # Rows

    def row(self, step: str, asked: str, answered: str, is_due: object, note: str = '') -> None:
        """Keeps a row."""
        self.rows.append(Row(step, asked, answered, bool(is_due), note))
        self.over.note(f'ROW {self.rows[-1].cells()}')
        print(f'{time.monotonic() - self.began:6.1f} {"ok " if is_due else "BAD"} {step} | {asked} | {answered} | {note}', flush=True)

    def until(self, is_done: Callable[[], object], seconds: float) -> bool:
        """Whether it was done before so many seconds passed."""
        return self.daemon.until(is_done, seconds)

    def pump(self, seconds: float) -> None:
        """Lets so many seconds pass."""
        self.daemon.pump(seconds)

    def quiet(self, still: float = 1.5, seconds: float = 90) -> bool:
        """Whether meshd sent nothing for so long. Its queue lets one PDU out each 100 ms."""
        mark = [len(self.over.came), time.monotonic()]

        def is_still() -> bool:
            if len(self.over.came) != mark[0]:
                mark[:] = [len(self.over.came), time.monotonic()]
            return time.monotonic() - mark[1] >= still
        return self.until(is_still, seconds)

    def tid(self) -> str:
        """The next transaction."""
        self._tid = (self._tid + 1) % 256
        return f'{self._tid:02x}'

    # Steps

    def answer(self, step: str, asked: str, due: str, send: Callable[[], object], note: str = '', src: int = NODE,
               is_dev: bool = False) -> bytes:
        """Sends, and awaits an answer of this source that begins so; answers it, or nothing."""
        self.begin()
        send()

        def fits() -> list[Received]:
            return [message for message in self.messages(src) if message.payload.hex().startswith(due) and (message.key == 'dev') == is_dev
                    and message.dst != f'{PUBLISHED:04x}']
        self.until(fits, ANSWERS_IN)
        self.pump(0.25)
        found, others = fits(), '/'.join(message.payload.hex() for message in self.messages(src))
        times = f' ({len(found)} times)' if len(found) > 1 else ''
        self.row(step, asked, found[0].payload.hex() if found else others or 'nothing', found, note + times)
        return found[0].payload if found else b''

    def config(self, *asks: Ask, net: int = 0) -> bytes:
        """Configuration messages to the node, each with its Status."""
        found = b''
        for ask in asks:
            asked, due = ask.asked.format(**FIELDS), ask.due.format(**FIELDS)
            found = self.answer(ask.step, asked, due, partial(self.daemon.dev_send, NODE, bytes.fromhex(asked), net), ask.note, is_dev=True)
        return found

    def by_meshd(self, step: str, due: str, send: Callable[[], object], note: str = '') -> bytes:
        """A configuration message that meshd makes itself."""
        return self.answer(step, '(by meshd)', due, send, note, is_dev=True)

    def app(self, step: str, dst: int, asked: str, due: str, note: str = '', app: int = 1, element: int = 0, src: int = NODE) -> bytes:
        """A message under an application key with its Status. `T` in it stands for the next transaction."""
        octets = asked.replace('T', self.tid())
        return self.answer(step, octets, due, lambda: self.daemon.send(dst, app, bytes.fromhex(octets), element), note, src)

    def to_label(self, step: str, model: int, asked: str, due: str) -> None:
        """The same to the label, to which a model of meshd publishes."""
        octets = asked.replace('T', self.tid())
        self.answer(step, octets, due, lambda: self.daemon.publish(model, bytes.fromhex(octets)))

    def unanswered(self, step: str, asked: str, note: str = '', is_dev: bool = False) -> None:
        """A message that is delivered and not answered. `T` as in `app`."""
        octets = bytes.fromhex(asked.format(**FIELDS).replace('T', self.tid()))
        self.begin()
        if is_dev:
            self.daemon.dev_send(NODE, octets)
        else:
            self.daemon.send(NODE, 1, octets)
        self.until(self.delivered, ANSWERS_IN)
        self.pump(0.5)
        answers = [message.payload.hex() for message in self.messages() if message.dst != f'{PUBLISHED:04x}']
        found = self.delivered()
        self.row(step, octets.hex(), 'delivered' if found else 'nothing', octets in found and not answers, note or 'no answer is due')

    def local(self, step: str, asked: str, due: str, send: Callable[[], object] | None = None) -> bytes:
        """The same to meshd's own Configuration Server; a row is kept where it fails alone."""
        self.begin()
        octets = bytes.fromhex(asked.format(**FIELDS))
        (send or (lambda: self.daemon.dev_send(1, octets)))()

        def fits() -> list[Received]:
            return [message for message in self.messages(1) if message.payload.hex().startswith(due)]
        if not self.until(fits, ANSWERS_IN):
            self.row(f'{step}, of meshd itself', octets.hex(), '/'.join(m.payload.hex() for m in self.messages(1)) or 'nothing', False)
            return b''
        return fits()[0].payload

    def event(self, step: str, asked: str, line: str, seconds: float, note: str = '') -> bool:
        """Awaits a line of the node's report with these words."""
        is_there = self.until(lambda: self.lines(line), seconds)
        self.row(step, asked or self.beacon(), line if is_there else 'nothing', is_there, note)
        return is_there

    def logged(self, step: str, asked: str, text: str, seconds: float, note: str = '') -> bool:
        """Awaits a text in meshd's log."""
        is_there = self.until(lambda: text in self.said(), seconds)
        self.row(step, asked, f'log: {text}' if is_there else 'nothing', is_there, note)
        return is_there

    def replayed(self, step: str, pdus: list[str]) -> None:
        """Old network PDUs come to the node again: none of them is accepted, and none answered."""
        self.begin()
        before = len(self.over.answered)
        for begin in range(0, len(pdus), 50):
            self.over.tell(*(f'net {octets}' for octets in pdus[begin:begin + 50]))
        words = [word for _, word in self.over.answered[before:]]
        sent = self.lines('msg') + self.lines('long')
        self.pump(0.5)
        counts = ', '.join(f'{word} {words.count(word)}' for word in sorted(set(words)))
        self.row(step, f'{len(pdus)} network PDUs', counts or 'nothing', not {'delivered', 'control', 'waiting'} & set(words) and not sent)

    def accepted_pdus(self) -> list[str]:
        """The network PDUs of meshd that the node accepted."""
        return [octets for octets, word in self.over.answered if word in ('delivered', 'control')]
