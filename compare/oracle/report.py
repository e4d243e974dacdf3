"""The lives of a script, and the report of them: docs/FORMATS.md, "The report"."""
from .flash import Flash, PowerCut
from .node import Life
from .records import Records, provisioned
from .script import do_event

SLOTS_OF_PROVISIONING = 3


def _read_provisioning(words: list[str]) -> Records:
    unicast, elements, iv, flags, net, net_key, device_key = words
    return provisioned(int(unicast, 16), int(elements), int(iv, 16), int(flags, 16), int(net, 16),
                       bytes.fromhex(net_key), bytes.fromhex(device_key))


class Run:
    """A run, line by line. `life` is None before the first one, and where a life isn't on."""

    def __init__(self, provision: str, shows_octets: bool = True,
                 kind: type[Life] = Life) -> None:
        self.kind = kind
        self.records = _read_provisioning(provision.split()[1:])
        self.flash = Flash(self.records.snapshot_size, SLOTS_OF_PROVISIONING)
        self.shows_octets = shows_octets
        self.life: Life | None = None
        self.lives = 0
        self.lines: list[str] = []

    def take(self, line: str) -> None:
        """A line behind the first one; lines of a life that is over have no effect."""
        first, *words = line.split()
        if first == 'life':
            self.end()
            self._power_on()
        elif self.life and first == 'arm':
            self.flash.arm(int(words[0]), int(words[1], 16))
        elif self.life and first == 'b0':
            self._event(self.life, words)

    def _power_on(self) -> None:
        self.lives += 1
        self.flash.power_on()
        if self.records.was_reset:
            self.lines.append(f'life {self.lives} wasreset')
            return
        self.life = self.kind(self.records, self.flash)
        iv, (_, seq) = self.records.iv, self.records.mark
        state = 'p' if iv.in_progress else 'n'
        self.lines.append(f'life {self.lives} {iv.current:08x} {state} {iv.transmit:08x} {seq:06x}')

    def _event(self, life: Life, words: list[str]) -> None:
        try:
            do_event(life, words[0], words[1:])
        except PowerCut:
            self.end(f'cut {self.flash.calls}')

    def end(self, last: str = 'end') -> None:
        """Ends the life that is on, if one is."""
        if self.life is None:
            return
        for number, (kind, answer) in enumerate(self.life.entries, 1):
            self.lines.append(f'e {number} b0 {number} {kind} {answer}')
        for sent in self.life.lines:
            octets = f' {sent.octets}' if self.shows_octets and sent.octets else ''
            self.lines.append(f's b0 {sent.place} {sent.text}{octets}')
        self.lines.append(last)
        self.life = None

    def report(self) -> str:
        return ''.join(line + '\n' for line in self.lines)


def report_of(script: str, shows_octets: bool = True, kind: type[Life] = Life) -> str:
    """The report of a script, as `run --hex` writes it, or `run` without the octets; with a
    LowPowerLife as `lpn` does."""
    lines = [line for line in script.splitlines() if line and not line.startswith('#')]
    run = Run(lines[0], shows_octets, kind)
    for line in lines[1:]:
        run.take(line)
    run.end()
    return run.report()
