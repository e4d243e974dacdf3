"""How deep a function's own stack is, at its deepest and where it calls, from its instructions alone."""
import re
import subprocess
from bisect import bisect_right
from dataclasses import dataclass, field
from pathlib import Path

from look.ends import NO_FILE, Fault

from .steps import PROCESSORS, Goes, Processor, Step

MOST_RISES = 16
HEAD = re.compile(r'^([0-9a-f]+) <(.*)>:$')
LINE = re.compile(r'^ *([0-9a-f]+):\t(\S+)(?:\s+(.*))?$')
# What a linker makes for each function of a shared library.
STUB = '@plt'
DATA = ('.word', '.short', '.byte', '.inst', '...', '(bad)')


@dataclass
class Code:
    """The instructions of a program, by their places."""
    processor: Processor
    steps: dict[int, Step] = field(default_factory=dict)
    after: dict[int, int] = field(default_factory=dict)
    names: dict[int, str] = field(default_factory=dict)
    """The functions by where they begin."""
    padding: set[int] = field(default_factory=set)
    """Places of instructions that do nothing, between those that do."""


@dataclass
class Function:
    """What a function takes of the stack below where its caller had it."""
    name: str
    deepest: int = 0
    calls: dict[tuple[int | str, bool], int] = field(default_factory=dict)
    """The depth at each call, by what is called, and whether it comes back; a name for what a linker puts there."""
    unbounded: set[str] = field(default_factory=set)
    """Why nothing can be said."""


def listing(words: list[str]) -> str:
    """What a command of binutils prints."""
    try:
        return subprocess.run(words, capture_output=True, text=True, errors='replace', check=True).stdout
    except (OSError, subprocess.CalledProcessError) as error:
        raise Fault(NO_FILE, f'{words[0]}: {error}') from error


def code_of(text: str) -> Code:
    """The instructions that objdump prints of a linked program."""
    form = re.search(r'file format (\S+)', text)
    if not form or form[1] not in PROCESSORS:
        raise Fault(NO_FILE, f'no program of a processor that is known here: {form[1] if form else "no format"}')
    code, last, before = Code(PROCESSORS[form[1]]), None, []
    for line in text.splitlines():
        if head := HEAD.match(line):
            code.names[int(head[1], 16)] = head[2]
            before = []
        elif (found := LINE.match(line)) and found[2] not in DATA:
            at, word, operands = int(found[1], 16), found[2], found[3] or ''
            code.steps[at] = code.processor.step(word, operands, before)
            before.append(f'{word} {operands}'.strip())
            if word.startswith('nop') or 'nop' in operands or (word, operands) == ('xchg', '%ax,%ax') or word in ('int3', 'udf'):
                code.padding.add(at)
            if last is not None:
                code.after[last] = at
            last = at
        elif line.startswith('Disassembly of section'):
            last = None
    return code


@dataclass
class Way:
    """A way through a function, as far as it came."""
    at: int | None
    depth: int = 0
    known: dict[str, int] = field(default_factory=dict)
    """The depths of the places that registers hold."""
    guard: str = ''
    """The register with which the end of the stack was compared."""
    is_past: bool = False
    """The loop for which it was may go further down by a turn."""


class Walk:
    """The ways through a function from its first instruction on."""

    def __init__(self, code: Code, start: int, ends: int) -> None:
        self.code, self.start, self.ends = code, start, ends
        self.made = Function(code.names[start])
        self.depths: dict[int, int] = {}
        self.rises: dict[int, int] = {}
        self.ways = [Way(start)]
        self.switched: Way | None = None

    def function(self) -> Function:
        """What the function takes. A switch goes to each place of it that nothing else goes to."""
        self.go()
        while self.switched and (behind := self.unreached()) is not None:
            self.ways.append(Way(behind, self.switched.depth, self.switched.known))
            self.go()
        return self.made

    def unreached(self) -> int | None:
        """The first place of the function that no way went through, but for those that do nothing."""
        at: int | None = self.start
        while at is not None and at < self.ends:
            if at not in self.depths and at not in self.code.padding:
                return at
            at = self.code.after.get(at)
        return None

    def go(self) -> None:
        """Follows each way to its end, or to where another one was as deep."""
        while self.ways:
            way = self.ways.pop()
            while way.at is not None and self.depths.get(way.at, way.depth - 1) < way.depth:
                self.rises[way.at] = self.rises.get(way.at, 0) + 1
                if way.at not in self.code.steps or self.rises[way.at] > MOST_RISES:
                    self.made.unbounded.add('a loop takes stack' if way.at in self.code.steps else 'goes to no instruction')
                    break
                self.depths[way.at] = way.depth
                step = self.code.steps[way.at]
                self.move(way, step)
                self.made.deepest = max(self.made.deepest, way.depth)
                self.go_on(way, step)

    def move(self, way: Way, step: Step) -> None:
        """Takes an instruction's part in the stack, and in what registers hold of it."""
        if step.is_unknown or (step.back and step.back[0] not in way.known):
            self.made.unbounded.add('the stack ends where isn\'t known')
        elif step.back:
            way.depth = way.known[step.back[0]] + step.back[1]
        way.depth += step.down + max(step.align - self.code.processor.aligned, 0)
        way.known = self.known_behind(way, step)
        if step.guard:
            way.guard, way.is_past = step.guard, step.is_past

    def known_behind(self, way: Way, step: Step) -> dict[str, int]:
        """The depths of the places that registers hold behind an instruction."""
        changed = way.known
        if step.further and step.further[0] in changed:
            changed = {**changed, step.further[0]: changed[step.further[0]] + step.further[1]}
        if step.copy:
            to, place, down = step.copy
            changed = {name: depth for name, depth in changed.items() if name != to} | ({to: changed[place] + down} if place in changed else {})
        if any(name in changed for name in step.lost):
            changed = {name: depth for name, depth in changed.items() if name not in step.lost}
        if step.goes in (Goes.CALL, Goes.CALL_UNKNOWN):
            changed = {name: depth for name, depth in changed.items() if name in self.code.processor.kept}
        return {**changed, step.keep[0]: way.depth + step.keep[1]} if step.keep else changed

    def go_on(self, way: Way, step: Step) -> None:
        """Goes to the next instruction, and leaves the other ways for later."""
        at, behind = way.at, self.behind(way.at, step)
        way.at = behind
        match step.goes:
            case Goes.ON:
                return
            case Goes.CALL:
                self.call(step, way.depth, True)
            case Goes.CALL_UNKNOWN:
                self.made.unbounded.add('calls what isn\'t known')
            case Goes.BRANCH if way.guard and step.target <= at:
                self.end_loop(way, step)
            case Goes.BRANCH | Goes.JUMP:
                self.jump(step, way)
            case Goes.SWITCH:
                if not self.switched or self.switched.depth < way.depth:
                    self.switched = Way(None, way.depth, way.known)
            case Goes.JUMP_UNKNOWN:
                self.made.unbounded.add('goes to what isn\'t known')
        way.guard = ''
        if step.goes in (Goes.JUMP, Goes.END, Goes.SWITCH, Goes.JUMP_UNKNOWN):
            way.at = None

    def end_loop(self, way: Way, step: Step) -> None:
        """A loop went down to the place in a register, or past it by a part of a turn."""
        if way.guard not in way.known:
            self.made.unbounded.add('a loop takes stack')
        turn = way.depth - self.depths.get(step.target, way.depth) if way.is_past else 0
        way.depth = way.known.get(way.guard, way.depth)
        self.made.deepest = max(self.made.deepest, way.depth + turn)

    def behind(self, at: int, step: Step) -> int | None:
        """The next instruction. Nothing comes behind a call that ends a function, and nothing from what fills its room up."""
        behind = self.code.after.get(at)
        is_last = behind in self.code.names and (step.goes in (Goes.CALL, Goes.CALL_UNKNOWN) or at in self.code.padding)
        return None if is_last else behind

    def call(self, step: Step, depth: int, comes_back: bool) -> None:
        """Notes a call, or a jump to another function, at a depth."""
        is_here = step.target in self.code.names and STUB not in self.code.names[step.target]
        called = (step.target if is_here else step.named.removesuffix(STUB), comes_back)
        self.made.calls[called] = max(self.made.calls.get(called, depth), depth)

    def jump(self, step: Step, way: Way) -> None:
        """Goes to a place of this function, or of another one, or calls that without coming back."""
        if step.target not in self.code.steps or (step.target in self.code.names and step.target != self.start):
            self.call(step, way.depth, False)
        else:
            self.ways.append(Way(step.target, way.depth, way.known))


def functions(program: Path, objdump: str) -> tuple[Code, dict[int, Function]]:
    """Each function of a linked program, by where it begins."""
    code = code_of(listing([objdump, '-d', '-w', '--no-show-raw-insn', str(program)]))
    starts = sorted(code.names)
    made = {}
    for start in (it for it in starts if STUB not in code.names[it]):
        behind = bisect_right(starts, start)
        ends = starts[behind] if behind < len(starts) else max(code.steps, default=0) + 1
        made[start] = Walk(code, start, ends).function()
    return code, made
