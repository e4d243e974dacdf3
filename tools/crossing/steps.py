"""What an instruction does to the stack, and where it goes on, as objdump writes it for three processors."""
import re
from collections.abc import Callable
from dataclasses import dataclass
from enum import Enum, auto
from functools import lru_cache


class Goes(Enum):
    """Where a program goes on behind an instruction."""
    ON = auto()
    CALL = auto()
    JUMP = auto()
    BRANCH = auto()
    END = auto()
    SWITCH = auto()
    """To a place of a table of this function."""
    CALL_UNKNOWN = auto()
    JUMP_UNKNOWN = auto()


@dataclass(frozen=True)
class Step:
    """What an instruction does. The end of the stack is where its lowest octet is; a register may hold a place near it."""
    back: tuple[str, int] | None = None
    """The end becomes the place in this register, less so many octets: before all that follows."""
    down: int = 0
    """The end goes so many octets down."""
    align: int = 0
    """The end goes down to a multiple of this."""
    keep: tuple[str, int] | None = None
    """The register gets the place so many octets below the end."""
    further: tuple[str, int] | None = None
    """The place in the register goes so many octets down."""
    copy: tuple[str, str, int] | None = None
    """The first register gets the place in the second, so many octets further down; what isn't known where that isn't."""
    lost: tuple[str, ...] = ()
    """The registers get other values."""
    guard: str = ''
    """The end is compared with the place in the register, for a loop that goes down to it."""
    is_past: bool = False
    """The last turn of that loop may go further down than the place."""
    goes: Goes = Goes.ON
    target: int | None = None
    named: str = ''
    """What objdump calls the target."""
    is_unknown: bool = False
    """The end becomes what isn't known."""


ON, END, UNKNOWN = Step(), Step(goes=Goes.END), Step(is_unknown=True)


def _to(goes: Goes, operands: str) -> Step:
    """A step to the place that the last operand names."""
    place, _, name = operands.partition('<')
    return Step(goes=goes, target=int(place.split(',')[-1], 16), named=name.removesuffix('>'))


def _first(rules: list[tuple[re.Pattern, Callable[[re.Match], Step]]], line: str) -> Step | None:
    """What the first rule says that the whole line is of."""
    for pattern, made in rules:
        if found := pattern.fullmatch(line):
            return made(found)
    return None


def _rules(*rows: tuple[str, Callable[[re.Match], Step]]) -> list[tuple[re.Pattern, Callable[[re.Match], Step]]]:
    return [(re.compile(pattern), made) for pattern, made in rows]


# x86-64, in the syntax of AT&T

# The names of the parts of each register but `rsp`.
PARTS_X86 = {**{f'r{it}x': f'r{it}x e{it}x {it}x {it}l {it}h' for it in 'abcd'}, **{f'r{it}': f'r{it} e{it} {it} {it}l' for it in ('si', 'di', 'bp')},
             **{f'r{it}': f'r{it} r{it}d r{it}w r{it}b' for it in range(8, 16)}}
WHOLE_X86 = {part: name for name, parts in PARTS_X86.items() for part in parts.split()}
WHOLE = '|'.join(PARTS_X86)


def _whole(name: str) -> tuple[str, ...]:
    """The register that has this part."""
    return (WHOLE_X86[name],) if name in WHOLE_X86 else ()


def _signed(number: str) -> int:
    value = int(number or '0', 16)
    return value - 2 ** 64 if value >= 2 ** 63 else value


X86 = _rules(
    (r'push.*', lambda _: Step(down=8)),
    (r'popf.*', lambda _: Step(down=-8)),
    (r'popq? %rsp', lambda _: UNKNOWN),
    (r'popq? %(\w+)', lambda it: Step(down=-8, lost=_whole(it[1]))),
    (r'sub \$(\w+),%rsp', lambda it: Step(down=_signed(it[1]))),
    (r'add \$(\w+),%rsp', lambda it: Step(down=-_signed(it[1]))),
    (r'and \$(\w+),%rsp', lambda it: Step(align=-_signed(it[1]))),
    (r'lea (-?)(\w*)\(%rsp\),%rsp', lambda it: Step(down=int(it[2] or '0', 16) * (1 if it[1] else -1))),
    (rf'lea (-?)(\w*)\(%({WHOLE})\),%rsp', lambda it: Step(back=(it[3], int(it[2] or '0', 16) * (1 if it[1] else -1)))),
    (rf'mov %({WHOLE}),%rsp', lambda it: Step(back=(it[1], 0))),
    (rf'mov %rsp,%({WHOLE})', lambda it: Step(keep=(it[1], 0))),
    (rf'lea (-?)(\w*)\(%rsp\),%({WHOLE})', lambda it: Step(keep=(it[3], int(it[2] or '0', 16) * (1 if it[1] else -1)))),
    (rf'sub \$(\w+),%({WHOLE})', lambda it: Step(further=(it[2], _signed(it[1])))),
    (r'leave', lambda _: Step(back=('rbp', 0), down=-8, lost=('rbp',))),
    (rf'cmp %({WHOLE}),%rsp', lambda it: Step(guard=it[1])),
    (rf'cmp %rsp,%({WHOLE})', lambda it: Step(guard=it[1], is_past=True)),
    (r'call (\w+(?: <.*)?)', lambda it: _to(Goes.CALL, it[1])),
    (r'call \*.*# \w+ <([^>]*)@.*', lambda it: Step(goes=Goes.CALL, named=it[1])),
    (r'call \*.*', lambda _: Step(goes=Goes.CALL_UNKNOWN)),
    (r'jmp (\w+(?: <.*)?)', lambda it: _to(Goes.JUMP, it[1])),
    (r'jmp \*.*# \w+ <([^>]*)@.*', lambda it: Step(goes=Goes.JUMP, named=it[1])),
    (r'j[a-z]+ (\w+(?: <.*)?)', lambda it: _to(Goes.BRANCH, it[1])),
    (r'(?:ret|ud2|hlt|int3).*', lambda _: END),
    (r'(?:cmp|test)\w* .*', lambda _: ON),
    (r'(?:.*,|xchg )%rsp(?:,.*)?|enter.*', lambda _: UNKNOWN),
    (r'.*[ ,]%(\w+)', lambda it: Step(lost=_whole(it[1]))))
OF_STACK_X86 = re.compile(rf'rsp|^(?:push|pop|call|j|ret|ud2|hlt|int3|leave|enter)|^sub \$\w+,%(?:{WHOLE})$')
CHANGES_X86 = re.compile(r'(?!cmp|test).*[ ,]%(\w+)')
PREFIXES = re.compile(r'(?:(?:notrack|bnd|lock|rep\w*|data16|cs|addr32)\s+)+')


def _is_of_table(register: str, before: list[str]) -> bool:
    """Whether a register has the sum of a place and of what a table has for it, by the lines before."""
    place = next((it for it in range(len(before) - 1, -1, -1) if before[it].endswith(f',%{register}')), None)
    added = place is not None and re.fullmatch(rf'add %(\w+),%{register}', before[place])
    for name in (added[1], register) if added else ():
        made = next((it for it in reversed(before[:place]) if it.endswith(f',%{name}')), '')
        if re.match(r'movslq (?:0x0)?\(%\w+,%\w+,4\),', made):
            return True
    return False


def x86_64(word: str, operands: str, before: list[str]) -> Step:
    """A step of x86-64; `before` has the lines before it in its function."""
    line = f'{word} {operands}'.strip()
    if line.startswith(('jmp *%', 'notrack jmp *%')):
        return Step(goes=Goes.SWITCH if _is_of_table(line.partition('%')[2], before) else Goes.JUMP_UNKNOWN)
    return _plain_x86(line)


@lru_cache(maxsize=None)
def _plain_x86(line: str) -> Step:
    """A step that no line before it has a part in."""
    line = PREFIXES.sub('', line)
    if not OF_STACK_X86.search(line):
        changed = CHANGES_X86.fullmatch(line)
        return Step(lost=_whole(changed[1])) if changed else ON
    if line.startswith('jmp *') and '#' not in line:
        return Step(goes=Goes.SWITCH if re.fullmatch(r'jmp \*0x\w+\(,%\w+,8\)', line) else Goes.JUMP_UNKNOWN)
    return _first(X86, line) or ON


# Thumb, as a Cortex-M has it

CONDITIONS = 'eq|ne|cs|hs|cc|lo|mi|pl|vs|vc|hi|ls|ge|lt|gt|le'


def _count(listed: str) -> int:
    """How many registers a list has."""
    count = 0
    for it in listed.split(','):
        first, _, last = it.strip().partition('-')
        count += int(last[1:]) - int(first[1:]) + 1 if last else 1
    return count


def _popped(found: re.Match) -> Step:
    return END if 'pc' in found[1] else Step(down=-4 * _count(found[1]))


THUMB = _rules(
    (r'(?:push(?:\.w)?|stmdb(?:\.w)? sp!,) \{(.*)\}', lambda it: Step(down=4 * _count(it[1]))),
    (r'(?:pop(?:\.w)?|ldmia(?:\.w)? sp!,) \{(.*)\}', _popped),
    (r'vpush \{(.*)\}', lambda it: Step(down=8 * _count(it[1]))),
    (r'vpop \{(.*)\}', lambda it: Step(down=-8 * _count(it[1]))),
    (r'str(?:\.w)? \w+, \[sp, #-(\d+)\]!', lambda it: Step(down=int(it[1]))),
    (r'strd \w+, \w+, \[sp, #-(\d+)\]!', lambda it: Step(down=int(it[1]))),
    (r'ldr(?:\.w)? pc, \[sp\], #(\d+)', lambda _: END),
    (r'(?:ldr(?:\.w)? \w+|ldrd \w+, \w+), \[sp\], #(\d+)', lambda it: Step(down=-int(it[1]))),
    (r'sub[ws]?(?:\.w)? sp,(?: sp,)? #(\d+)', lambda it: Step(down=int(it[1]))),
    (r'add[ws]?(?:\.w)? sp,(?: sp,)? #(\d+)', lambda it: Step(down=-int(it[1]))),
    (r'mov sp, (\w+)', lambda it: Step(back=(it[1], 0))),
    (r'sub[ws]?(?:\.w)? sp, (r\d+), #(\d+)', lambda it: Step(back=(it[1], int(it[2])))),
    (r'mov (r\d+), sp', lambda it: Step(keep=(it[1], 0))),
    (r'add[ws]?(?:\.w)? (r\d+), sp, #(\d+)', lambda it: Step(keep=(it[1], -int(it[2])))),
    (r'sub[ws]?(?:\.w)? (r\d+), sp, #(\d+)', lambda it: Step(keep=(it[1], int(it[2])))),
    (r'sub[ws]?(?:\.w)? (r\d+), (r\d+), #(\d+)', lambda it: Step(copy=(it[1], it[2], int(it[3])))),
    (r'bfc (r\d+), #0, #(\d+)', lambda it: Step(further=(it[1], 2 ** int(it[2]) - 4))),
    (r'bic(?:\.w)? (r\d+), \1, #(\d+)', lambda it: Step(further=(it[1], int(it[2])))),
    (r'bl ([0-9a-f]+.*)', lambda it: _to(Goes.CALL, it[1])),
    (r'blx ([0-9a-f]+ <.*)', lambda it: _to(Goes.CALL, it[1])),
    (r'blx .*', lambda _: Step(goes=Goes.CALL_UNKNOWN)),
    (r'b(?:\.[nw])? ([0-9a-f]+.*)', lambda it: _to(Goes.JUMP, it[1])),
    (rf'b(?:{CONDITIONS})(?:\.[nw])? ([0-9a-f]+.*)', lambda it: _to(Goes.BRANCH, it[1])),
    (r'cbn?z \w+, ([0-9a-f]+.*)', lambda it: _to(Goes.BRANCH, it[1])),
    (r'bx lr|udf.*', lambda _: END),
    (r'tb[bh] .*|ldr(?:\.w)? pc, \[pc.*', lambda _: Step(goes=Goes.SWITCH)),
    (r'bx \w+|mov pc, .*|ldr(?:\.w)? pc, .*', lambda _: Step(goes=Goes.JUMP_UNKNOWN)),
    # A return on a condition: what goes on has the stack as it was.
    (rf'bx(?:{CONDITIONS}) lr|(?:pop|ldmia)(?:{CONDITIONS})(?:\.w)? .*pc\}}|add(?:{CONDITIONS})(?:\.w)? sp,(?: sp,)? #\d+', lambda _: ON),
    (r'(?:cmp|tst|str|stm|vstr|vstm)[\w.]* .*|ldm[\w.]* sp, .*', lambda _: ON),
    (r'[\w.]+ sp(?:!?,.*)?|[\w.]+ .*\[sp[^]]*\]!|[\w.]+ .*\[sp\], .*', lambda _: UNKNOWN),
    (r'ldrd (r\d+), (r\d+), .*', lambda it: Step(lost=(it[1], it[2]))),
    (r'[\w.]+ (r\d+)(?:,.*)?', lambda it: Step(lost=(it[1],))))


def thumb(word: str, operands: str, _before: list[str]) -> Step:
    """A step of a Cortex-M."""
    return _first(THUMB, f'{word} {re.sub(" *[@;] .*", "", operands)}'.strip()) or ON


# AArch64


def _shifted(number: str, shift: str | None) -> int:
    return int(number, 0) << int(shift or 0)


A64 = _rules(
    (r'(?:stp \w+, \w+|str \w+), \[sp, #-(\w+)\]!', lambda it: Step(down=int(it[1], 0))),
    (r'(?:ldp \w+, \w+|ldr \w+), \[sp\], #(\w+)', lambda it: Step(down=-int(it[1], 0))),
    (r'sub sp, sp, #(\w+)(?:, lsl #(\d+))?', lambda it: Step(down=_shifted(it[1], it[2]))),
    (r'add sp, sp, #(\w+)(?:, lsl #(\d+))?', lambda it: Step(down=-_shifted(it[1], it[2]))),
    (r'mov sp, (x\d+)', lambda it: Step(back=(it[1], 0))),
    (r'sub sp, (x\d+), #(\w+)(?:, lsl #(\d+))?', lambda it: Step(back=(it[1], _shifted(it[2], it[3])))),
    (r'and sp, (x\d+), #0x(f+[0-9a-f]*0+)', lambda it: Step(back=(it[1], 0), align=2 ** 64 - int(it[2], 16))),
    (r'mov (x\d+), sp', lambda it: Step(keep=(it[1], 0))),
    (r'add (x\d+), sp, #(\w+)(?:, lsl #(\d+))?', lambda it: Step(keep=(it[1], -_shifted(it[2], it[3])))),
    (r'sub (x\d+), sp, #(\w+)(?:, lsl #(\d+))?', lambda it: Step(keep=(it[1], _shifted(it[2], it[3])))),
    (r'sub (x\d+), \1, #(\w+)(?:, lsl #(\d+))?', lambda it: Step(further=(it[1], _shifted(it[2], it[3])))),
    (r'cmp sp, (x\d+)', lambda it: Step(guard=it[1])),
    (r'bl ([0-9a-f]+.*)', lambda it: _to(Goes.CALL, it[1])),
    (r'blr .*', lambda _: Step(goes=Goes.CALL_UNKNOWN)),
    (r'b ([0-9a-f]+.*)', lambda it: _to(Goes.JUMP, it[1])),
    (r'b\.\w+ ([0-9a-f]+.*)', lambda it: _to(Goes.BRANCH, it[1])),
    (r'(?:cbn?z \w+|tbn?z \w+, #\w+), ([0-9a-f]+.*)', lambda it: _to(Goes.BRANCH, it[1])),
    (r'ret|brk .*|udf .*', lambda _: END),
    (r'(?:cmp|cmn|tst|str|stp|stur)\w* .*', lambda _: ON),
    (r'\w+ sp(?:,.*)?|\w+ .*\[sp[^]]*\]!|\w+ .*\[sp\], .*', lambda _: UNKNOWN),
    (r'ldp (x\d+), (x\d+), .*', lambda it: Step(lost=(it[1], it[2]))),
    (r'\w+ [xw](\d+)(?:,.*)?', lambda it: Step(lost=(f'x{it[1]}',))))


def aarch64(word: str, operands: str, before: list[str]) -> Step:
    """A step of AArch64; `before` has the lines before it in its function."""
    line = f'{word} {re.sub(" *// .*", "", operands)}'.strip()
    if word == 'br':
        table = any(re.match(r'adr \w+,', it) for it in before[-6:])
        return Step(goes=Goes.SWITCH if table else Goes.JUMP_UNKNOWN)
    return _first(A64, line) or ON


@dataclass(frozen=True)
class Processor:
    """How a processor's instructions are read."""
    step: Callable[[str, str, list[str]], Step]
    returns: int
    """The octets of stack that a call takes, for where it goes on."""
    aligned: int
    """The end of the stack is a multiple of this."""
    kept: frozenset[str]
    """The registers that a call leaves as they were."""


PROCESSORS = {'elf64-x86-64': Processor(x86_64, 8, 8, frozenset({'rbx', 'rbp', 'r12', 'r13', 'r14', 'r15'})),
              'elf32-littlearm': Processor(thumb, 0, 4, frozenset(f'r{it}' for it in range(4, 12))),
              'elf64-littleaarch64': Processor(aarch64, 0, 16, frozenset(f'x{it}' for it in range(19, 30)))}
