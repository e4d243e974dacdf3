"""A module that the toolchain made for x86-64 Linux, as one for a Linux whose layouts are the same.

Pointers and sizes have 64 bits there, and octets the same order, so no type changes. What does: the
names of processor and layout, a number of the kernel, `main`, and how an `i32` comes to C.
"""
import re

from look.ends import Fault

from .targets import NOT_BUILT

FUTEX = {'x86_64': 202, 'riscv64': 98}
OF_X86 = 'target-cpu|target-features|tune-cpu|probe-stack|stack-probe-size'
# It asks the processor what it can do, goes to `run`, or else to `refuse`, which tells of it.
MAIN = re.compile(r'^define i32 @main\(\)(?P<marks>[^{\n]*)\{\nstart:\n'
                  r'(?P<first>  \S+ = call i64 @__sysv_signal\(i32 13, i64 1\)\n)'
                  r'(?P<asks>(?:  .*\n)+)'
                  r'  br i1 %\w+, label %run, label %refuse\n\n'
                  r'(?P<run>run:.*\n(?:  .*\n)+)\nrefuse:.*\n(?:  .*\n)+\}\n', re.M)
# A function that hands the number of a system call on, which is what it is called with first.
HANDS_ON = re.compile(r'^define [^@\n]*@(?P<name>"[^"\n]+"|[\w.]+)\(i64(?: noundef)? %a0,[^\n]*\{\nstart:\n'
                      r'  \S+ = call [^@\n]*@syscall\(i64(?: noundef)? %a0,', re.M)


def head(module: str, said: str) -> str:
    """With layout and triple of an empty module that clang made for the target."""
    for word in ('datalayout', 'triple'):
        line = re.search(rf'^target {word} = .*$', said, re.M)
        if not line:
            raise Fault(NOT_BUILT, f'clang tells no {word}')
        module = re.sub(rf'^target {word} = .*$', lambda _, it=line: it[0], module, flags=re.M)
    return module


def attributes_of_none(module: str) -> str:
    """Without what is said of x86-64 processors, and without the probes of its stack."""
    return re.sub(r'^attributes #\d+ = .*$', lambda line: re.sub(
        rf'\s*"(?:{OF_X86})"(?:="[^"]*")?', '', line[0]), module, flags=re.M)


def _main(module: str) -> str:
    """With a `main` that asks nothing of an x86-64 processor and is else the same."""
    found = MAIN.search(module)
    if not found or '@__x86_get_cpuid_feature_leaf(' not in found['asks']:
        raise Fault(NOT_BUILT, 'the module has another `main` than the one that is known here')
    made = (f'define signext i32 @main(){found["marks"]}{{\nstart:\n{found["first"]}'
            f'  br label %run\n\n{found["run"]}}}\n')
    module = module.replace(found[0], made)
    return re.sub(r'^declare [^\n]*@__x86_get_cpuid_feature_leaf\(.*\n', '', module, flags=re.M)


def c_functions(module: str) -> list[str]:
    """What the module declares and C is to define."""
    names = re.findall(r'^declare [^@\n]*@([\w.]+)\(', module, re.M)
    return [name for name in names if not name.startswith('llvm.')]


def _extended(module: str) -> str:
    """With each `i32` that goes to C extended to the register, as C takes it there."""
    names = '|'.join(map(re.escape, c_functions(module)))
    to_c = re.compile(rf'^(declare |[^\n]*\bcall )([^\n]*?@(?:{names})\()([^\n]*)$', re.M)
    wide = re.compile(r'\bi32(?! signext)(?=[ ,)])')
    return to_c.sub(lambda it: it[1] + it[2] + wide.sub('i32 signext', it[3]), module)


def _futex(module: str, processor: str) -> str:
    """With the number that the kernel has for the only system call that is made by number, also where a function hands it on."""
    through = [found['name'] for found in HANDS_ON.finditer(module)]
    names = '|'.join(map(re.escape, ['syscall', *through]))
    called = re.compile(rf'(\bcall [^@\n]*@(?:{names})\(i64(?: noundef)?) (\S+?),')
    given = [found[2] for found in called.finditer(module)]
    others = set(given) - {str(FUTEX['x86_64']), '%a0'}
    if others or given.count('%a0') != len(through):
        raise Fault(NOT_BUILT, f'the module makes other system calls: {sorted(set(given))}')
    return called.sub(lambda it: it[0] if it[2] == '%a0' else f'{it[1]} {FUTEX[processor]},', module)


def _refuse_x86(module: str) -> None:
    found = re.search(r'@llvm\.x86\S*|\basm (?:sideeffect )?"[^"]+"|@__x86\w*', module)
    if found:
        raise Fault(NOT_BUILT, f'the module has instructions of x86-64: {found[0]}')


def moved(module: str, said: str, processor: str) -> str:
    """The module for another processor, of which clang said the layout."""
    if '"e-' not in said or re.search(r'"[^"]*-p:32', said):
        raise Fault(NOT_BUILT, 'only for 64 bits, the lowest octet first')
    module = _main(attributes_of_none(head(module, said)))
    module = _futex(_extended(module), processor)
    _refuse_x86(module)
    return module
