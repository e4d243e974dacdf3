"""A module that the toolchain made for x86-64 Linux, as one for a processor whose pointers have 32 bits.

Its layouts are places in octets, and stay: a pointer keeps the 8 octets that it had, and its own are the first 4. So no type of a value
that is moved may be laid out by the compiler anew: each that would be is written out by its places, or refused. One thread runs there, and no
interrupt calls the library: so a word that works between threads is an ordinary one.
"""
import re

from look.ends import Fault

from .moving import attributes_of_none, head
from .targets import NOT_BUILT

SIZES = {'i8': 1, 'i16': 2, 'i32': 4, 'i64': 8, 'ptr': 8, 'float': 4, 'double': 8}
NAME = r'(?:"[^"\n]+"|[\w.$]+)'
PAIR = re.compile(rf'^  (?P<to>%{NAME}) = load \{{ (?P<first>\w+), (?P<second>\w+) \}}, ptr (?P<at>[%@]{NAME}), align \d+.*$', re.M)
KEPT_PAIR = re.compile(rf'^  store \{{ (?P<first>\w+), (?P<second>\w+) \}} (?P<what>%{NAME}), ptr (?P<at>[%@]{NAME}), align \d+.*$', re.M)
STATIC = re.compile(rf'^(?P<head>@{NAME} = .*?constant )<\{{(?P<kinds>.*)\}}> <\{{(?P<values>.*)\}}>(?P<tail>.*)$', re.M)
POINTER = re.compile(rf'\bptr (?:getelementptr (?:inbounds )?(?:nuw )?\([^()]*\)|@{NAME}|null)')
# What an allocation of C answers comes back in two registers on x86-64, and here by a place of the caller's.
ANSWERS = {'rattle_alloc': 'i64 %a, i64 %b', 'rattle_realloc': 'ptr %a, i64 %b, i64 %c, i64 %d'}
BY_PLACE = '''define internal {{ i64, i64 }} @by_place.{name}({taken}) {{
  %o = alloca [16 x i8], align 8
  call void @{name}(ptr sret([16 x i8]) align 8 %o, {taken})
  %x = load i64, ptr %o, align 8
  %q = getelementptr i8, ptr %o, i64 8
  %y = load i64, ptr %q, align 8
  %u = insertvalue {{ i64, i64 }} poison, i64 %x, 0
  %v = insertvalue {{ i64, i64 }} %u, i64 %y, 1
  ret {{ i64, i64 }} %v
}}
declare void @{name}(ptr sret([16 x i8]) align 8, {kinds})
'''

# What works between threads: where there is one, nothing comes between a load and the store behind it.
ORDER = r'(?:(?:monotonic|acquire|release|acq_rel|seq_cst) ?){1,2}'
ACCESS = re.compile(rf'^(?P<head>  (?:%{NAME} = )?(?:load|store)) atomic (?P<what>[^\n]*?) {ORDER}, align', re.M)
CHANGE = re.compile(rf'^  (?P<to>%[\w.$]+) = atomicrmw (?P<how>add|sub|and|or|xor) ptr (?P<at>[%@]{NAME}), (?P<kind>i\d+) (?P<by>[^ ,\n]+) {ORDER}, '
                    r'(?P<align>align \d+)$', re.M)
EXCHANGE = re.compile(rf'^  (?P<to>%[\w.$]+) = cmpxchg (?:weak )?ptr (?P<at>[%@]{NAME}), (?P<kind>i\d+) (?P<due>[^ ,\n]+), (?P=kind) (?P<new>[^ ,\n]+) {ORDER}, '
                      r'(?P<align>align \d+)$', re.M)
CHANGED = '''  {to} = load {kind}, ptr {at}, {align}
  {to}.new = {how} {kind} {to}, {by}
  store {kind} {to}.new, ptr {at}, {align}'''
EXCHANGED = '''  {to}.old = load {kind}, ptr {at}, {align}
  {to}.is = icmp eq {kind} {to}.old, {due}
  {to}.new = select i1 {to}.is, {kind} {new}, {kind} {to}.old
  store {kind} {to}.new, ptr {at}, {align}
  {to}.pair = insertvalue {{ {kind}, i1 }} poison, {kind} {to}.old, 0
  {to} = insertvalue {{ {kind}, i1 }} {to}.pair, i1 {to}.is, 1'''


def _second(first: str, second: str) -> int:
    """Where the second value of a pair stands as x86-64 lays it out."""
    return -(-SIZES[first] // SIZES[second]) * SIZES[second]


def _loads(module: str) -> str:
    """With each load of a pair as two, and with each store of one."""
    count = 0

    def load(found: re.Match) -> str:
        nonlocal count
        count += 1
        to, first, second, at = found['to'], found['first'], found['second'], found['at']
        it = f'%narrow.{count}'
        return (f'  {it}.a = load {first}, ptr {at}, align {SIZES[first]}\n'
                f'  {it}.p = getelementptr i8, ptr {at}, i64 {_second(first, second)}\n'
                f'  {it}.b = load {second}, ptr {it}.p, align {SIZES[second]}\n'
                f'  {it}.c = insertvalue {{ {first}, {second} }} poison, {first} {it}.a, 0\n'
                f'  {to} = insertvalue {{ {first}, {second} }} {it}.c, {second} {it}.b, 1')

    def store(found: re.Match) -> str:
        nonlocal count
        count += 1
        what, first, second, at = found['what'], found['first'], found['second'], found['at']
        it, kind = f'%narrow.{count}', f'{{ {first}, {second} }}'
        return (f'  {it}.a = extractvalue {kind} {what}, 0\n  store {first} {it}.a, ptr {at}, align {SIZES[first]}\n'
                f'  {it}.p = getelementptr i8, ptr {at}, i64 {_second(first, second)}\n'
                f'  {it}.b = extractvalue {kind} {what}, 1\n  store {second} {it}.b, ptr {it}.p, align {SIZES[second]}')
    return KEPT_PAIR.sub(store, PAIR.sub(load, module))


def _statics(module: str) -> str:
    """With 4 octets behind each pointer of a constant."""
    def wider(found: re.Match) -> str:
        if not re.search(r'\bptr\b', found['kinds']):
            return found[0]
        kinds = re.sub(r'\bptr\b', 'ptr, [4 x i8]', found['kinds'])
        values, count = POINTER.subn(lambda it: f'{it[0]}, [4 x i8] zeroinitializer', found['values'])
        if count != len(re.findall(r'\bptr\b', found['kinds'])):
            raise Fault(NOT_BUILT, f'a constant with pointers of another form: {found[0][:150]}')
        return f'{found["head"]}<{{{kinds}}}> <{{{values}}}>{found["tail"]}'
    return STATIC.sub(wider, module)


def _answers(module: str) -> str:
    """With each answer of an allocation brought back by a place."""
    for name, taken in ANSWERS.items():
        if declared := re.search(rf'^declare [^\n]*@{name}\(.*\n', module, re.M):
            module = module.replace(declared[0], '').replace(f'@{name}(', f'@by_place.{name}(')
            module += BY_PLACE.format(name=name, taken=taken, kinds=re.sub(r' %\w', '', taken))
    return module


def ordinary(module: str) -> str:
    """With each access that works between threads as an ordinary one, and each change of a word as a load and a store."""
    module = ACCESS.sub(r'\g<head> \g<what>, align', module)
    module = CHANGE.sub(lambda found: CHANGED.format_map(found.groupdict()), module)
    return EXCHANGE.sub(lambda found: EXCHANGED.format_map(found.groupdict()), module)


# Forms whose layout the compiler would choose: none may be left.
REFUSED = {
    'a pointer made of a number': r'\binttoptr\b',
    'a move of several values with pointers': r'^  (?:%\S+ = load|store) (?:\{[^}]*\}|<\{[^}]*\}>|\[\d+ x (?:ptr|\{)[^]]*\])',
    'a place by types': r'\bgetelementptr (?:(?:inbounds|nuw|nusw) )*(?!\(?i8\b|\(?\[\d+ x i8\]|inbounds |nuw |nusw )\S+',
    'room by types': r'= alloca (?!\[\d+ x i8\]|i\d+\b|float\b|double\b)\S+',
    'a constant with a pointer': r'^@[^\n]*? (?:constant|global) (?!<\{)[^c\n]*\bptr\b',
    'a vector of other than octets': r'^(?!  %\S+ = shufflevector <\d+ x i8> [^<]*<\d+ x i8> [^<]*<\d+ x i32> [^<]*$)[^\n"]*<\d+ x (?!i1\b|i8\b)',
    'instructions of x86-64': r'@llvm\.x86\S*|\basm (?:sideeffect )?"[^"]+"|@__x86\w*',
    'what works between threads': r'^  (?:%\S+ = )?(?:atomicrmw|cmpxchg|fence|(?:load|store) atomic)\b.*',
    'a thread, or a wait for one': r'@(?:syscall|sched_yield|pthread_\w+)\(',
    'an answer of C by two registers': r'^declare [^@\n]*\{[^@\n]*@',
}


def narrowed(module: str, said: str) -> str:
    """The module for another processor, of which clang said the layout: for one thread alone, and no interrupt that calls it."""
    if '"e-' not in said or not re.search(r'"[^"]*-p:32:32', said):
        raise Fault(NOT_BUILT, 'only for pointers of 32 bits, the lowest octet first')
    module = attributes_of_none(head(module, said))
    module = re.sub(r'= ptrtoaddr ptr (\S+) to i64', r'= ptrtoint ptr \1 to i64', module)
    module = re.sub(r'= alloca ptr, align 8', '= alloca [8 x i8], align 8', module)
    module = _answers(_statics(_loads(ordinary(module))))
    # C's caller takes a small result for one that fills its register.
    module = re.sub(r'^define (noundef )?(i8|i16|i1) @(\w+)\(', r'define \1zeroext \2 @\3(', module, flags=re.M)
    for name, form in REFUSED.items():
        if found := re.search(form, module, re.M):
            raise Fault(NOT_BUILT, f'the module has {name}: {found[0][:150]}')
    return module
