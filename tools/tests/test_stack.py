"""Bounds of stacks: frames as gcc tells them, chains of calls, and what has no bound."""
import re
import shutil
import subprocess
import tempfile
import unittest
from pathlib import Path
from unittest import mock

from crossing import stacks
from crossing.depths import Walk, code_of
from crossing.stack import Calls, groups
from crossing.stacks import calls_of, told
from crossing.targets import LIBRARY, PROGRAMS

SOURCE = '''
extern int other(char *); extern int (*any)(int);
int leaf(int n) { return n + 1; }
int large(int n) { char b[70000]; b[n] = 1; other(b); return b[n]; }
__attribute__((noinline)) int middle(int n) { char b[9000]; other(b); return b[n] + large(n); }
__attribute__((noinline)) int chosen(int n) {
    char b[300];
    other(b);
    switch (n) {
    case 0: return other(b + 1);
    case 1: return other(b) + b[2];
    case 2: return other(b + 2) * 3;
    case 3: return 77 + b[1];
    case 4: return middle(b[8]) + 9;
    case 5: return b[0];
    case 6: other(b + 3); return 1;
    }
    return b[n];
}
int aligned(int n) { _Alignas(64) char b[90000]; other(b); return chosen(b[n]); }
__attribute__((noinline)) int again(int n) { char b[64]; if (n == 0) return 0; other(b); return again(n - 1) + b[n]; }
int by_place(int n) { char b[40]; other(b); return any(n) + b[n]; }
int with_many(int a, int b, int c, int d, int e, int f, int g, int h) { char x[100]; other(x); return a + b + c + d + e + f + g + h + x[a]; }
int calls_many(int n) { char x[80]; other(x); return with_many(n, n, n, n, x[1], x[2], x[3], x[4]) + 1; }
int main(int count, char **words) { (void)words; return aligned(count) + again(count); }
'''
WAYS = (['-O2'], ['-O2', '-fstack-clash-protection'], ['-Os', '-fno-omit-frame-pointer'], ['-O3', '-fcf-protection=none'])
# A frame that is aligned to more than the stack is: what is lost by that depends on who calls, and gcc counts none of it.
ALIGNED, MOST_LOST = 'aligned', 64


@unittest.skipUnless(shutil.which('gcc') and shutil.which('objdump'), 'no gcc or no objdump')
class OfGcc(unittest.TestCase):
    """Programs of gcc for this machine, where that is x86-64."""

    def built(self, folder: str, words: list[str]) -> tuple[Calls, dict[str, int]]:
        """The functions of the source as compiled with these words, and the frames that gcc tells."""
        source, made = Path(folder) / 'source.c', Path(folder) / 'made.o'
        source.write_text(SOURCE)
        subprocess.run(['gcc', *words, '-fPIC', '-fstack-usage', '-w', '-c', '-o', made, source], check=True)
        rows = (line.split('\t') for line in made.with_suffix('.su').read_text().splitlines())
        return calls_of(made, ''), {row[0].rpartition(':')[2]: int(row[1]) for row in rows}

    def test_frames_are_those_that_gcc_tells(self) -> None:
        for words in WAYS:
            with tempfile.TemporaryDirectory() as folder:
                calls, frames = self.built(folder, words)
            found = {calls.code.names[it]: calls.frame(it) for it in calls.functions}
            self.assertEqual(len(frames), 10)
            for name, due in frames.items():
                with self.subTest(words=words, name=name):
                    self.assertIn(found[name] - due, range(MOST_LOST) if name == ALIGNED else (0,))

    def test_a_chain_is_the_sum_of_its_frames(self) -> None:
        for words in WAYS:
            with tempfile.TemporaryDirectory() as folder:
                calls, _ = self.built(folder, words)
            at = {name: start for start, name in calls.code.names.items()}
            chain = ['main', 'aligned', 'chosen', 'middle', 'large']
            self.assertEqual([calls.code.names[it] for it in calls.chain(at['main'])], chain)
            self.assertEqual(calls.bounds[at['main']].octets + 8, sum(calls.frame(at[it]) for it in chain))
            self.assertGreater(calls.bounds[at['calls_many']].octets, calls.frame(at['calls_many']) + calls.frame(at['with_many']) - 16)

    def test_what_has_no_bound_is_told(self) -> None:
        with tempfile.TemporaryDirectory() as folder:
            calls, _ = self.built(folder, WAYS[0])
        at = {name: start for start, name in calls.code.names.items()}
        text = '\n'.join(told(calls, at['main']))
        self.assertIn(f'counted once, and may come again: again ({calls.frame(at["again"])})', text)
        self.assertIn('not counted, of the C library: other', text)
        self.assertNotIn('not bounded', text)
        self.assertIn('not bounded: by_place: calls what isn\'t known', '\n'.join(told(calls, at['by_place'])))


    def test_a_stack_that_is_too_deep_is_told(self) -> None:
        with tempfile.TemporaryDirectory() as folder:
            calls, _ = self.built(folder, WAYS[0])
        called, begun = stacks.deepest(calls)
        self.assertGreater(called, begun)
        for most, wrong in (
                ((called, begun), []),
                ((called - 1, begun), [f'x takes {called:,} octets of stack, and is to take {called - 1:,} at most']),
                ((called, begun - 1), [f'x takes {begun:,} octets of stack in a thread, and is to take {begun - 1:,} at most'])):
            with mock.patch.object(stacks, 'written', lambda it=most: {'x': it}):
                found = list(stacks.too_deep('x', calls))
            self.assertEqual(found, ['the stack of x has no bound: by_place', *wrong])

    def test_each_program_has_a_number(self) -> None:
        self.assertEqual(set(stacks.written()), {*PROGRAMS, *stacks.ROWS[LIBRARY]})


def depths_of(form: str, text: str) -> Calls:
    """The functions of a listing: lines of an instruction each, behind a name and a colon."""
    lines, at = [f'x: file format {form}', ''], 0
    for line in text.strip().splitlines():
        if head := re.fullmatch(r'(\w+):', line.strip()):
            at = (at | 0xff) + 1
            lines += ['', f'{at:016x} <{head[1]}>:']
        else:
            lines.append(f'  {at:x}:\t' + re.sub(r'\s+', '\t', line.strip(), count=1))
            at += 4
    code = code_of('\n'.join(lines))
    starts = sorted(code.names)
    return Calls(code, {it: Walk(code, it, it + 0x100).function() for it in starts})


THUMB = '''
first:
    push {r4, r5, r7, lr}
    sub.w sp, sp, #8960 @ 0x2300
    sub sp, #40
    cmp r0, #6
    bhi.n 118 <first+0x18>
    bl 200 <second>
    add.w sp, sp, #8960
    add sp, #40
    pop {r4, r5, r7, pc}
second:
    stmdb sp!, {r4, r5, r6, r7, r8, lr}
    mov r4, sp
    bfc r4, #0, #4
    mov sp, r4
    sub sp, #64
    tbb [pc, r0]
    udf #254
    strd r0, r1, [sp, #-8]!
    bl 300 <third>
    ldmia.w sp!, {r4, r5, r6, r7, r8, pc}
third:
    popeq {r4, pc}
    addcc sp, #4
    popcc {r4, pc}
    b.w 400 <fourth>
fourth:
    str.w r8, [sp, #-4]!
    add r7, sp, #12
    sub.w r4, r7, #12
    mov sp, r4
    ldr.w r8, [sp], #4
    bx lr
fifth:
    add r7, sp, #12
    sub.w r7, r6, #12
    mov sp, r7
    bx lr
'''
A64 = '''
first:
    stp x29, x30, [sp, #-48]!
    mov x29, sp
    sub x9, sp, #0x11, lsl #12
    sub sp, sp, #0x1, lsl #12
    cmp sp, x9
    str xzr, [sp]
    b.ne 10c <first+0xc>
    sub sp, sp, #0x170
    bl 200 <second>
    add sp, sp, #0x11, lsl #12
    add sp, sp, #0x170
    ldp x29, x30, [sp], #48
    ret
second:
    sub sp, sp, #0x20
    add x29, sp, #0x10
    cbz w0, 214 <second+0x14>
    blr x8
    sub sp, x29, #0x10
    add sp, sp, #0x20
    ret
'''


class OfOthers(unittest.TestCase):
    """Listings of a Cortex-M and of AArch64."""

    def of(self, form: str, text: str) -> tuple[Calls, dict[str, int]]:
        calls = depths_of(form, text)
        return calls, {name: start for start, name in calls.code.names.items()}

    def test_a_cortex_m(self) -> None:
        calls, at = self.of('elf32-littlearm', THUMB)
        self.assertEqual([calls.frame(at[it]) for it in ('first', 'second', 'third', 'fourth')], [9016, 24 + 12 + 64 + 8, 0, 4])
        self.assertEqual(calls.bounds[at['first']].octets, 9016 + 108 + 4)
        unbounded = {calls.code.names[it]: found.unbounded for it, found in calls.functions.items() if found.unbounded}
        self.assertEqual(unbounded, {'fifth': {'the stack ends where isn\'t known'}})

    def test_aarch64(self) -> None:
        calls, at = self.of('elf64-littleaarch64', A64)
        self.assertEqual([calls.frame(at[it]) for it in ('first', 'second')], [48 + 0x11000 + 0x170, 0x20])
        self.assertEqual(calls.functions[at['first']].unbounded, set())
        self.assertEqual(calls.functions[at['second']].unbounded, {'calls what isn\'t known'})
        self.assertEqual(calls.functions[at['second']].deepest, 0x20)

    def test_room_whose_size_is_in_a_register(self) -> None:
        """Each turn goes 3,072 octets down, the last one perhaps past the place."""
        calls, at = self.of('elf64-x86-64', '''
            first:
                push %rbp
                mov %rsp,%rbp
                mov %rsp,%rsi
                sub $0x2090,%rsi
                cmp %rsp,%rsi
                jge 128 <first+0x28>
                xorq $0x0,(%rsp)
                sub $0xc00,%rsp
                cmp %rsp,%rsi
                jl 118 <first+0x18>
                mov %rsi,%rsp
                leave
                ret
        ''')
        self.assertEqual(calls.functions[at['first']].unbounded, set())
        self.assertEqual(calls.frame(at['first']), 8 + 8 + 0x2090 + 0xc00)

    def test_a_table_whose_place_was_taken_early(self) -> None:
        text = '''
            first:
                lea -0x10(%rip),%rbp
                movslq 0x0(%rbp,%r11,4),%r11
                add %rbp,%r11
                mov 0x10(%rsp),%rbp
                xor %eax,%eax
                xor %ecx,%ecx
                xor %edx,%edx
                xor %esi,%esi
                xor %edi,%edi
                jmp *%r11
                ret
        '''
        calls, at = self.of('elf64-x86-64', text)
        self.assertEqual(calls.functions[at['first']].unbounded, set())
        calls, at = self.of('elf64-x86-64', text.replace('add %rbp,%r11', 'mov %rbp,%r11'))
        self.assertEqual(calls.functions[at['first']].unbounded, {'goes to what isn\'t known'})

    def test_a_loop_that_takes_stack_has_no_bound(self) -> None:
        calls, at = self.of('elf64-x86-64', 'first:\n push %rax\n jne 100 <first>\n ret\n')
        self.assertEqual(calls.functions[at['first']].unbounded, {'a loop takes stack'})
        calls, at = self.of('elf64-x86-64', 'first:\n sub %rax,%rsp\n ret\n')
        self.assertEqual(calls.functions[at['first']].unbounded, {'the stack ends where isn\'t known'})


    def test_what_comes_behind_a_function(self) -> None:
        """It goes on into the next name, but not behind a call that nothing comes back from, nor from what fills room up."""
        calls, at = self.of('elf64-x86-64', 'first:\n push %rax\nsecond:\n push %rbx\n call 300 <third>\n'
                                            'third:\n push %rcx\n hlt\n nop\nlast:\n ret\n')
        self.assertEqual([calls.functions[at[it]].deepest for it in ('first', 'second', 'third', 'last')], [16, 8, 8, 0])
        self.assertEqual(calls.bounds[at['first']].octets, 16 + 8 + 8)


class Groups(unittest.TestCase):
    """Functions that call one another."""

    def test_those_that_are_called_come_first(self) -> None:
        found = list(groups({1: {2}, 2: {3, 4}, 3: {2}, 4: set(), 5: {5}}))
        self.assertEqual(set(found), {frozenset({1}), frozenset({2, 3}), frozenset({4}), frozenset({5})})
        self.assertLess(found.index(frozenset({4})), found.index(frozenset({2, 3})))
        self.assertLess(found.index(frozenset({2, 3})), found.index(frozenset({1})))


if __name__ == '__main__':
    unittest.main()
