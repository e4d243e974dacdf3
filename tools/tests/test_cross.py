"""Programs for another processor: our C beside the toolchain's own, and a module that is moved."""
import ctypes
import re
import shutil
import subprocess
import tempfile
import unittest
from pathlib import Path
from unittest import mock

from crossing import building, moving, narrowing, targets, testing
from look.ends import Fault
from look.second_node import REPOSITORY

HERE = REPOSITORY / 'tools' / 'crossing'
LAYOUT = ('target datalayout = "e-m:e-p:64:64-i64:64-i128:128-n32:64-S128"\n'
          'target triple = "riscv64-unknown-linux-gnu"\n')
MODULE = '''target datalayout = "e-m:e-p270:32:32-i64:64-S128"
target triple = "x86_64-unknown-linux-gnu"
define i32 @main() #0 {
start:
  %r0 = call i64 @__sysv_signal(i32 13, i64 1)
  %r1 = call ptr @__x86_get_cpuid_feature_leaf(i32 0)
  %r2 = icmp eq ptr %r1, null
  br i1 %r2, label %run, label %refuse

run:                                              ; preds = %start
  %r3 = call i32 @"+threads::entry"()
  ret i32 %r3

refuse:                                           ; preds = %start
  ret i32 1
}
define i32 @own(i32 %a) {
  %r = call i32 @own(i32 %a)
  %w = call noundef i64 @syscall(i64 202, ptr %p, i64 129, i64 1)
  %o = call noundef i32 @open(ptr %p, i32 noundef 655360, i32 %a)
  %m = call i64 @llvm.umax.i64(i64 1, i64 2)
  ret i32 %r
}
declare ptr @__x86_get_cpuid_feature_leaf(i32)
declare i64 @__sysv_signal(i32, i64)
declare i64 @syscall(i64, ptr, i64, i64)
declare noundef i32 @open(ptr, i32, i32)
declare i64 @llvm.umax.i64(i64, i64)
attributes #0 = { nounwind "probe-stack"="inline-asm" "target-cpu"="x86-64-v2" }
'''


HANDED_ON = '''define internal noundef i64 @"+threads::syscall"(i64 noundef %a0, ptr noundef %a1) #0 {
start:
  %r0 = call i64 (i64, ptr, ...) @syscall(i64 %a0, ptr %a1)
  ret i64 %r0
}
define i64 @waits(ptr %p) {
  %r = call i64 @"+threads::syscall"(i64 202, ptr %p)
  ret i64 %r
}
'''


OF_CHIP = ('target datalayout = "e-m:e-p:32:32-Fi8-i64:64-v128:64:128-a:0:32-n32-S64"\n'
           'target triple = "thumbv7em-unknown-none-eabi"\n')
LIBRARY = '''target datalayout = "e-m:e-p270:32:32-i64:64-S128"
target triple = "x86_64-unknown-linux-gnu"
@"table.1" = private constant <{ ptr, [3 x i8], ptr, i64 }> <{ ptr @"t.0", [3 x i8] c"abc", ptr getelementptr (i8, ptr @"t.0", i64 2), i64 3 }>
@"t.0" = private constant [5 x i8] c"hello", align 1
define noundef i8 @small(ptr noundef %a0, i64 noundef %a1) #0 {
start:
  %slot = alloca ptr, align 8
  %room = alloca [24 x i8], align 8
  store ptr %a0, ptr %slot, align 8
  %r1 = load { i8, ptr }, ptr %room, align 8
  store { i8, ptr } %r1, ptr %room, align 8
  %r2 = load { i32, i64 }, ptr %room, align 8
  %p = getelementptr inbounds i8, ptr %room, i64 8
  %n = ptrtoaddr ptr %a0 to i64
  %m = call { i64, i64 } @rattle_alloc(i64 %n, i64 8)
  ret i8 1
}
declare { i64, i64 } @rattle_alloc(i64, i64)
attributes #0 = { nounwind "probe-stack"="inline-asm" "target-cpu"="x86-64-v2" }
'''
# What works between threads, and a vector of octets.
WORDS = '''  %o = load atomic i64, ptr %room seq_cst, align 8
  store atomic i64 %o, ptr %room seq_cst, align 8
  %q = atomicrmw add ptr %room, i64 %o seq_cst, align 8
  %x = cmpxchg ptr %room, i64 %o, i64 7 seq_cst seq_cst, align 8
  %v = load <16 x i8>, ptr %room, align 1, !noundef !1
  %w = shufflevector <16 x i8> %v, <16 x i8> zeroinitializer, <16 x i32> zeroinitializer
'''
CHANGES = '''target triple = "x86_64-unknown-linux-gnu"
define i64 @exchanged(ptr %p, i64 %due, i64 %new) {
  %x = cmpxchg ptr %p, i64 %due, i64 %new seq_cst seq_cst, align 8
  %r = extractvalue { i64, i1 } %x, 0
  ret i64 %r
}
define i64 @is_exchanged(ptr %p, i64 %due, i64 %new) {
  %x = cmpxchg ptr %p, i64 %due, i64 %new seq_cst seq_cst, align 8
  %is = extractvalue { i64, i1 } %x, 1
  %r = zext i1 %is to i64
  ret i64 %r
}
define i64 @added(ptr %p, i64 %due, i64 %new) {
  %r = atomicrmw add ptr %p, i64 %new seq_cst, align 8
  ret i64 %r
}
'''


class OurC(unittest.TestCase):
    """Each function of target.c, on this machine."""

    def passes(self, files: list[str]) -> None:
        with tempfile.TemporaryDirectory() as folder:
            made = f'{folder}/test_target'
            subprocess.run(['gcc', '-std=c11', '-Wall', '-Wextra', '-Werror', '-o', made,
                            str(HERE / 'test_target.c'), *files], check=True)
            done = subprocess.run([made, 'one', '', 'three'], capture_output=True, text=True,
                                  check=False)
        self.assertEqual((done.returncode, done.stdout), (0, 'target: 6 functions, 0 wrong\n'))

    @unittest.skipUnless(shutil.which('gcc'), 'no gcc here')
    def test_functions(self) -> None:
        self.passes([str(HERE / 'target.c')])

    @unittest.skipUnless(shutil.which('gcc') and shutil.which('rt'), 'no gcc or no toolchain')
    def test_archives_of_the_toolchain_pass_the_same(self) -> None:
        archives = building.kit() / 'c'
        self.passes([str(archives / 'libos_c.a'), str(archives / 'liblibc_c.a')])

    def test_each_has_a_test(self) -> None:
        """Each function with a name that others see, and no other."""
        ours = re.findall(r'^(?:\w+ )+\**rattle_(\w+)\(', (HERE / 'target.c').read_text(), re.M)
        tests = re.findall(r'^static void test_(\w+)\(', (HERE / 'test_target.c').read_text(), re.M)
        self.assertEqual(sorted(ours), sorted(tests))


class Moved(unittest.TestCase):
    """A module for RISC-V."""

    def test_what_changes(self) -> None:
        found = moving.moved(MODULE, LAYOUT, 'riscv64')
        self.assertTrue(found.startswith(LAYOUT))
        self.assertIn('define signext i32 @main() #0 {', found)
        self.assertIn('@__sysv_signal(i32 signext 13, i64 1)\n  br label %run\n\nrun:', found)
        self.assertNotIn('refuse', found)
        self.assertIn('@syscall(i64 98, ptr %p, i64 129, i64 1)', found)
        self.assertIn('call noundef i32 @open(ptr %p, i32 signext noundef 655360, i32 signext %a)',
                      found)
        self.assertIn('declare noundef i32 @open(ptr, i32 signext, i32 signext)', found)
        self.assertIn('attributes #0 = { nounwind }', found)
        self.assertIn('call i32 @own(i32 %a)', found)
        self.assertNotIn('x86', found)

    def test_a_number_that_is_handed_on(self) -> None:
        handed = MODULE + HANDED_ON
        found = moving.moved(handed, LAYOUT, 'riscv64')
        self.assertIn('@"+threads::syscall"(i64 98, ptr %p)', found)
        self.assertIn('@syscall(i64 %a0, ptr %a1)', found)

    def test_what_is_refused(self) -> None:
        for module in (MODULE.replace('i64 202', 'i64 203'),
                       (MODULE + HANDED_ON).replace('(i64 202, ptr %p)', '(i64 203, ptr %p)'),
                       MODULE.replace('i64 202', 'i64 %a0'),
                       MODULE.replace('%refuse', '%another'),
                       MODULE.replace('@llvm.umax.i64', '@llvm.x86.sse2.pause'),
                       MODULE.replace('%m = call', '%x = call i64 asm "cpuid", ""()\n  %m = call')):
            with self.assertRaises(Fault):
                moving.moved(module, LAYOUT, 'riscv64')
        for said in (LAYOUT.replace('"e-', '"E-'), LAYOUT.replace('-p:64:64', '-p:32:32')):
            with self.assertRaises(Fault):
                moving.moved(MODULE, said, 'riscv64')


class Narrowed(unittest.TestCase):
    """A module for pointers of 32 bits."""

    def test_what_changes(self) -> None:
        found = narrowing.narrowed(LIBRARY, OF_CHIP)
        self.assertTrue(found.startswith(OF_CHIP))
        for line in ('constant <{ ptr, [4 x i8], [3 x i8], ptr, [4 x i8], i64 }> <{ ptr @"t.0", [4 x i8] zeroinitializer, [3 x i8] c"abc"',
                     'ptr getelementptr (i8, ptr @"t.0", i64 2), [4 x i8] zeroinitializer, i64 3 }>',
                     'define noundef zeroext i8 @small(',
                     '%slot = alloca [8 x i8], align 8\n',
                     '  %n = ptrtoint ptr %a0 to i64\n',
                     '%m = call { i64, i64 } @by_place.rattle_alloc(i64 %n, i64 8)',
                     'call void @rattle_alloc(ptr sret([16 x i8]) align 8 %o, i64 %a, i64 %b)',
                     'declare void @rattle_alloc(ptr sret([16 x i8]) align 8, i64, i64)'):
            self.assertIn(line, found)
        self.assertNotIn('x86', found)
        self.assertNotIn('ptrtoaddr', found)

    def test_the_second_of_a_pair_stays_where_it_was(self) -> None:
        """A pointer is 8 octets behind an octet, and a number of 64 bits 8 behind one of 32."""
        found = narrowing.narrowed(LIBRARY, OF_CHIP)
        places = re.findall(r'^  (%narrow\.\d\.p) = getelementptr i8, ptr %room, i64 (\d+)$', found, re.M)
        self.assertEqual([place for _, place in places], ['8', '8', '8'])
        self.assertIn('%narrow.1.b = load ptr, ptr %narrow.1.p, align 8', found)
        self.assertRegex(found, r'store ptr %narrow\.\d\.b, ptr %narrow\.\d\.p, align 8')
        self.assertNotRegex(found, r'(load|store) \{')

    def test_what_works_between_threads_is_ordinary(self) -> None:
        """And a vector of octets lies in memory as it did."""
        found = narrowing.narrowed(LIBRARY.replace('  %n = ptr', WORDS + '  %n = ptr'), OF_CHIP)
        for line in ('  %o = load i64, ptr %room, align 8\n', '  store i64 %o, ptr %room, align 8\n',
                     '  %q = load i64, ptr %room, align 8\n  %q.new = add i64 %q, %o\n  store i64 %q.new, ptr %room, align 8\n',
                     '  %x.is = icmp eq i64 %x.old, %o\n  %x.new = select i1 %x.is, i64 7, i64 %x.old\n',
                     '  %v = load <16 x i8>, ptr %room, align 1, !noundef !1\n'):
            self.assertIn(line, found)
        self.assertNotRegex(found, 'atomic|cmpxchg|seq_cst')

    @unittest.skipUnless(shutil.which('gcc') and shutil.which('rt'), 'no gcc or no toolchain')
    def test_an_ordinary_change_is_that_of_one_thread(self) -> None:
        """Each leaves and answers what it did."""
        made = []
        with tempfile.TemporaryDirectory() as folder:
            for name, text in (('theirs', CHANGES), ('ours', narrowing.ordinary(CHANGES))):
                module, library = Path(folder) / f'{name}.ll', Path(folder) / f'{name}.so'
                module.write_text(text)
                subprocess.run([building.kit() / 'toolchain' / 'bin' / 'clang', '-w', '-c', '-fPIC', module, '-o', f'{module}.o'], check=True)
                subprocess.run(['gcc', '-shared', '-o', library, f'{module}.o'], check=True)
                made.append(ctypes.CDLL(str(library)))
        for was, due, new in ((5, 5, 9), (5, 6, 9), (2 ** 64 - 1, 2 ** 64 - 1, 0), (0, 2 ** 32, 1)):
            words = [ctypes.c_uint64(was) for _ in made]
            found = [[call(ctypes.byref(word), ctypes.c_uint64(due), ctypes.c_uint64(new)) for call in (it.exchanged, it.is_exchanged, it.added)]
                     for it, word in zip(made, words, strict=True)]
            self.assertEqual(found[0], found[1])
            self.assertEqual(words[0].value, words[1].value)

    def test_what_is_refused(self) -> None:
        place = '  %p = getelementptr inbounds i8, ptr %room, i64 8\n'
        for line in ('%x = inttoptr i64 %n to ptr', '%x = getelementptr inbounds ptr, ptr %room, i64 1', '%x = alloca { i64, ptr }, align 8',
                     '%x = load [2 x ptr], ptr %room', '%x = load { i8, { ptr, i8 } }, ptr %room', '%x = load <2 x i64>, ptr %room',
                     '%x = atomicrmw max ptr %room, i64 1 seq_cst, align 8', 'fence seq_cst', '%x = load atomic i64, ptr %room unordered, align 8',
                     '%x = cmpxchg ptr %room, ptr %room, ptr null seq_cst seq_cst, align 8', '%x = call i32 @pthread_join(i64 1, ptr null)',
                     '%x = call i32 @sched_yield()', '%x = bitcast <4 x i32> zeroinitializer to <16 x i8>',
                     '%x = call i64 @llvm.x86.rdtsc()', '%x = call i32 asm "nop", ""()'):
            with self.subTest(line=line), self.assertRaises(Fault):
                narrowing.narrowed(LIBRARY.replace(place, f'{place}  {line}\n'), OF_CHIP)
        for line in ('declare { i64, i64 } @another(i64)', '@t = constant [2 x ptr] [ptr @a, ptr @b]',
                     '@t = constant <{ ptr }> <{ ptr blockaddress(@a, %b) }>'):
            with self.subTest(line=line), self.assertRaises(Fault):
                narrowing.narrowed(LIBRARY.replace('define', f'{line}\ndefine', 1), OF_CHIP)
        for said in (OF_CHIP.replace('"e-', '"E-'), LAYOUT):
            with self.assertRaises(Fault):
                narrowing.narrowed(LIBRARY, said)


class Asked(unittest.TestCase):
    """Packages, crates, and the words of examples."""

    def test_packages_that_are_missing_are_all_named(self) -> None:
        with mock.patch.object(targets, '_is_there', lambda _: False):
            for name, target in targets.TARGETS.items():
                with self.assertRaises(Fault) as ended:
                    targets.ask_for_packages(target, True)
                self.assertEqual(ended.exception.status, targets.NO_PACKAGE)
                for package in ('qemu-system-arm', 'gcc-arm-none-eabi', 'libnewlib-') if target.board else (
                        'qemu-user', f'gcc-{name}-linux-gnu', 'libc6-dev-'):
                    self.assertIn(package, str(ended.exception))
                self.assertEqual(len(targets.missing(target, False)), 2)

    def test_crates(self) -> None:
        found = building.crates_named((REPOSITORY / 'crates.txt').read_text())
        for program in (*targets.PROGRAMS, targets.LIBRARY):
            self.assertTrue(found[program], program)
        self.assertEqual(building.crates_named('# a: b\na:\nb static: a c # d: e\n'),
                         {'a': [], 'b': ['a', 'c']})

    def test_words_of_examples(self) -> None:
        for script in Path(REPOSITORY / 'examples').glob('*.mesh'):
            self.assertIn(testing.words_of(script.read_bytes())[0], ('run', 'lpn'), script.name)


if __name__ == '__main__':
    unittest.main()
