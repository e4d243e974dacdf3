"""Releases: what is in one, and what is refused. The sums are those that `sha256sum` finds."""
import shutil
import subprocess
import tempfile
import unittest
from pathlib import Path

from look.ends import DIFFERS, DONE, NO_FILE, USAGE
from look.second_node import REPOSITORY

RELEASE = REPOSITORY / 'tools' / 'release'
FILES = {
    'crates.txt': '# Group: what it has\nlow:\nffi staticlib: low\nlamp: low\nworked_lamp: low\n',
    'crates/low/src/lib.rt': '', 'crates/ffi/src/lib.rt': '', 'crates/lamp/src/main.rt': '', 'crates/worked_lamp/src/main.rt': '',
    'README.md': 'The toolchain prints `kit-1 logic 0123abcd`.\n', 'LICENSE': 'free\n', 'SECURITY.md': 'tell\n',
    'CHANGELOG.md': '# Changes\n\n## 2.3.4, today\n\n## 2.3.3\n', 'docs/FORMATS.md': 'octets\n', 'docs/api/low.md': 'calls\n',
    'examples/lamp.mesh': 'life\n', 'bindings/c/lamp.h': 'int lamp(void);\n', 'living/check': '#!', '.gitignore': 'out/\n',
}
BUILT = {'crates/lamp/out/lamp': '\x7fELF', 'crates/worked_lamp/out/worked_lamp': 'no', 'crates/ffi/out/libffi.a': '!<arch>'}


class Releases(unittest.TestCase):
    """A checkout with a commit, of which programs are built."""

    def setUp(self) -> None:
        gone = tempfile.TemporaryDirectory()
        self.addCleanup(gone.cleanup)
        self.top, self.folder = Path(gone.name) / 'checkout', Path(gone.name) / 'release'
        self.write(FILES)
        self.git('init', '-q')
        self.git('add', '-A')
        self.git('-c', 'user.name=a', '-c', 'user.email=a@b', 'commit', '-qm', 'all')
        self.write(BUILT)

    def write(self, files: dict[str, str]) -> None:
        for place, text in files.items():
            (self.top / place).parent.mkdir(parents=True, exist_ok=True)
            (self.top / place).write_text(text)

    def git(self, *words: str) -> str:
        return subprocess.run(['git', '-C', self.top, *words], check=True, capture_output=True, text=True).stdout.strip()

    def release(self, *words: str) -> tuple[int, str]:
        """The status, and what was told."""
        ended = subprocess.run([RELEASE, *words, '--of', self.top, self.folder], capture_output=True, text=True)
        return ended.returncode, ended.stderr

    def places(self) -> set[str]:
        return {str(path.relative_to(self.folder)) for path in self.folder.rglob('*') if path.is_file()}

    def test_has_what_was_built_and_told(self) -> None:
        self.assertEqual(self.release(), (DONE, ''))
        self.assertEqual(self.places(), {
            'bin/lamp', 'lib/libffi.a', 'include/lamp.h', 'README.md', 'LICENSE', 'CHANGELOG.md', 'SECURITY.md', 'docs/FORMATS.md',
            'docs/api/low.md', 'examples/lamp.mesh', 'bindings/c/lamp.h', 'living/check', 'VERSION', 'SHA256SUMS'})
        self.assertEqual((self.folder / 'bin' / 'lamp').stat().st_mode & 0o777, 0o755)
        self.assertEqual((self.folder / 'VERSION').read_text(),
                         f'version 2.3.4\ncommit {self.git("rev-parse", "HEAD")}\ntoolchain kit-1 logic 0123abcd\n')

    @unittest.skipUnless(shutil.which('sha256sum'), 'no sha256sum')
    def test_has_the_sum_of_each_file(self) -> None:
        self.release()
        ended = subprocess.run(['sha256sum', '-c', '--strict', 'SHA256SUMS'], cwd=self.folder, capture_output=True, text=True)
        self.assertEqual(ended.returncode, 0, ended.stderr)
        said = {line.removesuffix(': OK') for line in ended.stdout.splitlines()}
        self.assertEqual(said, self.places() - {'SHA256SUMS'})

    def test_is_refused_where_a_program_isnt_built(self) -> None:
        (self.top / 'crates' / 'lamp' / 'out' / 'lamp').unlink()
        status, told = self.release()
        self.assertEqual(status, NO_FILE)
        self.assertIn('out/lamp', told)
        self.assertFalse(self.folder.exists())

    def test_is_refused_where_a_file_differs_from_the_commit(self) -> None:
        self.write({'README.md': FILES['README.md'] + 'more\n'})
        self.assertEqual(self.release()[0], DIFFERS)
        self.assertFalse(self.folder.exists())
        self.assertEqual(self.release('--changed'), (DONE, ''))
        self.assertIn(f'commit {self.git("rev-parse", "HEAD")}, changed\n', (self.folder / 'VERSION').read_text())

    def test_is_refused_over_files(self) -> None:
        self.folder.mkdir()
        (self.folder / 'mine').write_text('mine')
        self.assertEqual(self.release()[0], NO_FILE)
        self.assertEqual(self.places(), {'mine'})

    def test_takes_an_empty_folder_and_no_other_words(self) -> None:
        self.folder.mkdir()
        self.assertEqual(self.release(), (DONE, ''))
        self.assertEqual(self.release('more')[0], USAGE)


if __name__ == '__main__':
    unittest.main()
