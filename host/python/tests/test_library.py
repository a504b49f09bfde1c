"""How the library is found, which one is refused, and that the declarations are the header's."""
import ctypes
import os
import re
import shutil
import subprocess
import sys
import tempfile
import unittest
from pathlib import Path

from .support import HEADER, PACKAGE, environment

from akubolinfe import LibraryError, _library

NUMBERS = {'uint8_t': ctypes.c_uint8, 'uint16_t': ctypes.c_uint16, 'uint32_t': ctypes.c_uint32, 'uint64_t': ctypes.c_uint64,
           'size_t': ctypes.c_size_t, 'bool': ctypes.c_bool}


def built(folder, name, source):
    """A shared library of a few lines of C."""
    path = Path(folder) / name
    subprocess.run(['gcc', '-shared', '-fPIC', '-x', 'c', '-o', path, '-'], input=source.encode(), check=True)
    return path


@unittest.skipUnless(shutil.which('gcc'), 'gcc is not installed')
class RefusedTest(unittest.TestCase):
    def setUp(self):
        folder = tempfile.TemporaryDirectory()
        self.addCleanup(folder.cleanup)
        self.folder = folder.name

    def test_another_abi(self):
        path = built(self.folder, 'libother.so', 'unsigned akubolinfe_abi(void) { return 2; }')
        with self.assertRaisesRegex(LibraryError, 'has ABI 2; this package needs ABI 1'):
            _library.library(str(path))
        ran = subprocess.run([sys.executable, '-m', 'akubolinfe', '--version'], env=environment(AKUBOLINFE_LIBRARY=str(path)),
                             stdout=subprocess.PIPE, stderr=subprocess.PIPE)
        self.assertEqual((ran.returncode, ran.stdout), (2, b''))
        self.assertEqual(ran.stderr.decode(), f'akubolinfe: {path}: has ABI 2; this package needs ABI 1\n')

    def test_no_abi(self):
        with self.assertRaisesRegex(LibraryError, 'does not export akubolinfe_abi'):
            _library.library(str(built(self.folder, 'libnone.so', 'int akubolinfe;')))

    def test_a_missing_function(self):
        with self.assertRaisesRegex(LibraryError, 'does not export akubolinfe_fresh'):
            _library.library(str(built(self.folder, 'libpart.so', 'unsigned akubolinfe_abi(void) { return 1; }')))

    def test_no_library(self):
        with self.assertRaisesRegex(LibraryError, 'cannot be loaded'):
            _library.library(os.path.join(self.folder, 'absent.so'))


class FoundTest(unittest.TestCase):
    """A copy of the package in a prefix of its own, without the variable."""

    def setUp(self):
        folder = tempfile.TemporaryDirectory()
        self.addCleanup(folder.cleanup)
        self.prefix = Path(folder.name).resolve()
        self.library = Path(_library.library().path)
        if not self.library.is_absolute():
            self.skipTest('the library was found by the loader')

    def found(self, site):
        env = {**os.environ, 'PYTHONPATH': str(site), 'LD_LIBRARY_PATH': ''}
        env.pop('AKUBOLINFE_LIBRARY', None)
        code = 'import akubolinfe._library as l; print(l.library().path)'
        return subprocess.run([sys.executable, '-c', code], env=env, stdout=subprocess.PIPE, stderr=subprocess.PIPE, cwd=self.prefix)

    def test_beside_the_module_then_in_the_prefix(self):
        sites = [self.prefix / place for place in ('lib/python3/site-packages', 'share/akubolinfe/python')]
        for site in sites:
            shutil.copytree(PACKAGE / 'akubolinfe', site / 'akubolinfe')
            self.assertIn(b'is not found', self.found(site).stderr)
        in_prefix = self.prefix / 'lib' / 'libakubolinfe.so.1'
        shutil.copy(self.library, in_prefix)
        for site in sites:
            self.assertEqual(self.found(site).stdout.decode().strip(), str(in_prefix))
            beside = site / 'akubolinfe' / 'libakubolinfe.so.1'
            shutil.copy(self.library, beside)
            self.assertEqual(self.found(site).stdout.decode().strip(), str(beside))


class HeaderTest(unittest.TestCase):
    def setUp(self):
        self.text = re.sub(r'/\*.*?\*/', '', HEADER.read_text(), flags=re.S)
        if 'AKUBOLINFE_ABI' not in self.text:
            self.skipTest('the header is that of an earlier ABI')
        self.numbers = {name: int(value) for name, value in re.findall(r'#define AKUBOLINFE_(\w+) (\d+)\b', self.text)}

    def structs(self):
        """The structs of the header, each with its fields."""
        for body, name in re.findall(r'typedef struct \{(.*?)\} akubolinfe_(\w+);', self.text, re.S):
            yield name, re.findall(r'(\w+) (\w+)(?:\[AKUBOLINFE_(\w+)\]|\[(\d+)\])?;', body)

    @staticmethod
    def declared(name):
        return getattr(_library, ''.join(part.title() for part in name.split('_')) + 'Struct')

    def test_structs(self):
        count = 0
        for name, fields in self.structs():
            expected = [(field, self.size(kind) * int(self.numbers.get(table, size or 1))) for kind, field, table, size in fields]
            self.assertEqual([(field, ctypes.sizeof(kind)) for field, kind in self.declared(name)._fields_], expected, name)
            count += 1
        self.assertGreater(count, 12)

    def size(self, kind):
        return ctypes.sizeof(NUMBERS.get(kind) or self.declared(kind.replace('akubolinfe_', '')))

    def test_functions(self):
        found = {}
        for result, name, taken in re.findall(r'(\w+) akubolinfe_(\w+)\(([^()]*)\);', self.text):
            parameters = [' '.join(part.split()) for part in taken.split(',') if part.strip() != 'void']
            found[name] = (self.size(result), [8 if '*' in part else self.size(part.split()[-2]) for part in parameters])
        declared = {name: (ctypes.sizeof(result), [ctypes.sizeof(kind) for kind in taken]) for name, result, taken in _library._functions()}
        # Those on tables save a copy that costs less than a call from Python; the package has no use for them.
        others = set(_library._OPTIONAL) | {name for name in found if name.endswith('_on_tables')}
        self.assertEqual({name: found[name] for name in found if name not in others}, declared)

    def test_numbers(self):
        for name in ('ABI', 'RECORD', 'HASH', 'GROUPS', 'COUNTERS', 'SLOTS', 'ACL_BYTES', 'HINT_BYTES', 'SUBJECT_BYTES', 'CERTIFICATES',
                     'RUN_RECORDS', 'PREPARED_RECORDS', 'ANSWER_BYTES'):
            self.assertEqual(getattr(_library, name), self.numbers[name], name)
        self.assertGreaterEqual(_library.TEXT_BYTES, self.numbers['LISTING_BYTES'])
