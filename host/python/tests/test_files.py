"""Files are written whole or not at all, and never over an input."""
import errno
import os
import tempfile
import unittest
from pathlib import Path
from unittest import mock

from . import support  # noqa: F401

from akubolinfe._files import Files, Trouble, Written, shown


class FilesTest(unittest.TestCase):
    def setUp(self):
        folder = tempfile.TemporaryDirectory()
        self.addCleanup(folder.cleanup)
        self.folder = Path(folder.name)
        self.pair = (Written(str(self.folder / 'hints'), b'hints'), Written(str(self.folder / 'new'), b'new'))

    def contents(self):
        return {path.name: path.read_bytes() for path in self.folder.iterdir()}

    def failing(self, name, times, error):
        """A function of os that works so many times and then fails."""
        real, left = getattr(os, name), [times]

        def call(*words):
            left[0] -= 1
            if left[0] < 0:
                raise OSError(error, os.strerror(error))
            return real(*words)

        return mock.patch.object(os, name, call)

    def test_both(self):
        Files().write(*self.pair)
        self.assertEqual(self.contents(), {'hints': b'hints', 'new': b'new'})

    def test_a_failure_before_any_name_is_changed(self):
        (self.folder / 'new').write_bytes(b'old')
        for name, times in (('fsync', 0), ('fsync', 1), ('rename', 0)):
            with self.failing(name, times, errno.EIO), self.assertRaisesRegex(Trouble, 'Input/output error; nothing is written'):
                Files().write(*self.pair)
            self.assertEqual(self.contents(), {'new': b'old'})

    def test_a_failure_between_the_two_says_what_is_where(self):
        (self.folder / 'new').write_bytes(b'old')
        with self.failing('rename', 1, errno.EIO), self.assertRaisesRegex(Trouble, f'new: Input/output error; written: {self.folder}/hints$'):
            Files().write(*self.pair)
        self.assertEqual(self.contents(), {'hints': b'hints', 'new': b'old'})

    def test_a_folder_that_is_not_synchronised(self):
        with self.failing('fsync', 2, errno.EIO), self.assertRaisesRegex(Trouble, 'hints: written, but its folder could not be synchronised'):
            Files().write(*self.pair)
        self.assertEqual(self.contents(), {'hints': b'hints'})

    def test_one_file_under_two_names(self):
        os.symlink('new', self.folder / 'link')
        with self.assertRaisesRegex(Trouble, 'named for two outputs'):
            Files().write(Written(str(self.folder / 'link'), b''), Written(str(self.folder / 'new'), b''))

    def test_names_in_messages(self):
        self.assertEqual((shown('-'), shown('a'), len(shown('a' * 5000))), ('standard input', 'a', 202))
        self.assertEqual(shown('a\nb\udcff'), "'a\\nb\\udcff'")
