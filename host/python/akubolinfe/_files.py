"""Files of the command: read with a limit, and written whole or not at all."""
from __future__ import annotations

import contextlib
import os
import stat
import sys
import tempfile
from typing import List, NamedTuple, Sequence, Set, Tuple

# Longer than any file or text that the library takes.
LONGEST = 1 << 20


class Trouble(Exception):
    """What keeps the command from an answer: exit status 2."""


class Lost(Trouble):
    """Standard output could not be written."""


class Written(NamedTuple):
    """A file that is to be written."""

    path: str
    content: bytes


def reason(error: Exception) -> str:
    """What went wrong, in the system's words."""
    return getattr(error, 'strerror', None) or str(error)


class Files:
    """The inputs that a command read, so that it never writes over one of them."""

    def __init__(self) -> None:
        self._read: Set[Tuple[int, int]] = set()
        self._stdin = False

    def read(self, path: str) -> bytes:
        """The content of a file; `-` is standard input, which is read once."""
        try:
            if path == '-':
                content = self._read_stdin()
            else:
                with open(path, 'rb') as file:
                    content = self._content(file)
        except (OSError, ValueError) as error:
            raise Trouble(f'{shown(path)}: {reason(error)}') from None
        if len(content) > LONGEST:
            raise Trouble(f'{shown(path)}: longer than {LONGEST} bytes, which no file is')
        return content

    def _read_stdin(self) -> bytes:
        if self._stdin:
            raise ValueError('named for two inputs')
        if sys.stdin is None:
            raise ValueError('closed')
        self._stdin = True
        return self._content(sys.stdin.buffer)

    def _content(self, file) -> bytes:
        status = os.fstat(file.fileno())
        self._read.add((status.st_dev, status.st_ino))
        return file.read(LONGEST + 1)

    def write(self, *files: Written) -> None:
        """Writes files whole, each by a temporary file in the same folder, fsync and rename.

        Nothing is renamed before all are written. They are renamed in the order given; where that fails between two of
        them the error says which are in place."""
        targets = [self._target(file.path) for file in files]
        if len(set(targets)) < len(targets):
            raise Trouble(f'{shown(files[0].path)}: named for two outputs')
        temporary: List[str] = []
        done: List[str] = []
        try:
            for target, file in zip(targets, files):
                temporary.append(_written(target, file))
            for target, file in zip(targets, files):
                _renamed(temporary[0], target, file.path, done)
                temporary.pop(0)
                done.append(shown(file.path))
        finally:
            for path in temporary:
                with contextlib.suppress(FileNotFoundError):
                    os.unlink(path)

    def _target(self, path: str) -> str:
        """The path that is renamed to, with links resolved."""
        if path in ('', '-'):
            raise Trouble('a file name is wanted for each output')
        try:
            target = os.path.realpath(path)
            status = os.stat(target)
        except FileNotFoundError:
            return target
        except (OSError, ValueError) as error:
            raise Trouble(f'{shown(path)}: {reason(error)}') from None
        if not stat.S_ISREG(status.st_mode):
            raise Trouble(f'{shown(path)}: not a regular file')
        if (status.st_dev, status.st_ino) in self._read:
            raise Trouble(f'{shown(path)}: is one of the inputs, and is not written over')
        return target


def _written(target: str, file: Written) -> str:
    """A temporary file with the content, beside its target."""
    path = None
    try:
        handle, path = tempfile.mkstemp(prefix='.akubolinfe-', dir=os.path.dirname(target))
        with open(handle, 'wb') as opened:
            os.fchmod(opened.fileno(), _mode(target))
            opened.write(file.content)
            opened.flush()
            os.fsync(opened.fileno())
        return path
    except OSError as error:
        if path:
            os.unlink(path)
        raise Trouble(f'{shown(file.path)}: {reason(error)}; nothing is written') from None


def _mode(target: str) -> int:
    """The mode of the file that is replaced; for a new one what the umask leaves."""
    try:
        return stat.S_IMODE(os.stat(target).st_mode)
    except FileNotFoundError:
        mask = os.umask(0o077)
        os.umask(mask)
        return 0o666 & ~mask


def _renamed(temporary: str, target: str, path: str, done: Sequence[str]) -> None:
    """Renames a temporary file, and has the folder keep the new name."""
    state = f'; written: {", ".join(done)}' if done else '; nothing is written'
    try:
        os.rename(temporary, target)
    except OSError as error:
        raise Trouble(f'{shown(path)}: {reason(error)}{state}') from None
    try:
        folder = os.open(os.path.dirname(target), os.O_RDONLY | os.O_DIRECTORY)
        try:
            os.fsync(folder)
        finally:
            os.close(folder)
    except OSError as error:
        raise Trouble(f'{shown(path)}: written, but its folder could not be synchronised: {reason(error)}') from None


def shown(path: str) -> str:
    """A path as it is named in a message, on one line."""
    if path == '-':
        return 'standard input'
    short = path if len(path) <= 200 else path[:200] + '..'
    return short if short.isprintable() else ascii(short)


def write_output(content: bytes) -> None:
    """Writes to standard output at once, without a buffer that could be lost at the end."""
    view = memoryview(content)
    try:
        while view:
            view = view[os.write(1, view) :]
    except OSError as error:
        raise Lost(f'standard output: {reason(error)}') from None
