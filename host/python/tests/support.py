"""What the tests share: the files that ship, records made by hand, and the command."""
import io
import os
import subprocess
import sys
from pathlib import Path
from unittest import mock

PACKAGE = Path(__file__).resolve().parent.parent
ROOT = PACKAGE.parent.parent
CRATES = ROOT / 'crates'
HEADER = ROOT / 'host' / 'include' / 'akubolinfe.h'
sys.path.insert(0, str(PACKAGE))

BUNDLE = CRATES / 'attest' / 'data' / 'bundle'
ACL = CRATES / 'attest' / 'data' / 'acl'
FAILING_BUNDLE = CRATES / 'trim' / 'data' / 'bundle'
FAILING_ACL = CRATES / 'trim' / 'data' / 'acl'
DAY = tuple(CRATES / 'day' / 'data' / name for name in ('km0', 'acl', 'requests'))
KM0 = bytes(20)
OFFICER = '44' * 20


def record(kind, **fields):
    """A record of 64 bytes; `at4=..` puts bytes at offset 4."""
    content = bytearray(64)
    content[0] = kind
    for name, value in fields.items():
        content[int(name[2:]) : int(name[2:]) + len(value)] = value
    return bytes(content)


def use(permission, time):
    """A use request, by the permission's bit."""
    return record(6, at4=bytes([permission]), at56=time.to_bytes(8, 'big'))


SIGN, ENCRYPT, DECRYPT, REDUCE, EXPAND = 4, 8, 9, 2, 12
GROUP = record(1)
SIGN_GROUP = GROUP + record(3, at4=b'\0\x10')


def acl_of(text):
    """The ACL of a text."""
    from akubolinfe import Text
    read = Text('acl').read(text.encode())
    assert read, text
    return read.content


def environment(**changes):
    """The environment of a command, with the package on its path."""
    return {**os.environ, 'PYTHONPATH': str(PACKAGE), **changes}


def command(*words, **options):
    """Runs the command: its exit status, standard output and standard error. Without options it runs in this process."""
    words = [str(word) for word in words]
    return spawned(words, **options) if options else called(words)


def spawned(words, stdin=b'', env=None, stdout=subprocess.PIPE, **options):
    ran = subprocess.run([sys.executable, '-m', 'akubolinfe', *words], input=stdin, stdout=stdout, stderr=subprocess.PIPE,
                         env=env or environment(), timeout=60, **options)
    return ran.returncode, ran.stdout, ran.stderr


def called(words):
    from akubolinfe import command as module
    out, err = [], io.StringIO()
    with mock.patch.object(module, 'write_output', out.append), mock.patch.object(sys, 'stderr', err):
        try:
            status = module.main(words)
        except SystemExit as end:
            status = end.code
    return status, b''.join(out), err.getvalue().encode('utf-8', 'backslashreplace')
