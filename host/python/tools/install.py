#!/usr/bin/env python3
"""Installs the package into a prefix without pip: the package, the command, its manual page and completion, and what the library was
proved with.

    install.py PREFIX [DESTDIR]                  installs below DESTDIR/PREFIX
    install.py --uninstall PREFIX [DESTDIR]      removes what was installed
"""
import os
import shutil
import subprocess
import sys
from pathlib import Path

sys.path.insert(0, str(Path(__file__).resolve().parent))
import documents  # noqa: E402

HERE = Path(__file__).resolve().parent.parent
SHARE = 'share/akubolinfe'
COMMAND = """#!/usr/bin/env python3
import sys
from pathlib import Path

sys.path.insert(0, str(Path(__file__).resolve().parent.parent / 'share' / 'akubolinfe' / 'python'))

from akubolinfe.command import run

run()
"""


def printed(*words):
    """What a program prints; nothing where it fails or is not there."""
    try:
        return subprocess.run(words, cwd=HERE, stdout=subprocess.PIPE, stderr=subprocess.DEVNULL, check=True).stdout.decode().strip()
    except (OSError, subprocess.CalledProcessError):
        return ''


def build():
    """The kit, its logic and the commit, a line each."""
    kit, _, logic = printed('rt', 'version').partition(' logic ')
    commit = printed('git', 'rev-parse', 'HEAD')
    return ''.join(f'{name} {value or "unknown"}\n' for name, value in (('kit', kit), ('logic', logic), ('commit', commit)))


def files():
    """The files besides the package: path below the prefix, content, mode."""
    yield 'bin/akubolinfe', COMMAND, 0o755
    yield f'{SHARE}/BUILD', build(), 0o644
    for path, content in documents.made().items():
        yield path, content, 0o644


def install(prefix):
    package = prefix / SHARE / 'python' / 'akubolinfe'
    shutil.rmtree(package, ignore_errors=True)
    shutil.copytree(HERE / 'akubolinfe', package, ignore=shutil.ignore_patterns('__pycache__'))
    for path, content, mode in files():
        target = prefix / path
        target.parent.mkdir(parents=True, exist_ok=True)
        target.write_text(content)
        target.chmod(mode)


def uninstall(prefix):
    shutil.rmtree(prefix / SHARE, ignore_errors=True)
    for path, _, _ in files():
        if (prefix / path).exists():
            (prefix / path).unlink()


def main():
    words = sys.argv[1:]
    work = uninstall if words[:1] == ['--uninstall'] else install
    words = words[1:] if work is uninstall else words
    if len(words) not in (1, 2):
        sys.exit(__doc__.strip())
    prefix, *destination = words
    work(Path(destination[0] + os.path.abspath(prefix) if destination and destination[0] else prefix))


if __name__ == '__main__':
    main()
