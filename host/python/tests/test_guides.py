"""The commands of docs/DESK.md and docs/HOST.md print what these pages show."""
import os
import shlex
import shutil
import subprocess
import sys
import tempfile
import unittest
from pathlib import Path

from .support import ROOT, environment

MARK = '--- next ---'


def steps(text):
    """The commands of a page, each with the lines that it prints. One that ends with <<'END' goes on up to that word."""
    found, inside = [], False
    for line in text.split('\n'):
        if inside:
            found[-1][0].append(line[4:])
            inside = line != '    END'
        elif line.startswith('    $ '):
            found.append(([line[6:]], []))
            inside = line.endswith("<<'END'")
        elif line.startswith('    ') and found:
            found[-1][1].append(line[4:])
    return found


def printed(page, folder):
    """What each command of a page prints, in a folder that has the files that ship."""
    os.symlink(ROOT / 'crates', Path(folder) / 'crates')
    (Path(folder) / 'bin').mkdir()
    for name, words in (('akubolinfe', '-m akubolinfe'), ('python3', '')):
        script = Path(folder) / 'bin' / name
        script.write_text(f'#!/bin/sh\nexec {shlex.quote(sys.executable)} {words} "$@"\n')
        script.chmod(0o755)
    commands = [lines for lines, _ in steps(page)]
    typed = ''.join('\n'.join(lines) + f"\nprintf '%s\\n' '{MARK}'\n" for lines in commands)
    env = environment(PATH=f'{folder}/bin:{os.environ["PATH"]}')
    ran = subprocess.run(['bash'], input=typed, cwd=folder, env=env, universal_newlines=True, stdout=subprocess.PIPE, stderr=subprocess.STDOUT)
    return [part.splitlines() for part in ran.stdout.split(MARK + '\n')]


@unittest.skipUnless(shutil.which('bash'), 'bash is not installed')
class GuidesTest(unittest.TestCase):
    maxDiff = None

    def test_pages(self):
        for name in ('DESK.md', 'HOST.md'):
            page = (ROOT / 'docs' / name).read_text()
            with tempfile.TemporaryDirectory() as folder:
                for (lines, expected), found in zip(steps(page), printed(page, folder)):
                    self.assertEqual(found, expected, f'{name}: {lines[0]}')
