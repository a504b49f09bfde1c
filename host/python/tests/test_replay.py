"""Every entry point against the second program: 20,000 calls through the package, and the day."""
import os
import random
import re
import shutil
import subprocess
import tempfile
import unittest
from pathlib import Path

from .support import PACKAGE, ROOT, command, environment, use

from akubolinfe import Text


@unittest.skipUnless(shutil.which('rustc'), 'rustc is not installed')
class ReplayTest(unittest.TestCase):
    # Scripts of 2,500 calls; the number can be changed for a longer or a shorter comparison.
    SCRIPTS = int(os.environ.get('AKUBOLINFE_SCRIPTS', '8'))

    def test_generated_scripts(self):
        words = [ROOT / 'second' / 'compare', PACKAGE / 'tests' / 'replay.py', '300000', str(self.SCRIPTS), '2500']
        ran = subprocess.run(words, stdout=subprocess.PIPE, stderr=subprocess.STDOUT, env=environment())
        first = ran.stdout.decode().split('\n')[0]
        self.assertEqual(ran.returncode, 0, ran.stdout.decode()[:3000])
        self.assertGreaterEqual(int(re.fullmatch(r'(\d+) calls compared, no difference', first)[1]), self.SCRIPTS * 2500)

    def test_days(self):
        source = random.Random(1)
        with tempfile.TemporaryDirectory() as name:
            folder = Path(name)
            second, paths = folder / 'second', [folder / 'km0', folder / 'acl', folder / 'requests']
            subprocess.run(['rustc', '-O', '--edition', '2021', '-o', second, ROOT / 'second' / 'main.rs'], check=True)
            for _ in range(60):
                for path, content in zip(paths, self.day(source)):
                    path.write_bytes(content)
                expected = subprocess.run([second, 'day', *paths], stdout=subprocess.PIPE, check=True).stdout
                status, out, _ = command('day', *paths)
                self.assertEqual(out, expected)
                self.assertEqual(status, 2 if out.startswith(b'0 ') else 1 if b'refuse' in out else 0)

    @staticmethod
    def day(source):
        """A day's three files, some of them bad."""
        groups = [f'group\nlimit uses {source.randrange(4)}\nlimit counter {source.randrange(3)} uses {source.randrange(6)}\nOpPermissions Sign Verify\n'
                  for _ in range(source.randrange(5))]
        acl = Text('acl').read(''.join(groups).encode()).content
        times = [source.randrange(50) for _ in range(source.randrange(12))]
        requests = b''.join(use(source.choice((4, 5, 8)), time) for time in sorted(times))
        files = [bytes(20), acl, requests]
        if source.random() < 0.4:
            place = source.randrange(3)
            files[place] += source.choice((b'\1', use(4, 1), use(16, 1), bytes(64), use(4, 1) * 1001))
        return files
