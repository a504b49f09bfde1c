"""Manual page and completion are made from the parser; the package installs without a network."""
import os
import shutil
import subprocess
import sys
import tempfile
import unittest
from pathlib import Path

from .support import ACL, BUNDLE, PACKAGE

from akubolinfe import _library, command

sys.path.insert(0, str(PACKAGE / 'tools'))
import documents  # noqa: E402


class DocumentsTest(unittest.TestCase):
    def setUp(self):
        self.manual, self.completion = documents.made().values()

    def test_every_command_and_option_is_in_the_manual(self):
        page = self.manual.replace('\\-', '-')
        for words, parser in documents.leaves(command.parser()):
            self.assertIn(f'\n.SS {" ".join(words)}\n', page)
            for names, _ in documents.options(parser):
                self.assertIn(names[-1], page)
        self.assertIn('.SH EXIT STATUS', page)

    def test_every_command_has_an_example_and_json(self):
        for words, parser in documents.paths(command.parser()):
            self.assertIn('example:\n  akubolinfe ', parser.format_help(), words)
        for words, parser in documents.leaves(command.parser()):
            self.assertIn('--json', parser.format_help(), words)

    @unittest.skipUnless(shutil.which('groff'), 'groff is not installed')
    def test_the_manual_is_good_roff(self):
        ran = subprocess.run(['groff', '-man', '-Tutf8', '-ww'], input=self.manual.encode(), stdout=subprocess.PIPE, stderr=subprocess.PIPE)
        self.assertEqual((ran.returncode, ran.stderr), (0, b''))
        self.assertIn('--require-approach', ran.stdout.decode().replace('\u2010', '-'))

    @unittest.skipUnless(shutil.which('bash'), 'bash is not installed')
    def test_completion(self):
        for typed, expected in (
                (('',), {'attest', 'trim', 'acl', 'day', '--version'}), (('at',), {'attest'}), (('bundle', ''), {'show', 'make', 'check'}),
                (('attest', '--req'), {'--require-approach', '--require-protection'}), (('attest', '--require-protection', ''), {'module', 'softcard', 'cardset'}),
                (('attest', '--bundle', 'b', '--ac'), {'--acl'}), (('acl', 'show', '--nu'), {'--numbered'})):
            self.assertLessEqual(expected, self.completed(*typed), typed)

    def completed(self, *typed):
        words = ' '.join(f"'{word}'" for word in ('akubolinfe', *typed))
        script = f'{self.completion}\nCOMP_WORDS=({words})\nCOMP_CWORD={len(typed)}\n_akubolinfe\nprintf "%s\\n" "${{COMPREPLY[@]}}"\n'
        return set(subprocess.run(['bash'], input=script.encode(), stdout=subprocess.PIPE, check=True).stdout.decode().split())


class InstallTest(unittest.TestCase):
    def test_pip_without_a_network(self):
        with tempfile.TemporaryDirectory() as name:
            prefix = Path(name).resolve() / 'prefix'
            made = subprocess.run([sys.executable, '-m', 'venv', prefix], stdout=subprocess.PIPE, stderr=subprocess.STDOUT)
            if made.returncode:
                self.skipTest('venv or pip is not installed')
            env = {k: v for k, v in os.environ.items() if k not in ('PYTHONPATH', 'AKUBOLINFE_LIBRARY')}
            pip = [prefix / 'bin' / 'pip', 'install', '--no-index', '--no-deps', '--disable-pip-version-check', '-q', str(PACKAGE)]
            subprocess.run(pip, check=True, env=env, cwd=name)
            self.assertTrue((prefix / 'share' / 'man' / 'man1' / 'akubolinfe.1').exists())
            self.assertTrue((prefix / 'share' / 'bash-completion' / 'completions' / 'akubolinfe').exists())
            self.installed(prefix, env)

    def test_a_prefix_without_pip(self):
        with tempfile.TemporaryDirectory() as name:
            script, prefix = PACKAGE / 'tools' / 'install.py', Path(name).resolve() / 'root' / 'prefix'
            library = Path(_library.library().path)
            subprocess.run([sys.executable, script, '/prefix', Path(name).resolve() / 'root'], check=True)
            if library.is_absolute():
                (prefix / 'lib').mkdir()
                shutil.copy(library, prefix / 'lib' / 'libakubolinfe.so.1')
                env = {k: v for k, v in os.environ.items() if k not in ('PYTHONPATH', 'AKUBOLINFE_LIBRARY')}
                ran = subprocess.run([sys.executable, prefix / 'bin' / 'akubolinfe', '--version'], env=env, stdout=subprocess.PIPE, check=True)
                self.assertIn(f'library {prefix}/lib/libakubolinfe.so.1\nkit ', ran.stdout.decode())
                shutil.rmtree(prefix / 'lib')
            subprocess.run([sys.executable, script, '--uninstall', prefix], check=True)
            self.assertEqual([path for path in prefix.rglob('*') if path.is_file()], [])

    def installed(self, prefix, env):
        """The installed command finds the library of its prefix, with what was proved of it."""
        library = Path(_library.library().path)
        if not library.is_absolute():
            return
        shutil.copy(library, prefix / 'lib' / 'libakubolinfe.so.1')
        (prefix / 'share' / 'akubolinfe').mkdir()
        (prefix / 'share' / 'akubolinfe' / 'BUILD').write_text('kit some-kit\nlogic 12ab\ncommit 34cd\n')
        ran = subprocess.run([prefix / 'bin' / 'akubolinfe', '--version'], env=env, stdout=subprocess.PIPE, check=True)
        lines = ran.stdout.decode().splitlines()
        self.assertEqual(lines[2:], [f'library {prefix / "lib" / "libakubolinfe.so.1"}', 'kit some-kit', 'logic 12ab', 'commit 34cd'])
        subprocess.run([prefix / 'bin' / 'akubolinfe', 'attest', '--bundle', BUNDLE, '--acl', ACL], env=env, stdout=subprocess.PIPE, check=True)
