"""The command: exit statuses, JSON, bad paths, files written whole or not at all."""
import json
import os
import resource
import subprocess
import sys
import tempfile
import unittest
from pathlib import Path
from unittest import mock

from .support import ACL, BUNDLE, DAY, FAILING_ACL, FAILING_BUNDLE, GROUP, SIGN_GROUP, command, environment, use

from akubolinfe import explain, read_bundle
from akubolinfe.places import supported

H = 'c1' * 20
DESK = ('--bundle', BUNDLE, '--acl', ACL)
FAILING = ('--bundle', FAILING_BUNDLE, '--acl', FAILING_ACL)


def worded(key, place):
    """The words of a refusal or a step: where it is, if the library says where."""
    return place if supported() else explain(key)


class CommandTest(unittest.TestCase):
    def setUp(self):
        folder = tempfile.TemporaryDirectory()
        self.addCleanup(folder.cleanup)
        self.folder = Path(folder.name)

    def path(self, name, content=None):
        path = self.folder / name
        if content is not None:
            path.write_bytes(content)
        return path

    def ran(self, status, *words, **options):
        """Standard output and standard error of a command that ends with this status."""
        found, out, err = command(*words, **options)
        self.assertEqual(found, status, (words, out, err))
        return out.decode() if out is not None else None, err.decode()

    def json(self, status, *words, **options):
        out, _ = self.ran(status, *words, '--json', **options)
        value = json.loads(out)
        self.assertEqual(value['status'], status)
        return value

    def troubled(self, *words, **options):
        """The one line on standard error of a command that ends with 2."""
        out, err = self.ran(2, *words, **options)
        self.assertEqual((out, err.count('\n')), ('', 1))
        return err


class AttestTest(CommandTest):
    def test_accepted(self):
        out, err = self.ran(0, 'attest', *DESK)
        self.assertEqual(err, '')
        self.assertEqual(out.splitlines()[:3], [
            'ACCEPTED   approach 2, protection 2 (softcard), recoverable',
            'policy     suite 3 DLf3072s256mRijndael, approach 2, signing admitted, encryption not, lowest protection softcard, a CSR is in use',
            f'key        pubkeydata {"88" * 20}, module ESN {"11" * 20}'])
        self.assertRegex(out.splitlines()[3], '^acl        3 groups, 512 bytes, sha256 [0-9a-f]{64}$')
        value = self.json(0, 'attest', *DESK)
        self.assertEqual([value[k] for k in ('accepted', 'approach', 'protection', 'protection_name', 'recoverable', 'step')],
                         [True, 2, 2, 'softcard', True, None])
        self.assertEqual((value['acl']['groups'], value['policy']['suite'], value['key']['pubkeydata']), (3, 3, '88' * 20))

    def test_failed(self):
        out, _ = self.ran(1, 'attest', *FAILING)
        self.assertEqual(out.splitlines()[0], f'FAILED     ACLV3: {worded("ACLV3", "group 0 action 0: ExportAsPlain is not admitted by the policy")}')
        self.assertEqual(out.splitlines()[-1], f'next       akubolinfe trim --bundle {FAILING_BUNDLE} --acl {FAILING_ACL} --dry-run')
        value = self.json(1, 'attest', *FAILING)
        self.assertEqual((value['accepted'], value['step']), (False, 'ACLV3'))

    def test_policy_and_facts_apart(self):
        facts, policy = read_bundle(BUNDLE.read_bytes())
        text_facts, text_policy = ''.join(f'{line}\n' for line in facts.lines).encode(), f'{policy.line}\n'.encode()
        for f in (text_facts, BUNDLE.read_bytes()[:-64]):
            for p in (text_policy, BUNDLE.read_bytes()[-64:]):
                words = ('--policy', self.path('p', p), '--facts', self.path('f', f), '--acl', ACL)
                self.assertEqual(self.json(0, 'attest', *words)['bundle'], self.json(0, 'attest', *DESK)['bundle'])
        own = b'policy suite 3 approach 1 protection 1\n'
        for evidence in (text_facts + own, BUNDLE.read_bytes()):
            err = self.troubled('attest', '--policy', self.path('p', text_policy), '--facts', self.path('f', evidence), '--acl', ACL)
            self.assertIn('has a policy of its own', err)
        err = self.troubled('attest', '--policy', self.path('p', text_facts + text_policy), '--facts', self.path('f', text_facts), '--acl', ACL)
        self.assertIn('one policy is wanted', err)
        err = self.troubled('attest', '--policy', self.path('p', text_policy), '--facts', self.path('f', b'fact KML\n'), '--acl', ACL)
        self.assertIn(f'{self.path("f")}:1: ', err)
        err = self.troubled('attest', '--policy', self.path('p', text_policy), '--facts', self.path('f', text_facts[:-1]), '--acl', ACL)
        self.assertIn(f'{self.path("f")}:{len(facts.lines)}: ', err)

    def test_files_as_text_and_from_standard_input(self):
        text, _ = self.ran(0, 'bundle', 'show', BUNDLE)
        listing = ACL.with_name('acl.listing')
        self.ran(0, 'attest', '--bundle', '-', '--acl', listing, stdin=text.encode())
        self.assertIn('standard input: named for two inputs', self.troubled('attest', '--bundle', '-', '--acl', '-', stdin=text.encode()))

    def test_an_empty_acl(self):
        empty = self.path('empty', b'')
        self.assertIn('an empty ACL', self.troubled('attest', '--bundle', BUNDLE, '--acl', empty))
        out, _ = self.ran(0, 'attest', '--bundle', BUNDLE, '--acl', empty, '--allow-empty-acl')
        self.assertIn('protection 4 (not kept)', out)
        self.assertIn('an empty ACL', self.troubled('trim', '--bundle', BUNDLE, '--acl', empty, '--dry-run'))

    def test_requirements(self):
        self.ran(0, 'attest', *DESK, '--require-approach', 2, '--require-protection', 'softcard')
        out, _ = self.ran(1, 'attest', *DESK, '--require-protection', 'cardset')
        self.assertEqual(out.splitlines()[0], 'REFUSED    --require-protection cardset: the protection is 2 (softcard)')
        bundle = bytearray(BUNDLE.read_bytes())
        bundle[-59] = 1
        weak = ('--bundle', self.path('weak', bundle), '--acl', FAILING_ACL)
        out, _ = self.ran(0, 'attest', *weak)
        self.assertEqual(out.splitlines()[0], 'ACCEPTED   approach 1: the key was generated in a module; its ACL is not judged')
        value = self.json(1, 'attest', *weak, '--require-approach', 2, '--require-protection', 'module')
        self.assertEqual((value['accepted'], len(value['unmet']), value['protection']), (False, 2, None))

    def test_refused_files(self):
        self.assertIn('(refusal 1)', self.troubled('attest', '--bundle', self.path('b', b'\x0a'), '--acl', ACL))
        self.assertIn('(refusal 3)', self.troubled('attest', '--bundle', BUNDLE, '--acl', self.path('a', GROUP * 65)))
        bundle = bytearray(BUNDLE.read_bytes())
        bundle[-60] = 9
        out, _ = self.ran(2, 'attest', '--bundle', self.path('b', bundle), '--acl', ACL)
        self.assertEqual(out.splitlines()[0], f'REFUSED    11: {worded(11, f"bundle: record {len(bundle) // 64 - 1}: {explain(11)}")}')
        value = self.json(2, 'attest', '--bundle', self.path('b', b'\x0a'), '--acl', ACL)
        self.assertEqual((value['refusal'], value['words'], 'error' in value), (1, explain(1), True))

    def test_usage(self):
        for words in ((), ('--bundle', BUNDLE), ('--policy', BUNDLE, '--acl', ACL), ('--bundle', BUNDLE, '--facts', BUNDLE, '--acl', ACL),
                      (*DESK, '--require-approach', 3), (*DESK, '--requ', 2), (*DESK, 'more')):
            self.assertEqual(self.ran(2, 'attest', *words)[0], '')


class TrimTest(CommandTest):
    def test_a_dry_run_and_the_files(self):
        out, _ = self.ran(0, 'trim', *FAILING, '--dry-run')
        self.assertEqual(out.splitlines(), [
            'group 0 action 0, removed: OpPermissions ExportAsPlain', 'group 0 action 1, removed: MakeBlob AllowNullKmToken blobfile',
            'group 0 action 1, removed: blobfile devices 1', 'group 0 action 3, removed: OpPermissions ExportAsPlain',
            f'group 0 action 4, removed: MakeArchiveBlob kahash {"77" * 20} mechanism 3', 'dry run: ACL 512 bytes, hints 128 bytes, not written'])
        new, hints = self.path('new'), self.path('hints')
        value = self.json(0, 'trim', *FAILING, '--new', new, '--hints', hints)
        self.assertEqual((len(value['removed']), value['written']), (5, [str(new), str(hints)]))
        self.ran(0, 'attest', '--bundle', FAILING_BUNDLE, '--acl', new)
        out, _ = self.ran(0, 'trim', '--bundle', FAILING_BUNDLE, '--acl', new, '--dry-run')
        self.assertEqual(out.splitlines()[0], 'nothing to remove: the ACL fails no step')
        self.assertEqual(sorted(os.listdir(self.folder)), ['hints', 'new'])

    def test_a_step_before_the_acl(self):
        bundle = bytearray(FAILING_BUNDLE.read_bytes())
        bundle[14 * 64 + 5] = 0
        words = ('--bundle', self.path('b', bundle), '--acl', FAILING_ACL, '--new', self.path('n'), '--hints', self.path('h'))
        out, _ = self.ran(1, 'trim', *words)
        self.assertEqual(out.splitlines()[0], f'FAILED     WV1: {worded("WV1", "signature warrant is not good")}')
        self.assertEqual(self.json(1, 'trim', *words)['step'], 'WV1')
        self.assertFalse(self.path('n').exists() or self.path('h').exists())

    def test_never_over_an_input_or_twice(self):
        bundle, acl = self.path('b', FAILING_BUNDLE.read_bytes()), self.path('a', FAILING_ACL.read_bytes())
        os.symlink('a', self.path('link'))
        os.link(acl, self.path('hard'))
        given = ('--bundle', bundle, '--acl', acl)
        for new, hints in (('a', 'h'), ('n', 'b'), ('link', 'h'), ('hard', 'h'), ('n', '../' + self.folder.name + '/b')):
            err = self.troubled('trim', *given, '--new', self.path(new), '--hints', self.path(hints))
            self.assertIn('is one of the inputs', err)
        self.assertIn('named for two outputs', self.troubled('trim', *given, '--new', self.path('n'), '--hints', self.path('n')))
        self.assertEqual((bundle.read_bytes(), acl.read_bytes()), (FAILING_BUNDLE.read_bytes(), FAILING_ACL.read_bytes()))
        self.assertEqual(sorted(os.listdir(self.folder)), ['a', 'b', 'hard', 'link'])

    def test_usage(self):
        for words in ((), ('--new', 'n'), ('--hints', 'h'), ('--dry-run', '--new', 'n', '--hints', 'h')):
            self.assertIn('either --dry-run, or --new and --hints', self.troubled('trim', *FAILING, *words, cwd=self.folder))
        self.assertEqual(os.listdir(self.folder), [])


class FileTest(CommandTest):
    def test_show_make_check(self):
        hints = self.path('hints')
        self.ran(0, 'trim', *FAILING, '--new', self.path('new'), '--hints', hints)
        request = self.path('request', use(4, 9))
        for kind, path in (('acl', ACL), ('bundle', BUNDLE), ('requests', DAY[2]), ('hints', hints), ('request', request)):
            text, _ = self.ran(0, kind, 'show', path)
            made = self.path('made')
            self.ran(0, kind, 'make', '-', '--output', made, stdin=text.encode())
            self.assertEqual(made.read_bytes(), path.read_bytes())
            status, out, _ = command(kind, 'make', '-', stdin=text.encode())
            self.assertEqual((status, out), (0, path.read_bytes()))
            self.assertEqual(bytes.fromhex(self.json(0, kind, 'make', path)['hex']), path.read_bytes())
            self.assertEqual(self.json(0, kind, 'check', path)['records'], len(path.read_bytes()) // 64)
            self.assertEqual([r['line'] for r in self.json(0, kind, 'show', '-', stdin=text.encode())['records']], text.splitlines())
            self.assertIn('refusal 1', self.troubled(kind, 'check', self.path('bad', b'\0')))
            self.assertIn('bad:1: ', self.troubled(kind, 'show', self.path('bad', b'wrong\n')))
            self.assertEqual(self.json(2, kind, 'make', self.path('bad', b'wrong\n'))['line'], 1)

    def test_numbers(self):
        out, _ = self.ran(0, 'acl', 'show', '--numbered', FAILING_ACL)
        lines = out.splitlines()
        self.assertEqual((lines[0], lines[2][:18], lines[4]), ('group 0           group', 'group 0 action 0  ', 'group 0 action 1  blobfile devices 1'))
        self.assertTrue(lines[-1].startswith('group 1 action 0  '))
        self.assertTrue(self.ran(0, 'bundle', 'show', '--numbered', BUNDLE)[0].startswith('record 0   fact warrantESN'))
        records = self.json(0, 'acl', 'show', FAILING_ACL)['records']
        self.assertEqual((records[0]['group'], records[0]['action'], records[-1]['group'], records[-1]['action']), (0, None, 1, 0))

    def test_request_make(self):
        made = self.path('made')
        self.ran(0, 'request', 'make', 'use', 'Sign', '--time', 10, '--certificate', f'{H}:1', '--delegation', f'{H}:{H}:Sign,Verify', '-o', made)
        out, _ = self.ran(0, 'request', 'show', made)
        self.assertEqual(out, f'use Sign time 10\ncertificate {H} mechanism 1\ndelegation from {H} to {H} Sign Verify\n')
        self.ran(0, 'request', 'make', 'blob', '--time', 'now', '--kmhash', H, '--token', H, '--needed', 2, '--total', 3, '--soft', '--device', 0, '-o', made)
        self.assertIn(' AllowSoftSlots needed 2 total 3 seconds 0 blobfile time ', self.ran(0, 'request', 'show', made)[0])
        self.ran(0, 'request', 'make', 'recovery', '--time', 1, '--kahash', H, '--mechanism', 2, '-o', made)
        self.assertEqual(self.ran(0, 'request', 'show', made)[0], f'recovery kahash {H} mechanism 2 time 1\n')
        for words in (('use', 'Sign'), ('use', '--time', 1), ('use', 'sign', '--time', 1), ('blob', '--time', 1), ('recovery', '--time', 1, '--kahash', H),
                      ('use', 'Sign', '--time', 'soon'), ('use', 'Sign', '--time', 1, '--certificate', H), ('use', 'Sign', '--time', 1 << 64),
                      ('use', 'Sign', '--time', 1, '--certificate', f'{H}:0'), ('use', 'Sign', '--time', 1, '--delegation', f'{H}:Sign'),
                      ('recovery', '--time', 1, '--kahash', 'xy', '--mechanism', 1), ('read', 'this')):
            self.troubled('request', 'make', *words, '-o', made)

    def test_day(self):
        out, _ = self.ran(1, 'day', *DAY)
        self.assertEqual(out, '1 permit 0\n2 permit 1\n3 permit 1\n4 refuse 7 0\n')
        answers = self.json(1, 'day', *DAY)['answers']
        self.assertEqual([(a['permitted'], a['refusal'], a['group']) for a in answers][-2:], [(True, 0, 1), (False, 7, 0)])
        km0 = self.path('km0', DAY[0].read_bytes().hex().encode() + b'\n')
        self.ran(0, 'day', km0, DAY[1], self.path('r', b'use Sign time 10\n'))
        for files in ((b'short', SIGN_GROUP, b''), (bytes(20), b'\1', b''), (bytes(20), SIGN_GROUP, use(4, 1) * 1001)):
            paths = [self.path(name, content) for name, content in zip('kar', files)]
            out, err = self.ran(2, 'day', *paths)
            self.assertEqual((out, err.count('\n')), ('0 refuse 1\n', 1))
        self.assertEqual(self.json(2, 'day', *paths)['refusal'], 1)
        out, _ = self.ran(2, 'day', km0, DAY[1], self.path('r', use(4, 1) + use(16, 2)))
        self.assertEqual(out, '0 refuse 2\n')
        long = (GROUP + b''.join(b'\3\0\0\0\0\x10' + bytes(58) for _ in range(8))) * 64
        self.ran(0, 'day', km0, self.path('a', long), self.path('r', use(4, 1)))
        stored = (GROUP + (b'\4\0\0\x41' + bytes(60) + b'\x0f' + bytes(63)) * 8) * 64
        out, _ = self.ran(2, 'day', km0, self.path('a', stored), self.path('r', b''))
        self.assertEqual((len(stored) > 53248, out), (True, '0 refuse 1\n'))

    def test_subject(self):
        words = ('--suite', 'DLf3072s256mRijndael', '--hash', H, '--hash', H, '--hash', H)
        out, _ = self.ran(0, 'subject', 'CertKMaKMCbKNSO', *words)
        self.assertEqual(bytes.fromhex(out.strip()), b'Module keys: suite = DLf3072s256mRijndael\0' + bytes.fromhex(H * 3))
        made = self.path('made')
        self.ran(0, 'subject', 3, *words, '-o', made)
        self.assertEqual(made.read_bytes().hex(), out.strip())
        self.assertEqual(self.json(0, 'subject', 'CertKMaKMCbKNSO', *words)['hex'], out.strip())
        for certificate, number in (('9', 10), ('CertKMaKMCaKFIPSbKNSO', 1)):
            self.assertIn(f'refuse {number}: {explain(number)}', self.troubled('subject', certificate, *words))
            self.assertEqual(self.json(2, 'subject', certificate, *words)['refusal'], number)
        self.assertIn('not a certificate', self.troubled('subject', 'warrant', *words))
        self.assertIn('40 hexadecimal digits', self.troubled('subject', '3', '--suite', '1', '--hash', 'xy'))

    def test_explain(self):
        self.assertEqual(self.ran(0, 'explain', '7')[0], f'7 SPENT  {explain(7)}\n')
        self.assertEqual(self.ran(0, 'explain', 'MSCV4')[0], f'MSCV4  {explain("MSCV4")}\n')
        self.assertEqual(len(self.ran(0, 'explain')[0].splitlines()), 36)
        self.assertEqual(self.json(0, 'explain', '7')['meanings'], [{'key': '7', 'name': 'SPENT', 'words': explain(7)}])
        self.assertIn('neither a refusal number', self.troubled('explain', '99'))

    def test_version_and_help(self):
        out, _ = self.ran(0, '--version')
        self.assertEqual([line.split(' ')[0] for line in out.splitlines()], ['akubolinfe', 'abi', 'library', 'kit', 'logic', 'commit'])
        self.assertEqual(self.json(0, 'version')['abi'], 1)
        for words in ((), ('attest',), ('acl',), ('acl', 'show'), ('request', 'make'), ('day',)):
            self.assertIn('example:', self.ran(0, *words, '--help')[0])
        for words in ((), ('wrong',), ('acl',), ('--vers',)):
            self.assertEqual(self.ran(2, *words)[0], '')


class TroubleTest(CommandTest):
    def test_bad_paths(self):
        for path, words in ((self.path('absent'), 'No such file'), (self.folder, 'Is a directory'), ('x' * 5000, 'too long'), ('a/' * 2500, 'too long')):
            self.assertIn(words, self.troubled('acl', 'show', path))
            self.assertIn('error', self.json(2, 'acl', 'show', path))
        for path, words in (('', 'a file name is wanted'), (self.folder, 'not a regular file'), (self.path('absent') / 'made', 'No such file'), ('x' * 5000, 'too long'),
                            ('/dev/null', 'not a regular file'), (ACL / 'made', 'Not a directory')):
            self.assertIn(words, self.troubled('acl', 'make', ACL, '-o', path))

    def test_a_long_file_and_a_fifo(self):
        sparse = self.path('sparse', b'\1')
        os.truncate(sparse, 1 << 30)
        self.assertIn('longer than 1048576 bytes', self.troubled('acl', 'check', sparse))
        fifo = self.path('fifo')
        os.mkfifo(fifo)
        writer = subprocess.Popen([sys.executable, '-c', f'open({str(fifo)!r}, "wb").write(open({str(ACL)!r}, "rb").read())'])
        self.ran(0, 'acl', 'check', fifo)
        self.assertEqual(writer.wait(), 0)

    def test_a_folder_that_cannot_be_written(self):
        closed = self.folder / 'closed'
        closed.mkdir()
        closed.chmod(0o555)
        made = closed / 'made' if os.geteuid() else Path('/proc/made')  # root writes everywhere else
        self.assertIn('nothing is written', self.troubled('acl', 'make', ACL, '-o', made))
        self.assertFalse(made.exists())

    def test_a_failed_write_leaves_the_old_files(self):
        new, hints = self.path('new', b'old'), self.path('hints', b'older')

        def limited():
            resource.setrlimit(resource.RLIMIT_FSIZE, (256, 256))
            import signal
            signal.signal(signal.SIGXFSZ, signal.SIG_IGN)

        err = self.troubled('trim', *FAILING, '--new', new, '--hints', hints, preexec_fn=limited)
        self.assertIn('File too large; nothing is written', err)
        self.assertEqual((new.read_bytes(), hints.read_bytes(), len(os.listdir(self.folder))), (b'old', b'older', 2))

    def test_written_files_keep_their_mode_and_links(self):
        made = self.path('made', b'old')
        os.chmod(made, 0o640)
        os.symlink('made', self.path('link'))
        self.ran(0, 'acl', 'make', ACL, '-o', self.path('link'))
        self.assertEqual((made.read_bytes(), made.stat().st_mode & 0o777, self.path('link').is_symlink()), (ACL.read_bytes(), 0o640, True))
        self.assertIn('is one of the inputs', self.troubled('acl', 'make', made, '-o', made))

    def test_standard_input_is_an_input(self):
        made = self.path('made', ACL.read_bytes())
        with open(made, 'rb') as opened:
            ran = subprocess.run([sys.executable, '-m', 'akubolinfe', 'acl', 'make', '-', '-o', made], stdin=opened, env=environment(), stderr=subprocess.PIPE)
        self.assertEqual((ran.returncode, made.read_bytes()), (2, ACL.read_bytes()))

    def test_lost_output(self):
        for words in (('explain',), ('--help',), ('acl', 'show', ACL), ('acl', 'make', ACL), ('attest', *DESK, '--json'), ('--version',)):
            with open('/dev/full', 'wb') as full:
                _, err = self.ran(2, *words, stdout=full)
            self.assertEqual(err, 'akubolinfe: standard output: No space left on device\n')
        for words in ('explain', 'attest --bundle absent --acl absent'):
            ran = subprocess.run(['sh', '-c', f'exec "$0" -m akubolinfe {words} >&-', sys.executable], env=environment(), stderr=subprocess.PIPE)
            self.assertEqual((ran.returncode, ran.stderr.decode().count('\n')), (2, 1), ran.stderr)

    def test_a_closed_pipe(self):
        read, write = os.pipe()
        os.close(read)
        _, err = self.ran(2, 'explain', stdout=write)
        os.close(write)
        self.assertEqual(err, 'akubolinfe: standard output: Broken pipe\n')

    def test_names_that_are_not_text(self):
        path = os.fsencode(self.folder) + b'/\xff\n'
        ran = subprocess.run([sys.executable, '-m', 'akubolinfe', 'acl', 'check', path, '--json'], env=environment(), stdout=subprocess.PIPE, stderr=subprocess.PIPE)
        self.assertEqual((ran.returncode, json.loads(ran.stdout)['status'], ran.stderr.count(b'\n')), (2, 2, 1))

    def test_a_terminal_gets_no_bytes(self):
        master, slave = os.openpty()
        _, err = self.ran(2, 'acl', 'make', ACL, stdout=slave)
        self.assertIn('not written to a terminal', err)
        self.ran(0, 'acl', 'make', ACL, '--json', stdout=slave)
        os.close(master)
        os.close(slave)

    def test_an_error_of_the_program_is_trouble(self):
        with mock.patch('akubolinfe._file_commands.place', side_effect=ZeroDivisionError('no')):
            self.assertEqual(self.troubled('acl', 'check', ACL), 'akubolinfe: internal error: ZeroDivisionError: no\n')

    def test_lost_errors(self):
        with open('/dev/full', 'wb') as full:
            words = [sys.executable, '-m', 'akubolinfe', 'acl', 'show', 'absent']
            self.assertEqual(subprocess.run(words, env=environment(), stderr=full).returncode, 2)

    def test_no_library(self):
        env = environment(AKUBOLINFE_LIBRARY=str(self.path('absent.so')))
        self.assertIn('cannot be loaded', self.troubled('acl', 'show', ACL, env=env))
        self.assertEqual(self.ran(0, 'explain', '7', env=env)[1], '')
