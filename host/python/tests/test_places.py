"""Where a fault is: what the library says, and its words. An older library does not say where; then the rest still works."""
import json
import tempfile
import unittest
from dataclasses import FrozenInstanceError
from pathlib import Path
from types import SimpleNamespace
from unittest import mock

from .support import ACL, BUNDLE, DAY, EXPAND, FAILING_ACL, FAILING_BUNDLE, GROUP, KM0, REDUCE, SIGN, SIGN_GROUP, acl_of, command, record, use

from akubolinfe import (
    Cabinet, CallPlace, FilePlace, Hints, Ledger, Text, Unsupported, VerdictPlace, attest, locate_expand, locate_file, locate_narrow,
    locate_request, locate_verdict,
)
from akubolinfe.places import supported

NEEDED = unittest.skipUnless(supported(), 'the library does not say where')
H = 'ab' * 20


def narrowing(*groups):
    """Hints: each group's source and the source's actions."""
    return bytes(Hints(groups))


class WordsTest(unittest.TestCase):
    def test_files(self):
        for place, words in (
                (FilePlace(0), ''), (FilePlace(2, 'record', 3), 'record 3: malformed or out of place'),
                (FilePlace(2, 'end', 5), 'after record 4: a record is missing'), (FilePlace(2, 'end', 0), 'a record is missing'),
                (FilePlace(12, 'record', 1), 'record 1: a MakeArchiveBlob action without kahash in a group without a certifier')):
            self.assertEqual((place.words, bool(place)), (words, not words))
        self.assertIn('length', FilePlace(1, 'length').words)
        with self.assertRaises(FrozenInstanceError):
            FilePlace(0).refusal = 1

    def test_calls(self):
        for place, words in (
                (CallPlace(0), ''), (CallPlace(2, 'new ACL', 'record', 7), 'new ACL: record 7: malformed or out of place'),
                (CallPlace(5), 'no group admits the request'), (CallPlace(6, group=2), 'group 2: it admits the request, and its certifier is not presented'),
                (CallPlace(7, group=0, reason='spent', item=1), 'group 0: limit 1 is spent'), (CallPlace(7, group=3, reason='full'), 'group 3: its own count is full'),
                (CallPlace(8, group=1, reason='certifier'), 'new group 1: the certifier or the mechanism of its source is not kept'),
                (CallPlace(8, group=1, reason='limit', item=0), 'new group 1: limit 0 of its source has no limit that answers it'),
                (CallPlace(8, group=0, reason='action', item=2), 'new group 0 action 2: of another kind, or wider, than the action that its hint names')):
            self.assertEqual((place.words, bool(place)), (words, not words))
        self.assertTrue(CallPlace(8, group=4, reason='hint').words.startswith('new group 4: its hint '))

    def test_verdicts(self):
        for place, words in (
                (VerdictPlace(0), ''), (VerdictPlace(2, input='bundle', part='record', record=4), 'bundle: record 4: malformed or out of place'),
                (VerdictPlace(0, 'ACLV3', group=0, action=0, permission='ExportAsPlain'), 'group 0 action 0: ExportAsPlain is not admitted by the policy'),
                (VerdictPlace(0, 'WB3', group=1, action=2), 'group 1 action 2: has AllowNullKmToken'),
                (VerdictPlace(0, 'WV1', flaw='not good', signature='warrant'), 'signature warrant is not good'),
                (VerdictPlace(0, 'MSCV2', flaw='absent', fact='KML'), 'fact KML is absent'),
                (VerdictPlace(0, 'MSCV5', flaw='not equal', fact='hkm'), 'fact hkm is not one of the listed module keys'),
                (VerdictPlace(0, 'CSRL1', flaw='not equal', fact='csr'), 'fact csr is not pubkeydata')):
            self.assertEqual((place.words, bool(place)), (words, not words))


class OlderLibraryTest(unittest.TestCase):
    """A library without these functions."""

    def setUp(self):
        older = SimpleNamespace(path='libold.so', **{f'locate_{name}': None for name in ('file', 'request', 'narrow', 'expand', 'verdict')})
        patched = mock.patch('akubolinfe.places.library', return_value=older)
        patched.start()
        self.addCleanup(patched.stop)

    def test_it_is_said_clearly(self):
        ledger = Ledger()
        for name, call in (
                ('file', lambda: locate_file('acl', b'')), ('request', lambda: locate_request(ledger, KM0, b'', b'')), ('verdict', lambda: locate_verdict(b'', b'')),
                ('narrow', lambda: locate_narrow(ledger, KM0, b'', b'', b'', b'')), ('expand', lambda: locate_expand(ledger, KM0, b'', b'', b''))):
            with self.assertRaisesRegex(Unsupported, f'^libold.so: does not export akubolinfe_locate_{name}; version 1.1 or newer does$'):
                call()

    def test_the_command_answers_without_a_place(self):
        status, out, _ = command('attest', '--bundle', FAILING_BUNDLE, '--acl', FAILING_ACL)
        self.assertEqual((status, out.splitlines()[0]), (1, b'FAILED     ACLV3: an action has a permission that the policy does not admit'))
        status, out, _ = command('attest', '--bundle', FAILING_BUNDLE, '--acl', FAILING_ACL, '--json')
        self.assertIsNone(json.loads(out)['place'])
        self.assertEqual(command('day', *DAY)[1:], (b'1 permit 0\n2 permit 1\n3 permit 1\n4 refuse 7 0\n', b''))
        with tempfile.NamedTemporaryFile() as bad:
            bad.write(GROUP + record(9))
            bad.flush()
            self.assertEqual(command('acl', 'check', bad.name)[2].decode(), f'akubolinfe: {bad.name}: a record is malformed or out of place (refusal 2)\n')


@NEEDED
class LocateTest(unittest.TestCase):
    def test_files(self):
        rows = (
            ('acl', SIGN_GROUP, FilePlace(0)), ('acl', b'x', FilePlace(1, 'length')), ('acl', GROUP * 1345, FilePlace(1, 'length')),
            ('acl', SIGN_GROUP + record(9), FilePlace(2, 'record', 2)), ('acl', GROUP * 65, FilePlace(3, 'record', 64)),
            ('acl', GROUP + record(5, at24=b'\0\1'), FilePlace(12, 'record', 1)), ('acl', GROUP + record(4, at2=b'\0\x41'), FilePlace(2, 'end', 2)),
            ('request', b'', FilePlace(2, 'end', 0)), ('requests', use(4, 1) + use(16, 1), FilePlace(2, 'record', 1)),
            ('bundle', BUNDLE.read_bytes()[:-64], FilePlace(2, 'end', len(BUNDLE.read_bytes()) // 64 - 1)), ('hints', record(13) + record(12), FilePlace(2, 'record', 1)))
        for kind, content, place in rows:
            self.assertEqual(locate_file(kind, content), place, kind)
        self.assertRaises(ValueError, locate_file, 'certificate', b'')
        self.assertRaises(TypeError, locate_file, 'acl', 'text')

    def test_requests(self):
        ledger, spent = Ledger(), acl_of('group\nlimit seconds 9\nlimit uses 0\nOpPermissions Sign\n')
        certified = acl_of(f'group\ngroup certifier {H}\nOpPermissions Sign\n')
        rows = (
            (KM0, SIGN_GROUP, use(SIGN, 1), CallPlace(0)), (b'', b'x', b'x', CallPlace(1, 'KM0', 'length')), (KM0, b'x', b'x', CallPlace(1, 'ACL', 'length')),
            (KM0, GROUP + record(9), b'', CallPlace(2, 'ACL', 'record', 1)), (KM0, b'', b'', CallPlace(2, 'request', 'end', 0)),
            (KM0, b'', use(SIGN, 1), CallPlace(5)), (KM0, certified, use(SIGN, 1), CallPlace(6, group=1)),
            (KM0, spent, use(SIGN, 1), CallPlace(7, group=0, reason='spent', item=1)))
        for km0, acl, request, place in rows:
            self.assertEqual(locate_request(ledger, km0, acl, request), place)
        full = Ledger([2**32 - 1])
        self.assertEqual(locate_request(full, KM0, SIGN_GROUP, use(SIGN, 1)), CallPlace(7, group=0, reason='full'))
        late = Ledger(loaded=9, last=9)
        self.assertEqual(locate_request(late, KM0, SIGN_GROUP, use(SIGN, 8)), CallPlace(4))
        self.assertEqual(full, Ledger([2**32 - 1]))
        cabinet = Cabinet([((), 0, 0), ((2**32 - 1,), 5, 5)], [7])
        self.assertEqual(locate_request(cabinet.ledger(1), KM0, SIGN_GROUP, use(SIGN, 5)), CallPlace(7, group=0, reason='full'))
        self.assertEqual(cabinet.ledger(1), Ledger((2**32 - 1,), (7,), 5, 5))
        self.assertRaises(TypeError, locate_request, None, KM0, SIGN_GROUP, use(SIGN, 1))

    def test_replacements(self):
        ledger, old = Ledger(), acl_of(f'group\nOpPermissions ReduceACL ExpandACL\ngroup certifier {H} mechanism 2\nlimit uses 3\nOpPermissions Sign Verify\n')
        kept, reduce = 'group\nOpPermissions ReduceACL\n', use(REDUCE, 1)
        same = f'group certifier {H} mechanism 2\nlimit uses 3\nOpPermissions'
        both = narrowing((0, (0,)), (1, (0,)))
        rows = (
            (f'{kept}{same} Sign\n', both, CallPlace(0)), (f'{kept}{same} Sign\n', narrowing((0, (0,))), CallPlace(8, group=1, reason='hint')),
            (kept, both, CallPlace(8, group=1, reason='hint')), (f'{kept}group\nOpPermissions Sign\n', both, CallPlace(8, group=1, reason='certifier')),
            (f'{kept}group certifier {H} mechanism 2\nOpPermissions Sign\n', both, CallPlace(8, group=1, reason='limit', item=0)),
            (f'{kept}{same} Encrypt\n', both, CallPlace(8, group=1, reason='action', item=0)))
        for new, hints, place in rows:
            self.assertEqual(locate_narrow(ledger, KM0, old, reduce, acl_of(new), hints), place, new)
        self.assertEqual(locate_narrow(ledger, KM0, old, use(SIGN, 1), b'', b''), CallPlace(2, 'request', 'record', 0))
        self.assertEqual(locate_narrow(ledger, KM0, old, reduce, b'', record(12)), CallPlace(2, 'hints', 'record', 0))
        self.assertEqual(locate_expand(ledger, KM0, old, use(EXPAND, 1), old), CallPlace(0))
        self.assertEqual(locate_expand(ledger, KM0, old, use(EXPAND, 1), record(9)), CallPlace(2, 'new ACL', 'record', 0))

    def test_verdicts(self):
        text = Text('bundle').write(BUNDLE.read_bytes()).content.decode()

        def located(change, acl=ACL.read_bytes()):
            bundle = Text('bundle').read(change(text).encode()).content
            place, verdict = locate_verdict(bundle, acl), attest(bundle, acl)
            self.assertEqual((place.refusal, place.step), (verdict.refusal, verdict.step))
            return place

        def without(line):
            return lambda text: ''.join(kept for kept in text.splitlines(keepends=True) if not kept.startswith(line))

        self.assertEqual(located(lambda text: text), VerdictPlace(0))
        rows = (
            (without('signature warrant '), VerdictPlace(0, 'WV1', flaw='absent', signature='warrant')), (without('fact KML '), VerdictPlace(0, 'MSCV2', flaw='absent', fact='KML')),
            (lambda text: text.replace('modulestate good', 'modulestate bad'), VerdictPlace(0, 'MSCV1', flaw='not good', signature='modulestate')),
            (lambda text: text.replace(f'stateESN {"11" * 20}', f'stateESN {"22" * 20}'), VerdictPlace(0, 'MSCV3', flaw='not equal', fact='stateESN')),
            (without('fact modulekey '), VerdictPlace(0, 'MSCV5', flaw='not equal', fact='hkm')),
            (lambda text: text.replace('suite 3', 'suite 9'), VerdictPlace(11, None, 'bundle', 'record', text.count('\n') - 1)))
        for change, place in rows:
            self.assertEqual(located(change), place)
        self.assertEqual(locate_verdict(FAILING_BUNDLE.read_bytes(), FAILING_ACL.read_bytes()), VerdictPlace(0, 'ACLV3', group=0, action=0, permission='ExportAsPlain'))
        self.assertEqual(locate_verdict(b'x', b'x'), VerdictPlace(1, None, 'bundle', 'length'))
        self.assertEqual(locate_verdict(BUNDLE.read_bytes(), GROUP + record(9)), VerdictPlace(2, None, 'ACL', 'record', 1))


@NEEDED
class CommandTest(unittest.TestCase):
    def setUp(self):
        folder = tempfile.TemporaryDirectory()
        self.addCleanup(folder.cleanup)
        self.folder = Path(folder.name)

    def path(self, name, content):
        (self.folder / name).write_bytes(content)
        return self.folder / name

    def test_attest(self):
        failing = ('attest', '--bundle', FAILING_BUNDLE, '--acl', FAILING_ACL)
        status, out, _ = command(*failing)
        lines = out.decode().splitlines()
        self.assertEqual((status, lines[0]), (1, 'FAILED     ACLV3: group 0 action 0: ExportAsPlain is not admitted by the policy'))
        self.assertEqual(lines[-1], f'next       akubolinfe trim --bundle {FAILING_BUNDLE} --acl {FAILING_ACL} --dry-run')
        place = json.loads(command(*failing, '--json')[1])['place']
        self.assertEqual([place[name] for name in ('step', 'group', 'action', 'permission')], ['ACLV3', 0, 0, 'ExportAsPlain'])
        self.assertIsNone(json.loads(command('attest', '--bundle', BUNDLE, '--acl', ACL, '--json')[1])['place'])

    def test_check(self):
        bad = {'acl': (SIGN_GROUP + GROUP + record(9), 3), 'request': (use(4, 1) + record(9), 1), 'requests': (use(4, 1) + use(16, 1), 1),
               'bundle': (record(10, at4=b'\1') * 2, 1), 'hints': (record(13) + record(12), 1)}
        for kind, (content, index) in bad.items():
            path = self.path(kind, content)
            status, out, err = command(kind, 'check', path)
            self.assertEqual((status, out, err.decode()), (2, b'', f'akubolinfe: {path}: record {index}: malformed or out of place (refusal 2)\n'))
            place = json.loads(command(kind, 'check', path, '--json')[1])['place']
            self.assertEqual((place['part'], place['record']), ('record', index))
        self.assertIn(b'after record 0: a record is missing', command('bundle', 'check', self.path('b', record(10, at4=b'\1')))[2])

    def test_day(self):
        status, out, err = command('day', *DAY)
        self.assertEqual((status, out), (1, b'1 permit 0\n2 permit 1\n3 permit 1\n4 refuse 7 0\n'))
        self.assertEqual(err.decode(), 'akubolinfe: request 4: group 0: limit 0 is spent: limit uses 1\n')
        answers = json.loads(command('day', *DAY, '--json')[1])['answers']
        self.assertEqual((answers[0]['place'], answers[3]['place']['item']), (None, 0))
        for name, index, content, words in (
                ('acl', 1, GROUP + record(9), 'record 1: malformed or out of place'), ('requests', 2, use(4, 1) + use(16, 2), 'record 1: malformed or out of place')):
            files = list(DAY)
            files[index] = self.path(name, content)
            status, out, err = command('day', *files)
            self.assertEqual((status, out, err.decode()), (2, b'0 refuse 2\n', f'akubolinfe: {files[index]}: {words} (refusal 2)\n'))
        _, _, err = command('day', self.path('km0', b'short'), *DAY[1:])
        self.assertTrue(err.decode().startswith(f'akubolinfe: {self.folder / "km0"}: its length is wrong'))

    def test_store(self):
        store, km0 = self.folder / 'store.db', self.path('km0', KM0)
        acl = self.path('acl', b'group\nlimit uses 1\nOpPermissions ReduceACL Sign\n')
        self.assertEqual(command('store', 'init', store)[0], 0)
        self.assertEqual(command('store', 'slot', store, 0, '--km0', km0, '--acl', acl, '--time', 1)[0], 0)
        sign = self.path('sign', use(SIGN, 2))
        self.assertEqual(command('store', 'ask', store, 0, sign)[:2], (0, b'permit 0\n'))
        self.assertEqual(command('store', 'ask', store, 0, sign)[:2], (1, b'refuse 7 0: group 0: limit 0 is spent: limit uses 1\n'))
        place = json.loads(command('store', 'ask', store, 0, sign, '--json')[1])['place']
        self.assertEqual((place['reason'], place['item']), ('spent', 0))
        self.assertEqual(command('store', 'ask', store, 0, self.path('bad', use(SIGN, 2) + record(9)))[:2], (2, b'refuse 2: request: record 1: malformed or out of place\n'))
        self.assertEqual(command('store', 'ask', store, 5, sign)[0], 2)
        self.assertEqual(command('store', 'load', store, 0, '--time', 3)[0], 0)
        narrow = (store, 0, self.path('reduce', use(REDUCE, 4)), self.path('new', b'group\nOpPermissions Sign\n'), self.path('hints', narrowing((0, (0,)))))
        self.assertEqual(command('store', 'narrow', *narrow)[:2], (1, b'refuse 8: new group 0: limit 0 of its source has no limit that answers it\n'))
