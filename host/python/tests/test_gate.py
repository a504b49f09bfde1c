"""Ledgers, cabinets, runs and prepared ACLs."""
import copy
import pickle
import threading
import unittest

from .support import DAY, DECRYPT, EXPAND, GROUP, KM0, REDUCE, SIGN, SIGN_GROUP, acl_of, use

from akubolinfe import Cabinet, Certificate, Form, Hints, Ledger, Reply, Run, Slot, prepare

KEY = 'c1' * 20
CERTIFIED = f'group\nlimit uses 2\nOpPermissions ReduceACL Sign\ngroup certifier {KEY}\nlimit counter 7 uses 3\nOpPermissions Sign Decrypt ExpandACL\n'


class LedgerTest(unittest.TestCase):
    def test_the_day_of_the_papers(self):
        km0, acl, requests = (path.read_bytes() for path in DAY)
        ledger = Ledger()
        self.assertEqual(ledger.load(0), Reply(0))
        replies = [str(ledger.request(km0, acl, requests[at : at + 64])) for at in range(0, len(requests), 64)]
        self.assertEqual(replies, ['permit 0', 'permit 1', 'permit 1', 'refuse 7 0'])
        self.assertEqual((ledger.counts[:2], ledger.counters[3], ledger.loaded, ledger.last), ((1, 2), 2, 0, 30))

    def test_bool_is_yes(self):
        ledger = Ledger()
        self.assertTrue(ledger.request(KM0, SIGN_GROUP, use(SIGN, 1)))
        for reply, number in ((ledger.request(KM0, SIGN_GROUP, use(DECRYPT, 1)), 5), (ledger.request(KM0, SIGN_GROUP, use(SIGN, 0)), 4),
                              (ledger.request(KM0[1:], SIGN_GROUP, use(SIGN, 1)), 1), (ledger.clear(256), 10)):
            self.assertFalse(reply)
            self.assertEqual(reply.refusal, number)
            self.assertTrue(reply.words)

    def test_a_refusal_changes_nothing(self):
        ledger = Ledger(range(64), range(256), 5, 7)
        before = ledger.copy()
        for reply in (ledger.request(KM0, SIGN_GROUP, use(DECRYPT, 8)), ledger.request(KM0, SIGN_GROUP, b'x'), ledger.clear(1 << 63),
                      ledger.narrow(KM0, SIGN_GROUP, use(SIGN, 8), b'', b''), ledger.expand(KM0, SIGN_GROUP, use(SIGN, 8), b'')):
            self.assertFalse(reply)
        self.assertEqual(ledger, before)

    def test_numbers_in_and_out(self):
        ledger = Ledger((1, 2), (3,), 4, 5)
        self.assertEqual(ledger.numbers, ((1, 2) + (0,) * 62, (3,) + (0,) * 255, 4, 5))
        self.assertEqual(Ledger(*ledger.numbers), ledger)
        self.assertNotEqual(Ledger(*ledger.numbers[:3], 6), ledger)
        for same in (copy.copy(ledger), copy.deepcopy(ledger), pickle.loads(pickle.dumps(ledger)), ledger.copy()):
            self.assertEqual(same, ledger)
            same.load(9)
            self.assertNotEqual(same, ledger)
        self.assertEqual(repr(ledger), 'Ledger(counts={0: 1, 1: 2}, counters={0: 3}, loaded=4, last=5)')
        with self.assertRaises(TypeError):
            hash(ledger)

    def test_misuse_raises(self):
        ledger = Ledger()
        for call in (lambda: ledger.request('km0', b'', b''), lambda: ledger.request(None, b'', b''), lambda: ledger.request(KM0, 5, b''),
                     lambda: ledger.load(1.5), lambda: ledger.run(KM0, b'', ((KEY, 'x'),), b'')):
            self.assertRaises(TypeError, call)
        for call in (lambda: ledger.load(-1), lambda: ledger.load(1 << 64), lambda: ledger.clear(-1), lambda: Ledger(range(65)),
                     lambda: Ledger((1 << 32,)), lambda: Ledger(loaded=1 << 64), lambda: ledger.run(KM0, b'', (('c1', 1),), b''),
                     lambda: ledger.run(KM0, b'', ((KEY, 1 << 16),), b'')):
            self.assertRaises(ValueError, call)
        self.assertEqual(ledger, Ledger())

    def test_bytes_of_every_kind(self):
        for kind in (bytes, bytearray, memoryview):
            self.assertTrue(Ledger().request(kind(KM0), kind(SIGN_GROUP), kind(use(SIGN, 1))))

    def test_replacements(self):
        acl, narrower = acl_of(CERTIFIED), acl_of('group\nlimit uses 1\nOpPermissions Sign\n')
        ledger = Ledger()
        self.assertEqual(ledger.narrow(KM0, acl, use(REDUCE, 1), narrower, bytes(Hints([(0, [0])]))), Reply(0, 0))
        self.assertEqual(ledger.narrow(KM0, acl, use(REDUCE, 1), narrower, bytes(Hints([(1, [0])]))).refusal, 8)
        self.assertEqual(ledger.expand(KM0, acl, use(EXPAND, 2), SIGN_GROUP), Reply(6, 1))
        self.assertEqual(ledger.counts[0], 1)

    def test_threads_on_two_ledgers(self):
        acl = acl_of('group\nlimit uses 1500\nOpPermissions Sign\n')
        ledgers, permits = [Ledger(), Ledger()], [0, 0]

        def ask(place):
            for time in range(2000):
                permits[place] += bool(ledgers[place].request(KM0, acl, use(SIGN, time)))

        self.threads(ask, 2)
        self.assertEqual(permits, [1500, 1500])
        self.assertEqual(ledgers[0], ledgers[1])

    def test_threads_on_one_ledger(self):
        acl = acl_of('group\nlimit uses 1000\nOpPermissions Sign\n')
        ledger, permits = Ledger(), [0] * 4

        def ask(place):
            for _ in range(500):
                permits[place] += bool(ledger.request(KM0, acl, use(SIGN, 1)))

        self.threads(ask, 4)
        self.assertEqual((sum(permits), ledger.counts[0]), (1000, 1000))

    @staticmethod
    def threads(work, count):
        started = [threading.Thread(target=work, args=(place,)) for place in range(count)]
        for thread in started:
            thread.start()
        for thread in started:
            thread.join()


class RunTest(unittest.TestCase):
    def setUp(self):
        self.acl = acl_of(CERTIFIED)
        self.requests = b''.join(use(p, t) for p, t in ((SIGN, 1), (SIGN, 2), (SIGN, 3), (DECRYPT, 4), (8, 5), (SIGN, 1)))

    def test_answers_are_those_of_asking_one_by_one(self):
        ledger, one_by_one = Ledger(), Ledger()
        run = ledger.run(KM0, self.acl, [Certificate(KEY, 2)], self.requests)
        certificate = b'\x09\0\0\0' + bytes.fromhex(KEY) + b'\0\2' + bytes(38)
        records = [self.requests[at : at + 64] for at in range(0, len(self.requests), 64)]
        self.assertEqual(run, Run(0, tuple(one_by_one.request(KM0, self.acl, r + certificate) for r in records)))
        self.assertEqual([str(answer) for answer in run.answers], ['permit 0', 'permit 0', 'permit 1', 'permit 1', 'refuse 5', 'refuse 4'])
        self.assertEqual(ledger, one_by_one)
        self.assertFalse(run)
        self.assertTrue(Ledger().run(KM0, self.acl, (), use(SIGN, 1)))
        self.assertTrue(Ledger().run(KM0, self.acl, (), b''))

    def test_prepared_runs(self):
        form = prepare(self.acl)
        self.assertTrue(form)
        self.assertEqual((form.uses[SIGN], form.uses[DECRYPT], form.working, form.recovery), (3, 2, 0, 0))
        self.assertEqual(Form(form.uses, form.working, form.recovery), form)
        self.assertEqual(pickle.loads(pickle.dumps(form)), form)
        plain, prepared = Ledger(), Ledger()
        self.assertEqual(prepared.prepared_run(KM0, self.acl, [(KEY, 1)], form, self.requests), plain.run(KM0, self.acl, [(KEY, 1)], self.requests))
        self.assertEqual(plain, prepared)
        self.assertEqual(Ledger().prepared_run(KM0, self.acl, (), Form(), self.requests), Run(14))
        self.assertEqual(len(Ledger().prepared_run(KM0, self.acl, (), form, use(SIGN, 1) * 1000).answers), 1000)

    def test_refusals_of_a_whole_run(self):
        ledger = Ledger()
        many = [(bytes([place]) * 20, 1) for place in range(33)]
        for run, number in ((ledger.run(KM0, self.acl, (), use(SIGN, 1) * 101), 1), (ledger.run(KM0, self.acl, (), b'x'), 1),
                            (ledger.run(KM0, self.acl, many, b''), 3), (ledger.run(KM0, self.acl, [(KEY, 0)], b''), 2),
                            (ledger.run(KM0, GROUP * 65, (), b''), 3)):
            self.assertEqual(run, Run(number))
            self.assertFalse(run)
            self.assertTrue(run.words)
        self.assertEqual(ledger, Ledger())

    def test_a_bad_acl_has_no_form(self):
        form = prepare(b'x')
        self.assertFalse(form)
        self.assertEqual((form.refusal, form.uses), (1, (0,) * 16))


class CabinetTest(unittest.TestCase):
    def test_slots_share_the_counters(self):
        acl, cabinet = acl_of('group\nlimit counter 3 uses 2\nOpPermissions Sign\n'), Cabinet()
        replies = [cabinet.load(1, 5), cabinet.load(2, 6), cabinet.request(1, KM0, acl, use(SIGN, 7)), cabinet.request(2, KM0, acl, use(SIGN, 8)),
                   cabinet.request(1, KM0, acl, use(SIGN, 9)), cabinet.clear(3), cabinet.request(1, KM0, acl, use(SIGN, 9))]
        self.assertEqual([str(reply) for reply in replies], ['done', 'done', 'permit 0', 'permit 0', 'refuse 7 0', 'done', 'permit 0'])
        self.assertEqual((cabinet.slot(1), cabinet.slot(2).last, cabinet.counters[3]), (Slot((2,) + (0,) * 63, 5, 9), 8, 1))

    def test_no_such_slot(self):
        cabinet = Cabinet()
        form = prepare(SIGN_GROUP)
        for reply in (cabinet.load(8, 1), cabinet.request(8, b'', b'', b''), cabinet.narrow(8, b'', b'', b'', b'', b''),
                      cabinet.expand(1 << 40, b'', b'', b'', b''), cabinet.run(8, b'', b'', (), b''), cabinet.prepared_run(8, b'', b'', (), form, b'')):
            self.assertEqual(reply.refusal, 13)
            self.assertFalse(reply)
        self.assertEqual(cabinet, Cabinet())

    def test_a_slot_answers_as_a_ledger(self):
        acl, form = acl_of(CERTIFIED), prepare(acl_of(CERTIFIED))
        ledger, cabinet = Ledger(range(64), range(256), 3, 4), Cabinet([((), 0, 0), (range(64), 3, 4)], range(256))
        narrower, hints = acl_of('group\nlimit uses 1\nOpPermissions Sign\n'), bytes(Hints([(0, [0])]))
        for name, inputs in (('request', (KM0, acl, use(SIGN, 5))), ('run', (KM0, acl, [(KEY, 1)], use(DECRYPT, 6))),
                             ('prepared_run', (KM0, acl, (), form, use(SIGN, 7))), ('load', (8,)), ('expand', (KM0, acl, use(EXPAND, 9), acl)),
                             ('narrow', (KM0, acl, use(REDUCE, 9), narrower, hints))):
            self.assertEqual(getattr(cabinet, name)(1, *inputs), getattr(ledger, name)(*inputs))
        counts, counters, loaded, last = ledger.numbers
        self.assertEqual(cabinet, Cabinet([((), 0, 0), (counts, loaded, last)], counters))

    def test_numbers_in_and_out(self):
        cabinet = Cabinet([((1,), 2, 3)], (4,))
        self.assertEqual(Cabinet(*cabinet.numbers), cabinet)
        for same in (copy.copy(cabinet), copy.deepcopy(cabinet), pickle.loads(pickle.dumps(cabinet))):
            self.assertEqual(same, cabinet)
        self.assertEqual(repr(cabinet), '<Cabinet slots={0: ({0: 1}, 2, 3)} counters={0: 4}>')
        for call in (lambda: Cabinet([((), 0, 0)] * 9), lambda: Cabinet([((1 << 32,), 0, 0)]), lambda: cabinet.load(-1, 0)):
            self.assertRaises(ValueError, call)
        self.assertRaises(IndexError, lambda: cabinet.slot(8))
