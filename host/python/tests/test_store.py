"""The durable store: encodings, calls, log, audit, transfer and commands, on SQLite and, where it is installed, on PostgreSQL."""
import contextlib
import io
import json
import os
import random
import shutil
import sqlite3
import subprocess
import tempfile
import threading
import unittest
from pathlib import Path

from .support import DAY, DECRYPT, EXPAND, HEADER, KM0, REDUCE, ROOT, SIGN, acl_of, command, record, use

from akubolinfe import Cabinet, Ledger, Reply, Run, Slot
from akubolinfe._library import library
from akubolinfe.encoding import EncodingError, decode_cabinet, decode_ledger, encode_cabinet, encode_ledger
from akubolinfe.store import Damaged, Entry, Misuse, State, Store, StoreError, Unavailable, audit, export_store, import_store
from akubolinfe.store import calls, keeper
from akubolinfe.store.audit import _Counting
from akubolinfe.store.engines import SQLite

from . import servers

KEY = 'c1' * 20
TWO = (f'group\nlimit uses 3\nlimit counter 4 uses 1000\nOpPermissions ReduceACL Sign ExpandACL\n'
       f'group certifier {KEY}\nlimit counter 4 uses 2000\nlimit counter 9 uses 5\nOpPermissions Sign Decrypt\n')
ONE = 'group\nlimit uses 2\nlimit counter 4 uses 900\nOpPermissions Sign\n'
HINT = record(13)


class Encodings(unittest.TestCase):
    LEDGER = Ledger([1, 2, 0xFFFFFFFF], [0x01020304], 0x0102030405060708, 9)
    CABINET = Cabinet([((), 0, 0), ((7, 8), 0x1112131415161718, 0x2122232425262728)], [0] * 255 + [3])

    def test_round_trip(self):
        self.assertEqual(decode_ledger(encode_ledger(self.LEDGER)), self.LEDGER)
        self.assertEqual(decode_cabinet(encode_cabinet(self.CABINET)), self.CABINET)
        state = State(bytes(range(16)))
        state.cabinet, state.generation = self.CABINET, 77
        state.put(7, calls.Key(b'k' * 20, b'a' * 32))
        back = State.decode(state.encode())
        self.assertEqual((back.identity, back.generation, back.key(7), back.key(0), back.cabinet),
                         (state.identity, 77, state.key(7), None, self.CABINET))

    def test_bytes_are_big_endian(self):
        ledger = encode_ledger(self.LEDGER)
        self.assertEqual(ledger[:16], b'AKUB\0\1\0\1\0\0\0\1' + (1296).to_bytes(4, 'big'))
        self.assertEqual(ledger[16:28], bytes.fromhex('0000000100000002ffffffff'))
        self.assertEqual(ledger[16 + 256 :][:4], bytes.fromhex('01020304'))
        self.assertEqual(ledger[16 + 1280 : 16 + 1296], bytes.fromhex('01020304050607080000000000000009'))
        cabinet = encode_cabinet(self.CABINET)
        self.assertEqual(cabinet[16 + 272 : 16 + 280], bytes.fromhex('0000000700000008'))
        self.assertEqual(cabinet[16 + 272 + 256 : 16 + 544], bytes.fromhex('11121314151617182122232425262728'))
        self.assertEqual(cabinet[16 + 3196 : 16 + 3200], bytes.fromhex('00000003'))
        self.assertEqual(len(cabinet), 16 + 3200 + 32)

    def test_every_changed_byte_is_refused(self):
        encoded = encode_ledger(self.LEDGER)
        for offset in range(len(encoded)):
            changed = bytearray(encoded)
            changed[offset] ^= 1
            with self.assertRaises(EncodingError):
                decode_ledger(bytes(changed))

    def test_other_frames_are_refused(self):
        for wrong in (b'', encode_cabinet(self.CABINET), encode_ledger(self.LEDGER) + b'\0', encode_ledger(self.LEDGER)[:-1]):
            with self.assertRaises(EncodingError):
                decode_ledger(wrong)


class Entries(unittest.TestCase):
    def test_round_trip(self):
        inputs = {'number': 5, 'bytes': b'abc', 'file': b'f' * 32}
        for name, call in calls.CALLS.items():
            given = tuple(inputs[kind] for _, kind in call.inputs)
            answer = Run(0, (Reply(0, 1), Reply(7, 2), Reply(5))) if name == 'run' else Reply(7, 3)
            entry = Entry(9, name, given, answer, 8, 123)
            self.assertEqual(calls.decode(calls.encode(entry)), entry)

    def test_a_long_entry_is_compressed(self):
        entry = Entry(1, 'run', (0, b'', use(SIGN, 5) * 1000), Run(0, (Reply(0, 0),) * 1000), 1, 0)
        encoded = calls.encode(entry)
        self.assertLess(len(encoded), 2000)
        self.assertEqual(calls.decode(encoded), entry)

    def test_damaged_bytes_are_refused_or_another_entry(self):
        entry = Entry(1, 'request', (0, use(SIGN, 5)), Reply(0, 0), 1, 0)
        for encoded in (calls.encode(entry), b'\1' + b'x' * 20, b'', b'\2'):
            for offset in range(len(encoded)):
                changed = bytearray(encoded)
                changed[offset] ^= 0x81
                try:
                    self.assertNotEqual(calls.decode(bytes(changed)), entry)
                except Damaged:
                    pass

    def test_counting(self):
        """The counter sentence, counted from the log alone."""
        files = {b'two': acl_of(TWO), b'one': acl_of(ONE)}
        counting = _Counting()
        for number, (name, inputs, answer) in enumerate([
                ('slot', (0, KM0, b'two', 0, 0), Reply(0)), ('request', (0, b''), Reply(0, 0)), ('request', (0, b''), Reply(7, 0)),
                ('request', (0, b''), Reply(0, 1)), ('clear', (9,), Reply(0)), ('run', (0, b'', b''), Run(0, (Reply(0, 1), Reply(5)))),
                ('narrow', (0, b'', b'one', b''), Reply(0, 0)), ('request', (0, b''), Reply(0, 0)), ('clear', (300,), Reply(10))]):
            counting.add(Entry(number, name, inputs, answer, 0, 0), files.__getitem__)
        self.assertEqual({n: c for n, c in enumerate(counting.counted) if c}, {4: 5, 9: 1})
        self.assertEqual(counting.permits, 5)


class OnSQLite(unittest.TestCase):
    """The calls of a store. The class below has the same tests on PostgreSQL."""

    def setUp(self):
        self.folder = tempfile.TemporaryDirectory(prefix='akubolinfe-store-')
        self.addCleanup(self.folder.cleanup)
        self.places = 0

    def place(self):
        self.places += 1
        return os.path.join(self.folder.name, f'{self.places}.db')

    def store(self, *texts):
        """A store with keys in its first slots, loaded at 10."""
        store = Store.create(self.place())
        self.addCleanup(store.close)
        for slot, text in enumerate(texts):
            self.assertEqual(store.put(slot, KM0, acl_of(text), 10), Reply(0))
        return store

    def assertSound(self, store):
        report = audit(store.engine)
        self.assertEqual(report.finding, '')
        return report

    def test_answers_are_those_of_a_cabinet(self):
        """A script of random calls: the store answers as a cabinet in memory does, and ends in the same state."""
        choose, store, cabinet = random.Random(1), self.store(TWO, TWO, ONE), Cabinet()
        in_force = [acl_of(TWO), acl_of(TWO), acl_of(ONE)]
        for slot in range(3):
            cabinet.load(slot, 10)
        certificate = [(KEY, 1)]
        for step in range(300):
            slot, moment, kind = choose.randrange(3), 10 + step + choose.randrange(-5, 6), choose.randrange(8)
            acl = in_force[slot]
            if kind < 3:
                request = use(choose.choice((SIGN, DECRYPT)), moment) + (record(9, at4=bytes.fromhex(KEY), at24=b'\0\1') if kind else b'')
                answers = store.request(slot, request), cabinet.request(slot, KM0, acl, request)
            elif kind == 3:
                requests = b''.join(use(choose.choice((SIGN, DECRYPT, 17)), moment) for _ in range(choose.randrange(6)))
                answers = store.run(slot, requests, certificate), cabinet.run(slot, KM0, acl, certificate, requests)
            elif kind == 4:
                answers = store.narrow(slot, use(REDUCE, moment), acl_of(ONE), HINT), cabinet.narrow(slot, KM0, acl, use(REDUCE, moment), acl_of(ONE), HINT)
                in_force[slot] = acl_of(ONE) if answers[1] else acl
            elif kind == 5:
                answers = store.expand(slot, use(EXPAND, moment), acl_of(TWO)), cabinet.expand(slot, KM0, acl, use(EXPAND, moment), acl_of(TWO))
                in_force[slot] = acl_of(TWO) if answers[1] else acl
            elif kind == 6:
                answers = store.load(slot, moment), cabinet.load(slot, moment)
            else:
                counter = choose.choice((4, 9, 300))
                answers = store.clear(counter), cabinet.clear(counter)
            self.assertEqual(*answers)
        state = store.state()
        self.assertEqual(state.cabinet, cabinet)
        self.assertEqual([store.file(state.key(slot).acl) for slot in range(3)], in_force)
        self.assertEqual(self.assertSound(store).entries, 303)

    def test_a_refusal_changes_nothing_but_the_log(self):
        store = self.store(ONE)
        refused = [
            lambda: store.request(0, use(DECRYPT, 20)), lambda: store.request(0, use(SIGN, 5)), lambda: store.request(0, b'x'),
            lambda: store.request(8, use(SIGN, 20)), lambda: store.clear(256), lambda: store.run(0, use(DECRYPT, 20) * 5),
            lambda: store.run(0, b'x'), lambda: store.run(0, b'', [(KEY, 0)]), lambda: store.run(0, use(SIGN, 20) * 1001), lambda: store.load(8, 1),
            lambda: store.narrow(0, use(REDUCE, 20), acl_of(ONE), HINT), lambda: store.expand(0, use(EXPAND, 20), acl_of(TWO)),
            lambda: store.put(1, KM0[:19], acl_of(ONE), 0), lambda: store.put(1, KM0, b'x' * 64, 0), lambda: store.put(8, KM0, b'', 0)]
        entries, _, before = store.reading()
        for number, call in enumerate(refused, 1):
            self.assertFalse(any(answer.answers) if isinstance((answer := call()), Run) else answer)
            now, _, state = store.reading()
            self.assertEqual((now, state.encode()), (entries + number, before.encode()))
        self.assertSound(store)

    def test_misuse_changes_nothing(self):
        store = self.store(ONE)
        before = store.reading()[:2]
        for call in (lambda: store.request(1, use(SIGN, 20)), lambda: store.load(1, 0), lambda: store.put(0, KM0, b'', 0),
                     lambda: store.request(0, b'x' * 200_000), lambda: store.clear(-1), lambda: store.clear(1 << 64)):
            with self.assertRaises(ValueError):
                call()
        with self.assertRaises(TypeError):
            store.request(0, 'text')
        self.assertEqual(store.reading()[:2], before)
        self.assertEqual(store.put(0, KM0, acl_of(TWO), 0, replace=True), Reply(0))
        with self.assertRaises(Misuse):
            Store.create(store.place)

    def test_a_replacement_and_its_acl_are_one_commit(self):
        store = self.store(TWO)
        self.assertEqual(store.narrow(0, use(REDUCE, 20), acl_of(ONE), HINT), Reply(0, 0))
        state = Store.open(store.place).state()
        self.assertEqual(state.cabinet.slots[0], Slot((1,) + (0,) * 63, 10, 20))
        self.assertEqual(store.file(state.key(0).acl), acl_of(ONE))

    def test_what_is_not_committed_is_not_answered(self):
        store = self.store(ONE)
        commit, before = store.engine.commit, store.reading()[:2]

        def fail(statements):
            raise Unavailable('no room')
        store.engine.commit = fail
        with self.assertRaises(Unavailable):
            store.request(0, use(SIGN, 20))
        store.engine.commit = commit
        self.assertEqual(store.reading()[:2], before)
        self.assertEqual([store.request(0, use(SIGN, 20)).refusal for _ in range(3)], [0, 0, 7])
        self.assertSound(store)

    def test_two_stores_objects_see_each_other(self):
        one = self.store(ONE)
        with Store.open(one.place, identity=one.state().identity) as two:
            self.assertEqual([s.request(0, use(SIGN, 20)).refusal for s in (one, two, one, two)], [0, 0, 7, 7])

    def test_threads_share_a_store(self):
        store = self.store('group\nlimit uses 40\nOpPermissions Sign\n')
        permits = []

        def ask():
            permits.extend(bool(store.request(0, use(SIGN, 20))) for _ in range(20))
        threads = [threading.Thread(target=ask) for _ in range(4)]
        for thread in threads:
            thread.start()
        for thread in threads:
            thread.join()
        self.assertEqual((len(permits), sum(permits)), (80, 40))
        self.assertSound(store)

    def test_many_acls(self):
        """More ACLs than a process keeps in memory, some of them in the log alone."""
        store = self.store(TWO)
        for uses in range(2000, 1800, -1):
            new = acl_of(f'group\nlimit uses 3\nlimit counter 4 uses {uses}\nOpPermissions Sign\n')
            self.assertEqual(store.narrow(0, use(REDUCE, 20), new, HINT), Reply(8))
            if uses % 50 == 0:
                self.assertEqual(store.put(1, KM0, new, 20, replace=True), Reply(0))
        self.assertSound(store)

    def test_a_forked_process_opens_the_store_again(self):
        store = self.store(ONE)
        child = os.fork()
        if child == 0:
            try:
                store.request(0, use(SIGN, 20))
            except Misuse:
                os._exit(7)
            finally:
                os._exit(1)
        self.assertEqual(os.waitpid(child, 0)[1] >> 8, 7)

    def history(self):
        """A store with an entry of each kind, and what was noted of it halfway."""
        store = self.store(TWO, ONE)
        store.request(0, use(SIGN, 20))
        store.run(1, use(SIGN, 20) * 3)
        noted = store.reading()[:2]
        store.narrow(0, use(REDUCE, 30), acl_of(ONE), HINT)
        store.clear(4)
        store.load(1, 50)
        store.request(1, use(SIGN, 60))
        self.assertSound(store)
        return store, noted

    def test_every_changed_byte_is_found(self):
        """A byte changed in any column of any row: the audit finds it, and says where. So does every call, in the row of the store."""
        store, _ = self.history()
        for table, key, columns in (('akubolinfe_store', 'id', ('head', 'state')), ('akubolinfe_log', 'number', ('entry', 'state', 'hash')),
                                    ('akubolinfe_file', 'sha256', ('sha256', 'content'))):
            for row in list(store.engine.rows(f'SELECT {key}, {", ".join(columns)} FROM {table}')):
                for column, content in zip(columns, row[1:]):
                    self.change(store, table, key, row[0], column, content)
        self.assertSound(store)

    def change(self, store, table, key, where, column, content):
        offsets = range(len(content)) if len(content) < 100 else random.Random(0).sample(range(len(content)), 60)
        for offset in offsets:
            changed = bytearray(content)
            changed[offset] ^= 1 << offset % 8
            store.engine.write([(f'UPDATE {table} SET {column} = ? WHERE {key} = ?', (bytes(changed), where))])
            finding = audit(store.engine).finding
            named = {'akubolinfe_store': 'store|state', 'akubolinfe_log': f'entry {where}', 'akubolinfe_file': 'file'}[table]
            self.assertRegex(finding, named, f'{table} {column} {offset}')
            if table == 'akubolinfe_store':
                with self.assertRaises(Damaged):
                    store.request(1, use(SIGN, 90))
            back = bytes(changed) if key == column else where
            store.engine.write([(f'UPDATE {table} SET {column} = ? WHERE {key} = ?', (content, back))])

    def test_entries_cut_moved_or_added_are_found(self):
        store, noted = self.history()
        entries, head, _ = store.reading()
        for change, mend, named in (
                ('DELETE FROM akubolinfe_log WHERE number = 4', None, 'entry 4: is missing'),
                (f'DELETE FROM akubolinfe_log WHERE number = {entries}', None, f'entry {entries}'),
                ('UPDATE akubolinfe_log SET number = 99 WHERE number = 3', 'UPDATE akubolinfe_log SET number = 3 WHERE number = 99', 'entry 3: is missing'),
                ('UPDATE akubolinfe_store SET entries = entries - 1', 'UPDATE akubolinfe_store SET entries = entries + 1', 'head')):
            kept = list(store.engine.rows('SELECT number, entry, state, hash FROM akubolinfe_log'))
            store.engine.write([(change, ())])
            self.assertIn(named, audit(store.engine).finding)
            missing = [row for row in kept if store.engine.row('SELECT 1 FROM akubolinfe_log WHERE number = ?', row[:1]) is None]
            store.engine.write([(mend, ())] if mend else [(keeper.ADD_ENTRY, row) for row in missing])
        self.assertTrue(audit(store.engine, noted))
        self.assertTrue(audit(store.engine, (entries, head)))
        self.assertIn('cut', audit(store.engine, (entries, bytes(32))).finding)
        self.assertIn('cut', audit(store.engine, (entries + 1, head)).finding)

    def test_a_log_forged_with_fitting_hashes_is_found(self):
        """The answer of an entry is changed, and all hashes after it are made anew."""
        store, _ = self.history()
        rows = list(store.engine.rows('SELECT number, entry, state, hash FROM akubolinfe_log ORDER BY number'))
        head = keeper.first_head(State(store.state().identity).encode())
        for number, entry, state, _ in rows:
            if number == 3:
                entry = calls.encode(calls.decode(entry)._replace(answer=Reply(7, 0)))
            head = keeper.next_head(head, entry, state)
            store.engine.write([('UPDATE akubolinfe_log SET entry = ?, hash = ? WHERE number = ?', (entry, head, number))])
        store.engine.write([('UPDATE akubolinfe_store SET head = ?', (head,))])
        self.assertIn('entry 3: the library answers permit 0, and the log has refuse 7 0', audit(store.engine).finding)

    def test_export_and_import(self):
        store, noted = self.history()
        file = io.StringIO()
        export_store(store.engine, file)
        lines = file.getvalue().splitlines()
        place = self.place()
        report = import_store(place, lines)
        self.assertEqual((report, audit(store.engine, noted)), (audit(store.engine), report))
        with Store.open(place, identity=store.state().identity) as copy:
            self.assertEqual(copy.reading()[:2], store.reading()[:2])
            self.assertEqual(list(copy.entries()), list(store.entries()))
        for wrong in (lines[:-1], lines[1:], [], lines[:5] + ['{}'] + lines[5:], lines[:5] + lines[6:], [lines[0].replace('"abi": 1', '"abi": 2')]):
            place = self.place()
            try:
                self.assertFalse(import_store(place, wrong))
            except StoreError:
                pass
            with self.assertRaises(StoreError):
                Store.open(place)


class OnPostgreSQL(OnSQLite):
    """The same on PostgreSQL, in a schema of a server of the tests' own."""

    @classmethod
    def setUpClass(cls):
        if servers.missing():
            raise unittest.SkipTest(f'PostgreSQL is left out: {servers.missing()}')
        cls.server = servers.Server()
        cls.addClassCleanup(cls.server.__exit__)
        cls.server.start()

    def place(self):
        self.places += 1
        return self.server.place(f'{self.id().rsplit(".", 1)[1][:50]}_{self.places}')

    def test_a_lost_connection_is_an_error_and_the_next_call_connects_again(self):
        store = self.store(ONE)
        with Store.open(store.place) as other:
            other.engine.write([("SELECT pg_terminate_backend(pid) FROM pg_stat_activity WHERE pid <> pg_backend_pid() AND application_name = 'akubolinfe'", ())])
        with self.assertRaises(Unavailable):
            store.request(0, use(SIGN, 20))
        self.assertEqual(store.request(0, use(SIGN, 20)), Reply(0, 0))
        self.assertSound(store)

    def test_rights_that_a_user_needs(self):
        store = self.store(ONE)
        import psycopg2
        address, _, schema = store.place.partition('#')
        with contextlib.closing(psycopg2.connect(address)) as connection, connection.cursor() as cursor:
            cursor.execute(f'SET search_path TO {schema}; CREATE ROLE asker LOGIN; GRANT USAGE ON SCHEMA {schema} TO asker;'
                           f' GRANT SELECT ON ALL TABLES IN SCHEMA {schema} TO asker; GRANT INSERT ON akubolinfe_log, akubolinfe_file TO asker;'
                           ' GRANT UPDATE ON akubolinfe_store TO asker')
            connection.commit()
        with Store.open(store.place.replace('postgres@', 'asker@')) as asker:
            self.assertEqual(asker.request(0, use(SIGN, 20)), Reply(0, 0))
            self.assertEqual(asker.put(1, KM0, acl_of(TWO), 0), Reply(0))
            self.assertSound(asker)
            for change in ('DELETE FROM akubolinfe_log', 'UPDATE akubolinfe_log SET number = 9', 'UPDATE akubolinfe_file SET content = sha256'):
                with self.assertRaises(Unavailable):
                    asker.engine.write([(change, ())])
                asker.engine.rollback()

    def test_a_bad_address(self):
        for place in ('postgresql://postgres@127.0.0.1:1/postgres', self.server.place('nothing_there'), self.server.place('Bad-Name'), 'mysql://x'):
            with self.assertRaises(StoreError):
                Store.open(place)


class Files(unittest.TestCase):
    """What is peculiar to a file of SQLite."""

    def test_settings(self):
        with tempfile.TemporaryDirectory() as folder:
            place = os.path.join(folder, 'a store?#%.db')
            with Store.create(place) as store:
                self.assertEqual(store.engine.row('PRAGMA journal_mode'), ('wal',))
                self.assertEqual(store.engine.row('PRAGMA synchronous'), (2,))
            with Store.open(place) as store:
                self.assertEqual(store.engine.row('PRAGMA journal_mode'), ('wal',))
                self.assertEqual(store.engine.row('PRAGMA synchronous'), (2,))
            self.assertEqual(os.listdir(folder), ['a store?#%.db'])

    def test_no_store(self):
        with tempfile.TemporaryDirectory() as folder:
            for name, content in (('text', b'no database'), ('empty', b'')):
                Path(folder, name).write_bytes(content)
                with self.assertRaises(StoreError):
                    Store.open(os.path.join(folder, name))
            with self.assertRaises(Unavailable):
                Store.open(os.path.join(folder, 'missing'))
            with self.assertRaises(Unavailable):
                SQLite(os.path.join(folder, 'no', 'folder'), create=True)
            self.assertEqual(sorted(os.listdir(folder)), ['empty', 'text'])


class Command(unittest.TestCase):
    """The subcommands, their exit statuses and their JSON."""

    def setUp(self):
        folder = tempfile.TemporaryDirectory(prefix='akubolinfe-command-')
        self.addCleanup(folder.cleanup)
        self.folder = Path(folder.name)
        self.place = str(self.folder / 'cabinet.db')
        for name, content in (('acl', acl_of(TWO)), ('one', acl_of(ONE)), ('hints', HINT), ('sign', use(SIGN, 20)), ('reduce', use(REDUCE, 21)),
                              ('expand', use(EXPAND, 20)), ('late', use(SIGN, 5)), ('many', use(SIGN, 30) * 4)):
            (self.folder / name).write_bytes(content)

    def store(self, action, *words, **options):
        return command('store', action, self.place, *words, **options)

    def file(self, name):
        return str(self.folder / name)

    def begin(self):
        self.assertEqual(self.store('init')[0], 0)
        status, output, _ = self.store('slot', 0, '--km0', DAY[0], '--acl', self.file('acl'), '--time', 10)
        self.assertEqual((status, output), (0, b'done\n'))

    def test_a_day(self):
        self.begin()
        self.assertEqual(self.store('ask', 0, self.file('sign'))[:2], (0, b'permit 0\n'))
        self.assertEqual(self.store('ask', 0, '-', stdin=use(SIGN, 20))[:2], (0, b'permit 0\n'))
        self.assertEqual(self.store('narrow', 0, self.file('reduce'), self.file('one'), self.file('hints'))[:2], (0, b'permit 0\n'))
        status, output, _ = self.store('ask', 0, self.file('late'))
        self.assertEqual((status, output[:8]), (1, b'refuse 4'))
        status, output, _ = self.store('run', 0, self.file('many'), '--certificate', f'{KEY}:1')
        self.assertEqual((status, output), (1, b''.join(b'%d refuse 7 0\n' % n for n in range(1, 5))))
        self.assertEqual(self.store('load', 0, '--time', 40)[:2], (0, b'done\n'))
        self.assertEqual(self.store('clear', 4)[:2], (0, b'done\n'))
        self.assertEqual(self.store('show', '--of', 0)[:2], (0, acl_of(ONE)))
        status, output, _ = self.store('audit')
        self.assertEqual((status, output[:29]), (0, b'SOUND       8 entries replaye'))

    def test_trouble(self):
        self.assertEqual(self.store('ask', 0, self.file('sign'))[0], 2)
        self.begin()
        for words in (('ask', 1, self.file('sign')), ('ask', 8, self.file('sign')), ('ask', 'x', self.file('sign')), ('ask', 0, self.file('missing')),
                      ('clear', 256), ('clear', -1), ('init',), ('slot', 0, '--km0', DAY[0], '--acl', self.file('acl')), ('load', 0, '--time', 'soon'),
                      ('audit', '--at', '5'), ('export', self.place), ('export', '/no/folder/file'), ('show', '--of', 8),
                      ('ask', 0, self.file('sign'), '--identity', '00' * 16), ('run', 0, self.file('many'), '--certificate', 'x:y')):
            status, output, error = self.store(*words)
            self.assertEqual(status, 2, words)
            self.assertTrue(error or output, words)
            self.assertNotIn(b'Traceback', error)
        self.assertEqual(self.store('audit')[0], 0)

    def test_json(self):
        self.begin()
        value = json.loads(self.store('ask', 0, self.file('sign'), '--json')[1])
        self.assertEqual((value['status'], value['permitted'], value['group']), (0, True, 0))
        shown = json.loads(self.store('show', '--json')[1])
        self.assertEqual((shown['entries'], shown['slots'][0]['counts'], shown['counters']), (2, {'0': 1}, {'4': 1}))
        value = json.loads(self.store('audit', '--json', '--at', f'2:{shown["head"]}')[1])
        self.assertEqual((value['sound'], value['permits']), (True, 1))
        value = json.loads(self.store('run', 0, self.file('many'), '--json')[1])
        self.assertEqual([answer['refusal'] for answer in value['answers']], [0, 0, 7, 7])

    def test_audit_of_a_damaged_store(self):
        self.begin()
        with Store.open(self.place) as store:
            store.engine.write([('UPDATE akubolinfe_log SET hash = ?', (bytes(32),))])
        status, output, _ = self.store('audit')
        self.assertEqual((status, output[:7]), (1, b'DAMAGED'))
        self.assertEqual(self.store('ask', 0, self.file('sign'))[0], 2)

    def test_export_and_init_from_it(self):
        self.begin()
        export = self.file('export')
        self.assertEqual(self.store('export', export)[0], 0)
        first, *rest = Path(export).read_text().splitlines()
        self.assertEqual(json.loads(first)['entries'], 1)
        copy = self.file('copy.db')
        self.assertEqual(command('store', 'init', copy, '--from', export)[0], 0)
        self.assertEqual(command('store', 'show', copy)[1].splitlines()[1:], self.store('show')[1].splitlines()[1:])
        Path(export).write_text('\n'.join([first] + rest[:-1]))
        status, _, error = command('store', 'init', self.file('bad.db'), '--from', export)
        self.assertEqual((status, Path(self.file('bad.db')).exists()), (2, False), error)


@unittest.skipUnless(shutil.which('gcc') and os.path.exists('/usr/include/sqlite3.h'), 'gcc or libsqlite3-dev is not installed')
class InC(unittest.TestCase):
    """The example of a C host: save, then act."""

    def test_example(self):
        with tempfile.TemporaryDirectory(prefix='akubolinfe-example-') as folder:
            example, place = os.path.join(folder, 'example_store'), os.path.join(folder, 'cabinet.db')
            found = os.path.realpath(library().path)
            subprocess.run(['gcc', '-std=c99', '-O2', '-Wall', '-Wextra', '-Werror', '-pedantic', '-I', str(HEADER.parent), '-o', example,
                            str(ROOT / 'host' / 'example_store.c'), found, f'-Wl,-rpath,{os.path.dirname(found)}', '-lsqlite3'], check=True)

            def day():
                return subprocess.run([example, place, *map(str, DAY)], stdout=subprocess.PIPE, check=True).stdout.decode().splitlines()
            self.assertEqual(day(), ['1 permit 0', '2 permit 1', '3 permit 1', '4 refuse 7 0'])
            self.assertEqual([line.split()[1] for line in day()], ['refuse'] * 4)
            with contextlib.closing(sqlite3.connect(place)) as connection:
                encoded, = connection.execute('SELECT state FROM cabinet').fetchone()
                self.assertEqual(decode_cabinet(encoded).slots[0].counts[:3], (1, 2, 0))
                self.assertEqual(encode_cabinet(decode_cabinet(encoded)), encoded)
                connection.execute('UPDATE cabinet SET state = ?', (encoded[:-1] + b'x',))
                connection.commit()
            damaged = subprocess.run([example, place, *map(str, DAY)], stdout=subprocess.PIPE, stderr=subprocess.PIPE)
            self.assertEqual((damaged.returncode, damaged.stdout, damaged.stderr), (2, b'', b'the state is damaged\n'))


if __name__ == '__main__':
    unittest.main()
