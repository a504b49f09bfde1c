#!/usr/bin/env python3
"""Faults that a store has to survive: killed workers and servers, races, a full disk, a read-only file, damage, a clock that goes back, swapped stores.

    faults.py [--kills N] [--clients N] [--crashes N] [--flips N] [--minutes M] [--full]

After each fault every answered permit is in the state, at most the one call in flight of each worker besides, and the audit passes. --full makes 1,000 kills of
workers on SQLite, 200 of clients and 20 of the server on PostgreSQL. A line is printed for each kind of fault, also for one that had to be left out; the exit status
is 1 if any fails or the time is up, and with --need-all also if any is left out.
"""
from __future__ import annotations

import argparse
import contextlib
import os
import random
import shutil
import signal
import sqlite3
import stat
import subprocess
import sys
import tempfile
import time
from typing import Callable, Iterator, List, Optional, Tuple

sys.path.insert(0, os.path.join(os.path.dirname(os.path.abspath(__file__)), '..'))
from akubolinfe.store import Misuse, State, Store, StoreError, audit  # noqa: E402
from akubolinfe.store.engines import engine_of  # noqa: E402

sys.path.insert(0, os.path.dirname(os.path.abspath(__file__)))
import servers  # noqa: E402

KM0 = bytes(20)
SIGN, REDUCE = 4, 2
TOTAL = 7  # the counter that every permit of the tests is charged to; nothing clears it


def record(*front: int) -> bytes:
    """A record of 64 bytes with these in front."""
    return bytes(front).ljust(64, b'\0')


def use(permission: int, moment: int) -> bytes:
    """A request for a use."""
    return record(6, 0, 0, 0, permission)[:56] + moment.to_bytes(8, 'big')


def limit(sort: int, counter: int, maximum: int) -> bytes:
    """A limit of a group."""
    return record(2, 0, 0, 0, sort, counter, 0, 0, *maximum.to_bytes(4, 'big'))


def acl_of(uses: int, total: int = 4_000_000_000) -> bytes:
    """One group that admits Sign and ReduceACL, with so many uses left, charged to the counter TOTAL."""
    return record(1) + limit(1, 0, uses) + limit(2, TOTAL, total) + record(3, 0, 0, 0, 0, 1 << SIGN | 1 << REDUCE)


HINTS = record(13, 0, 0, 0, 0)


class Failed(Exception):
    """A store that did not survive."""


class LeftOut(Exception):
    """A fault that cannot be made on this machine."""


def check(holds: bool, words: str) -> None:
    """Raises Failed where something does not hold."""
    if not holds:
        raise Failed(words)


def audited(place: str) -> None:
    """Audits a store."""
    engine = engine_of(place, read_only=True)
    try:
        report = audit(engine)
    finally:
        engine.close()
    check(bool(report), f'audit: {report.finding}')


def logged(place: str) -> Tuple[int, int]:
    """How many calls the log of a store has, and how many permits its state, read under its lock: what was in flight is in both, or never will be."""
    engine = engine_of(place)
    try:
        row = engine.begin()
        engine.rollback()
    finally:
        engine.close()
    return row[0], State.decode(row[2]).cabinet.counters[TOTAL]


def charged(place: str) -> int:
    """How many permits the state of a store has."""
    return logged(place)[1]


class Account:
    """What a store is known to hold, before and after each fault."""

    def __init__(self) -> None:
        self.answers = self.in_flight = 0

    def begin(self, place: str) -> None:
        """Takes up a store."""
        self._place, self._known = place, logged(place)

    def settle(self, where: str, permits: List[int], workers: int) -> None:
        """Compares the store with what workers were answered: the permits of each call. Of each worker one more call may be there, the one in flight."""
        calls, charges = (now - before for now, before in zip(logged(self._place), self._known))
        check(charges >= sum(permits), f'{where}: {sum(permits)} permits were answered, and {charges} are in the state')
        check(calls >= len(permits), f'{where}: {len(permits)} calls were answered, and {calls} are in the log')
        check(calls <= len(permits) + workers, f'{where}: {len(permits)} calls were answered, and {calls} are in the log')
        audited(self._place)
        self.answers, self.in_flight = self.answers + len(permits), self.in_flight + calls - len(permits)
        self._known = logged(self._place)

    def __str__(self) -> str:
        return f'{self.answers} calls answered, no permit lost; besides these {self.in_flight} calls that were in flight are in the log'


def create(place: str, uses: int = 4_000_000_000) -> None:
    """A store with a key in slots 0 and 1."""
    with Store.create(place) as store:
        for slot in (0, 1):
            check(bool(store.put(slot, KM0, acl_of(uses), 0)), 'a key is put in a slot')


def work(place: str, answered: int, seed: int) -> None:
    """A worker: calls until it is killed. After each answer it writes to the pipe how many permits it was given, one byte each."""
    choose = random.Random(seed)
    with Store.open(place) as store:
        moment = store.state().cabinet.slots[0].last
        while True:
            kind = choose.randrange(20)
            if kind < 14:
                permits = int(bool(store.request(0, use(SIGN, moment))))
            elif kind < 16:
                permits = sum(map(bool, store.run(1, use(SIGN, moment) * choose.randrange(1, 40)).answers))
            elif kind < 18:
                store.request(0, use(9, moment))
                permits = 0
            else:
                most = int.from_bytes(store.file(store.state().key(0).acl)[136:140], 'big')
                permits = int(bool(store.narrow(0, use(REDUCE, moment), acl_of(4_000_000_000, most - 1), HINTS)))
            os.write(answered, bytes([permits]))


def forked(task: Callable[[int], None]) -> Tuple[int, int]:
    """A child that performs a task, which gets a pipe to write to. Returns its process id and the pipe to read from."""
    readable, writable = os.pipe()
    child = os.fork()
    if child == 0:
        status = 1
        try:
            os.close(readable)
            with contextlib.suppress(StoreError):
                task(writable)
            status = 0
        finally:
            os._exit(status)
    os.close(writable)
    return child, readable


def drained(readable: int) -> List[int]:
    """All bytes that a child wrote."""
    with open(readable, 'rb') as pipe:
        return list(pipe.read())


def killed(place: str, seed: int, longest: float) -> List[int]:
    """Starts a worker and kills it at a random moment. Returns what it was answered."""
    child, readable = forked(lambda pipe: work(place, pipe, seed))
    time.sleep(random.Random(seed).uniform(0, longest))
    os.kill(child, signal.SIGKILL)
    os.waitpid(child, 0)
    return drained(readable)


class Clock:
    """The time that all faults may take."""

    def __init__(self, minutes: float) -> None:
        self._end = time.monotonic() + 60 * minutes

    def ticks(self) -> None:
        """Raises Failed when the time is up."""
        check(time.monotonic() < self._end, 'the time is up (--minutes)')


def survive_kills(fresh: Callable[[int], str], kills: int, longest: float, clock: Clock) -> str:
    """Kills workers of a store, one after the other, each within `longest` seconds. Now and then the store is a new one, so that audits stay short."""
    account = Account()
    for kill in range(kills):
        clock.ticks()
        if kill % 40 == 0:
            place = fresh(kill)
            create(place)
            account.begin(place)
        account.settle(f'kill {kill}', killed(place, kill, longest), 1)
    return f'{kills} kills, {account}'


def survive_crashes(server: 'servers.Server', crashes: int, clock: Clock, workers: int = 4) -> str:
    """Crashes a PostgreSQL server while workers use a store in it."""
    place = server.place('crashes')
    create(place)
    account = Account()
    account.begin(place)
    for crash in range(crashes):
        clock.ticks()
        started = [forked(lambda pipe, seed=crash * workers + number: work(place, pipe, seed)) for number in range(workers)]
        time.sleep(random.Random(crash).uniform(0.2, 1.0))
        server.stop('immediate')
        permits = []
        for child, readable in started:
            os.waitpid(child, 0)
            permits += drained(readable)
        server.start()
        account.settle(f'crash {crash}', permits, workers)
    return f'{crashes} crashes under {workers} workers, {account}'


def survive_race(place: str, workers: int = 8, uses: int = 1000) -> str:
    """Many processes use a group until it is spent."""
    create(place, uses)

    def ask(pipe: int) -> None:
        with Store.open(place) as store:
            refused = 0
            while refused < 3:
                permitted = bool(store.request(0, use(SIGN, 5)))
                refused += not permitted
                os.write(pipe, bytes([permitted]))

    started = [forked(ask) for _ in range(workers)]
    shares = []
    for child, readable in started:
        shares.append(sum(drained(readable)))
        check(os.waitpid(child, 0)[1] == 0, 'a worker ends well')
    check(sum(shares) == uses, f'{sum(shares)} permits of {uses} uses')
    check(charged(place) == uses, 'the state has them all')
    audited(place)
    return f'{workers} processes, {uses} uses: exactly {sum(shares)} permits ({min(shares)} to {max(shares)} each)'


@contextlib.contextmanager
def small_disk(folder: str) -> Iterator[str]:
    """A file system of 600 kilobytes."""
    place = os.path.join(folder, 'small')
    os.mkdir(place)
    if subprocess.run(['mount', '-t', 'tmpfs', '-o', 'size=600k', 'tmpfs', place], stderr=subprocess.DEVNULL).returncode:
        raise LeftOut('a tmpfs cannot be mounted here; run as root')
    try:
        yield place
    finally:
        subprocess.run(['umount', place], check=True)


def survive_full_disk(folder: str) -> str:
    """Asks until the disk is full, then makes room and asks again."""
    with small_disk(folder) as disk:
        place = os.path.join(disk, 'cabinet.db')
        create(place)
        with open(os.path.join(disk, 'ballast'), 'wb') as ballast:
            ballast.write(bytes(250_000))
        permits, words = 0, ''
        with Store.open(place) as store:
            while not words:
                try:
                    permits += bool(store.request(0, use(SIGN, 5)))
                except StoreError as error:
                    words = str(error)
            check('full' in words, f'the error says so: {words}')
            os.unlink(os.path.join(disk, 'ballast'))
            check(bool(store.request(0, use(SIGN, 5))), 'it goes on when there is room')
        check(charged(place) == permits + 1, f'{permits + 1} permits answered, {charged(place)} in the state')
        audited(place)
    return f'{permits} permits, then "{words.split(": ", 1)[1]}"; with room again it goes on, none lost'


def survive_read_only(folder: str) -> str:
    """Uses a store in a file, and a folder, that may not be written."""
    inside = os.path.join(folder, 'read-only')
    os.mkdir(inside)
    os.chmod(folder, 0o755)
    place = os.path.join(inside, 'cabinet.db')
    create(place)
    os.chmod(place, stat.S_IRUSR | stat.S_IRGRP | stat.S_IROTH)
    os.chmod(inside, 0o555)

    def ask(pipe: int) -> None:
        if os.geteuid() == 0:
            os.setuid(65534)
        audited(place)
        os.write(pipe, b'a')
        with Store.open(place) as store:
            store.request(0, use(SIGN, 5))
            os.write(pipe, b'p')

    child, readable = forked(ask)
    written = bytes(drained(readable))
    check(os.waitpid(child, 0)[1] == 0, 'the child ends with an error of the store, or well')
    os.chmod(inside, 0o755)
    check(written == b'a', f'it is audited, and nothing is permitted: {written!r}')
    check(charged(place) == 0, 'nothing is charged')
    return 'audited, nothing permitted, nothing charged'


def rows_of(place: str) -> list:
    """Everything that a store holds."""
    with contextlib.closing(sqlite3.connect(place)) as connection:
        return [connection.execute(f'SELECT * FROM {table} ORDER BY 1').fetchall() for table in ('akubolinfe_store', 'akubolinfe_log', 'akubolinfe_file')]


def closed_store(place: str) -> int:
    """A store with some history, closed, in one file. Returns how many permits it has."""
    create(place)
    with Store.open(place) as store:
        for moment in range(40):
            store.request(0, use(SIGN, moment))
        store.run(1, use(SIGN, 50) * 30)
        store.narrow(0, use(REDUCE, 60), acl_of(3_000_000_000), HINTS)
    check(not os.path.exists(place + '-wal'), 'a store that is closed is one file')
    return 71


def damaged_answer(place: str, original: list, permits: int) -> bool:
    """Whether damage is found. If it is not, it must have touched nothing that the store holds. No answer may be a wrong one."""
    engine = None
    try:
        engine = engine_of(place, read_only=True)
        found = not audit(engine)
    except StoreError:
        found = True
    finally:
        if engine is not None:
            engine.close()
    if not found:
        check(rows_of(place) == original, 'damage that the audit does not find is outside everything that the store holds')
    with contextlib.suppress(StoreError), Store.open(place) as store:
        if store.request(0, use(SIGN, 100)):
            check(store.state().cabinet.counters[TOTAL] == permits + 1, 'a permit of a damaged store is charged on all others')
    return found


def survive_damage(folder: str, flips: int, clock: Clock) -> str:
    """Flips bits of a store's file, and cuts it."""
    place, copy = os.path.join(folder, 'whole.db'), os.path.join(folder, 'damaged.db')
    permits = closed_store(place)
    original = rows_of(place)
    content = open(place, 'rb').read()
    choose = random.Random(1)
    found = 0
    for _ in range(flips):
        clock.ticks()
        changed = bytearray(content)
        changed[choose.randrange(len(changed))] ^= 1 << choose.randrange(8)
        found += _damage(copy, bytes(changed), original, permits)
    lengths = [0, 1, 100, 4095, 4096, len(content) // 2, len(content) - 4096, len(content) - 1]
    for length in lengths:
        check(_damage(copy, content[:length], original, permits), f'a store cut to {length} bytes is found')
    return f'{flips} flipped bits: {found} found, the others outside everything that the store holds; {len(lengths)} cut files: all found'


def _damage(copy: str, content: bytes, original: list, permits: int) -> bool:
    for ending in ('', '-wal', '-shm'):
        with contextlib.suppress(FileNotFoundError):
            os.unlink(copy + ending)
    with open(copy, 'wb') as file:
        file.write(content)
    return damaged_answer(copy, original, permits)


def survive_clock(place: str) -> str:
    """Asks with a time before the last one."""
    create(place)
    with Store.open(place) as store:
        check(bool(store.request(0, use(SIGN, 200))), 'permitted at 200')
        entries, _, state = store.reading()
        check(store.request(0, use(SIGN, 150)).refusal == 4, 'refused at 150')
        check(not any(store.run(0, use(SIGN, 199) * 3).answers), 'refused at 199 in a run')
        after, _, unchanged = store.reading()
        check(unchanged.encode() == state.encode() and after == entries + 2, 'refusals change nothing but the log')
        check(bool(store.request(0, use(SIGN, 200))), 'permitted at 200 again')
    audited(place)
    return 'refused with 4; the state is unchanged'


def survive_swap(places: Tuple[str, str]) -> str:
    """Swaps what two stores hold, and two slots within a store."""
    for number, place in enumerate(places):
        create(place)
        with Store.open(place) as store:
            for moment in range(number + 1):
                store.request(0, use(SIGN, moment))
    stores = [Store.open(place) for place in places]
    try:
        _refuses_other(places, stores)
        _swap_slots(stores[0])
        _swap_rows(stores)
    finally:
        for store in stores:
            store.close()
    return 'another store, a state of another store and swapped slots: each refused, and found by the audit'


def _refuses_other(places: Tuple[str, str], stores: List[Store]) -> None:
    identities = [store.state().identity for store in stores]
    try:
        Store.open(places[0], identity=identities[1])
    except Misuse:
        return
    raise Failed('a store is taken for another one')


def _is_damaged(store: Store) -> None:
    try:
        store.request(0, use(SIGN, 300))
    except StoreError:
        check(not audit(store.engine), 'the audit finds it')
        return
    raise Failed('a store that was tampered with answers')


def _state_rows(store: Store) -> Tuple[int, bytes, bytes]:
    return store.engine.row('SELECT entries, head, state FROM akubolinfe_store')


def _set_rows(store: Store, rows: Tuple[int, bytes, bytes]) -> None:
    store.engine.write([('UPDATE akubolinfe_store SET entries = ?, head = ?, state = ?', rows)])


def _swap_slots(store: Store) -> None:
    """The counts of two slots swapped, with a SHA-256 that fits."""
    entries, head, encoded = rows = _state_rows(store)
    state = State.decode(encoded)
    slots, counters = state.cabinet.numbers
    state.cabinet = type(state.cabinet)((slots[1], slots[0], *slots[2:]), counters)
    _set_rows(store, (entries, head, state.encode()))
    _is_damaged(store)
    _set_rows(store, rows)
    check(bool(audit(store.engine)), 'mended')


def _swap_rows(stores: List[Store]) -> None:
    rows = [_state_rows(store) for store in stores]
    for store, other in zip(stores, reversed(rows)):
        _set_rows(store, other)
    for store in stores:
        _is_damaged(store)


class Faults:
    """The faults that were tried, and how they ended."""

    def __init__(self) -> None:
        self.failed = self.left_out = 0

    def attempt(self, name: str, task: Callable[[], str]) -> None:
        """Tries one kind of fault and prints a line."""
        started = time.monotonic()
        try:
            words = 'ok: ' + task()
        except LeftOut as error:
            words, self.left_out = f'LEFT OUT: {error}', self.left_out + 1
        except (Failed, StoreError) as error:
            words, self.failed = f'FAILED: {error}', self.failed + 1
        print(f'{name}: {words} ({time.monotonic() - started:.0f} s)', flush=True)


def on_sqlite(faults: Faults, folder: str, args, clock: Clock) -> None:
    """The faults of a store in SQLite."""
    def place(name: str) -> str:
        return os.path.join(folder, name)
    faults.attempt('SQLite, kill -9 of a worker', lambda: survive_kills(lambda kill: place(f'kills-{kill}.db'), args.kills, 0.12, clock))
    faults.attempt('SQLite, eight processes', lambda: survive_race(place('race.db')))
    faults.attempt('SQLite, full disk', lambda: survive_full_disk(folder))
    faults.attempt('SQLite, read-only file', lambda: survive_read_only(folder))
    faults.attempt('SQLite, damaged file', lambda: survive_damage(folder, args.flips, clock))
    faults.attempt('SQLite, clock back', lambda: survive_clock(place('clock.db')))
    faults.attempt('SQLite, swapped stores', lambda: survive_swap((place('one.db'), place('two.db'))))


def on_postgresql(faults: Faults, args, clock: Clock) -> None:
    """The faults of a store in PostgreSQL, on a server of their own."""
    why = servers.missing()
    if why:
        def leave_out() -> str:
            raise LeftOut(why)
        faults.attempt('PostgreSQL, all faults', leave_out)
        return
    with servers.Server() as server:
        faults.attempt('PostgreSQL, kill -9 of a client', lambda: survive_kills(lambda kill: server.place(f'kills_{kill}'), args.clients, 0.5, clock))
        faults.attempt('PostgreSQL, crash of the server', lambda: survive_crashes(server, args.crashes, clock))
        faults.attempt('PostgreSQL, eight processes', lambda: survive_race(server.place('race')))
        faults.attempt('PostgreSQL, clock back', lambda: survive_clock(server.place('clock')))
        faults.attempt('PostgreSQL, swapped stores', lambda: survive_swap((server.place('one'), server.place('two'))))


def arguments(words: Optional[List[str]]) -> argparse.Namespace:
    parser = argparse.ArgumentParser(description='Faults that a store has to survive.')
    parser.add_argument('--kills', type=int, default=50, help='kills of a worker on SQLite (50)')
    parser.add_argument('--clients', type=int, default=20, help='kills of a client on PostgreSQL (20)')
    parser.add_argument('--crashes', type=int, default=3, help='crashes of the PostgreSQL server (3)')
    parser.add_argument('--flips', type=int, default=200, help='flipped bits (200)')
    parser.add_argument('--minutes', type=float, default=30, help='the most that all may take (30)')
    parser.add_argument('--full', action='store_true', help='1,000 kills, 200 clients, 20 crashes, 2,000 flipped bits')
    parser.add_argument('--need-all', action='store_true', help='fail if any fault is left out')
    args = parser.parse_args(words)
    if args.full:
        args.kills, args.clients, args.crashes, args.flips = 1000, 200, 20, 2000
    return args


def main(words: Optional[List[str]] = None) -> int:
    """Tries all faults. Returns the exit status."""
    args = arguments(words)
    clock, faults = Clock(args.minutes), Faults()
    folder = tempfile.mkdtemp(prefix='akubolinfe-faults-')
    try:
        on_sqlite(faults, folder, args, clock)
        on_postgresql(faults, args, clock)
    finally:
        shutil.rmtree(folder, ignore_errors=True)
    print(f'{faults.failed} failed, {faults.left_out} left out')
    return 1 if faults.failed or (args.need_all and faults.left_out) else 0


if __name__ == '__main__':
    sys.exit(main())
