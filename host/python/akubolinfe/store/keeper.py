"""The store: each call in one transaction."""
from __future__ import annotations

import hashlib
import os
import time as clock
from threading import RLock
from typing import Iterator, List, Optional, Sequence, Tuple

from .._values import Bytes, Hash, hash_bytes, lent, number
from ..answers import Reply, Run
from ..encoding import DIGEST_BYTES, EncodingError
from .calls import CALLS, INPUT_BYTES, Answer, Entry, Files, Inputs, decode, encode, perform, row_of
from .engines import READ, Statement, engine_of
from .errors import Damaged, Misuse
from .state import IDENTITY_BYTES, State

ADD_ENTRY = 'INSERT INTO akubolinfe_log (number, entry, state, hash) VALUES (?, ?, ?, ?)'
ADD_FILE = 'INSERT INTO akubolinfe_file (sha256, content) VALUES (?, ?) ON CONFLICT DO NOTHING'
ADD_STORE = 'INSERT INTO akubolinfe_store (id, entries, head, state) VALUES (1, ?, ?, ?)'
_SAVE_ALL = 'UPDATE akubolinfe_store SET entries = ?, head = ?, state = ? WHERE id = 1'
_SAVE_HEAD = 'UPDATE akubolinfe_store SET entries = ?, head = ? WHERE id = 1'


def first_head(state: bytes) -> bytes:
    """The head of a log without entries: the SHA-256 of the fresh state."""
    return hashlib.sha256(state).digest()


def next_head(head: bytes, entry: bytes, state: bytes) -> bytes:
    """The head after an entry: the SHA-256 of the head before it, the SHA-256 of the state after it, and its bytes."""
    return hashlib.sha256(head + state + entry).digest()


def checked(row: Optional[tuple]) -> Tuple[int, bytes, bytes]:
    """Entries, head and state of the row that `READ` finds. Raises Damaged where it does not fit the last entry of the log."""
    if row is None:
        raise Damaged('the row of the store is missing')
    entries, head, state, last_state, last_hash = row
    if not isinstance(entries, int) or not isinstance(head, bytes) or not isinstance(state, bytes):
        raise Damaged('the row of the store is not one that a store writes')
    if head != (last_hash if entries else first_head(state)):
        raise Damaged(f'the head of the store is not that of entry {entries}, the last of its log')
    if entries and state[-DIGEST_BYTES:] != last_state:
        raise Damaged(f'the state of the store is not the one that entry {entries}, the last of its log, left')
    return entries, head, state


def decoded(state: bytes) -> State:
    """The state in the row of a store. Raises Damaged."""
    try:
        return State.decode(state)
    except EncodingError as error:
        raise Damaged(f'the state is damaged: {error}') from None


class Store:
    """A durable cabinet. `Store.create` makes one, `Store.open` opens one.

    Threads may share a Store; a process that forks opens its own. Each store has an identity of its own: an `open` that names one refuses any other store.
    """

    def __init__(self, engine) -> None:
        self._engine = engine
        self._lock = RLock()
        self._process = os.getpid()
        self._files = Files(self._fetch)
        self._encoded: Optional[bytes] = None
        self._state: Optional[State] = None
        self._identity: Optional[bytes] = None

    @classmethod
    def create(cls, place: str) -> 'Store':
        """Makes a store with a fresh cabinet: a file, or `postgresql://USER@HOST/DATABASE#NAME`."""
        state = State(os.urandom(IDENTITY_BYTES))
        store = cls(engine_of(place, create=True))
        encoded = state.encode()
        store._engine.create([(ADD_STORE, (0, first_head(encoded), encoded))])
        store._identity = state.identity
        return store

    @classmethod
    def open(cls, place: str, identity: Optional[bytes] = None, read_only: bool = False) -> 'Store':
        """Opens a store. Where `identity` is given, a store with another one is refused."""
        store = cls(engine_of(place, read_only=read_only))
        try:
            found = store.state().identity
            if identity is not None and found != identity:
                raise Misuse(f'{store.place}: this is store {found.hex()}, not {identity.hex()}')
        except BaseException:
            store.close()
            raise
        store._identity = found
        return store

    @property
    def place(self) -> str:
        """Where the store is. A password in a URL is left out."""
        return self._engine.place

    @property
    def engine(self):
        """The engine that holds the store."""
        return self._engine

    def close(self) -> None:
        """Closes the file or the connection."""
        self._engine.close()

    def __enter__(self) -> 'Store':
        return self

    def __exit__(self, *_: object) -> None:
        self.close()

    def put(self, slot: int, km0: Bytes, acl: Bytes, time: int, replace: bool = False) -> Reply:
        """Puts a key in a slot: the KM0 hash of its module and its ACL. It is loaded at `time`. A bad KM0 or ACL is refused as a run would refuse it.
        Raises Misuse where the slot holds a key already, unless `replace`."""
        return self._call('slot', slot, km0, acl, time, int(replace))

    def load(self, slot: int, time: int) -> Reply:
        """Loads the key of a slot again: its group counts become zero, both its times are set."""
        return self._call('load', slot, time)

    def clear(self, counter: int) -> Reply:
        """Clears one named counter for every slot."""
        return self._call('clear', counter)

    def request(self, slot: int, request: Bytes) -> Reply:
        """Asks for a use or a blob of the key in a slot."""
        return self._call('request', slot, request)

    def narrow(self, slot: int, request: Bytes, new_acl: Bytes, hints: Bytes) -> Reply:
        """Asks for a narrowing. If it is permitted, the new ACL is in force with the same commit."""
        return self._call('narrow', slot, request, new_acl, hints)

    def expand(self, slot: int, request: Bytes, new_acl: Bytes) -> Reply:
        """Asks for an expansion. If it is permitted, the new ACL is in force with the same commit."""
        return self._call('expand', slot, request, new_acl)

    def run(self, slot: int, requests: Bytes, certificates: Sequence[Tuple[Hash, int]] = ()) -> Run:
        """Asks at most 1,000 request records in one transaction, on the prepared form of the ACL."""
        row = row_of([(hash_bytes(key, 'certificate'), number(mechanism, 'mechanism', 16)) for key, mechanism in certificates])
        return self._call('run', slot, row, requests)

    def state(self) -> State:
        """The state as it is now, for reading."""
        return self.reading()[2]

    def reading(self) -> Tuple[int, bytes, State]:
        """How many entries the log has, its head, and the state, all of one moment."""
        with self._lock:
            entries, head, state = self._checked(self._engine.row(READ))
            return entries, head, decoded(state)

    def file(self, sha256: bytes) -> bytes:
        """A file that the store keeps, such as the ACL in force in a slot."""
        with self._lock:
            return self._files.content(sha256)

    def entries(self) -> Iterator[Entry]:
        """The log, from its first entry."""
        with self._lock, self._engine.snapshot():
            for entry, in self._engine.rows('SELECT entry FROM akubolinfe_log ORDER BY number'):
                yield decode(entry)

    def _fetch(self, sha256: bytes) -> bytes:
        row = self._engine.row('SELECT content FROM akubolinfe_file WHERE sha256 = ?', (sha256,))
        if row is None or not isinstance(row[0], bytes):
            raise Damaged(f'{self.place}: file {sha256.hex()} is missing')
        return row[0]

    def _checked(self, row: Optional[tuple]) -> Tuple[int, bytes, bytes]:
        try:
            return checked(row)
        except Damaged as error:
            raise Damaged(f'{self.place}: {error}') from None

    def _inputs(self, name: str, given: tuple) -> Tuple[Inputs, List[Statement]]:
        """The inputs as they are logged, and the files among them to be kept."""
        inputs, kept = [], []
        for (field, kind), value in zip(CALLS[name].inputs, given):
            if kind == 'number':
                inputs.append(number(value, field))
                continue
            content = lent(value, field)
            if len(content) > INPUT_BYTES:
                raise Misuse(f'{field}: {len(content)} bytes are more than the {INPUT_BYTES} that a store takes')
            if kind == 'file':
                inputs.append(self._files.hold(content))
                kept.append((ADD_FILE, (inputs[-1], content)))
            else:
                inputs.append(content)
        return tuple(inputs), kept

    def _call(self, name: str, *given) -> Answer:
        """One call: lock and read, the proved function, write state and log entry, commit; then the answer."""
        with self._lock:
            if os.getpid() != self._process:
                raise Misuse(f'{self.place}: a process that forks opens the store again')
            inputs, statements = self._inputs(name, given)
            try:
                entries, head = self._begin()
                before = self._state.generation
                answer = perform(name, self._state, self._files, inputs)
                changed = self._state.generation != before
                encoded = self._state.encode() if changed else self._encoded
                digest = encoded[-DIGEST_BYTES:]
                entry = encode(Entry(entries + 1, name, inputs, answer, self._state.generation, clock.time_ns() // 1000))
                head = next_head(head, entry, digest)
                statements.append((ADD_ENTRY, (entries + 1, entry, digest, head)))
                statements.append((_SAVE_ALL, (entries + 1, head, encoded)) if changed else (_SAVE_HEAD, (entries + 1, head)))
                self._engine.commit(statements)
                self._encoded = encoded
            except BaseException:
                # Whatever the state in memory is by now, the next call reads it anew.
                self._encoded = None
                self._engine.rollback()
                raise
        return answer

    def _begin(self) -> Tuple[int, bytes]:
        """Locks the store and has its state in memory. Returns how many entries the log has, and its head."""
        entries, head, encoded = self._checked(self._engine.begin())
        if encoded != self._encoded:
            state = decoded(encoded)
            if self._identity is not None and state.identity != self._identity:
                raise Damaged(f'{self.place}: this is store {state.identity.hex()}, and was {self._identity.hex()} when it was opened')
            self._state, self._encoded = state, encoded
        return entries, head
