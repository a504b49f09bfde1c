"""The audit of a store: its whole log is replayed through the proved library, and the counters are counted again."""
from __future__ import annotations

from typing import Callable, Dict, List, NamedTuple, Optional, Tuple

from .._library import COUNTERS, RECORD
from ..encoding import DIGEST_BYTES
from .calls import Entry, Files, decode, perform, permits_of
from .engines import READ
from .errors import Damaged, StoreError
from .keeper import checked, decoded, first_head, next_head
from .state import State

_LOG = 'SELECT number, entry, state, hash FROM akubolinfe_log ORDER BY number'
_FILES = 'SELECT sha256, content FROM akubolinfe_file'

Progress = Callable[[int, int], None]


class Finding(Exception):
    """What an audit finds wrong, and where."""


class Report(NamedTuple):
    """What an audit finds. `finding` is empty for a sound store, and `bool(report)` is true for it alone."""

    entries: int
    generation: int
    permits: int
    head: bytes
    finding: str = ''

    def __bool__(self) -> bool:
        return not self.finding


class _Counting:
    """Counts permits by the sentence: each named counter equals the permits charged to groups then naming it since it was last cleared.

    It reads nothing but the log: who was permitted, by which group, and which ACL was in force in the slot. It does not ask the library."""

    def __init__(self) -> None:
        self.counted = [0] * COUNTERS
        self.permits = 0
        self._in_force: Dict[int, bytes] = {}
        self._naming: Dict[bytes, List[List[int]]] = {}

    def add(self, entry: Entry, content: Callable[[bytes], bytes]) -> None:
        """Counts an entry. `content` gives the file with a SHA-256."""
        named = entry.named()
        if entry.call == 'clear' and entry.answer:
            self.counted[named['counter']] = 0
        if entry.call == 'slot' and entry.answer:
            self._in_force[named['slot']] = named['acl']
        if entry.call in ('request', 'narrow', 'expand', 'run'):
            self._charge(permits_of(entry.answer), self._in_force.get(named['slot']), content)
        if entry.call in ('narrow', 'expand') and entry.answer:
            self._in_force[named['slot']] = named['new_acl']

    def _charge(self, groups: List[int], acl: Optional[bytes], content: Callable[[bytes], bytes]) -> None:
        self.permits += len(groups)
        if groups and acl not in self._naming:
            self._naming[acl] = _counters_of(content(acl))
        for group in groups:
            for counter in self._naming[acl][group]:
                self.counted[counter] += 1


def _counters_of(acl: bytes) -> List[List[int]]:
    """For each group of an ACL the counters that its limits name: records of kind 2 and sort 2."""
    found: List[List[int]] = []
    for offset in range(0, len(acl), RECORD):
        kind, sort, counter = acl[offset], acl[offset + 4], acl[offset + 5]
        if kind == 1:
            found.append([])
        elif kind == 2 and sort == 2:
            found[-1].append(counter)
    return found


def audit(engine, at: Optional[Tuple[int, bytes]] = None, progress: Progress = lambda done, entries: None) -> Report:
    """Audits a store: every entry of the log is replayed from the fresh cabinet, and its answer and the state that it left are compared; so are
    the final state and the counters, counted by themselves. A byte that was changed anywhere is found, and the report says where.

    `at` is the number of an entry and its hash, noted earlier outside the store: a log that does not have it was cut or replaced."""
    with engine.snapshot():
        replay = _Replay(engine)
        try:
            return replay.whole(at, progress)
        except (Finding, StoreError) as finding:
            return Report(replay.entries, replay.generation, replay.counting.permits, replay.head, str(finding))


class _Replay:
    """The replay of a log, entry by entry."""

    def __init__(self, engine) -> None:
        self._engine = engine
        self._files = Files(self._fetch)
        self.state: Optional[State] = None
        self.entries = 0
        self.head = b''
        self.digest = b''
        self.counting = _Counting()

    @property
    def generation(self) -> int:
        """The generation that the replay has reached."""
        return self.state.generation if self.state else 0

    def whole(self, at: Optional[Tuple[int, bytes]], progress: Progress) -> Report:
        """Replays everything. Raises Finding or StoreError at the first thing that is wrong."""
        for fault in self._engine.faults():
            raise Finding(f'the engine finds: {fault}')
        entries, head, encoded = checked(self._engine.row(READ))
        self._start(decoded(encoded).identity)
        noted = at is None or at == (0, self.head)
        for number, entry, state, stored in self._engine.rows(_LOG):
            self._step(number, entry, state, stored)
            noted = noted or at == (number, stored)
            progress(number, entries)
        self._end(entries, head, encoded)
        if not noted:
            raise Finding(f'the log has no entry {at[0]} with the hash {at[1].hex()}: it was cut, or it is another log')
        return Report(self.entries, self.generation, self.counting.permits, self.head)

    def _start(self, identity: bytes) -> None:
        self.state = State(identity)
        fresh = self.state.encode()
        self.head, self.digest = first_head(fresh), fresh[-DIGEST_BYTES:]

    def _fetch(self, sha256: bytes) -> bytes:
        row = self._engine.row('SELECT content FROM akubolinfe_file WHERE sha256 = ?', (sha256,))
        if row is None or not isinstance(row[0], bytes):
            raise Finding(f'file {sha256.hex()}: is missing')
        return row[0]

    def _step(self, number: int, stored_entry: bytes, stored_state: bytes, stored_hash: bytes) -> None:
        where = f'entry {self.entries + 1}'
        if number != self.entries + 1:
            raise Finding(f'{where}: is missing; entry {number} comes next')
        if not all(isinstance(value, bytes) for value in (stored_entry, stored_state, stored_hash)):
            raise Finding(f'{where}: is not one that a store writes')
        if next_head(self.head, stored_entry, stored_state) != stored_hash:
            raise Finding(f'{where}: was changed, for its hash is not that of the entry before it and its own bytes')
        try:
            self._replayed(where, decode(stored_entry), stored_state)
        except Damaged as error:
            raise Finding(f'{where}: {error}') from None
        self.entries, self.head = number, stored_hash

    def _replayed(self, where: str, entry: Entry, stored_state: bytes) -> None:
        before = self.state.generation
        try:
            answer = perform(entry.call, self.state, self._files, entry.inputs)
        except StoreError as error:
            raise Finding(f'{where}: {error}') from None
        if self.state.generation != before:
            self.digest = self.state.encode()[-DIGEST_BYTES:]
        if entry.number != self.entries + 1:
            raise Finding(f'{where}: names itself entry {entry.number}')
        if answer != entry.answer:
            raise Finding(f'{where}: the library answers {_words(answer)}, and the log has {_words(entry.answer)}')
        if self.digest != stored_state or self.state.generation != entry.generation:
            raise Finding(f'{where}: the state that it left is not the one that the replay has')
        self.counting.add(entry, self._files.content)

    def _end(self, entries: int, head: bytes, encoded: bytes) -> None:
        if entries != self.entries or head != self.head:
            raise Finding(f'the store names {entries} entries, and the log has {self.entries}')
        if encoded != self.state.encode():
            raise Finding('the state of the store is not the one that the replay ends with')
        for counter, (counted, held) in enumerate(zip(self.counting.counted, self.state.cabinet.counters)):
            if counted != held:
                raise Finding(f'counter {counter}: {held} in the state, and {counted} permits counted since it was last cleared')
        for sha256, content in self._engine.rows(_FILES):
            if self._files.hold(content) != sha256:
                raise Finding(f'file {sha256.hex()}: its bytes have another SHA-256')


def _words(answer) -> str:
    if hasattr(answer, 'answers'):
        return f'a run of {len(answer.answers)}, refusal {answer.refusal}: {", ".join(map(str, answer.answers[:3]))}..'
    return str(answer)
