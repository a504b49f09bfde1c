"""The gate: a ledger for one key, a cabinet for eight, runs, and prepared ACLs.

Every call asks the proved library and changes ledger or cabinet in place, only where it permits or is done. Calls on one
ledger, or on one cabinet, wait for each other; calls on different ones run at the same time in different threads.
"""
from __future__ import annotations

import struct
from ctypes import byref, create_string_buffer
from threading import Lock
from typing import Iterable, List, NamedTuple, Sequence, Tuple

from ._library import (
    ANSWER_BYTES, COUNTERS, GROUPS, NO_GROUP, PREPARED_RECORDS, RECORD, SLOTS, CabinetStruct, CertificateStruct, FormStruct,
    LedgerStruct, Library, library,
)
from ._values import Bytes, Hash, hash_bytes, lent, number
from .answers import Reply, Run

_ANSWER = struct.Struct('>II')
_LEDGER = struct.Struct(f'={GROUPS}I{COUNTERS}I2Q')
_CABINET = struct.Struct('=' + f'{GROUPS}I2Q' * SLOTS + f'{COUNTERS}I')
_SLOT_NUMBERS = GROUPS + 2
_FORM = struct.Struct('=18Q')

# The hash of a certificate's key and its mechanism. `Certificate` is such a pair.
CertificateLike = Tuple[Hash, int]


class Slot(NamedTuple):
    """What a slot of a cabinet has of a ledger: a count for each group, the load time and the last time."""

    counts: Tuple[int, ...] = (0,) * GROUPS
    loaded: int = 0
    last: int = 0


class Form:
    """The prepared form of an ACL: for each permission, for working blobs and for recovery blobs the set of groups with
    an action for it, bit g for group g.

    `refusal` is the ACL's refusal where it could not be prepared; then the form is empty and `bool(form)` is false.
    """

    __slots__ = ('_raw', '_refusal')

    def __init__(self, uses: Sequence[int] = (), working: int = 0, recovery: int = 0, refusal: int = 0) -> None:
        self._raw = FormStruct.from_buffer_copy(_packed(_FORM, (*_table(uses, 16, 'uses'), working, recovery)))
        self._refusal = number(refusal, 'refusal', 32)

    @property
    def refusal(self) -> int:
        """The ACL's refusal; 0 where it was prepared."""
        return self._refusal

    @property
    def uses(self) -> Tuple[int, ...]:
        """For each permission, by its bit, the set of groups."""
        return _FORM.unpack(self._raw)[:16]

    @property
    def working(self) -> int:
        """The groups with an action for working blobs."""
        return self._raw.working

    @property
    def recovery(self) -> int:
        """The groups with an action for recovery blobs."""
        return self._raw.recovery

    def __bool__(self) -> bool:
        return self._refusal == 0

    def __eq__(self, other: object) -> bool:
        if not isinstance(other, Form):
            return NotImplemented
        return (self._refusal, bytes(self._raw)) == (other._refusal, bytes(other._raw))

    def __hash__(self) -> int:
        return hash((self._refusal, bytes(self._raw)))

    def __reduce__(self):
        return Form, (self.uses, self.working, self.recovery, self._refusal)

    def __repr__(self) -> str:
        return f'Form(uses={self.uses}, working={self.working}, recovery={self.recovery}, refusal={self._refusal})'


def prepare(acl: Bytes) -> Form:
    """The prepared form of an ACL, made once and used for many runs."""
    acl = lent(acl, 'acl')
    made = library().prepare(acl, len(acl))
    form = Form(refusal=made.refusal)
    form._raw = FormStruct.from_buffer_copy(made.form)
    return form


def _table(values: Sequence[int], size: int, name: str) -> Tuple[int, ...]:
    """A table of numbers. Those that are not given are zero."""
    given = tuple(values)
    if len(given) > size:
        raise ValueError(f'{name}: at most {size} numbers are wanted, not {len(given)}')
    return given + (0,) * (size - len(given))


def _packed(layout: struct.Struct, numbers: Sequence[int]) -> bytes:
    """Numbers as the library lays them out. Raises TypeError or ValueError for what is no number of its place's size."""
    try:
        return layout.pack(*numbers)
    except struct.error as error:
        wrong = [value for value in numbers if not isinstance(value, int)]
        raise (TypeError if wrong else ValueError)(f'numbers: {error}') from None


def _reply(answer) -> Reply:
    group = answer.group
    return Reply(answer.refusal, None if group == NO_GROUP else group)


def _row(certificates: Iterable[CertificateLike]):
    """The row of certificates that is lent to a run, and its length."""
    pairs = [(hash_bytes(key, 'certificate'), number(mechanism, 'mechanism', 16)) for key, mechanism in certificates]
    row = (CertificateStruct * max(1, len(pairs)))()
    for entry, (key, mechanism) in zip(row, pairs):
        entry.hash[:] = key
        entry.mechanism = mechanism
    return row, len(pairs)


def _answers(buffer, count: int) -> Tuple[Reply, ...]:
    """The answers at the front of a run's buffer."""
    front = memoryview(buffer)[: count * ANSWER_BYTES]
    return tuple(Reply(refusal, None if group == NO_GROUP else group) for refusal, group in _ANSWER.iter_unpack(front))


def _room(requests: bytes):
    """A buffer for the answers of a run. A longer run is refused before its buffer is looked at."""
    return create_string_buffer(max(1, min(len(requests) // RECORD, PREPARED_RECORDS) * ANSWER_BYTES))


def _form(form: Form) -> FormStruct:
    if not isinstance(form, Form):
        raise TypeError(f'form: a Form is wanted, not {type(form).__name__}')
    return form._raw


class Ledger:
    """What was used of one key: a count for each group, the named counters, the load time and the last time, in seconds.

    >>> ledger = Ledger()
    >>> ledger.load(100)
    Reply(refusal=0, group=None)
    >>> reply = ledger.request(km0, acl, request)
    >>> if reply: ...                     # permitted by group reply.group, and charged to it

    `Ledger()` is the fresh ledger. `Ledger(counts, counters, loaded, last)` has the numbers given; counts and counters
    that are not given are zero. Every call takes any bytes of any length; a refusal leaves the ledger unchanged. Lend the
    ACL that is in force, the KM0 hash of the module and the true time.
    """

    __slots__ = ('_library', '_raw', '_ref', '_lock')

    def __init__(self, counts: Sequence[int] = (), counters: Sequence[int] = (), loaded: int = 0, last: int = 0) -> None:
        self._library: Library = library()
        if counts or counters or loaded or last:
            tables = (*_table(counts, GROUPS, 'counts'), *_table(counters, COUNTERS, 'counters'))
            self._raw = LedgerStruct.from_buffer_copy(_packed(_LEDGER, (*tables, loaded, last)))
        else:
            self._raw = self._library.fresh()
        self._ref = byref(self._raw)
        self._lock = Lock()

    @property
    def numbers(self) -> Tuple[Tuple[int, ...], Tuple[int, ...], int, int]:
        """Counts, counters, load time and last time, as they are at one moment."""
        with self._lock:
            entries = _LEDGER.unpack(self._raw)
        return entries[:GROUPS], entries[GROUPS : GROUPS + COUNTERS], entries[-2], entries[-1]

    @property
    def counts(self) -> Tuple[int, ...]:
        """The 64 counts, each at its group."""
        return self.numbers[0]

    @property
    def counters(self) -> Tuple[int, ...]:
        """The 256 named counters."""
        return self.numbers[1]

    @property
    def loaded(self) -> int:
        """The load time."""
        return self._raw.loaded

    @property
    def last(self) -> int:
        """The time of the last permitted request, or of the load."""
        return self._raw.last

    def copy(self) -> 'Ledger':
        """A ledger of its own with the same numbers."""
        return Ledger(*self.numbers)

    def __copy__(self) -> 'Ledger':
        return self.copy()

    def __deepcopy__(self, memo: dict) -> 'Ledger':
        return self.copy()

    def __reduce__(self):
        return Ledger, self.numbers

    def __eq__(self, other: object) -> bool:
        return self.numbers == other.numbers if isinstance(other, Ledger) else NotImplemented

    __hash__ = None  # type: ignore[assignment]

    def __repr__(self) -> str:
        counts, counters, loaded, last = self.numbers
        return f'Ledger(counts={_used(counts)}, counters={_used(counters)}, loaded={loaded}, last={last})'

    def load(self, time: int) -> Reply:
        """Loads the key at any time: group counts become zero, both times are set."""
        time = number(time, 'time')
        with self._lock:
            return _reply(self._library.load_in_place(self._ref, time))

    def clear(self, counter: int) -> Reply:
        """Clears one named counter, 0 to 255."""
        counter = number(counter, 'counter')
        with self._lock:
            return _reply(self._library.clear_in_place(self._ref, counter))

    def request(self, km0: Bytes, acl: Bytes, request: Bytes) -> Reply:
        """Asks for a use or a blob: the request record, its record of kind 15 if it asks for a stored blob, then up to
        32 certificates and up to 16 delegations."""
        km0, acl, request = lent(km0, 'km0'), lent(acl, 'acl'), lent(request, 'request')
        with self._lock:
            return _reply(self._library.request_in_place(self._ref, km0, len(km0), acl, len(acl), request, len(request)))

    def narrow(self, km0: Bytes, acl: Bytes, request: Bytes, new_acl: Bytes, hints: Bytes) -> Reply:
        """Asks for a narrowing by a use of ReduceACL. If it is permitted, put `new_acl` in force."""
        km0, acl, request = lent(km0, 'km0'), lent(acl, 'acl'), lent(request, 'request')
        new_acl, hints = lent(new_acl, 'new_acl'), lent(hints, 'hints')
        with self._lock:
            return _reply(self._library.narrow_in_place(
                self._ref, km0, len(km0), acl, len(acl), request, len(request), new_acl, len(new_acl), hints, len(hints)))

    def expand(self, km0: Bytes, acl: Bytes, request: Bytes, new_acl: Bytes) -> Reply:
        """Asks for an expansion by a use of ExpandACL. If it is permitted, put `new_acl` in force."""
        km0, acl, request, new_acl = lent(km0, 'km0'), lent(acl, 'acl'), lent(request, 'request'), lent(new_acl, 'new_acl')
        with self._lock:
            return _reply(self._library.expand_in_place(
                self._ref, km0, len(km0), acl, len(acl), request, len(request), new_acl, len(new_acl)))

    def run(self, km0: Bytes, acl: Bytes, certificates: Iterable[CertificateLike], requests: Bytes) -> Run:
        """Asks at most 100 request records, one after the other, with the same certificates, at most 32."""
        km0, acl, requests = lent(km0, 'km0'), lent(acl, 'acl'), lent(requests, 'requests')
        row, certified = _row(certificates)
        buffer = _room(requests)
        with self._lock:
            made = self._library.run_in_place(
                self._ref, km0, len(km0), acl, len(acl), row, certified, requests, len(requests), buffer, len(buffer))
        return Run(made.refusal, _answers(buffer, made.count))

    def prepared_run(
        self, km0: Bytes, acl: Bytes, certificates: Iterable[CertificateLike], form: Form, requests: Bytes,
    ) -> Run:
        """Asks at most 1,000 request records as `run` does, on the prepared form of the ACL."""
        km0, acl, requests = lent(km0, 'km0'), lent(acl, 'acl'), lent(requests, 'requests')
        row, certified = _row(certificates)
        buffer = _room(requests)
        with self._lock:
            made = self._library.prepared_run_in_place(
                self._ref, km0, len(km0), acl, len(acl), row, certified, _form(form), requests, len(requests), buffer, len(buffer))
        return Run(made.refusal, _answers(buffer, made.count))


class Cabinet:
    """Eight keys, each with a slot of its own counts and times, and the named counters, which all of them share.

    `Cabinet()` is the fresh cabinet. `Cabinet(slots, counters)` has the numbers given, each slot as a `Slot` or as a tuple
    of counts, load time and last time; what is not given is zero. The calls of a slot are those of a ledger. No call
    changes another slot; a slot over 7 is refused with 13.
    """

    __slots__ = ('_library', '_raw', '_ref', '_lock')

    def __init__(self, slots: Sequence[Tuple[Sequence[int], int, int]] = (), counters: Sequence[int] = ()) -> None:
        self._library: Library = library()
        if slots or counters:
            self._raw = CabinetStruct.from_buffer_copy(_cabinet_bytes(slots, counters))
        else:
            self._raw = self._library.cabinet_fresh()
        self._ref = byref(self._raw)
        self._lock = Lock()

    @property
    def numbers(self) -> Tuple[Tuple[Slot, ...], Tuple[int, ...]]:
        """Slots and counters, as they are at one moment."""
        with self._lock:
            entries = _CABINET.unpack(self._raw)
        starts = range(0, SLOTS * _SLOT_NUMBERS, _SLOT_NUMBERS)
        slots = tuple(Slot(entries[at : at + GROUPS], entries[at + GROUPS], entries[at + GROUPS + 1]) for at in starts)
        return slots, entries[SLOTS * _SLOT_NUMBERS :]

    @property
    def slots(self) -> Tuple[Slot, ...]:
        """The eight slots."""
        return self.numbers[0]

    @property
    def counters(self) -> Tuple[int, ...]:
        """The 256 named counters, which the slots share."""
        return self.numbers[1]

    def slot(self, slot: int) -> Slot:
        """The counts and times of one slot, 0 to 7."""
        return self.slots[number(slot, 'slot')]

    def ledger(self, slot: int) -> Ledger:
        """A ledger of its own with the counts and times of one slot, 0 to 7, and the counters that all slots share."""
        slots, counters = self.numbers
        counts, loaded, last = slots[number(slot, 'slot')]
        return Ledger(counts, counters, loaded, last)

    def copy(self) -> 'Cabinet':
        """A cabinet of its own with the same numbers."""
        return Cabinet(*self.numbers)

    def __copy__(self) -> 'Cabinet':
        return self.copy()

    def __deepcopy__(self, memo: dict) -> 'Cabinet':
        return self.copy()

    def __reduce__(self):
        return Cabinet, self.numbers

    def __eq__(self, other: object) -> bool:
        return self.numbers == other.numbers if isinstance(other, Cabinet) else NotImplemented

    __hash__ = None  # type: ignore[assignment]

    def __repr__(self) -> str:
        slots, counters = self.numbers
        used = ', '.join(f'{i}: ({_used(s.counts)}, {s.loaded}, {s.last})' for i, s in enumerate(slots) if s != Slot())
        return f'<Cabinet slots={{{used}}} counters={_used(counters)}>'

    def load(self, slot: int, time: int) -> Reply:
        """Loads the key of a slot at any time."""
        slot, time = number(slot, 'slot'), number(time, 'time')
        with self._lock:
            return _reply(self._library.cabinet_load_in_place(self._ref, slot, time))

    def clear(self, counter: int) -> Reply:
        """Clears one named counter, 0 to 255, for every slot."""
        counter = number(counter, 'counter')
        with self._lock:
            return _reply(self._library.cabinet_clear_in_place(self._ref, counter))

    def request(self, slot: int, km0: Bytes, acl: Bytes, request: Bytes) -> Reply:
        """Asks for a use or a blob of the key in a slot, as `Ledger.request`."""
        slot = number(slot, 'slot')
        km0, acl, request = lent(km0, 'km0'), lent(acl, 'acl'), lent(request, 'request')
        with self._lock:
            return _reply(self._library.cabinet_request_in_place(
                self._ref, slot, km0, len(km0), acl, len(acl), request, len(request)))

    def narrow(self, slot: int, km0: Bytes, acl: Bytes, request: Bytes, new_acl: Bytes, hints: Bytes) -> Reply:
        """Asks for a narrowing in a slot, as `Ledger.narrow`."""
        slot = number(slot, 'slot')
        km0, acl, request = lent(km0, 'km0'), lent(acl, 'acl'), lent(request, 'request')
        new_acl, hints = lent(new_acl, 'new_acl'), lent(hints, 'hints')
        with self._lock:
            return _reply(self._library.cabinet_narrow_in_place(
                self._ref, slot, km0, len(km0), acl, len(acl), request, len(request), new_acl, len(new_acl), hints, len(hints)))

    def expand(self, slot: int, km0: Bytes, acl: Bytes, request: Bytes, new_acl: Bytes) -> Reply:
        """Asks for an expansion in a slot, as `Ledger.expand`."""
        slot = number(slot, 'slot')
        km0, acl, request, new_acl = lent(km0, 'km0'), lent(acl, 'acl'), lent(request, 'request'), lent(new_acl, 'new_acl')
        with self._lock:
            return _reply(self._library.cabinet_expand_in_place(
                self._ref, slot, km0, len(km0), acl, len(acl), request, len(request), new_acl, len(new_acl)))

    def run(self, slot: int, km0: Bytes, acl: Bytes, certificates: Iterable[CertificateLike], requests: Bytes) -> Run:
        """Makes a run in a slot, as `Ledger.run`."""
        slot = number(slot, 'slot')
        km0, acl, requests = lent(km0, 'km0'), lent(acl, 'acl'), lent(requests, 'requests')
        row, certified = _row(certificates)
        buffer = _room(requests)
        with self._lock:
            made = self._library.cabinet_run_in_place(
                self._ref, slot, km0, len(km0), acl, len(acl), row, certified, requests, len(requests), buffer, len(buffer))
        return Run(made.refusal, _answers(buffer, made.count))

    def prepared_run(
        self, slot: int, km0: Bytes, acl: Bytes, certificates: Iterable[CertificateLike], form: Form, requests: Bytes,
    ) -> Run:
        """Makes a run in a slot on the prepared form of its ACL, as `Ledger.prepared_run`."""
        slot = number(slot, 'slot')
        km0, acl, requests = lent(km0, 'km0'), lent(acl, 'acl'), lent(requests, 'requests')
        row, certified = _row(certificates)
        buffer = _room(requests)
        with self._lock:
            made = self._library.cabinet_prepared_run_in_place(
                self._ref, slot, km0, len(km0), acl, len(acl), row, certified, _form(form), requests, len(requests), buffer,
                len(buffer))
        return Run(made.refusal, _answers(buffer, made.count))


def _cabinet_bytes(slots: Sequence[Tuple[Sequence[int], int, int]], counters: Sequence[int]) -> bytes:
    if len(slots) > SLOTS:
        raise ValueError(f'slots: at most {SLOTS} are wanted, not {len(slots)}')
    numbers: List[int] = []
    for counts, loaded, last in slots:
        numbers += (*_table(counts, GROUPS, 'counts'), loaded, last)
    numbers += [0] * ((SLOTS - len(slots)) * _SLOT_NUMBERS)
    return _packed(_CABINET, (*numbers, *_table(counters, COUNTERS, 'counters')))


def _used(table: Sequence[int]) -> dict:
    """The entries of a table that are not zero."""
    return {place: value for place, value in enumerate(table) if value}
