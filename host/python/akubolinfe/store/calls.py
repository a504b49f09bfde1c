"""The calls of a store: what each takes, how it is performed on a state by the proved library, and its entry in the log.

The bytes of an entry, every number big-endian:

    bytes  content
        1  version of the entry, 1
        1  the call: 1 slot, 2 load, 3 clear, 4 request, 5 narrow, 6 expand, 7 run
        8  number of the entry, from 1
        8  generation of the state after the call
        8  microseconds since 1970 by the host's clock; nothing is decided by it
        .  the inputs, in the order of CALLS
        4  the refusal, 0 where there is none
        4  the group, all ones where none is named
        .  the answers of a run, eight bytes each; empty for any other call

A number among the inputs has 8 bytes. Bytes have their length in 4 bytes before them. A file (an ACL) is kept once and has its SHA-256 here, 32
bytes. In the log an entry is a byte 0 and these bytes or, where it is long, a byte 1 and these bytes compressed (zlib).
"""
from __future__ import annotations

import hashlib
import struct
import zlib
from typing import Callable, Dict, List, NamedTuple, Sequence, Tuple, Union

from .._library import HASH, NO_GROUP, SLOTS
from ..answers import Reply, Run
from ..encoding import DIGEST_BYTES
from ..gate import Form, prepare
from .errors import Damaged, Misuse
from .state import Key, State

# No file of the rules is longer than 86,016 bytes. What is longer than this is not logged, so it is not asked either.
INPUT_BYTES = 131072

_VERSION = 1
_FRONT = struct.Struct('>BBQQQ')
_NUMBER = struct.Struct('>Q')
_LENGTH = struct.Struct('>I')
_ANSWER = struct.Struct('>II')
_CERTIFICATE = struct.Struct(f'>{HASH}sH')
_LONG = 512
# The files that a process keeps in memory. A call needs two at most.
_HELD_FILES = 64
_ENTRY_BYTES = 4 * INPUT_BYTES

Answer = Union[Reply, Run]
Inputs = Tuple[Union[int, bytes], ...]


class Files:
    """The files that calls name by their SHA-256, and the prepared forms of the ACLs among them.

    `fetch` gets one that is not held yet. The form is made once for each ACL; the library verifies it at each run."""

    def __init__(self, fetch: Callable[[bytes], bytes]) -> None:
        self._fetch = fetch
        self._held: Dict[bytes, bytes] = {}
        self._forms: Dict[bytes, Form] = {}

    def hold(self, content: bytes) -> bytes:
        """Keeps a file in memory. Returns its SHA-256."""
        digest = hashlib.sha256(content).digest()
        self._held.pop(digest, None)
        self._held[digest] = content
        if len(self._held) > _HELD_FILES:
            oldest = next(iter(self._held))
            del self._held[oldest]
            self._forms.pop(oldest, None)
        return digest

    def content(self, digest: bytes) -> bytes:
        """The file with this SHA-256. Raises Damaged where the store holds none, or another."""
        found = self._held.get(digest)
        if found is None:
            found = self._fetch(digest)
            if self.hold(found) != digest:
                raise Damaged(f'file {digest.hex()}: its bytes have another SHA-256')
        return found

    def form(self, digest: bytes) -> Form:
        """The prepared form of the ACL with this SHA-256."""
        found = self._forms.get(digest)
        if found is None:
            found = self._forms[digest] = prepare(self.content(digest))
        return found


def _key(state: State, files: Files, slot: int) -> Tuple[bytes, bytes]:
    """KM0 and ACL of a slot. A slot over 7 has neither: the library refuses it before it looks at them."""
    if slot >= SLOTS:
        return b'', b''
    key = state.key(slot)
    if key is None:
        raise Misuse(f'slot {slot} holds no key')
    return key.km0, files.content(key.acl)


def _slot(state: State, files: Files, slot: int, km0: bytes, acl: bytes, time: int, replace: int) -> Reply:
    if slot < SLOTS and state.key(slot) and not replace:
        raise Misuse(f'slot {slot} holds a key already')
    content = files.content(acl)
    # A run of no requests: the library looks at slot, KM0 and ACL, and changes nothing.
    refusal = state.cabinet.prepared_run(slot, km0, content, (), files.form(acl), b'').refusal
    if refusal:
        return Reply(refusal)
    state.put(slot, Key(km0, acl))
    return state.cabinet.load(slot, time)


def _load(state: State, files: Files, slot: int, time: int) -> Reply:
    _key(state, files, slot)
    return state.cabinet.load(slot, time)


def _clear(state: State, files: Files, counter: int) -> Reply:
    return state.cabinet.clear(counter)


def _request(state: State, files: Files, slot: int, request: bytes) -> Reply:
    km0, acl = _key(state, files, slot)
    return state.cabinet.request(slot, km0, acl, request)


def _narrow(state: State, files: Files, slot: int, request: bytes, new_acl: bytes, hints: bytes) -> Reply:
    km0, acl = _key(state, files, slot)
    reply = state.cabinet.narrow(slot, km0, acl, request, files.content(new_acl), hints)
    if reply:
        state.put(slot, Key(km0, new_acl))
    return reply


def _expand(state: State, files: Files, slot: int, request: bytes, new_acl: bytes) -> Reply:
    km0, acl = _key(state, files, slot)
    reply = state.cabinet.expand(slot, km0, acl, request, files.content(new_acl))
    if reply:
        state.put(slot, Key(km0, new_acl))
    return reply


def _run(state: State, files: Files, slot: int, row: bytes, requests: bytes) -> Run:
    km0, acl = _key(state, files, slot)
    form = files.form(state.key(slot).acl) if slot < SLOTS else Form()
    return state.cabinet.prepared_run(slot, km0, acl, _CERTIFICATE.iter_unpack(row), form, requests)


class Call(NamedTuple):
    """A call: its number in the log, its inputs in their order (name and kind), and what performs it."""

    code: int
    inputs: Tuple[Tuple[str, str], ...]
    act: Callable[..., Answer]


_SLOT_FIELD = ('slot', 'number')
CALLS: Dict[str, Call] = {
    'slot': Call(1, (_SLOT_FIELD, ('km0', 'bytes'), ('acl', 'file'), ('time', 'number'), ('replace', 'number')), _slot),
    'load': Call(2, (_SLOT_FIELD, ('time', 'number')), _load),
    'clear': Call(3, (('counter', 'number'),), _clear),
    'request': Call(4, (_SLOT_FIELD, ('request', 'bytes')), _request),
    'narrow': Call(5, (_SLOT_FIELD, ('request', 'bytes'), ('new_acl', 'file'), ('hints', 'bytes')), _narrow),
    'expand': Call(6, (_SLOT_FIELD, ('request', 'bytes'), ('new_acl', 'file')), _expand),
    'run': Call(7, (_SLOT_FIELD, ('certificates', 'bytes'), ('requests', 'bytes')), _run),
}
_NAMES = {call.code: name for name, call in CALLS.items()}


def row_of(certificates: Sequence[Tuple[bytes, int]]) -> bytes:
    """The certificates of a run as bytes: for each the hash of its key (20) and its mechanism (2)."""
    return b''.join(_CERTIFICATE.pack(key, mechanism) for key, mechanism in certificates)


def permits_of(answer: Answer) -> List[int]:
    """The groups that an answer charges, one for each permit."""
    answers = answer.answers if isinstance(answer, Run) else (answer,)
    return [reply.group for reply in answers if reply.refusal == 0 and reply.group is not None]


def perform(name: str, state: State, files: Files, inputs: Inputs) -> Answer:
    """Makes a call on a state, in place. The generation grows where the call changes anything."""
    answer = CALLS[name].act(state, files, *inputs)
    changes = any(map(bool, answer.answers)) if isinstance(answer, Run) else bool(answer)
    state.generation += changes
    return answer


class Entry(NamedTuple):
    """An entry of the log."""

    number: int
    call: str
    inputs: Inputs
    answer: Answer
    generation: int
    written: int

    def named(self) -> Dict[str, Union[int, bytes]]:
        """The inputs by their names."""
        return {field: value for (field, _), value in zip(CALLS[self.call].inputs, self.inputs)}

    def files(self) -> List[bytes]:
        """The SHA-256 of each file among the inputs."""
        return [value for (_, kind), value in zip(CALLS[self.call].inputs, self.inputs) if kind == 'file']


def _answer_bytes(answer: Answer) -> bytes:
    if not isinstance(answer, Run):
        return _ANSWER.pack(answer.refusal, _group(answer)) + _LENGTH.pack(0)
    numbers = [number for reply in answer.answers for number in (reply.refusal, _group(reply))]
    return _ANSWER.pack(answer.refusal, NO_GROUP) + _LENGTH.pack(4 * len(numbers)) + struct.pack(f'>{len(numbers)}I', *numbers)


def _group(reply: Reply) -> int:
    return NO_GROUP if reply.group is None else reply.group


def encode(entry: Entry) -> bytes:
    """The bytes of an entry, as they are logged."""
    call = CALLS[entry.call]
    parts = [_FRONT.pack(_VERSION, call.code, entry.number, entry.generation, entry.written)]
    for (_, kind), value in zip(call.inputs, entry.inputs):
        if kind == 'number':
            parts.append(_NUMBER.pack(value))
        else:
            parts += [value] if kind == 'file' else [_LENGTH.pack(len(value)), value]
    parts.append(_answer_bytes(entry.answer))
    plain = b''.join(parts)
    return b'\0' + plain if len(plain) < _LONG else b'\1' + zlib.compress(plain, 1)


class _Reader:
    """Takes fields off the front of an entry. Raises Damaged where it is too short."""

    def __init__(self, data: bytes) -> None:
        self.data, self.offset = data, 0

    def take(self, length: int) -> bytes:
        taken = self.data[self.offset : self.offset + length]
        if len(taken) != length:
            raise Damaged('it is too short')
        self.offset += length
        return taken

    def unpack(self, fields: struct.Struct) -> tuple:
        return fields.unpack(self.take(fields.size))

    def sized(self) -> bytes:
        return self.take(*self.unpack(_LENGTH))

    def input(self, kind: str) -> Union[int, bytes]:
        if kind == 'number':
            return self.unpack(_NUMBER)[0]
        return self.take(DIGEST_BYTES) if kind == 'file' else self.sized()


def _plain(data: bytes) -> bytes:
    if data[:1] == b'\0':
        return data[1:]
    if data[:1] != b'\1':
        raise Damaged('its first byte is neither 0 nor 1')
    try:
        return zlib.decompressobj().decompress(data[1:], _ENTRY_BYTES)
    except zlib.error:
        raise Damaged('its bytes do not decompress') from None


def _reply(refusal: int, group: int) -> Reply:
    return Reply(refusal, None if group == NO_GROUP else group)


def decode(data: bytes) -> Entry:
    """The entry that was logged. Raises Damaged where these are not the bytes of one."""
    reader = _Reader(_plain(data))
    version, code, number, generation, written = reader.unpack(_FRONT)
    if version != _VERSION or code not in _NAMES:
        raise Damaged(f'version {version}, call {code} is not known')
    name = _NAMES[code]
    inputs = tuple(reader.input(kind) for _, kind in CALLS[name].inputs)
    refusal, group = reader.unpack(_ANSWER)
    answers = reader.sized()
    if reader.offset != len(reader.data) or len(answers) % _ANSWER.size:
        raise Damaged('its length is wrong')
    answer: Answer = _reply(refusal, group)
    if name == 'run':
        answer = Run(refusal, tuple(_reply(*numbers) for numbers in _ANSWER.iter_unpack(answers)))
    return Entry(number, name, inputs, answer, generation, written)
