"""The state of a store: one cabinet with the key of each slot, and a generation number."""
from __future__ import annotations

import struct
from typing import NamedTuple, Optional

from .._library import HASH, SLOTS
from ..encoding import CABINET_BYTES, DIGEST_BYTES, STATE, cabinet_body, cabinet_of_body, frame, unframe
from ..gate import Cabinet

IDENTITY_BYTES = 16

_FRONT = struct.Struct(f'>{IDENTITY_BYTES}sQ')
_KEY = struct.Struct(f'>?{HASH}s{DIGEST_BYTES}s')
_BODY_BYTES = _FRONT.size + SLOTS * _KEY.size + CABINET_BYTES


class Key(NamedTuple):
    """What a slot is asked with: the KM0 hash of its module, and the SHA-256 of the ACL in force."""

    km0: bytes
    acl: bytes


class State:
    """One cabinet: the key of each slot (None where it holds none), counts and times, and the shared counters.

    `generation` is the number of calls that changed it. `identity` is drawn at random when the store is made.

    Its encoding is a frame of kind 3 (see `akubolinfe.encoding`). The body has the identity (16 bytes) and the generation (8);
    for each slot 1 or 0 (1 byte: a key is held), the KM0 hash (20) and the SHA-256 of the ACL (32), zero where no key is held;
    then the tables of the cabinet (3,200).
    """

    __slots__ = ('identity', 'generation', 'cabinet', '_keys')

    def __init__(self, identity: bytes) -> None:
        self.identity = identity
        self.generation = 0
        self.cabinet = Cabinet()
        self._keys = bytes(SLOTS * _KEY.size)

    def key(self, slot: int) -> Optional[Key]:
        """The key of a slot, or None."""
        held, km0, acl = _KEY.unpack_from(self._keys, slot * _KEY.size)
        return Key(km0, acl) if held else None

    def put(self, slot: int, key: Key) -> None:
        """Puts a key in a slot."""
        offset = slot * _KEY.size
        self._keys = self._keys[:offset] + _KEY.pack(True, *key) + self._keys[offset + _KEY.size :]

    def encode(self) -> bytes:
        """The portable encoding. It ends with its SHA-256."""
        return frame(STATE, _BODY_BYTES, _FRONT.pack(self.identity, self.generation), self._keys, cabinet_body(self.cabinet))

    @staticmethod
    def decode(data: bytes) -> 'State':
        """The state that was encoded. Raises EncodingError."""
        body = unframe(STATE, data, _BODY_BYTES)
        identity, generation = _FRONT.unpack_from(body)
        state = State(identity)
        state.generation = generation
        state._keys = body[_FRONT.size : -CABINET_BYTES]
        state.cabinet = cabinet_of_body(body[-CABINET_BYTES:])
        return state
