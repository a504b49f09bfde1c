"""Portable encodings of a ledger and of a cabinet.

Every number is big-endian, whatever the machine. An encoding is a frame:

    offset  bytes  content
         0      4  the letters AKUB
         4      2  version of the encoding, 1
         6      2  what it holds: 1 a ledger, 2 a cabinet, 3 the state of a store
         8      4  the ABI of the library whose tables it holds
        12      4  length of the body
        16      .  the body
         .     32  SHA-256 of everything before it

The body of a ledger is 64 group counts and 256 named counters of 4 bytes each, then load time and last time of 8 bytes each. The body of
a cabinet is eight slots, each 64 group counts, load time and last time; then the 256 named counters.
"""

from __future__ import annotations

import ctypes
import hashlib
import struct
import sys
from array import array
from typing import Tuple

from ._library import ABI, COUNTERS, GROUPS, SLOTS
from .gate import Cabinet, Ledger

VERSION = 1
LEDGER, CABINET, STATE = 1, 2, 3
DIGEST_BYTES = 32

_MAGIC = b'AKUB'
_HEADER = struct.Struct('>4sHHII')
_KINDS = {LEDGER: 'a ledger', CABINET: 'a cabinet', STATE: 'the state of a store'}

# Four-byte words of a slot and of a ledger: a time has two.
_SLOT_WORDS = GROUPS + 4
_LEDGER_WORDS = GROUPS + COUNTERS + 4
LEDGER_BYTES = 4 * _LEDGER_WORDS
CABINET_BYTES = 4 * (SLOTS * _SLOT_WORDS + COUNTERS)

# The first word of each time, among the words of a ledger and of a cabinet.
_LEDGER_TIMES = (slice(GROUPS + COUNTERS, _LEDGER_WORDS, 2),)
_CABINET_TIMES = tuple(slice(GROUPS + place, SLOTS * _SLOT_WORDS, _SLOT_WORDS) for place in (0, 2))


class EncodingError(ValueError):
    """Bytes that are not the encoding they should be."""


def frame(kind: int, length: int, *parts) -> bytes:
    """A body of this length, given in parts, in a frame with its SHA-256."""
    framed = b''.join((_HEADER.pack(_MAGIC, VERSION, kind, ABI, length), *parts))
    return framed + hashlib.sha256(framed).digest()


def unframe(kind: int, data: bytes, length: int) -> bytes:
    """The body of a frame of this kind and length of body. Raises EncodingError."""
    if len(data) < _HEADER.size + DIGEST_BYTES:
        raise EncodingError(f'{len(data)} bytes are too few for {_KINDS[kind]}')
    magic, version, held, abi, held_length = _HEADER.unpack_from(data)
    if magic != _MAGIC:
        raise EncodingError('it does not begin with AKUB')
    if hashlib.sha256(data[:-DIGEST_BYTES]).digest() != data[-DIGEST_BYTES:]:
        raise EncodingError('its SHA-256 is not that of its bytes')
    if version != VERSION:
        raise EncodingError(f'its encoding has version {version}, not {VERSION}')
    if held != kind:
        raise EncodingError(f'it holds {_KINDS.get(held, f"kind {held}")}, not {_KINDS[kind]}')
    if abi != ABI:
        raise EncodingError(f'its tables are those of ABI {abi}, not {ABI}')
    if held_length != length or len(data) != _HEADER.size + length + DIGEST_BYTES:
        raise EncodingError('its length is wrong')
    return data[_HEADER.size:-DIGEST_BYTES]


def _reordered(data, times: Tuple[slice, ...]) -> array:
    """From the byte order of this machine to big-endian, or back, as four-byte words."""
    words = array('I', bytes(data))
    if sys.byteorder == 'little':
        words.byteswap()
        for first in times:
            second = slice(first.start + 1, first.stop, first.step)
            words[first], words[second] = words[second], words[first]
    return words


def cabinet_body(cabinet: Cabinet) -> array:
    """The tables of a cabinet, big-endian, without a frame."""
    return _reordered(cabinet._raw, _CABINET_TIMES)


def cabinet_of_body(body: bytes) -> Cabinet:
    """The cabinet with these tables."""
    cabinet = Cabinet()
    ctypes.memmove(ctypes.addressof(cabinet._raw), _reordered(body, _CABINET_TIMES).tobytes(), CABINET_BYTES)
    return cabinet


def encode_cabinet(cabinet: Cabinet) -> bytes:
    """The portable encoding of a cabinet."""
    return frame(CABINET, CABINET_BYTES, cabinet_body(cabinet))


def decode_cabinet(data: bytes) -> Cabinet:
    """The cabinet that was encoded. Raises EncodingError."""
    return cabinet_of_body(unframe(CABINET, data, CABINET_BYTES))


def encode_ledger(ledger: Ledger) -> bytes:
    """The portable encoding of a ledger."""
    return frame(LEDGER, LEDGER_BYTES, _reordered(ledger._raw, _LEDGER_TIMES))


def decode_ledger(data: bytes) -> Ledger:
    """The ledger that was encoded. Raises EncodingError."""
    ledger = Ledger()
    body = unframe(LEDGER, data, LEDGER_BYTES)
    ctypes.memmove(ctypes.addressof(ledger._raw), _reordered(body, _LEDGER_TIMES).tobytes(), LEDGER_BYTES)
    return ledger
