"""Values that are passed to the library, checked for misuse."""
from __future__ import annotations

import re
from operator import index
from typing import Union

from ._library import HASH

Bytes = Union[bytes, bytearray, memoryview]
Hash = Union[bytes, str]


def lent(value: Bytes, name: str) -> bytes:
    """The bytes of an argument. Raises TypeError for anything that is not bytes, text too."""
    if type(value) is bytes:
        return value
    if isinstance(value, (bytes, bytearray, memoryview)):
        return bytes(value)
    raise TypeError(f'{name}: bytes are wanted, not {type(value).__name__}')


def number(value: int, name: str, bits: int = 64) -> int:
    """An argument that is a number of so many bits, without sign. Raises TypeError or ValueError for any other."""
    whole = index(value)
    if not 0 <= whole < 1 << bits:
        raise ValueError(f'{name}: {whole} is not a number from 0 to {(1 << bits) - 1}')
    return whole


def hash_bytes(value: Hash, name: str) -> bytes:
    """A hash of 20 bytes, given as such or as 40 hexadecimal digits. Raises TypeError or ValueError for any other."""
    if isinstance(value, str):
        if not re.fullmatch('[0-9a-fA-F]{40}', value):
            raise ValueError(f'{name}: 40 hexadecimal digits are wanted')
        return bytes.fromhex(value)
    content = lent(value, name)
    if len(content) != HASH:
        raise ValueError(f'{name}: a hash of {HASH} bytes is wanted')
    return content
