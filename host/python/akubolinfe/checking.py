"""Whether a file is good by itself, by the library's own answers."""
from __future__ import annotations

from . import places
from ._values import Bytes, lent
from .places import FilePlace
from .text import Text


def fault(kind: str, content: Bytes) -> int:
    """The refusal number of a file of this kind (`acl`, `request`, `requests`, `bundle`, `hints`); 0 for a good one, which
    is one that has a text."""
    return Text(kind).write(lent(content, 'content')).refusal


def place(kind: str, content: Bytes) -> FilePlace:
    """The first fault of a file; without its place where the library does not say where."""
    return places.locate_file(kind, content) if places.supported() else FilePlace(fault(kind, content))
