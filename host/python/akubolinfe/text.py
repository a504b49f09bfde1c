"""Files as text, by the proved text forms of the library."""
from __future__ import annotations

from ctypes import create_string_buffer

from ._library import ACL_BYTES, TEXT_BYTES, library
from ._values import Bytes, lent
from .answers import Converted

# The kinds of file, each at the number that the library gives it.
KINDS = ('acl', 'request', 'requests', 'bundle', 'hints')


class Text:
    """The text form of one kind of file: `acl`, `request`, `requests`, `bundle` or `hints`.

    Every good file has one text, which reads back to the same bytes, and every text that is accepted is the one that is
    written for its file.

    >>> Text('acl').read(b'group\\nOpPermissions Sign\\n').content[:1]
    b'\\x01'
    """

    __slots__ = ('kind',)

    def __init__(self, kind: str) -> None:
        if kind not in KINDS:
            raise ValueError(f'{kind}: not a kind of file; the kinds are {", ".join(KINDS)}')
        self.kind = kind

    def write(self, content: Bytes) -> Converted:
        """The text of a file."""
        return self._converted('write', lent(content, 'content'), TEXT_BYTES)

    def read(self, text: Bytes) -> Converted:
        """The file of a text. A bad text is refused with 15 and the number of its first bad line, from 1."""
        return self._converted('read', lent(text, 'text'), ACL_BYTES)

    def _converted(self, way: str, given: bytes, room: int) -> Converted:
        buffer = create_string_buffer(room)
        reply = getattr(library(), way + '_text')(KINDS.index(self.kind), given, len(given), buffer, len(buffer))
        return Converted(reply.refusal, buffer.raw[: reply.length], reply.line)
