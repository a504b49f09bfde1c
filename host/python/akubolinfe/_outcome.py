"""What a command answers: an exit status, text, and the same as JSON."""
from __future__ import annotations

import json
from dataclasses import asdict
from typing import Any, Dict, NamedTuple, Optional, Sequence

from ._files import Trouble, shown
from .places import FilePlace
from .words import explain

YES, NO, TROUBLE = 0, 1, 2


class Outcome(NamedTuple):
    """The answer of a command. `lines` go to standard output as text, or `content` as it is; with --json `value` does,
    with the exit status in it. `notes` go to standard error, with --json too."""

    status: int
    lines: Sequence[str] = ()
    value: Dict[str, Any] = {}
    content: Optional[bytes] = None
    notes: Sequence[str] = ()

    def output(self, as_json: bool) -> bytes:
        """What is written to standard output."""
        if as_json:
            return (json.dumps({'status': self.status, **self.value}, indent=2) + '\n').encode('ascii')
        if self.content is not None:
            return self.content
        return ''.join(f'{line}\n' for line in self.lines).encode('utf-8', 'surrogateescape')


class Refused(Trouble):
    """A file that the library refuses by itself: a text with the line at fault, or a file with the record."""

    def __init__(self, path: str, refusal: int, line: int = 0, place: Optional[FilePlace] = None) -> None:
        named = f'{shown(path)}:{line}' if line else shown(path)
        words = place.words if place is not None and place.part else explain(refusal)
        super().__init__(f'{named}: {words} (refusal {refusal})')
        self.value = {'file': path, 'refusal': refusal, 'line': line, 'words': explain(refusal), 'place': placed(place)}


def placed(place: Any) -> Optional[Dict[str, Any]]:
    """A place as JSON; None where there is none."""
    return None if place is None or place else {**asdict(place), 'words': place.words}


def status_of(refusal: int) -> int:
    """The exit status of a refusal number: 4 to 8 say no by the rules, all others are trouble."""
    if refusal == 0:
        return YES
    return NO if 4 <= refusal <= 8 else TROUBLE
