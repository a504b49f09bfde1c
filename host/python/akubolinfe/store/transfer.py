"""A store as one text file, and back: for moving it to another machine or engine, and for reading its log.

Each line is a JSON object. The first is the store: version, ABI, identity, number of entries, head, and the state (base64). Then a line for each
file that it keeps (SHA-256, content), and a line for each entry of the log (its bytes, the SHA-256 of the state, its hash). An entry's call, inputs and answer are
beside its bytes for a reader; nothing else reads them.
"""
from __future__ import annotations

import base64
import itertools
import json
from typing import IO, Dict, Iterable, Iterator, List

from .._library import ABI
from .audit import Progress, Report, audit
from .calls import CALLS, Entry, decode
from .engines import READ, Statement, engine_of
from .errors import Damaged
from .keeper import ADD_ENTRY, ADD_FILE, ADD_STORE, checked, decoded

VERSION = 1
_AT_ONCE = 200


def _text(content: bytes) -> str:
    return base64.b64encode(content).decode('ascii')


def readable(entry: Entry) -> Dict[str, object]:
    """An entry as a reader wants it: numbers, hexadecimal digits (or a length, where they would be many) and words."""
    shown: Dict[str, object] = {'number': entry.number, 'generation': entry.generation, 'written': entry.written, 'call': entry.call}
    for (field, kind), value in zip(CALLS[entry.call].inputs, entry.inputs):
        shown[field] = value if kind == 'number' else value.hex() if len(value) <= 256 else f'{len(value)} bytes'
    if entry.call == 'run':
        shown['refusal'] = entry.answer.refusal
        shown['answers'] = [str(reply) for reply in entry.answer.answers]
    else:
        shown['answer'] = str(entry.answer)
    return shown


def lines_of(engine) -> Iterator[str]:
    """The lines of an export, all of one moment."""
    with engine.snapshot():
        entries, head, encoded = checked(engine.row(READ))
        state = decoded(encoded)
        first = {'akubolinfe store': VERSION, 'abi': ABI, 'identity': state.identity.hex(), 'generation': state.generation}
        yield json.dumps({**first, 'entries': entries, 'head': head.hex(), 'state': _text(encoded)})
        for sha256, content in engine.rows('SELECT sha256, content FROM akubolinfe_file ORDER BY sha256'):
            yield json.dumps({'file': sha256.hex(), 'content': _text(content)})
        for entry, digest, stored in engine.rows('SELECT entry, state, hash FROM akubolinfe_log ORDER BY number'):
            yield json.dumps({**readable(decode(entry)), 'entry': _text(entry), 'state': digest.hex(), 'hash': stored.hex()})


def export_store(engine, file: IO[str]) -> int:
    """Writes an export. Returns how many lines it has."""
    written = 0
    for line in lines_of(engine):
        file.write(line + '\n')
        written += 1
    return written


def _statement(line: str, number: int) -> Statement:
    """What writes the row of a line after the first."""
    try:
        held = json.loads(line)
        if 'file' in held:
            return ADD_FILE, (bytes.fromhex(held['file']), base64.b64decode(held['content']))
        row = (held['number'], base64.b64decode(held['entry']), bytes.fromhex(held['state']), bytes.fromhex(held['hash']))
        return ADD_ENTRY, row
    except (ValueError, KeyError, TypeError):
        raise Damaged(f'line {number}: is not a line of an export') from None


def _first(line: str) -> Statement:
    """What writes the row of the store."""
    try:
        held = json.loads(line)
        version, abi = held['akubolinfe store'], held['abi']
        row = (held['entries'], bytes.fromhex(held['head']), base64.b64decode(held['state']))
    except (ValueError, KeyError, TypeError):
        raise Damaged('line 1: is not the first line of an export') from None
    if (version, abi) != (VERSION, ABI):
        raise Damaged(f'line 1: version {version} and ABI {abi}, not {VERSION} and {ABI}')
    return ADD_STORE, row


def _portions(lines: Iterable[str]) -> Iterator[List[Statement]]:
    numbered = (_statement(line, number) for number, line in enumerate(lines, 2))
    return iter(lambda: list(itertools.islice(numbered, _AT_ONCE)), [])


def import_store(place: str, lines: Iterable[str], progress: Progress = lambda done, entries: None) -> Report:
    """Makes a store from an export and audits it. Where the audit finds anything, or the export is damaged, no store is left behind.

    The new store has the identity of the old one: from then on use one of them alone."""
    lines = iter(lines)
    store = _first(next(lines, ''))
    engine = engine_of(place, create=True)
    engine.create([])
    sound = False
    try:
        for portion in _portions(lines):
            engine.write(portion)
        engine.write([store])
        report = audit(engine, progress=progress)
        sound = bool(report)
    finally:
        if not sound:
            engine.destroy()
        engine.close()
    return report
