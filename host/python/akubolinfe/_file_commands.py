"""The subcommands for one kind of file: show, make, check; the day; subjects; explanations."""
from __future__ import annotations

import hashlib
import os
import re
import time
from typing import Any, Dict, List, NamedTuple, Optional, Tuple

from ._files import Files, Trouble, Written, shown
from ._library import HASH, RECORD
from ._outcome import NO, TROUBLE, YES, Outcome, Refused, placed, status_of
from .answers import Run
from .builders import Certificate, Delegation, Request, Token
from .checking import place
from .desk import subject
from .gate import Ledger, prepare
from .places import CallPlace, FilePlace, locate_file, locate_request, supported
from .text import Text
from .words import CERTIFICATES, REFUSALS, STEPS, SUITES, meaning

# The longest ACL that the day program takes.
DAY_ACL_BYTES = 53248

ARTICLES = {'acl': 'an ACL', 'request': 'a request', 'requests': 'requests', 'bundle': 'a bundle', 'hints': 'hints'}


def is_text(content: bytes) -> bool:
    """Whether a file is a text: a text begins with a letter, and no record does."""
    return content[:1].isalpha()


def load(files: Files, kind: str, path: str) -> bytes:
    """A file of a kind, given as bytes or as text. A bad text is refused here; bytes are taken as they are."""
    content = files.read(path)
    if not is_text(content):
        return content
    read = Text(kind).read(content)
    if not read:
        raise Refused(path, read.refusal, read.line)
    return read.content


def require_good(kind: str, path: str, content: bytes) -> None:
    """Refuses a file that is not good by itself, with the record at fault."""
    found = place(kind, content)
    if not found:
        raise Refused(path, found.refusal, place=found)


def load_km0(files: Files, path: str) -> bytes:
    """A KM0 hash: 20 bytes, or 40 hexadecimal digits with or without a line end."""
    content = files.read(path)
    digits = re.fullmatch(rb'([0-9a-f]{40})\n?', content)
    return bytes.fromhex(digits[1].decode()) if digits else content


def text_of(kind: str, path: str, content: bytes) -> List[str]:
    """The lines of a file."""
    written = Text(kind).write(content)
    if not written:
        raise Refused(path, written.refusal, place=place(kind, content))
    return written.content.decode('ascii').splitlines()


def digest(content: bytes) -> Dict[str, Any]:
    """What identifies a file."""
    return {'bytes': len(content), 'sha256': hashlib.sha256(content).hexdigest()}


class Numbered(NamedTuple):
    """A line of a file with its record's number; in an ACL its group and, for an action, its number there."""

    record: int
    line: str
    group: Optional[int] = None
    action: Optional[int] = None

    @property
    def label(self) -> str:
        if self.group is None:
            return f'record {self.record}'
        return f'group {self.group}' + ('' if self.action is None else f' action {self.action}')

    @property
    def value(self) -> Dict[str, Any]:
        named = {} if self.group is None else {'group': self.group, 'action': self.action}
        return {'record': self.record, **named, 'line': self.line}


def numbered(kind: str, lines: List[str]) -> List[Numbered]:
    """The lines of a file with their numbers."""
    if kind != 'acl':
        return [Numbered(record, line) for record, line in enumerate(lines)]
    rows: List[Numbered] = []
    group, action = -1, -1
    for record, line in enumerate(lines):
        word = line.split(' ')[0]
        if word == 'group':
            group, action = group + 1, -1
        elif word not in ('limit', 'blobfile'):
            action += 1
        rows.append(Numbered(record, line, group, None if word in ('group', 'limit') else action))
    return rows


def show(args) -> Outcome:
    """Prints a file as text."""
    content = load(Files(), args.kind, args.file)
    rows = numbered(args.kind, text_of(args.kind, args.file, content))
    width = max((len(row.label) for row in rows), default=0)
    lines = [f'{row.label:<{width}}  {row.line}' if args.numbered else row.line for row in rows]
    return Outcome(YES, lines, {'kind': args.kind, **digest(content), 'records': [row.value for row in rows]})


def check(args) -> Outcome:
    """Says whether a file is good."""
    content = load(Files(), args.kind, args.file)
    require_good(args.kind, args.file, content)
    about = {'kind': args.kind, **digest(content), 'records': len(content) // RECORD}
    records = f'{about["records"]} record{"" if about["records"] == 1 else "s"}'
    line = f'{shown(args.file)}: {ARTICLES[args.kind]}, {records}, {len(content)} bytes, sha256 {about["sha256"]}'
    return Outcome(YES, [line], about)


def make(args) -> Outcome:
    """Makes a file from its text."""
    files = Files()
    content = load(files, args.kind, args.file)
    require_good(args.kind, args.file, content)
    return made(files, args, args.kind, content)


def made(files: Files, args, kind: str, content: bytes) -> Outcome:
    """A file that was made, written to the file named by --output, or else to standard output."""
    about = {'kind': kind, **digest(content)}
    if args.output in (None, '-'):
        if not args.json and os.isatty(1):
            raise Trouble('bytes are not written to a terminal; give --output')
        return Outcome(YES, value={**about, 'hex': content.hex()}, content=content)
    files.write(Written(args.output, content))
    return Outcome(YES, [f'{args.output}: {len(content)} bytes, sha256 {about["sha256"]}'], {**about, 'output': args.output})


def make_request(args) -> Outcome:
    """Makes a request from its text, or from the words of the command."""
    if args.what[0] not in ('use', 'blob', 'recovery'):
        if len(args.what) != 1:
            raise Trouble(f'{args.what[0]}: neither use, blob nor recovery, and one file is wanted')
        args.file = args.what[0]
        return make(args)
    try:
        content = bytes(_request(args))
    except (TypeError, ValueError) as error:
        raise Trouble(str(error)) from None
    return made(Files(), args, 'request', content)


def _request(args) -> Request:
    kind, *rest = args.what
    if len(rest) != (kind == 'use'):
        raise ValueError('use takes the name of one permission, blob and recovery take none')
    if args.time is None:
        raise ValueError('--time: a request needs its time, in seconds, or now')
    moment = int(time.time()) if args.time == 'now' else _whole(args.time, '--time')
    presented = {
        'certificates': [_certificate(text) for text in args.certificate],
        'delegations': [_delegation(text) for text in args.delegation],
    }
    if kind == 'use':
        return Request.use(rest[0], moment, **presented)
    where = {'device': args.device, 'template': args.template}
    if kind == 'recovery':
        if args.kahash is None or args.mechanism is None:
            raise ValueError('recovery needs --kahash and --mechanism')
        return Request.recovery(args.kahash, args.mechanism, moment, **where, **presented)
    if args.kmhash is None:
        raise ValueError('blob needs --kmhash')
    token = None
    if args.token is not None:
        token = Token(args.token, args.needed, args.total, args.seconds, args.soft)
    return Request.blob(args.kmhash, moment, token, **where, **presented)


def _whole(text: str, name: str) -> int:
    if not re.fullmatch('[0-9]{1,20}', text):
        raise ValueError(f'{name}: {text} is not a number')
    return int(text)


def _certificate(text: str) -> Certificate:
    key, colon, mechanism = text.partition(':')
    if not colon:
        raise ValueError(f'--certificate {text}: HASH:MECHANISM is wanted')
    return Certificate(key, _whole(mechanism, '--certificate'))


def _delegation(text: str) -> Delegation:
    source, target, names = (text.split(':') + ['', ''])[:3]
    if text.count(':') != 2:
        raise ValueError(f'--delegation {text}: FROM:TO:PERMISSION,.. is wanted')
    return Delegation(source, target, [name for name in names.split(',') if name])


def day(args) -> Outcome:
    """Answers the requests of a day."""
    files = Files()
    km0, acl = load_km0(files, args.km0), load(files, 'acl', args.acl)
    requests = load(files, 'requests', args.requests)
    run = Ledger().prepared_run(km0, acl, (), prepare(acl), requests)
    refusal = 1 if len(acl) > DAY_ACL_BYTES else run.refusal or (2 if any(a.refusal == 2 for a in run.answers) else 0)
    if refusal:
        return _no_day(args, refusal, (km0, acl, requests))
    answers = [(number, reply) for number, reply in enumerate(run.answers, 1)]
    places = _places_of_day(km0, acl, requests, run)
    value = [{'number': n, 'permitted': bool(r), 'refusal': r.refusal, 'group': r.group, 'words': r.words, 'place': placed(places.get(n))}
             for n, r in answers]
    limits = limits_of(text_of('acl', args.acl, acl))
    notes = [f'akubolinfe: request {n}: {why(found, limits)}' for n, found in places.items() if found.group is not None]
    return Outcome(YES if run else NO, [f'{n} {r}' for n, r in answers], {'answers': value}, notes=notes)


def _places_of_day(km0: bytes, acl: bytes, requests: bytes, run: Run) -> Dict[int, CallPlace]:
    """Why requests of a day are refused, by their numbers: each is asked again, on the ledger that it met. Nothing where the
    library does not say where."""
    if run or not supported():
        return {}
    ledger, found = Ledger(), {}
    for number, reply in enumerate(run.answers, 1):
        request = requests[(number - 1) * RECORD : number * RECORD]
        if reply:
            ledger.request(km0, acl, request)
        else:
            found[number] = locate_request(ledger, km0, acl, request)
    return found


def limits_of(lines: List[str]) -> List[List[str]]:
    """The limits of each group of an ACL's text."""
    groups: List[List[str]] = []
    for line in lines:
        if line.split(' ')[0] == 'group':
            groups.append([])
        elif line.startswith('limit '):
            groups[-1].append(line)
    return groups


def why(found: CallPlace, limits: List[List[str]]) -> str:
    """Why a call is refused, with the line of the limit that is spent."""
    spent = '' if found.reason != 'spent' else f': {limits[found.group or 0][found.item or 0]}'
    return f'{found.words}{spent}'


def _no_day(args, refusal: int, contents: Tuple[bytes, bytes, bytes]) -> Outcome:
    """A day that is refused because of one of its files, which is named with its record where the library says where."""
    words = meaning(refusal).words
    note = f'{shown(args.km0)}, {shown(args.acl)} or {shown(args.requests)}: {words}'
    found = _fault_of_day(refusal, *contents)
    if found is not None:
        name, at = found
        words = at.words
        note = f'{shown(getattr(args, name))}: {words} (refusal {refusal})'
    value = {'answers': [], 'refusal': refusal, 'words': words, 'file': found and getattr(args, found[0]), 'place': found and placed(found[1])}
    return Outcome(TROUBLE, [f'0 refuse {refusal}'], value, notes=[f'akubolinfe: {note}'])


def _fault_of_day(refusal: int, km0: bytes, acl: bytes, requests: bytes) -> Optional[Tuple[str, FilePlace]]:
    """The file of a day that is at fault, by its name in the arguments: lengths first, then records."""
    if not supported():
        return None
    length = FilePlace(1, 'length')
    if len(km0) != HASH:
        return 'km0', length
    if len(acl) > DAY_ACL_BYTES:
        return 'acl', length
    places = {'acl': locate_file('acl', acl), 'requests': locate_file('requests', requests)}
    found = [(name, at) for name, at in places.items() if at.refusal == refusal]
    return found[0] if found else None


def _named(text: str, names: Dict[str, int], what: str) -> int:
    if text in names:
        return names[text]
    if re.fullmatch('[0-9]{1,18}', text):
        return int(text)
    raise Trouble(f'{text}: not a {what}; one of {", ".join(names)}')


def write_subject(args) -> Outcome:
    """Writes the bytes that a world certificate signs."""
    certificate = _named(args.certificate, CERTIFICATES, 'certificate')
    suite = _named(args.suite, {name: number for number, name in enumerate(SUITES, 1)}, 'ciphersuite')
    for text in args.hash:
        if not re.fullmatch('[0-9a-fA-F]{40}', text):
            raise Trouble(f'--hash {shown(text)}: 40 hexadecimal digits are wanted')
    made_subject = subject(certificate, suite, bytes.fromhex(''.join(args.hash)))
    if not made_subject:
        words = f'refuse {made_subject.refusal}: {made_subject.words}'
        value = {'refusal': made_subject.refusal, 'words': made_subject.words}
        return Outcome(status_of(made_subject.refusal), value=value, notes=[f'akubolinfe: subject: {words}'])
    content = made_subject.content
    value = {'certificate': certificate, 'suite': suite, **digest(content), 'hex': content.hex()}
    if args.output in (None, '-'):
        return Outcome(YES, [content.hex()], value)
    Files().write(Written(args.output, content))
    return Outcome(YES, [f'{args.output}: {len(content)} bytes'], {**value, 'output': args.output})


def explain_key(args) -> Outcome:
    """Prints what refusal numbers and steps mean."""
    keys = args.key or [*map(str, range(1, len(REFUSALS) + 1)), *(step for step, _ in STEPS)]
    try:
        found = [meaning(key) for key in keys]
    except ValueError as error:
        raise Trouble(str(error)) from None
    head = [f'{m.key} {m.name}'.strip() for m in found]
    width = max(map(len, head)) if len(head) > 1 else 0
    lines = [f'{h:<{width}}  {m.words}' for h, m in zip(head, found)]
    return Outcome(YES, lines, {'meanings': [{'key': m.key, 'name': m.name or None, 'words': m.words} for m in found]})


def groups_of(lines: List[str]) -> List[Tuple[Tuple[str, ...], ...]]:
    """The actions of each group of an ACL's text, each with its lines."""
    groups: List[List[List[str]]] = []
    for row in numbered('acl', lines):
        if row.action is None:
            if row.group == len(groups):
                groups.append([])
        elif row.action == len(groups[row.group]):
            groups[row.group].append([row.line])
        else:
            groups[row.group][row.action].append(row.line)
    return [tuple(map(tuple, group)) for group in groups]
