"""The subcommands `akubolinfe store ..`: a durable cabinet."""
from __future__ import annotations

import contextlib
import os
import re
import sys
import tempfile
import time
from typing import Any, Callable, Dict, Iterator, List, Optional, Sequence, Tuple

from ._file_commands import limits_of, load, load_km0, text_of, why
from ._files import Files, Trouble, reason, shown
from ._library import SLOTS
from ._outcome import NO, YES, Outcome, placed, status_of
from .answers import Reply, Run
from .builders import Certificate
from .places import CallPlace, locate_expand, locate_narrow, locate_request, supported
from .store import Report, Store, StoreError, audit, export_store, import_store
from .store.engines import engine_of
from .store.state import State


@contextlib.contextmanager
def _troubles() -> Iterator[None]:
    """What a store raises, as trouble of the command."""
    try:
        yield
    except (StoreError, TypeError, ValueError) as error:
        raise Trouble(str(error)) from None


@contextlib.contextmanager
def _opened(args, read_only: bool = False) -> Iterator[Store]:
    with _troubles():
        identity = bytes.fromhex(args.identity) if args.identity else None
        with Store.open(args.store, identity, read_only) as store:
            yield store


class _Progress:
    """A line on a terminal, twice a second, for what takes long. Nothing is printed elsewhere."""

    def __init__(self, what: str) -> None:
        self._what, self._next = what, time.monotonic() + 0.5
        self._shown = False
        self._terminal = sys.stderr is not None and sys.stderr.isatty()

    def __call__(self, done: int, entries: int) -> None:
        if self._terminal and time.monotonic() >= self._next:
            sys.stderr.write(f'\r{self._what}: {done:,} of {entries:,} entries')
            sys.stderr.flush()
            self._next, self._shown = time.monotonic() + 0.5, True

    def end(self) -> None:
        """Ends the line, if there is one."""
        if self._shown:
            sys.stderr.write('\n')


def _moment(text: str) -> int:
    if text == 'now':
        return int(time.time())
    if not re.fullmatch('[0-9]{1,20}', text):
        raise Trouble(f'--time {text}: seconds, or now, are wanted')
    return int(text)


def _replied(reply: Reply, place: Optional[CallPlace] = None, limits: Sequence[List[str]] = ()) -> Outcome:
    words = reply.words if place is None else why(place, list(limits))
    value = {'permitted': bool(reply), 'refusal': reply.refusal, 'group': reply.group, 'words': reply.words, 'place': placed(place)}
    return Outcome(status_of(reply.refusal), [f'{reply}: {words}' if reply.refusal else f'{reply}'], value)


def _explained(store: Store, slot: int, reply: Reply, locate: Callable[..., CallPlace], *inputs: bytes) -> Outcome:
    """A reply with what it is refused for, asked of the slot as it is: a refusal changes nothing. Without it where the
    library does not say where, or where another call has come between."""
    key = None
    if reply.refusal and supported() and 0 <= slot < SLOTS:
        state = store.state()
        key = state.key(slot)
    if key is None:
        return _replied(reply)
    acl = store.file(key.acl)
    place = locate(state.cabinet.ledger(slot), key.km0, acl, *inputs)
    if (place.refusal, place.group if reply.group is not None else None) != (reply.refusal, reply.group):
        return _replied(reply)
    return _replied(reply, place, limits_of(text_of('acl', 'ACL', acl)))


def _ran(run: Run) -> Outcome:
    if run.refusal:
        value = {'answers': [], 'refusal': run.refusal, 'words': run.words}
        return Outcome(status_of(run.refusal), [f'0 refuse {run.refusal}: {run.words}'], value)
    numbered = list(enumerate(run.answers, 1))
    answers = [{'number': n, 'permitted': bool(r), 'refusal': r.refusal, 'group': r.group} for n, r in numbered]
    status = max([status_of(reply.refusal) for reply in run.answers], default=YES)
    return Outcome(status, [f'{n} {r}' for n, r in numbered], {'answers': answers, 'refusal': 0})


def _init(args) -> Outcome:
    with _troubles():
        if args.source is not None:
            return _imported(args)
        with Store.create(args.store) as store:
            identity = store.state().identity.hex()
    return Outcome(YES, [f'{args.store}: store {identity}'], {'store': args.store, 'identity': identity})


def _imported(args) -> Outcome:
    progress = _Progress('audit')
    try:
        with open(args.source, encoding='ascii') as lines:
            report = import_store(args.store, lines, progress)
    except (OSError, UnicodeDecodeError) as error:
        raise Trouble(f'{shown(args.source)}: {reason(error)}') from None
    finally:
        progress.end()
    if not report:
        raise Trouble(f'{shown(args.source)}: {report.finding}; no store is made')
    return _audited(report)


def _slot(args) -> Outcome:
    files = Files()
    km0, acl = load_km0(files, args.km0), load(files, 'acl', args.acl)
    with _opened(args) as store:
        return _replied(store.put(args.slot, km0, acl, _moment(args.time), args.replace))


def _load(args) -> Outcome:
    with _opened(args) as store:
        return _replied(store.load(args.slot, _moment(args.time)))


def _ask(args) -> Outcome:
    request = load(Files(), 'request', args.request)
    with _opened(args) as store:
        return _explained(store, args.slot, store.request(args.slot, request), locate_request, request)


def _run(args) -> Outcome:
    requests = load(Files(), 'requests', args.requests)
    with _opened(args) as store:
        certificates = [_certificate(text) for text in args.certificate]
        return _ran(store.run(args.slot, requests, certificates))


def _certificate(text: str) -> Certificate:
    key, _, mechanism = text.partition(':')
    if not re.fullmatch('[0-9]{1,5}', mechanism):
        raise Trouble(f'--certificate {shown(text)}: HASH:MECHANISM is wanted')
    return Certificate(key, int(mechanism))


def _narrow(args) -> Outcome:
    files = Files()
    request, new, hints = load(files, 'request', args.request), load(files, 'acl', args.new), load(files, 'hints', args.hints)
    with _opened(args) as store:
        return _explained(store, args.slot, store.narrow(args.slot, request, new, hints), locate_narrow, request, new, hints)


def _expand(args) -> Outcome:
    files = Files()
    request, new = load(files, 'request', args.request), load(files, 'acl', args.new)
    with _opened(args) as store:
        return _explained(store, args.slot, store.expand(args.slot, request, new), locate_expand, request, new)


def _clear(args) -> Outcome:
    with _opened(args) as store:
        return _replied(store.clear(args.counter))


def _used(table: Sequence[int]) -> Dict[int, int]:
    return {place: value for place, value in enumerate(table) if value}


def _slots(state: State) -> List[Dict[str, Any]]:
    """What is in each slot that holds a key."""
    slots, found = state.cabinet.slots, []
    for number in range(SLOTS):
        key, slot = state.key(number), slots[number]
        if key:
            held = {'slot': number, 'km0': key.km0.hex(), 'acl': key.acl.hex()}
            found.append({**held, 'loaded': slot.loaded, 'last': slot.last, 'counts': _used(slot.counts)})
    return found


def _table(used: Dict[int, int]) -> str:
    return ' '.join(f'{place}:{value}' for place, value in used.items()) or 'none'


def _show(args) -> Outcome:
    with _opened(args, read_only=True) as store:
        if args.acl is not None:
            return _shown_acl(args, store)
        entries, head, state = store.reading()
    slots, counters = _slots(state), _used(state.cabinet.counters)
    value = {'store': store.place, 'identity': state.identity.hex(), 'generation': state.generation, 'entries': entries, 'head': head.hex()}
    lines = [f'store       {store.place}', f'identity    {state.identity.hex()}', f'generation  {state.generation}', f'head        {entries}:{head.hex()}']
    for held in slots:
        lines.append(f'slot {held["slot"]}      loaded {held["loaded"]}, last {held["last"]}, counts {_table(held["counts"])}')
        lines.append(f'            km0 {held["km0"]}, acl sha256 {held["acl"]}')
    lines.append(f'counters    {_table(counters)}')
    return Outcome(YES, lines, {**value, 'slots': slots, 'counters': counters})


def _shown_acl(args, store: Store) -> Outcome:
    """The ACL in force in a slot, as bytes."""
    key = store.state().key(args.acl) if 0 <= args.acl < SLOTS else None
    if key is None:
        raise Trouble(f'slot {args.acl} holds no key')
    content = store.file(key.acl)
    return Outcome(YES, value={'slot': args.acl, 'sha256': key.acl.hex(), 'hex': content.hex()}, content=content)


def _noted(text: Optional[str]) -> Optional[Tuple[int, bytes]]:
    if text is None:
        return None
    found = re.fullmatch('([0-9]{1,18}):([0-9a-f]{64})', text)
    if not found:
        raise Trouble(f'--at {shown(text)}: NUMBER:HASH is wanted, as show and audit print the head')
    return int(found[1]), bytes.fromhex(found[2])


def _audited(report: Report) -> Outcome:
    head = f'{report.entries}:{report.head.hex()}'
    value = {'sound': bool(report), 'entries': report.entries, 'generation': report.generation, 'permits': report.permits, 'head': head}
    if not report:
        return Outcome(NO, [f'DAMAGED     {report.finding}'], {**value, 'finding': report.finding})
    lines = [f'SOUND       {report.entries} entries replayed, generation {report.generation}, {report.permits} permits', f'head        {head}']
    return Outcome(YES, lines, value)


def _audit(args) -> Outcome:
    at, progress = _noted(args.at), _Progress('audit')
    with _troubles():
        engine = engine_of(args.store, read_only=True)
        try:
            return _audited(audit(engine, at, progress))
        finally:
            progress.end()
            engine.close()


def _export(args) -> Outcome:
    target = os.path.realpath(args.file)
    if target == os.path.realpath(args.store):
        raise Trouble(f'{shown(args.file)}: is the store itself')
    with _opened(args, read_only=True) as store:
        try:
            lines = _written(target, lambda file: export_store(store.engine, file))
        except OSError as error:
            raise Trouble(f'{shown(args.file)}: {reason(error)}') from None
    return Outcome(YES, [f'{args.file}: {lines} lines'], {'file': args.file, 'lines': lines})


def _written(target: str, write: Callable[[Any], int]) -> int:
    """Writes a file that may be too long for memory: a temporary file beside it, fsync, rename."""
    folder = os.path.dirname(target)
    handle, temporary = tempfile.mkstemp(prefix='.akubolinfe-', dir=folder)
    try:
        with open(handle, 'w', encoding='ascii') as file:
            written = write(file)
            file.flush()
            os.fsync(file.fileno())
        os.rename(temporary, target)
    except BaseException:
        os.unlink(temporary)
        raise
    opened = os.open(folder, os.O_RDONLY | os.O_DIRECTORY)
    try:
        os.fsync(opened)
    finally:
        os.close(opened)
    return written


# Each subcommand: what it does, what it is called with, an example of that, and the function that does it.
_SUBCOMMANDS = (
    ('init', 'make a store with a fresh cabinet', 'store --from', 'cabinet.db', _init),
    ('slot', 'put a key in a slot and load it', 'store slot --km0 --acl --time --replace', 'cabinet.db 0 --km0 km0 --acl acl --time now', _slot),
    ('load', 'load the key of a slot again', 'store slot --time', 'cabinet.db 0 --time now', _load),
    ('ask', 'ask for a use or a blob', 'store slot request', 'cabinet.db 0 request', _ask),
    ('run', 'ask up to 1,000 requests in one transaction', 'store slot requests --certificate', 'cabinet.db 0 requests --certificate HASH:1', _run),
    ('narrow', 'narrow the ACL of a slot', 'store slot request new hints', 'cabinet.db 0 request new hints', _narrow),
    ('expand', 'replace the ACL of a slot by a wider one', 'store slot request new', 'cabinet.db 0 request new', _expand),
    ('clear', 'clear a named counter', 'store counter', 'cabinet.db 3', _clear),
    ('show', 'print the state, or the ACL in force in a slot', 'store --of', 'cabinet.db', _show),
    ('audit', 'replay the whole log through the library and compare', 'store --at', 'cabinet.db --at 18:5104..', _audit),
    ('export', 'write the store as one text file', 'store file', 'cabinet.db cabinet.export', _export),
)
_ARGUMENTS: Dict[str, Dict[str, Any]] = {
    'store': {'metavar': 'STORE', 'help': 'a file, or postgresql://USER@HOST/DATABASE#NAME'},
    'slot': {'metavar': 'SLOT', 'type': int, 'help': 'the slot, 0 to 7'},
    'counter': {'metavar': 'COUNTER', 'type': int, 'help': 'the counter, 0 to 255'},
    'request': {'metavar': 'REQUEST', 'help': 'the request with its certificates and delegations, as bytes or as text; - is standard input'},
    'requests': {'metavar': 'REQUESTS', 'help': 'request records, as bytes or as text; - is standard input'},
    'new': {'metavar': 'NEW', 'help': 'the new ACL, as bytes or as text'},
    'hints': {'metavar': 'HINTS', 'help': 'a hint for each group of the new ACL'},
    'file': {'metavar': 'FILE', 'help': 'the file to write'},
    '--km0': {'metavar': 'KM0', 'required': True, 'help': 'the KM0 hash of the module, as 20 bytes or 40 digits'},
    '--acl': {'metavar': 'ACL', 'required': True, 'help': 'the ACL of the key, as bytes or as text'},
    '--time': {'metavar': 'SECONDS', 'default': 'now', 'help': 'the load time, or now (the default)'},
    '--replace': {'action': 'store_true', 'help': 'take the slot from the key that it holds'},
    '--certificate': {'metavar': 'HASH:MECHANISM', 'action': 'append', 'default': [], 'help': 'a presented certificate'},
    '--from': {'metavar': 'EXPORT', 'dest': 'source', 'help': 'make it from an export, with the same log and identity; it is audited first'},
    '--of': {'metavar': 'SLOT', 'type': int, 'dest': 'acl', 'help': 'print the ACL in force in this slot, as bytes'},
    '--at': {'metavar': 'NUMBER:HASH', 'help': 'an earlier head, noted outside the store, that the log has to contain'},
}
_STATUSES = """exit status:
  0  permitted, done, sound
  1  no, by the rules: a refusal 4 to 8; or an audit that finds a difference
  2  trouble: usage, any other refusal, a store or a file that cannot be read or written; nothing was permitted"""


def add(commands, shared: list) -> None:
    """Adds `store` and its subcommands to those of the command."""
    top = commands.add_parser('store', help='keep a cabinet: durable state, a log, an audit',
                              description='Keeps a cabinet of eight keys in SQLite or PostgreSQL. Nothing is answered that is not durable.',
                              epilog=f'example:\n  akubolinfe store ask cabinet.db 0 request\n\n{_STATUSES}')
    actions = top.add_subparsers(title='actions', metavar='ACTION', required=True, parser_class=type(top))
    for name, help, arguments, example, handler in _SUBCOMMANDS:
        added = actions.add_parser(name, help=help, description=f'{help[0].upper()}{help[1:]}.', parents=shared,
                                   epilog=f'example:\n  akubolinfe store {name} {example}\n\n{_STATUSES}')
        for argument in arguments.split():
            added.add_argument(argument, **_ARGUMENTS[argument])
        if name not in ('init', 'audit'):
            added.add_argument('--identity', metavar='HEX', help='refuse any other store than this one')
        added.set_defaults(handler=handler)
