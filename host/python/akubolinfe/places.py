"""Where a fault is, and what breaks a rule: which input, which record, which group and action, which limit, which fact.

Each function takes what the call takes that it explains, changes nothing, and gives the refusal or the step of that call.
A library before version 1.1 does not say where; then these functions raise Unsupported.
"""
from __future__ import annotations

from dataclasses import dataclass
from typing import Callable, Optional, Tuple

from ._library import NO_GROUP, PLACES_SINCE, Library, Unsupported, library
from ._values import Bytes, lent
from .gate import Ledger
from .text import KINDS
from .words import FACTS, PERMISSIONS, SIGNATURES, STEPS, explain

# The inputs, the parts of an input and the reasons, each at its number, which is counted from 1.
INPUTS = ('KM0', 'ACL', 'request', 'new ACL', 'hints', 'bundle')
PARTS = ('length', 'record', 'end')
REASONS = ('hint', 'certifier', 'limit', 'action', 'spent', 'full')

# What is wrong with a record, by the refusal.
_RECORD_WORDS = {
    2: 'malformed or out of place',
    3: 'one group, limit, action, certificate, delegation or listed module key too many',
    11: 'the ciphersuite is not 1 to 5',
    12: 'a MakeArchiveBlob action without kahash in a group without a certifier',
}

# What an action that fails a step has or lacks.
_ACTION_WORDS = {
    'WB1': 'has neither AllowKmOnly nor kthash',
    'WB2': 'kmhash is not the trusted module key hkm',
    'WB3': 'has AllowNullKmToken',
    'WB6': 'has kthash without ktparams',
    'RB1': 'needs the recovery key, and hkre is not trusted',
    'RB2': 'kahash is not hkre',
    'RB3': 'the mechanism is not the one of the ciphersuite',
    'KV3': 'the protection is below the lowest that the policy takes',
}

# What a fact has to equal, by the step.
_EQUALS = {
    'MSCV3': 'is not warrantESN', 'MSCV4': 'is not HKNSO', 'MSCV5': 'is not one of the listed module keys', 'KGCV2': 'is not pubkeydata',
    'CSRL1': 'is not pubkeydata',
}


def _part_words(refusal: int, part: Optional[str], record: Optional[int]) -> str:
    """What is wrong with a file, and where in it."""
    if part == 'length':
        return 'its length is wrong: not whole records of 64 bytes, or more of them than this file may have'
    if part == 'end':
        return f'after record {record - 1}: a record is missing' if record else 'a record is missing'
    return f'record {record}: {_RECORD_WORDS.get(refusal, explain(refusal))}'


@dataclass(frozen=True)
class FilePlace:
    """The first fault of a file. `bool(place)` is true where there is none.

    `part` is what is at fault: 'length', 'record' (then `record` is its index, from 0) or 'end' (a record is missing; then
    `record` is the number of records).
    """

    refusal: int
    part: Optional[str] = None
    record: Optional[int] = None

    def __bool__(self) -> bool:
        return self.refusal == 0

    @property
    def words(self) -> str:
        """What is wrong, and where; empty where nothing is.

        >>> FilePlace(2, 'record', 3).words
        'record 3: malformed or out of place'
        """
        return _part_words(self.refusal, self.part, self.record) if self.refusal else ''


@dataclass(frozen=True)
class CallPlace:
    """What is at fault in a request, a narrowing or an expansion, or breaks the rule by which it is refused. `bool(place)`
    is true where the call would be permitted.

    `input` is the file at fault ('KM0', 'ACL', 'request', 'new ACL', 'hints'), with `part` and `record` as in a FilePlace.
    `group` is the group that came nearest (6, 7), or the new group that is not shown to be narrower (8). `reason` is what
    breaks the rule: 'hint', 'certifier', 'limit' (`item` is its index in the source group), 'action' (`item` is its index in
    the new group); 'spent' (`item` is the index of the first limit that is spent) or 'full' (the group's own count).
    """

    refusal: int
    input: Optional[str] = None
    part: Optional[str] = None
    record: Optional[int] = None
    group: Optional[int] = None
    reason: Optional[str] = None
    item: Optional[int] = None

    def __bool__(self) -> bool:
        return self.refusal == 0

    @property
    def words(self) -> str:
        """What is wrong, and where; empty where the call would be permitted.

        >>> CallPlace(7, group=0, reason='spent', item=1).words
        'group 0: limit 1 is spent'
        """
        if self.input is not None:
            return f'{self.input}: {_part_words(self.refusal, self.part, self.record)}'
        if self.group is None:
            return explain(self.refusal) if self.refusal else ''
        if self.refusal == 6:
            return f'group {self.group}: it admits the request, and its certifier is not presented'
        if self.refusal == 7:
            return f'group {self.group}: ' + ('its own count is full' if self.reason == 'full' else f'limit {self.item} is spent')
        return f'new group {self.group}{self._broken}'

    @property
    def _broken(self) -> str:
        """What breaks a narrowing, after the name of its group."""
        return {
            'hint': ': its hint is missing, is left over, or does not name a group above the one before and its actions',
            'certifier': ': the certifier or the mechanism of its source is not kept',
            'limit': f': limit {self.item} of its source has no limit that answers it',
            'action': f' action {self.item}: of another kind, or wider, than the action that its hint names',
        }[self.reason or 'hint']


@dataclass(frozen=True)
class VerdictPlace:
    """What is at fault in the desk's inputs, or fails its step. `bool(place)` is true where the key is accepted.

    `refusal` and `step` are as in a Verdict. `input` is the file at fault ('bundle' or 'ACL'), with `part` and `record` as in
    a FilePlace. For a step of the bundle `signature` or `fact` is the name of what fails it, and `flaw` says how: 'absent',
    'not good' or 'not equal'. For a step of the ACL, and for KV3, `group` and `action` are the first action that fails it, and
    for ACLV3 `permission` is its first permission that the policy does not admit.
    """

    refusal: int
    step: Optional[str] = None
    input: Optional[str] = None
    part: Optional[str] = None
    record: Optional[int] = None
    flaw: Optional[str] = None
    signature: Optional[str] = None
    fact: Optional[str] = None
    group: Optional[int] = None
    action: Optional[int] = None
    permission: Optional[str] = None

    def __bool__(self) -> bool:
        return self.refusal == 0 and self.step is None

    @property
    def words(self) -> str:
        """What is wrong, and where; empty for an acceptance.

        >>> VerdictPlace(0, 'ACLV3', group=0, action=0, permission='ExportAsPlain').words
        'group 0 action 0: ExportAsPlain is not admitted by the policy'
        """
        if self.input is not None:
            return f'{self.input}: {_part_words(self.refusal, self.part, self.record)}'
        if self.step is None:
            return explain(self.refusal) if self.refusal else ''
        if self.group is not None:
            failed = f'{self.permission} is not admitted by the policy' if self.permission else _ACTION_WORDS[self.step]
            return f'group {self.group} action {self.action}: {failed}'
        if self.signature is not None:
            return f'signature {self.signature} is {self.flaw}'
        return f'fact {self.fact} {_EQUALS[self.step] if self.flaw == "not equal" else "is absent"}'


def _index(number: int) -> Optional[int]:
    """An index, or None where all ones say that nothing is named."""
    return None if number == NO_GROUP else number


def _name(names: Tuple[str, ...], number: int) -> Optional[str]:
    """The name at a number from 1; None for 0."""
    return names[number - 1] if number else None


def supported() -> bool:
    """Whether the library that is found says where."""
    return library().locate_file is not None


def _function(name: str) -> Callable:
    found: Library = library()
    function = getattr(found, name)
    if function is None:
        raise Unsupported(f'{found.path}: does not export akubolinfe_{name}; version {PLACES_SINCE} or newer does')
    return function


def locate_file(kind: str, content: Bytes) -> FilePlace:
    """Where the first fault of a file of this kind is: `acl`, `request`, `requests`, `bundle` or `hints`."""
    if kind not in KINDS:
        raise ValueError(f'{kind}: not a kind of file; the kinds are {", ".join(KINDS)}')
    content = lent(content, 'content')
    at = _function('locate_file')(KINDS.index(kind), content, len(content))
    return FilePlace(at.refusal, _name(PARTS, at.part), _index(at.record))


def _call_place(name: str, ledger: Ledger, *inputs: bytes) -> CallPlace:
    if not isinstance(ledger, Ledger):
        raise TypeError(f'ledger: a Ledger is wanted, not {type(ledger).__name__}')
    function = _function(name)
    lengths = [part for content in inputs for part in (content, len(content))]
    at = function(ledger.copy()._raw, *lengths)
    return CallPlace(at.refusal, _name(INPUTS, at.input), _name(PARTS, at.part), _index(at.record), _index(at.group),
                     _name(REASONS, at.reason), _index(at.item))


def locate_request(ledger: Ledger, km0: Bytes, acl: Bytes, request: Bytes) -> CallPlace:
    """Why `ledger.request` with these would be refused. The ledger is not changed."""
    return _call_place('locate_request', ledger, lent(km0, 'km0'), lent(acl, 'acl'), lent(request, 'request'))


def locate_narrow(ledger: Ledger, km0: Bytes, acl: Bytes, request: Bytes, new_acl: Bytes, hints: Bytes) -> CallPlace:
    """Why `ledger.narrow` with these would be refused. The ledger is not changed."""
    return _call_place('locate_narrow', ledger, lent(km0, 'km0'), lent(acl, 'acl'), lent(request, 'request'),
                       lent(new_acl, 'new_acl'), lent(hints, 'hints'))


def locate_expand(ledger: Ledger, km0: Bytes, acl: Bytes, request: Bytes, new_acl: Bytes) -> CallPlace:
    """Why `ledger.expand` with these would be refused. The ledger is not changed."""
    return _call_place('locate_expand', ledger, lent(km0, 'km0'), lent(acl, 'acl'), lent(request, 'request'),
                       lent(new_acl, 'new_acl'))


# What fails a step of the bundle, at its number from 1: of a signature or of a fact, and how.
_FLAWS = (('signature', 'absent'), ('signature', 'not good'), ('fact', 'absent'), ('fact', 'not equal'))


def locate_verdict(bundle: Bytes, acl: Bytes) -> VerdictPlace:
    """What `attest` with these would be refused for, or what fails its step."""
    bundle, acl = lent(bundle, 'bundle'), lent(acl, 'acl')
    at = _function('locate_verdict')(bundle, len(bundle), acl, len(acl))
    of, flaw = _FLAWS[at.what - 1] if at.what else (None, None)
    permission = _index(at.permission)
    return VerdictPlace(
        at.refusal, _name(tuple(step for step, _ in STEPS), at.step), _name(INPUTS, at.input), _name(PARTS, at.part), _index(at.record),
        flaw, SIGNATURES[at.number - 1] if of == 'signature' else None, FACTS[at.number - 1] if of == 'fact' else None,
        _index(at.group), _index(at.action), None if permission is None else PERMISSIONS[permission])
