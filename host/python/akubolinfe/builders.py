"""Builders: files made from names and numbers.

Each builder writes lines of text and has them read as a file, so that no builder writes a record. A value that has no
line, or a line that is not valid at its place, raises ValueError.
"""
from __future__ import annotations

from typing import Dict, Iterable, List, Mapping, NamedTuple, Optional, Sequence, Tuple, Union

from ._values import Bytes, Hash, hash_bytes, lent, number
from .text import Text
from .words import FACTS, PERMISSIONS, PROTECTIONS, SIGNATURES, SUITES


def _made(kind: str, lines: Sequence[str]) -> bytes:
    """The file with these lines."""
    read = Text(kind).read(''.join(f'{line}\n' for line in lines).encode('utf-8'))
    if not read:
        line = lines[read.line - 1] if read.line <= len(lines) else 'the end'
        raise ValueError(f'{kind}: {read.words}: {line}')
    return read.content


def _lines(kind: str, content: Bytes) -> List[str]:
    written = Text(kind).write(lent(content, kind))
    if not written:
        raise ValueError(f'{kind}: refused with {written.refusal}: {written.words}')
    return written.content.decode('ascii').splitlines()


def _one_of(value: Union[int, str], names: Sequence[str], name: str) -> int:
    """The number of a name, counted from 1, or a number as it is."""
    if isinstance(value, str):
        if value not in names:
            raise ValueError(f'{name}: {value} is not one of {", ".join(names)}')
        return names.index(value) + 1
    return number(value, name)


def _permissions(names: Iterable[str]) -> str:
    """Names of permissions in the order of their bits, each after a space."""
    given = set([names] if isinstance(names, str) else names)
    for name in sorted(given - set(PERMISSIONS)):
        raise ValueError(f'{name}: not a permission; the permissions are {", ".join(PERMISSIONS)}')
    return ''.join(f' {name}' for name in PERMISSIONS if name in given)


class Certificate(NamedTuple):
    """A presented certificate: the hash of its key, as 20 bytes or 40 hexadecimal digits, and its mechanism."""

    hash: Hash
    mechanism: int

    @property
    def line(self) -> str:
        """The line of this certificate in a request's text."""
        return f'certificate {hash_bytes(self.hash, "hash").hex()} mechanism {number(self.mechanism, "mechanism")}'


class Delegation(NamedTuple):
    """A delegation from one key to another, of some permissions, by name."""

    source: Hash
    target: Hash
    permissions: Iterable[str]

    @property
    def line(self) -> str:
        """The line of this delegation in a request's text."""
        source, target = hash_bytes(self.source, 'source').hex(), hash_bytes(self.target, 'target').hex()
        return f'delegation from {source} to {target}{_permissions(self.permissions)}'


class Token(NamedTuple):
    """The token of a blob request: its hash, the shares needed and in all, its time limit (0: none), and whether it is a softcard."""

    hash: Hash
    needed: int
    total: int
    seconds: int = 0
    soft: bool = False


class Request:
    """A request with what is presented with it. Make one with `use`, `blob` or `recovery`; `bytes()` gives the file.

    >>> bytes(Request.use('Sign', time=10, certificates=[Certificate('c1' * 20, 1)]))
    """

    __slots__ = ('lines',)

    def __init__(self, first: Sequence[str], certificates: Iterable[Certificate], delegations: Iterable[Delegation]) -> None:
        presented = [Certificate(*c).line for c in certificates] + [Delegation(*d).line for d in delegations]
        self.lines: Tuple[str, ...] = (*first, *presented)

    @classmethod
    def use(
        cls, permission: str, time: int, certificates: Iterable[Certificate] = (), delegations: Iterable[Delegation] = (),
    ) -> 'Request':
        """A request to use the key for one permission, by its name, at a time in seconds."""
        if permission not in PERMISSIONS:
            raise ValueError(f'{permission}: not a permission; the permissions are {", ".join(PERMISSIONS)}')
        return cls([f'use {permission} time {number(time, "time")}'], certificates, delegations)

    @classmethod
    def blob(
        cls, kmhash: Hash, time: int, token: Optional[Token] = None, device: Optional[int] = None, template: Optional[Hash] = None,
        certificates: Iterable[Certificate] = (), delegations: Iterable[Delegation] = (),
    ) -> 'Request':
        """A request for a working blob under a module key and, if there is one, a token. With `device` (0 to 31) the blob
        is stored there, under the ACL template with hash `template` if one is given."""
        line = f'blob kmhash {hash_bytes(kmhash, "kmhash").hex()}'
        if token is not None:
            token = Token(*token)
            line += f' token {hash_bytes(token.hash, "token").hex()}' + (' AllowSoftSlots' if token.soft else '')
            line += f' needed {number(token.needed, "needed")} total {number(token.total, "total")}'
            line += f' seconds {number(token.seconds, "seconds")}'
        return cls(_stored(line, time, device, template), certificates, delegations)

    @classmethod
    def recovery(
        cls, kahash: Hash, mechanism: int, time: int, device: Optional[int] = None, template: Optional[Hash] = None,
        certificates: Iterable[Certificate] = (), delegations: Iterable[Delegation] = (),
    ) -> 'Request':
        """A request for a recovery blob under a key, made by a mechanism; stored as in `blob`."""
        line = f'recovery kahash {hash_bytes(kahash, "kahash").hex()} mechanism {number(mechanism, "mechanism")}'
        return cls(_stored(line, time, device, template), certificates, delegations)

    @property
    def text(self) -> str:
        """The request's text."""
        return ''.join(f'{line}\n' for line in self.lines)

    def __bytes__(self) -> bytes:
        return _made('request', self.lines)


def _stored(line: str, time: int, device: Optional[int], template: Optional[Hash]) -> List[str]:
    """The lines of a blob request, which say where it is stored if it is."""
    end = f' time {number(time, "time")}'
    if device is None:
        if template is not None:
            raise ValueError('template: a template belongs to a blob that is stored on a device')
        return [line + end]
    under = '' if template is None else f' template {hash_bytes(template, "template").hex()}'
    return [f'{line} blobfile{end}', f'blobfile devices {1 << number(device, "device", 5)}{under}']


class Policy(NamedTuple):
    """What the desk is to hold a key to: the world's ciphersuite, by number or name; approach 2, which judges the ACL, or
    1, which does not; whether signing and encryption are admitted; whether a CSR is in use; the lowest protection that is
    taken, by number or as `module`, `softcard`, `cardset` or `not kept`. `bytes()` gives the policy's record."""

    suite: Union[int, str]
    protection: Union[int, str]
    approach: int = 2
    signing: bool = False
    encryption: bool = False
    csr: bool = False

    @property
    def line(self) -> str:
        """The policy's line in a bundle's text."""
        named = (('signing', self.signing), ('encryption', self.encryption), ('csr', self.csr))
        words = ''.join(f' {word}' for word, said in named if said)
        suite, lowest = _one_of(self.suite, SUITES, 'suite'), _one_of(self.protection, PROTECTIONS, 'protection')
        return f'policy suite {suite} approach {number(self.approach, "approach")}{words} protection {lowest}'

    @classmethod
    def parsed(cls, line: str) -> 'Policy':
        """The policy of a line that `line` gives."""
        words = line.split(' ')
        said = {word: word in words for word in ('signing', 'encryption', 'csr')}
        return cls(int(words[2]), int(words[-1]), int(words[4]), **said)

    def __bytes__(self) -> bytes:
        return _made('bundle', [self.line])


class Facts:
    """What was reported about a key and its module: hashes by their names, the listed module keys, and the outcome of
    each signature that was checked, by its name, true for a good one.

    >>> facts = Facts({'warrantESN': esn, 'stateESN': esn, 'KML': kml}, signatures={'warrant': True})
    >>> bundle = facts.bundle(Policy('DLf3072s256mRijndael', 'softcard', signing=True))

    A fact that is not known, and a signature that was not presented, is left out. A signature that was presented and is
    not good is False.
    """

    __slots__ = ('facts', 'module_keys', 'signatures')

    def __init__(
        self, facts: Mapping[str, Hash], module_keys: Iterable[Hash] = (), signatures: Optional[Mapping[str, bool]] = None,
    ) -> None:
        for name in facts:
            if name not in FACTS[:-1]:
                raise ValueError(f'{name}: not a fact; the facts are {", ".join(FACTS[:-1])}')
        for name in signatures or {}:
            if name not in SIGNATURES:
                raise ValueError(f'{name}: not a signature; the signatures are {", ".join(SIGNATURES)}')
        self.facts: Dict[str, bytes] = {name: hash_bytes(facts[name], name) for name in FACTS if name in facts}
        self.module_keys: List[bytes] = [hash_bytes(key, 'module key') for key in module_keys]
        self.signatures: Dict[str, bool] = {name: bool(signatures[name]) for name in SIGNATURES if name in (signatures or {})}

    @property
    def lines(self) -> List[str]:
        """The lines of facts and signatures in a bundle's text."""
        facts = [f'fact {name} {content.hex()}' for name, content in self.facts.items()]
        listed = [f'fact modulekey {key.hex()}' for key in self.module_keys]
        return facts + listed + [f'signature {name} {"good" if good else "bad"}' for name, good in self.signatures.items()]

    def bundle(self, policy: Policy) -> bytes:
        """The bundle of these facts and a policy."""
        return _made('bundle', [*self.lines, policy.line])

    @classmethod
    def parsed(cls, lines: Iterable[str]) -> 'Facts':
        """The facts of lines that `lines` gives."""
        rows = [line.split(' ') for line in lines]
        facts = {name: content for word, name, content in rows if word == 'fact' and name != 'modulekey'}
        listed = [content for word, name, content in rows if word == 'fact' and name == 'modulekey']
        return cls(facts, listed, {name: outcome == 'good' for word, name, outcome in rows if word == 'signature'})


def read_bundle(content: Bytes) -> Tuple[Facts, Policy]:
    """The facts and the policy of a bundle. Raises ValueError for a bundle that is not good."""
    *facts, policy = _lines('bundle', content)
    return Facts.parsed(facts), Policy.parsed(policy)


class Hints:
    """The hints of a narrowing: for each new group the source group and, for each of its actions, the source action.

    >>> bytes(Hints([(0, [0, 2]), (1, [])]))
    """

    __slots__ = ('groups',)

    def __init__(self, groups: Iterable[Tuple[int, Sequence[int]]]) -> None:
        self.groups: List[Tuple[int, Tuple[int, ...]]] = [(group, tuple(actions)) for group, actions in groups]
        for _, actions in self.groups:
            if len(actions) > 8:
                raise ValueError('actions: a group has at most 8')

    @property
    def lines(self) -> List[str]:
        """The lines of the hints."""
        rows = [(number(group, 'group'), [number(a, 'action') for a in actions]) for group, actions in self.groups]
        return [f'hint group {group} actions {" ".join(map(str, (actions + [0] * 8)[:8]))}' for group, actions in rows]

    @classmethod
    def read(cls, content: Bytes) -> 'Hints':
        """The hints of a file, each with all of its eight numbers."""
        rows = [line.split(' ') for line in _lines('hints', content)]
        return cls([(int(row[2]), [int(word) for word in row[4:]]) for row in rows])

    def __bytes__(self) -> bytes:
        return _made('hints', self.lines)
