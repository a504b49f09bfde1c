"""The subcommands of the desk: attest and trim."""
from __future__ import annotations

from typing import Any, Dict, List, NamedTuple, Optional, Tuple

from ._file_commands import digest, groups_of, is_text, load, require_good, text_of
from ._files import Files, Trouble, Written, shown
from ._library import RECORD
from ._outcome import NO, YES, Outcome, Refused, placed, status_of
from .answers import Trimmed, Verdict
from .builders import Facts, Hints, Policy, read_bundle
from .checking import fault
from .desk import attest, trim
from .places import VerdictPlace, locate_verdict, supported
from .text import Text
from .words import PROTECTIONS, SUITES

# The steps that judge the ACL: what fails one of them can be trimmed away.
ACL_STEPS = ('ACLV3', 'WB1', 'WB2', 'WB3', 'WB6', 'RB1', 'RB2', 'RB3')


# What names the key and its module in an answer as JSON, and the fact that it is.
KEY_FACTS = {'pubkeydata': 'pubkeydata', 'module_esn': 'warrantESN'}


class Evidence(NamedTuple):
    """What the desk is given, with the words that name it on the command line."""

    bundle: bytes
    acl: bytes
    named: str


def evidence(files: Files, args) -> Evidence:
    """The bundle, whole or made of facts and policy, and the ACL."""
    if (args.bundle is None) == (args.policy is None and args.facts is None) or (args.policy is None) != (args.facts is None):
        raise Trouble('give either --bundle, or --policy and --facts')
    if args.bundle is not None:
        bundle, named = load(files, 'bundle', args.bundle), f'--bundle {args.bundle}'
        name = args.bundle
    else:
        bundle, named = _joined(files, args.policy, args.facts), f'--policy {args.policy} --facts {args.facts}'
        name = args.facts
    acl = load(files, 'acl', args.acl)
    if not acl and not args.allow_empty_acl:
        raise Trouble(f'{shown(args.acl)}: an empty ACL; give --allow-empty-acl if the key really has none')
    for kind, path, content in (('bundle', name, bundle), ('acl', args.acl, acl)):
        require_good(kind, path, content)
    return Evidence(bundle, acl, f'{named} --acl {args.acl}')


def _joined(files: Files, policy_path: str, facts_path: str) -> bytes:
    """The bundle of a policy and facts, each in a file of its own. The facts may not bring a policy of their own."""
    policy = load(files, 'bundle', policy_path)
    if len(policy) != RECORD or fault('bundle', policy):
        raise Trouble(f'{shown(policy_path)}: one policy is wanted, and nothing else')
    facts = files.read(facts_path)
    if is_text(facts):
        if Text('bundle').read(facts):
            raise Trouble(f'{shown(facts_path)}: has a policy of its own, which belongs in --policy')
        read = Text('bundle').read(facts + Text('bundle').write(policy).content)
        if not read:
            raise Refused(facts_path, read.refusal, read.line)
        return read.content
    if not fault('bundle', facts):
        raise Trouble(f'{shown(facts_path)}: has a policy of its own, which belongs in --policy')
    return facts + policy


def _policy_line(policy: Policy) -> str:
    suite = f'suite {policy.suite} {SUITES[policy.suite - 1] if 1 <= policy.suite <= len(SUITES) else "(unknown)"}'
    signing = f'signing {"admitted" if policy.signing else "not"}'
    encryption = f'encryption {"admitted" if policy.encryption else "not"}'
    csr = 'a CSR is in use' if policy.csr else 'no CSR'
    return f'{suite}, approach {policy.approach}, {signing}, {encryption}, lowest protection {PROTECTIONS[policy.protection - 1]}, {csr}'


def _rests_on(given: Evidence) -> Tuple[List[str], Dict[str, Any]]:
    """What a verdict rests on: policy, key and ACL, as lines and as JSON."""
    facts, policy = read_bundle(given.bundle)
    groups = len(groups_of(text_of('acl', 'ACL', given.acl)))
    acl = {'groups': groups, **digest(given.acl)}
    lines = [
        f'policy     {_policy_line(policy)}',
        f'key        pubkeydata {_fact(facts, "pubkeydata")}, module ESN {_fact(facts, "warrantESN")}',
        f'acl        {groups} group{"" if groups == 1 else "s"}, {acl["bytes"]} bytes, sha256 {acl["sha256"]}',
    ]
    key = {name: facts.facts[fact].hex() if fact in facts.facts else None for name, fact in KEY_FACTS.items()}
    return lines, {'policy': policy._asdict(), 'key': key, 'acl': acl, 'bundle': digest(given.bundle)}


def _fact(facts: Facts, name: str) -> str:
    return facts.facts[name].hex() if name in facts.facts else 'absent'


def _unmet(verdict: Verdict, args) -> List[str]:
    """What the clerk's own rule asks for and an acceptance does not have."""
    unmet = []
    approach = verdict.approach
    if args.require_approach is not None and approach != args.require_approach:
        unmet.append(f'--require-approach {args.require_approach}: the policy asks for approach {approach}')
    if args.require_protection is not None:
        lowest = PROTECTIONS.index(args.require_protection) + 1
        if approach != 2:
            unmet.append(f'--require-protection {args.require_protection}: approach {approach} does not judge the protection')
        elif verdict.protection < lowest:
            held = PROTECTIONS[verdict.protection - 1]
            unmet.append(f'--require-protection {args.require_protection}: the protection is {verdict.protection} ({held})')
    return unmet


def _located(verdict: Verdict, given: Evidence) -> Optional[VerdictPlace]:
    """What a verdict other than yes is about; None where the library does not say where, or says it of another verdict."""
    if verdict or not supported():
        return None
    found = locate_verdict(given.bundle, given.acl)
    return found if (found.refusal, found.step) == (verdict.refusal, verdict.step) else None


def _answer(verdict: Verdict, place: Optional[VerdictPlace], unmet: List[str]) -> List[str]:
    words = verdict.words if place is None else place.words
    if verdict.refusal:
        return [f'REFUSED    {verdict.refusal}: {words}']
    if verdict.step is not None:
        return [f'FAILED     {verdict.step}: {words}']
    if unmet:
        return [f'REFUSED    {line}' for line in unmet]
    if verdict.approach == 1:
        return ['ACCEPTED   approach 1: the key was generated in a module; its ACL is not judged']
    recoverable = 'recoverable' if verdict.recoverable else 'not recoverable'
    return [f'ACCEPTED   approach 2, protection {verdict.protection} ({PROTECTIONS[verdict.protection - 1]}), {recoverable}']


def attest_key(args) -> Outcome:
    """Judges a key by its bundle and its ACL."""
    given = evidence(Files(), args)
    verdict = attest(given.bundle, given.acl)
    unmet = _unmet(verdict, args) if verdict else []
    lines, value = _rests_on(given)
    place = _located(verdict, given)
    if verdict.step in ACL_STEPS:
        lines.append(f'next       akubolinfe trim {given.named} --dry-run')
    status = NO if verdict.step is not None or unmet else status_of(verdict.refusal)
    named = PROTECTIONS[verdict.protection - 1] if verdict.protection else None
    answer = {
        'accepted': status == YES, 'refusal': verdict.refusal, 'step': verdict.step, 'words': verdict.words, 'place': placed(place), 'unmet': unmet,
        'approach': verdict.approach or None, 'protection': verdict.protection or None, 'protection_name': named,
        'recoverable': verdict.recoverable if verdict.protection else None,
    }
    return Outcome(status, [*_answer(verdict, place, unmet), *lines], {**answer, **value})


def _removed(old: bytes, new: bytes, hints: bytes) -> List[Dict[str, Any]]:
    """What a trimming took away: whole actions, and permissions of those that stay, by their places in the old ACL."""
    before, after = groups_of(text_of('acl', 'old ACL', old)), groups_of(text_of('acl', 'new ACL', new))
    gone: List[Dict[str, Any]] = []
    for (source, places), actions in zip(Hints.read(hints).groups, after):
        kept = dict(zip(places, actions))
        for place, action in enumerate(before[source]):
            gone += [{'group': source, 'action': place, 'removed': line} for line in _lost(action, kept.get(place))]
    return gone


def _lost(before: Tuple[str, ...], after: Any) -> List[str]:
    """The lines of an action that is gone; of an action that stays the words that are gone."""
    if after is None:
        return list(before)
    missing = [word for word in before[0].split(' ') if word not in after[0].split(' ')]
    return [' '.join([before[0].split(' ')[0], *missing])] if missing else []


def trim_acl(args) -> Outcome:
    """Removes from an ACL what fails at the desk."""
    files = Files()
    given = evidence(files, args)
    if args.dry_run == (args.new is not None or args.hints is not None) or (args.new is None) != (args.hints is None):
        raise Trouble('give either --dry-run, or --new and --hints')
    trimmed = trim(given.bundle, given.acl)
    if not trimmed:
        return _not_trimmed(trimmed, given)
    gone = _removed(given.acl, trimmed.acl, trimmed.hints)
    lines = [f'group {g["group"]} action {g["action"]}, removed: {g["removed"]}' for g in gone]
    if not gone:
        lines = ['nothing to remove: the ACL fails no step']
    value = {'refusal': 0, 'step': None, 'removed': gone, 'acl': digest(trimmed.acl), 'hints': digest(trimmed.hints)}
    sizes = f'ACL {len(trimmed.acl)} bytes, hints {len(trimmed.hints)} bytes'
    if args.dry_run:
        return Outcome(YES, [*lines, f'dry run: {sizes}, not written'], {**value, 'written': []})
    files.write(Written(args.hints, trimmed.hints), Written(args.new, trimmed.acl))
    return Outcome(YES, [*lines, f'trimmed: {sizes}'], {**value, 'written': [args.new, args.hints]})


def _not_trimmed(trimmed: Trimmed, given: Evidence) -> Outcome:
    lines, about = _rests_on(given)
    status = NO if trimmed.step is not None else status_of(trimmed.refusal)
    verdict = Verdict(trimmed.refusal, trimmed.step)
    place = _located(verdict, given)
    value = {'refusal': trimmed.refusal, 'step': trimmed.step, 'words': trimmed.words, 'place': placed(place), 'removed': [], 'written': []}
    return Outcome(status, [*_answer(verdict, place, []), *lines], {**value, 'rests_on': about})
