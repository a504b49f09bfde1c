"""Akubolinfe for Python: a permission gate and an attestation desk for keys that are kept in nShield modules.

Every decision is that of the proved shared library. A refusal is a value, and `bool()` of an answer is true for a yes
alone; exceptions are for misuse (TypeError, ValueError) and for a missing or wrong library (LibraryError).
"""
from ._library import ABI, LibraryError, Unsupported
from .answers import Converted, Reply, Run, Subject, Trimmed, Verdict
from .builders import Certificate, Delegation, Facts, Hints, Policy, Request, Token, read_bundle
from .checking import fault
from .desk import attest, subject, trim
from .gate import Cabinet, Form, Ledger, Slot, prepare
from .places import CallPlace, FilePlace, VerdictPlace, locate_expand, locate_file, locate_narrow, locate_request, locate_verdict
from .text import Text
from .words import explain

__version__ = '1.1'

__all__ = [
    'ABI', 'Cabinet', 'CallPlace', 'Certificate', 'Converted', 'Delegation', 'Facts', 'FilePlace', 'Form', 'Hints', 'Ledger',
    'LibraryError', 'Policy', 'Reply', 'Request', 'Run', 'Slot', 'Subject', 'Text', 'Token', 'Trimmed', 'Unsupported',
    'Verdict', 'VerdictPlace', 'attest', 'explain', 'fault', 'locate_expand', 'locate_file', 'locate_narrow',
    'locate_request', 'locate_verdict', 'prepare', 'read_bundle', 'subject', 'trim',
]
