"""A cabinet that survives: its state and a log of every call, in SQLite or PostgreSQL.

    store = Store.create('cabinet.db')              # or postgresql://USER@HOST/DATABASE#NAME
    store.put(0, km0, acl, time)                    # a key in slot 0, loaded at `time`
    reply = store.request(0, request)
    if reply: ...                                   # permitted; the charge is durable

A call is one transaction: the store is locked and read, the proved function is called, state and log entry are written and committed, and then
the answer is returned. Nothing is answered that is not durable. A refusal changes nothing but the log. Any number of processes and threads
may use one store at the same time.
"""
from .audit import Finding, Report, audit
from .calls import Entry
from .errors import Damaged, Misuse, StoreError, Unavailable
from .keeper import Store
from .state import Key, State
from .transfer import export_store, import_store

__all__ = [
    'Damaged', 'Entry', 'Finding', 'Key', 'Misuse', 'Report', 'State', 'Store', 'StoreError', 'Unavailable', 'audit', 'export_store',
    'import_store',
]
