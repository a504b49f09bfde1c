"""What can go wrong with a store. None of these is an answer: no permit was given."""
from __future__ import annotations


class StoreError(Exception):
    """A store that cannot be used as it was asked to be. Nothing was permitted."""


class Misuse(StoreError, ValueError):
    """A call that no store takes, such as one to a slot that holds no key. Nothing was changed."""


class Unavailable(StoreError):
    """The engine failed: no such store, no connection, a full disk, a read-only file. A call that was being committed may be
    in the log; it was not answered."""


class Damaged(StoreError):
    """The store holds what no store writes. Nothing was changed."""
