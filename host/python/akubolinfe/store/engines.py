"""The engines that hold a store: SQLite (a file) and PostgreSQL (a server). Both have the same tables and are asked the same statements.

A statement has `?` for each of its arguments. A call is one transaction: `begin` locks the store for it and reads, `commit` writes and returns
when what it wrote is durable.
"""
from __future__ import annotations

import contextlib
import os
import random
import re
import sqlite3
import time
from typing import Dict, Iterator, List, Optional, Sequence, Tuple
from urllib.parse import quote, urlsplit, urlunsplit

from .errors import Damaged, Misuse, StoreError, Unavailable

Statement = Tuple[str, Sequence]

TABLES = ('akubolinfe_store', 'akubolinfe_log', 'akubolinfe_file')
_SCHEMA = (
    'CREATE TABLE akubolinfe_store (id INTEGER PRIMARY KEY CHECK (id = 1), entries BIGINT NOT NULL, head {bytes} NOT NULL, state {bytes} NOT NULL)',
    'CREATE TABLE akubolinfe_log (number {key} PRIMARY KEY, entry {bytes} NOT NULL, state {bytes} NOT NULL, hash {bytes} NOT NULL)',
    'CREATE TABLE akubolinfe_file (sha256 {bytes} PRIMARY KEY, content {bytes} NOT NULL)',
)
# The row of the store beside that of the last entry of its log, which names the state's SHA-256 and has the head as its hash.
READ = ('SELECT s.entries, s.head, s.state, l.state, l.hash FROM akubolinfe_store s LEFT JOIN akubolinfe_log l ON l.number = s.entries'
        ' WHERE s.id = 1')
_LOCK = 'SELECT id FROM akubolinfe_store WHERE id = 1 FOR UPDATE'

# How long a call waits for others that have the lock, and the most that it waits before it tries again, in seconds.
_PATIENCE, _PAUSE = 60.0, 0.002
_SQLITE_ERRORS = (sqlite3.Error, UnicodeError)


class SQLite:
    """A store in one file of SQLite, in WAL mode with synchronous=FULL. While it is open, and after a crash, two files are beside it (`-wal`,
    `-shm`) that belong to it."""

    _TYPES = {'bytes': 'BLOB', 'key': 'INTEGER'}

    def __init__(self, place: str, create: bool = False, read_only: bool = False) -> None:
        self.place = place
        if create:
            self._claim()
        elif not os.path.exists(place):
            raise Unavailable(f'{place}: no such store')
        mode = 'ro' if read_only else 'rw'
        # A file on read-only media has no -shm beside it and cannot get one. Without a -wal nothing is missing in it.
        fixed = read_only and not os.path.exists(place + '-wal') and not os.access(os.path.dirname(place) or '.', os.W_OK)
        address = f'file:{quote(os.path.abspath(place))}?mode={mode}' + ('&immutable=1' if fixed else '')
        try:
            self._connection = sqlite3.connect(address, uri=True, isolation_level=None, timeout=0, check_same_thread=False)
        except _SQLITE_ERRORS as error:
            raise self._failure(error) from None
        self._execute('PRAGMA synchronous = FULL')
        if create:
            self._execute('PRAGMA journal_mode = WAL')

    def _claim(self) -> None:
        """Makes the file, which must not be there yet."""
        try:
            os.close(os.open(self.place, os.O_CREAT | os.O_EXCL | os.O_RDWR, 0o644))
        except FileExistsError:
            raise Misuse(f'{self.place}: is there already') from None
        except OSError as error:
            raise Unavailable(f'{self.place}: {error.strerror}') from None

    def _execute(self, statement: str, arguments: Sequence = ()) -> sqlite3.Cursor:
        """Executes a statement. While another connection has the lock it tries again, at random moments, so that all that wait get their turn."""
        end = 0.0
        while True:
            try:
                return self._connection.execute(statement, arguments)
            except _SQLITE_ERRORS as error:
                end = end or time.monotonic() + _PATIENCE
                if 'locked' not in str(error) or time.monotonic() > end:
                    raise self._failure(error) from None
            time.sleep(random.uniform(0, _PAUSE))

    def _failure(self, error: Exception) -> StoreError:
        """What SQLite raises, as an error of the store. A damaged schema makes messages that are not text."""
        if isinstance(error, UnicodeError):
            return Damaged(f'{self.place}: the schema is damaged')
        return (Unavailable if isinstance(error, sqlite3.OperationalError) else Damaged)(f'{self.place}: {error}')

    def create(self, rows: Sequence[Statement]) -> None:
        """Makes the tables and their first rows. Where that fails no file is left behind."""
        try:
            self._execute('BEGIN IMMEDIATE')
            for statement in _SCHEMA:
                self._execute(statement.format(**self._TYPES))
            self.commit(rows)
        except StoreError:
            self.destroy()
            raise

    def begin(self) -> Optional[tuple]:
        """Locks the store and reads its row."""
        self._execute('BEGIN IMMEDIATE')
        return self.row(READ)

    def commit(self, statements: Sequence[Statement]) -> None:
        """Writes, and returns when it is durable."""
        for statement, arguments in statements:
            self._execute(statement, arguments)
        self._execute('COMMIT')

    def write(self, statements: Sequence[Statement]) -> None:
        """Writes in a transaction of its own."""
        self._execute('BEGIN IMMEDIATE')
        self.commit(statements)

    def destroy(self) -> None:
        """Removes a store that was not finished."""
        self.close()
        for ending in ('', '-wal', '-shm'):
            with contextlib.suppress(FileNotFoundError):
                os.unlink(self.place + ending)

    def rollback(self) -> None:
        """Gives up the transaction, if one is open."""
        with contextlib.suppress(*_SQLITE_ERRORS):
            if self._connection.in_transaction:
                self._connection.execute('ROLLBACK')

    @contextlib.contextmanager
    def snapshot(self) -> Iterator[None]:
        """Everything read within it is of one moment. It locks nobody out."""
        self._execute('BEGIN')
        try:
            yield
        finally:
            self.rollback()

    def rows(self, statement: str, arguments: Sequence = ()) -> Iterator[tuple]:
        """The rows that a statement finds."""
        try:
            yield from self._execute(statement, arguments)
        except _SQLITE_ERRORS as error:
            raise self._failure(error) from None

    def row(self, statement: str, arguments: Sequence = ()) -> Optional[tuple]:
        """The one row that a statement finds, or None."""
        try:
            return self._execute(statement, arguments).fetchone()
        except _SQLITE_ERRORS as error:
            raise self._failure(error) from None

    def faults(self) -> List[str]:
        """What the engine itself finds wrong with its file."""
        found = [line for line, in self.rows('PRAGMA integrity_check')]
        return [] if found == ['ok'] else found

    def close(self) -> None:
        """Closes the file."""
        with contextlib.suppress(*_SQLITE_ERRORS):
            self._connection.close()


class PostgreSQL:
    """A store in a database of PostgreSQL, `postgresql://USER@HOST/DATABASE#NAME`, in the schema NAME (`public` without one). Each schema holds one
    store, so that a server holds many. A connection that was lost is made anew at the next call."""

    _TYPES = {'bytes': 'BYTEA', 'key': 'BIGINT'}
    # The state is written anew at each call: it stays in the row, and its old versions make room on the same page.
    _STORAGE = ('ALTER TABLE akubolinfe_store SET (toast_tuple_target = 8160, fillfactor = 45, autovacuum_vacuum_threshold = 5000)',
                'ALTER TABLE akubolinfe_store ALTER state SET STORAGE EXTERNAL')

    def __init__(self, place: str, create: bool = False, read_only: bool = False) -> None:
        try:
            import psycopg2
        except ImportError:
            raise Unavailable(f'{place}: PostgreSQL needs psycopg2 (Debian: python3-psycopg2)') from None
        self._driver = psycopg2
        parts = urlsplit(place)
        self.place = place if parts.password is None else place.replace(f':{parts.password}@', ':***@', 1)
        self._address, self._schema = urlunsplit(parts._replace(fragment='')), parts.fragment or 'public'
        if not re.fullmatch('[a-z_][a-z0-9_]{0,62}', self._schema):
            raise Misuse(f'{self.place}: the name after # is made of a to z, 0 to 9 and _')
        self._connection = None
        with self._failures():
            self._connect()
            if create:
                self._claim()

    def _claim(self) -> None:
        """Makes the schema if it is not there. It must not hold a store yet."""
        if self._execute('SELECT 1 FROM pg_namespace WHERE nspname = ?', (self._schema,)).fetchone() is None:
            self._execute(f'CREATE SCHEMA {self._schema}')
        if self._execute("SELECT to_regclass('akubolinfe_store')").fetchone()[0] is not None:
            raise Misuse(f'{self.place}: a store is there already')

    def _connect(self) -> None:
        self._connection = self._driver.connect(self._address, application_name='akubolinfe')
        self._connection.autocommit = True
        self._prepared: Dict[str, str] = {}
        # Nothing is answered that is not durable, whatever the server's default is. A client that hangs does not stop the others for ever.
        patience = int(1000 * _PATIENCE)
        self._execute(f'SET search_path TO {self._schema}; SET synchronous_commit TO on; SET lock_timeout TO {patience};'
                      f' SET idle_in_transaction_session_timeout TO {patience}')
        for setting in ('fsync', 'full_page_writes'):
            if self._execute(f'SHOW {setting}').fetchone()[0] != 'on':
                raise Unavailable(f'{self.place}: the server has {setting} off, so that it loses commits in a crash')

    def _planned(self, statement: str) -> str:
        """A statement that the server parses and plans once for this connection."""
        name = self._prepared.get(statement)
        if name is None:
            name = f'akubolinfe_{len(self._prepared)}'
            parts = statement.split('?')
            self._execute(f'PREPARE {name} AS ' + parts[0] + ''.join(f'${number}{part}' for number, part in enumerate(parts[1:], 1)))
            self._prepared[statement] = name
        places = ', '.join('?' * statement.count('?'))
        return f'EXECUTE {name} ({places})' if places else f'EXECUTE {name}'

    def _execute(self, statement: str, arguments: Sequence = ()):
        cursor = self._connection.cursor()
        cursor.execute(statement.replace('?', '%s'), arguments or None)
        return cursor

    @contextlib.contextmanager
    def _failures(self) -> Iterator[None]:
        """What the driver raises, as an error of the store."""
        try:
            yield
        except self._driver.Error as error:
            words = ' '.join(str(error).split()) or type(error).__name__
            raise Unavailable(f'{self.place}: {words}') from None

    def _connected(self) -> None:
        if self._connection.closed:
            self._connect()

    def create(self, rows: Sequence[Statement]) -> None:
        """Makes the tables and their first rows. Where that fails nothing is left behind."""
        try:
            with self._failures():
                self._execute('BEGIN')
                for statement in _SCHEMA:
                    self._execute(statement.format(**self._TYPES))
                for statement in self._STORAGE:
                    self._execute(statement)
            self.commit(rows)
        except StoreError:
            self.close()
            raise

    def begin(self) -> tuple:
        """Locks the store and reads its row. The second statement sees what the first one waited for."""
        with self._failures():
            self._connected()
            return _plain(self._execute(f'BEGIN; {self._planned(_LOCK)}; {self._planned(READ)}').fetchone())

    def commit(self, statements: Sequence[Statement]) -> None:
        """Writes, and returns when it is durable."""
        arguments = [value for _, values in statements for value in values]
        with self._failures():
            self._execute('; '.join([self._planned(statement) for statement, _ in statements] + ['COMMIT']), arguments)

    def write(self, statements: Sequence[Statement]) -> None:
        """Writes in a transaction of its own."""
        with self._failures():
            self._execute('BEGIN')
        self.commit(statements)

    def destroy(self) -> None:
        """Removes a store that was not finished."""
        self.rollback()
        with self._failures():
            self._execute('DROP TABLE IF EXISTS ' + ', '.join(TABLES))

    def rollback(self) -> None:
        """Gives up the transaction, if one is open."""
        with contextlib.suppress(self._driver.Error):
            if not self._connection.closed:
                self._execute('ROLLBACK')

    @contextlib.contextmanager
    def snapshot(self) -> Iterator[None]:
        """Everything read within it is of one moment. It locks nobody out."""
        with self._failures():
            self._connected()
            self._execute('BEGIN ISOLATION LEVEL REPEATABLE READ READ ONLY')
        try:
            yield
        finally:
            self.rollback()

    def rows(self, statement: str, arguments: Sequence = ()) -> Iterator[tuple]:
        """The rows that a statement finds, some thousand at a time."""
        with self._failures():
            cursor = self._connection.cursor('akubolinfe_rows', withhold=True)
            cursor.itersize = 2000
            cursor.execute(statement.replace('?', '%s'), arguments or None)
            yield from map(_plain, cursor)
            cursor.close()

    def row(self, statement: str, arguments: Sequence = ()) -> Optional[tuple]:
        """The one row that a statement finds, or None."""
        with self._failures():
            return _plain(self._execute(statement, arguments).fetchone())

    def faults(self) -> List[str]:
        """What the engine itself finds wrong. The server checks its files on demand (pg_checksums, pg_amcheck)."""
        return []

    def close(self) -> None:
        """Closes the connection."""
        with contextlib.suppress(self._driver.Error):
            self._connection.close()


def _plain(row: Optional[tuple]) -> Optional[tuple]:
    """A row of PostgreSQL with bytes as SQLite has them."""
    return row and tuple(bytes(value) if isinstance(value, memoryview) else value for value in row)


def engine_of(place: str, create: bool = False, read_only: bool = False):
    """The engine of a place: PostgreSQL for a URL `postgresql://..`, SQLite for the name of a file."""
    if re.match('postgres(ql)?://', place):
        return PostgreSQL(place, create, read_only)
    if '://' in place:
        raise Misuse(f'{place}: neither a file nor postgresql://..')
    return SQLite(place, create, read_only)
