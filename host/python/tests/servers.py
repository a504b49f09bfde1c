"""A PostgreSQL server of the tests' own: in a temporary folder, on a loopback port, with the settings of a fresh installation."""
from __future__ import annotations

import glob
import os
import pwd
import shutil
import socket
import subprocess
import tempfile
from typing import List, Optional


def binaries() -> Optional[str]:
    """The folder with initdb and pg_ctl, or None where PostgreSQL is not installed."""
    found = sorted(glob.glob('/usr/lib/postgresql/*/bin/initdb'), key=lambda path: int(path.split('/')[4]))
    path = found[-1] if found else shutil.which('initdb')
    return os.path.dirname(path) if path else None


def missing() -> Optional[str]:
    """Why there can be no server here, or None."""
    try:
        import psycopg2  # noqa: F401
    except ImportError:
        return 'python3-psycopg2 is not installed for this Python'
    return None if binaries() else 'PostgreSQL is not installed'


def _free_port() -> int:
    with socket.socket() as probe:
        probe.bind(('127.0.0.1', 0))
        return probe.getsockname()[1]


class Server:
    """A server that is stopped and removed at the end of a `with`. `initdb` refuses to run as root: then the user postgres runs it."""

    def __init__(self) -> None:
        self.folder = tempfile.mkdtemp(prefix='akubolinfe-postgres-')
        self.port = _free_port()
        self._bin = binaries()
        self._user: List[str] = []
        if os.geteuid() == 0:
            account = pwd.getpwnam('postgres')
            os.chown(self.folder, account.pw_uid, account.pw_gid)
            self._user = ['runuser', '-u', 'postgres', '--']
        self._run('initdb', '-D', self.data, '-A', 'trust', '-U', 'postgres', '-E', 'UTF8', '--locale=C', '--data-checksums')
        with open(os.path.join(self.data, 'postgresql.conf'), 'a') as settings:
            settings.write(f"\nlisten_addresses = '127.0.0.1'\nport = {self.port}\nunix_socket_directories = '{self.folder}'\n")

    @property
    def data(self) -> str:
        """The folder of the server's files."""
        return os.path.join(self.folder, 'data')

    def place(self, name: str = 'public') -> str:
        """The place of a store in this server."""
        return f'postgresql://postgres@127.0.0.1:{self.port}/postgres#{name}'

    def _run(self, program: str, *arguments: str) -> None:
        command = self._user + [os.path.join(self._bin, program), *arguments]
        done = subprocess.run(command, cwd='/', stdin=subprocess.DEVNULL, stdout=subprocess.PIPE, stderr=subprocess.STDOUT)
        if done.returncode:
            raise RuntimeError(f'{program}: {done.stdout.decode(errors="replace")}')

    def start(self) -> None:
        """Starts it and waits until it answers."""
        log = os.path.join(self.folder, 'log')
        command = self._user + [os.path.join(self._bin, 'pg_ctl'), '-D', self.data, '-l', log, '-w', '-t', '60', 'start']
        subprocess.run(command, cwd='/', stdin=subprocess.DEVNULL, stdout=subprocess.DEVNULL, check=True)

    def stop(self, mode: str = 'fast') -> None:
        """Stops it. `immediate` is a crash: nothing is flushed, and the next start recovers."""
        self._run('pg_ctl', '-D', self.data, '-m', mode, '-w', 'stop')

    def __enter__(self) -> 'Server':
        self.start()
        return self

    def __exit__(self, *_: object) -> None:
        try:
            self.stop('immediate')
        finally:
            shutil.rmtree(self.folder, ignore_errors=True)
