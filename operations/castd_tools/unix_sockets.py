"""Unix sockets: those that a program which is gone left behind, and one that only the own user and group may use.

Of the programs that would remove a dead socket or make one, and that are given one folder, one at a time goes on. It locks
the folder, so nobody but these programs may be able to open it: who can, can hold the lock.
"""

from __future__ import annotations

import contextlib
import fcntl
import os
import socket
import stat
import time
from collections.abc import Iterator

_BACKLOG = 128
_OWN_USER_AND_GROUP = 0o660
_LOCK_SECONDS = 5.0
_LOCK_PAUSE_SECONDS = 0.01


@contextlib.contextmanager
def listening(path: str, folder: str) -> Iterator[socket.socket]:
    """A socket of mode 0660 that listens at a path, which a dead socket may have. Its file is removed in the end.

    An `OSError` where the path has anything else, or the folder stays locked.
    """
    with socket.socket(socket.AF_UNIX) as server:
        with _locked(folder):
            _remove_if_dead(path)
            _bind(server, path)
            server.listen(_BACKLOG)
        made = os.lstat(path)
        try:
            yield server
        finally:
            with contextlib.suppress(FileNotFoundError), _locked(folder):
                _remove_same(path, made)


def remove_dead(path: str, folder: str) -> bool:
    """Removes the socket at a path if nobody listens on it. Whether it did. An `OSError` where the folder stays locked."""
    with _locked(folder):
        return _remove_if_dead(path)


@contextlib.contextmanager
def _locked(path: str) -> Iterator[None]:
    """While no other program has the lock of a folder."""
    folder = os.open(path, os.O_RDONLY | os.O_DIRECTORY | os.O_CLOEXEC)
    try:
        _lock(folder)
        yield
    finally:
        os.close(folder)


def _lock(folder: int) -> None:
    end = time.monotonic() + _LOCK_SECONDS
    while True:
        try:
            return fcntl.flock(folder, fcntl.LOCK_EX | fcntl.LOCK_NB)
        except BlockingIOError:
            if time.monotonic() > end:
                raise
            time.sleep(_LOCK_PAUSE_SECONDS)


def _remove_if_dead(path: str) -> bool:
    if not _is_dead(path):
        return False
    os.unlink(path)
    return True


def _is_dead(path: str) -> bool:
    """Whether a path has a socket on which nobody listens."""
    try:
        if not stat.S_ISSOCK(os.lstat(path).st_mode):
            return False
    except FileNotFoundError:
        return False
    with socket.socket(socket.AF_UNIX) as probe:
        probe.setblocking(False)
        try:
            probe.connect(path)
        except ConnectionRefusedError:
            return True
        except OSError:
            return False
    return False


def _bind(server: socket.socket, path: str) -> None:
    """Makes the file with its mode at once: there is no moment in which others may connect."""
    before = os.umask(0o777 & ~_OWN_USER_AND_GROUP)
    try:
        server.bind(path)
    finally:
        os.umask(before)


def _remove_same(path: str, made: os.stat_result) -> None:
    """Removes a file, if it still is the one that was made."""
    if os.path.samestat(os.lstat(path), made):
        os.unlink(path)
