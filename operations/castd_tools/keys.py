"""Keys that pairs of hosts have: how they are made of a master, and the files in which hosts keep them.

A file is a TOML document that one host alone has, with a table for each key:

    [[key]]
    host = "192.0.2.2"
    sites = [102, 202]
    number = 17
    secret = "9f86d081884c7d659a2feaa0c55ad015a3bf4f1b2b0b822cd15d6c15b0f00a08"

It is the key for all datagrams between this host and the sites of that one. Where two tables have the same sites, either key is
accepted, and the first one is used.
"""

from __future__ import annotations

import contextlib
import hmac
import json
import os
import re
import stat
import tomllib
from collections.abc import Iterable
from dataclasses import dataclass

from castd_tools.configuration import MOST_SITE_NUMBER, ConfigurationError, _number, _numbers, _tables, _text
from castd_tools.system import reason

USUAL_FILE = "/etc/castd.keys"
MOST_NUMBER = 255
MOST_SITES_OF_A_HOST = 16
# The keys of a pair at one time: the old one and the new one.
MOST_OF_A_PAIR = 2
SECRET_BYTES = 32

_LONGEST_FILE = 1 << 20
_SECRET = re.compile(f"[0-9A-Fa-f]{{{2 * SECRET_BYTES}}}")
_KEY_PURPOSE, _NUMBER_PURPOSE = b"castd key of two hosts 1", b"castd number of keys 1"


class KeysError(Exception):
    """Keys cannot be used. Its text says which and why, and has no part of a secret."""


@dataclass(frozen=True)
class Key:
    """A key, and the number by which datagrams name it."""

    number: int
    secret: bytes


def key_of_pair(master: bytes, cluster: str, one: str, other: str) -> Key:
    """The key that a master makes for two hosts of a cluster. Their order makes no difference."""
    first, second = sorted((one, other))
    parts = [_KEY_PURPOSE, *(text.encode() for text in (cluster, first, second))]
    message = b"".join(len(part).to_bytes(4, "big") + part for part in parts)
    return Key(number_of(master), hmac.digest(master, message, "sha256"))


def number_of(master: bytes) -> int:
    """The number of all keys that a master makes. One in 256 other masters has the same."""
    return hmac.digest(master, _NUMBER_PURPOSE, "sha256")[0]


def text_for(host: str, keys: Iterable[tuple[str, list[int], Key]]) -> str:
    """The file of a host: of each other host its name, its sites and a key."""
    text = f"# Made by castd-conf from a plan and a master, for the host {host} alone. Nobody else may read it.\n"
    for other, sites, key in keys:
        text += f'\n[[key]]\nhost = {json.dumps(other)}\nsites = {sites}\nnumber = {key.number}\nsecret = "{key.secret.hex()}"\n'
    return text


def read(path: str) -> dict[int, list[Key]]:
    """The keys in a file, by the sites that they are for. A `KeysError` where it has none that can be used."""
    try:
        document = tomllib.loads(_private(path).decode("utf-8-sig"))
        found: dict[int, list[Key]] = {}
        for table in _tables(document, "key"):
            sites = _numbers(table, "sites", "a key", MOST_SITE_NUMBER, MOST_SITES_OF_A_HOST)
            key = Key(_number(table, "number", "a key", 0, MOST_NUMBER), _secret(table))
            for site in sites:
                _add(found.setdefault(site, []), site, key)
    except (UnicodeDecodeError, tomllib.TOMLDecodeError, RecursionError) as error:
        raise KeysError(f"{path}: not TOML") from error
    except ConfigurationError as error:
        raise KeysError(f"{path}: {error}") from error
    return found


def mark(path: str) -> tuple[int, ...] | None:
    """What is another one once another file has this path, or the file was written. None where there is no file."""
    try:
        found = os.lstat(path)
    except OSError:
        return None
    return found.st_dev, found.st_ino, found.st_size, found.st_mtime_ns, found.st_ctime_ns


def read_master(path: str) -> bytes:
    """The master in a file: 64 digits of base 16. A `KeysError` where it has none."""
    text = _private(path).strip()
    try:
        master = bytes.fromhex(text.decode("ascii"))
    except ValueError:
        master = b""
    if len(master) != SECRET_BYTES:
        raise KeysError(f"{path}: not {2 * SECRET_BYTES} digits of base 16")
    return master


def _secret(table: dict) -> bytes:
    text = _text(table, "secret", "a key")
    if not _SECRET.fullmatch(text):
        raise ConfigurationError(f"a key: secret: not {2 * SECRET_BYTES} digits of base 16")
    return bytes.fromhex(text)


def _add(keys: list[Key], site: int, key: Key) -> None:
    if any(other.number == key.number for other in keys):
        raise ConfigurationError(f"site {site}: key {key.number}: repeated")
    if len(keys) == MOST_OF_A_PAIR:
        raise ConfigurationError(f"site {site}: more than {MOST_OF_A_PAIR} keys")
    keys.append(key)


def _private(path: str) -> bytes:
    """The bytes of a file that only root and the own user can read. A `KeysError` where it is no such file."""
    try:
        descriptor = os.open(path, os.O_RDONLY | os.O_NOFOLLOW | os.O_NONBLOCK | os.O_CLOEXEC)
    except OSError as error:
        raise KeysError(f"{path}: {reason(error)}") from error
    try:
        found = os.fstat(descriptor)
        if not stat.S_ISREG(found.st_mode):
            raise KeysError(f"{path}: not a plain file")
        if found.st_uid not in (0, os.geteuid()):
            raise KeysError(f"{path}: of another user")
        if stat.S_IMODE(found.st_mode) & 0o077:
            raise KeysError(f"{path}: others than its user can use it: its mode has to be 0600")
        with open(descriptor, "rb", closefd=False) as file:
            data = file.read(_LONGEST_FILE + 1)
    except OSError as error:
        raise KeysError(f"{path}: {reason(error)}") from error
    finally:
        os.close(descriptor)
    if len(data) > _LONGEST_FILE:
        raise KeysError(f"{path}: too long")
    return data


def write(path: str, text: str) -> None:
    """Makes a file that the own user alone can read, in place of one that is there. An `OSError` leaves that one."""
    new = f"{path}.new"
    with contextlib.suppress(FileNotFoundError):
        os.unlink(new)
    descriptor = os.open(new, os.O_WRONLY | os.O_CREAT | os.O_EXCL | os.O_CLOEXEC, 0o600)
    try:
        with open(descriptor, "w", encoding="utf-8") as file:
            file.write(text)
            file.flush()
            os.fsync(descriptor)
        os.rename(new, path)
    except OSError:
        os.unlink(new)
        raise
