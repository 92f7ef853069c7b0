"""Who may do what: bearer keys from a file, a line each.

    read         51b2aa...    Prometheus
    ask          0c9f4e...    the web shop
    ask:0.7      9b1d04...    bob
    operate      77d010...    Ann

A line has what the key may do, the key, and whose it is. `ask` includes `read`, and `operate` both; `ask:ID` asks as that user alone."""

import enum
import hashlib
import hmac
import os
import re
from typing import NamedTuple

from shop_tool.carrier.records import fields_of
from shop_tool.ends import Fault, Status

LEAST_BYTES = 16
# Who asks, by the field of each kind of record that has it; nobody who is there asks for a new user.
ASKERS = {"item": 1, "bid": 2, "buy": 2, "close": 2, "comment": 2, "restock": 2, "rename": 1}


class May(enum.IntEnum):
    READ = 1
    ASK = 2
    OPERATE = 3


class Key(NamedTuple):
    may: May
    users: frozenset[str] | None    # as whom alone it asks; None: as anybody
    whose: str

    def why_not(self, record: str) -> str | None:
        """Why a record isn't asked with this key, or None."""
        if self.users is None:
            return None
        fields = fields_of(record)
        at = ASKERS.get(fields[0], len(fields))
        asker = fields[at] if at < len(fields) else None
        if asker in self.users:
            return None
        return f"this key asks as {' or '.join(sorted(self.users))} alone, and not {f'as {asker}' if asker else f'`{fields[0][:20]}`'}"


ANYBODY = Key(May.OPERATE, None, "")


class Access:
    """The keys; without any everybody may do everything."""

    def __init__(self, keys: dict[bytes, Key] | None) -> None:
        self._keys = keys

    @property
    def is_open(self) -> bool:
        return self._keys is None

    def of(self, header: str) -> Key | None:
        """The key of a request with this header `Authorization`; None if it isn't known."""
        if self._keys is None:
            return ANYBODY
        scheme, _, said = header.strip().partition(" ")
        found, digest = None, digest_of(said.strip())
        for known, key in self._keys.items():
            if hmac.compare_digest(known, digest) and scheme.lower() == "bearer":
                found = key
        return found


def digest_of(key: str) -> bytes:
    return hashlib.sha256(key.encode("utf-8", "surrogateescape")).digest()


def key_of(words: str, whose: str) -> Key:
    """What the first word of a line says; a ValueError where it says nothing."""
    may, users, is_anybody = May.READ, set[str](), False
    for word in words.split(","):
        name, bound, user = word.partition(":")
        if name.upper() not in May.__members__ or bound and (name != "ask" or not re.fullmatch(r"[0-9]{1,2}\.[0-9]{1,7}", user)):
            raise ValueError
        may, is_anybody = max(may, May[name.upper()]), is_anybody or May[name.upper()] > May.READ and not bound
        users |= {user} if bound else set()
    return Key(may, frozenset(users) if users and not is_anybody else None, whose)


def from_file(path: str | None) -> Access:
    if path is None:
        return Access(None)
    keys: dict[bytes, Key] = {}
    with open(path, encoding="utf-8-sig", errors="surrogateescape") as file:
        if os.fstat(file.fileno()).st_mode & 0o077:
            raise Fault(Status.MISUSE, f"{path} has keys, and others may read it (chmod 600)")
        for number, line in enumerate(file, 1):
            words = line.split(None, 2)
            if not words or words[0].startswith("#"):
                continue
            try:
                key = key_of(words[0], words[2].strip() if len(words) > 2 else "")
            except ValueError:
                raise Fault(Status.MISUSE, f"{path}:{number}: a key may read, ask or operate, or ask as a user (ask:0.7), not {words[0]!r}") from None
            if len(words) < 2 or len(words[1]) < LEAST_BYTES:
                raise Fault(Status.MISUSE, f"{path}:{number}: a key has at least {LEAST_BYTES} characters (openssl rand -hex 16)")
            keys[digest_of(words[1])] = key
    return Access(keys)
