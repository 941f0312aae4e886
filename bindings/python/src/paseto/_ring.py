"""Rings of keys: the footer of a token names the key."""

from __future__ import annotations

import json
import os
from collections.abc import Iterable, Mapping
from pathlib import Path
from typing import Any

from ._errors import InvalidKey, PasetoError, UnknownKey
from ._keys import Key, LocalKey, PrivateKey, PublicKey
from ._tokens import admit, footer_of, issue
from ._values import Moment, Seconds, Text


def key_footer(kid: str) -> str:
    """The footer that tells a ring the id of the key.

    >>> key_footer("2026-11")
    '{"kid":"2026-11"}'
    """
    return json.dumps({"kid": kid}, ensure_ascii=False, separators=(",", ":"))


def kid_of(footer: str) -> str | None:
    """The id of the key that a footer names, or ``None`` if it names none.

    >>> kid_of(key_footer("2026-11"))
    '2026-11'
    """
    try:
        named = json.loads(footer)
    except (ValueError, RecursionError):
        return None
    kid = named.get("kid") if isinstance(named, dict) else None
    # An escape of JSON can name half a character, which is no text.
    is_text = isinstance(kid, str) and not any("\ud800" <= letter <= "\udfff" for letter in kid)
    return kid if is_text else None


class KeyRing:
    """Keys by id. The footer of a token names one of them, and only that key is tried.

    >>> ring = KeyRing()
    >>> kid = ring.add(LocalKey.generate())
    >>> ring.admit(ring.issue(kid, {"sub": "ada"}))["sub"]
    'ada'
    """

    def __init__(self) -> None:
        self._keys: dict[str, LocalKey | PrivateKey | PublicKey] = {}

    @classmethod
    def from_folder(cls, folder: str | os.PathLike[str]) -> KeyRing:
        """The keys of a folder's files, by their PASERK ids. Each file holds a key, as PASERK or in PEM; one that does not is
        named by the ``InvalidKey``. Folders in it, and names that begin with a dot, are passed over."""
        ring = cls()
        for path in sorted(Path(folder).iterdir()):
            if path.name.startswith(".") or path.is_dir():
                continue
            try:
                ring.add(Key.from_text(path.read_bytes()))
            except (PasetoError, UnicodeDecodeError) as fault:
                raise InvalidKey(f"{path}: {fault}") from fault
        return ring

    def add(self, key: LocalKey | PrivateKey | PublicKey, kid: str | None = None) -> str:
        """Adds a key under an id, by default its PASERK id, and returns the id. A private key issues tokens, and its public key
        verifies them; its default id is that of the public key."""
        found = kid if kid is not None else (key.public.id if isinstance(key, PrivateKey) else key.id)
        self._keys[found] = key
        return found

    def remove(self, kid: str) -> None:
        """Removes the key with an id, if there is one."""
        self._keys.pop(kid, None)

    def __contains__(self, kid: str) -> bool:
        return kid in self._keys

    def __len__(self) -> int:
        return len(self._keys)

    def issue(
        self,
        kid: str,
        claims: Mapping[str, Any],
        *,
        expires_in: Seconds | None = 3600,
        now: Moment = None,
        assertion: Text = "",
    ) -> str:
        """Issues a token under the key with an id. The footer of the token names the key."""
        key = self._keys.get(kid)
        if key is None:
            raise KeyError(kid)
        if isinstance(key, PublicKey):
            raise TypeError("a token is issued under a LocalKey or a PrivateKey")
        return issue(key, claims, expires_in=expires_in, now=now, footer=key_footer(kid), assertion=assertion)

    def key_for(self, footer: str) -> LocalKey | PublicKey:
        """The key that a footer names, to read tokens with. Raises ``UnknownKey`` if it names none of the ring."""
        kid = kid_of(footer)
        key = None if kid is None else self._keys.get(kid)
        if key is None:
            raise UnknownKey
        return key.public if isinstance(key, PrivateKey) else key

    def admit(
        self,
        token: Text,
        *,
        aud: str | None = None,
        expected: Mapping[str, Any] | None = None,
        require: Iterable[str] = (),
        leeway: Seconds = 0,
        longest: int = 0,
        now: Moment = None,
        assertion: Text = "",
    ) -> dict[str, Any]:
        """Returns the claims of a token like ``admit``, with the key that its footer names. Raises ``UnknownKey`` if the footer
        names no key of the ring."""
        footer = footer_of(token)
        return admit(
            token, self.key_for(footer), aud=aud, expected=expected, require=require, leeway=leeway, longest=longest, now=now,
            footer=footer, assertion=assertion,
        )
