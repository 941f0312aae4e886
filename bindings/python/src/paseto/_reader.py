"""What a service decides once about the tokens that it takes."""

from __future__ import annotations

from collections.abc import Iterable, Mapping
from typing import Any, Union

from . import _library
from ._errors import TooLong
from ._keys import LocalKey, PrivateKey, PublicKey
from ._ring import KeyRing
from ._tokens import _bound, checks_of, claims_of
from ._values import Footer, Moment, Seconds, Text, footer_of, moment_of, text_of, token_of

Keys = Union[LocalKey, PrivateKey, PublicKey, KeyRing]


class Reader:
    """The keys, and what is asked of every token.

    >>> key = LocalKey.generate()
    >>> reader = Reader(key, aud="customers")
    >>> from paseto import issue
    >>> reader.admit(issue(key, {"sub": "ada", "aud": "customers"}))["sub"]
    'ada'
    """

    def __init__(
        self,
        keys: Keys,
        *,
        aud: str | None = None,
        expected: Mapping[str, Any] | None = None,
        require: Iterable[str] = ("exp",),
        leeway: Seconds = 1,
        longest: int = 8192,
        footer: Footer | None = None,
        assertion: Text = "",
    ) -> None:
        """``keys`` is one key or a ``KeyRing``, whose later changes count; of a private key the public one reads. Each token
        has the audience ``aud``, if given, and each expected claim; it has the required claims, ``exp`` by default, and at most
        ``longest`` bytes. With a leeway of one second, the default, a token is taken in the second in which it was issued.
        Without a ``footer`` a token may have any; a ring takes the one that names the key."""
        if not isinstance(keys, (LocalKey, PrivateKey, PublicKey, KeyRing)):
            raise TypeError("a Reader takes a key or a KeyRing")
        if isinstance(keys, KeyRing) and footer is not None:
            raise ValueError("the footer of a token names the key of a ring")
        self._keys = keys.public if isinstance(keys, PrivateKey) else keys
        self._checks = checks_of(aud, expected, require, leeway, longest)
        self._names = [*(expected or {}), *(() if aud is None else ("aud",))]
        self._footer = None if footer is None else footer_of(footer)
        self._assertion = text_of(assertion, "an implicit assertion")

    def admit(self, token: Text, *, now: Moment = None, assertion: Text | None = None) -> dict[str, Any]:
        """The claims of a token. Raises a subclass of ``Refused``, whose ``status`` is 401, or 403 for a token of another
        audience. An ``assertion`` replaces that of the reader."""
        read = token_of(token)
        if self._checks.longest and len(read) > self._checks.longest:
            raise TooLong
        footer = _library.footer(read) if self._footer is None else self._footer
        key = self._keys.key_for(footer.decode()) if isinstance(self._keys, KeyRing) else self._keys
        bound = _bound(key, footer, self._assertion if assertion is None else assertion)
        return claims_of(read, key, bound, moment_of(now), self._checks, self._names)
