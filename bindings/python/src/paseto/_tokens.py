"""Tokens with claims, and tokens with texts."""

from __future__ import annotations

import json
from collections.abc import Iterable, Mapping
from typing import Any

from . import _library
from ._errors import Forbidden, NotObject, Refused, Unexpected
from ._keys import Key, LocalKey, PrivateKey, PublicKey
from ._library import ASSERTING, Bound, Checks
from ._values import SECOND, Footer, Moment, Seconds, Text, date_of, json_of, moment_of, names_of, seconds_of, text_of, token_of
from ._values import footer_of as _footer_of


def issue(
    key: LocalKey | PrivateKey,
    claims: Mapping[str, Any],
    *,
    expires_in: Seconds | None = 3600,
    now: Moment = None,
    footer: Footer = "",
    assertion: Text = "",
) -> str:
    """Makes a token with claims. The claims are JSON values; numbers must be 64-bit integers. A ``datetime`` with a time zone
    becomes an RFC 3339 string, and a ``UUID`` its text. Anything else, a float among them, raises a ``TypeError``.

    The token is usable at once and expires ``expires_in`` after ``now``, in seconds or a ``timedelta``, or never for ``None``;
    the claims may set ``exp``, ``iat`` and ``nbf`` otherwise. ``now`` is in seconds after 1970 or a ``datetime``, and the
    current time by default. Everybody can read the footer, which often holds the id of the key; a mapping becomes compact JSON.
    The implicit assertion is not in the token: ``admit`` needs the same one.
    """
    held, bound = _writer(key)._held(), _bound(key, footer, assertion)
    moment = moment_of(now)
    second = moment // SECOND
    dated = {"nbf": date_of(second - 1), **claims}
    if expires_in is None:
        # The library would add an `exp`.
        text = json_of({"iat": date_of(second), **dated}, "a claim")
        return _library.write(held, text, bound).decode()
    given = json_of({"exp": date_of(second + seconds_of(expires_in, "expires_in")), **dated}, "a claim")
    try:
        return _library.build(held, given, moment, bound).decode()
    except Refused as fault:
        raise ValueError(f"the claims are no claims: {fault}") from fault


def admit(
    token: Text,
    key: LocalKey | PublicKey,
    *,
    aud: str | None = None,
    expected: Mapping[str, Any] | None = None,
    require: Iterable[str] = (),
    leeway: Seconds = 0,
    longest: int = 0,
    now: Moment = None,
    footer: Footer = "",
    assertion: Text = "",
) -> dict[str, Any]:
    """Returns the claims of a token, if it was made with this key, footer and implicit assertion, is usable at the time
    ``now``, and has the audience ``aud``, if given, and each expected claim. Otherwise raises a subclass of ``Refused``, whose
    text says which claim failed.

    A token without ``exp`` never expires: use ``require=["exp"]`` to refuse it. The clocks of issuer and reader may differ by
    ``leeway``, in seconds or a ``timedelta``. A token of more than ``longest`` bytes is refused before it is decoded; 0 means no
    limit. A ``Reader`` decides all of this once.
    """
    checks = checks_of(aud, expected, require, leeway, longest)
    names = [*(expected or {}), *(() if aud is None else ("aud",))]
    return claims_of(token_of(token), key, _bound(_reader(key), footer, assertion), moment_of(now), checks, names)


def checks_of(aud: str | None, expected: Mapping[str, Any] | None, require: Iterable[str], leeway: Seconds, longest: int) -> Checks:
    """What is asked of claims."""
    if aud is not None and not isinstance(aud, str):
        raise TypeError(f"an audience is a str, and not a {type(aud).__name__}")
    wanted = {**(expected or {}), **({} if aud is None else {"aud": aud})}
    gap = seconds_of(leeway, "leeway")
    if not (0 <= gap < 2**32 and 0 <= longest < 2**64):
        raise ValueError("leeway is a number of seconds below 2**32, and longest one of bytes")
    return Checks(json_of(wanted, "an expected claim"), names_of(require), gap, longest)


def claims_of(token: bytes, key: Key, bound: Bound, moment: int, checks: Checks, names: Iterable[str]) -> dict[str, Any]:
    """The claims of a token that passes the checks, which expect claims of these names."""
    try:
        text = _library.parse(key._held(), token, moment, bound, checks)
    except Unexpected as fault:
        # An expected number or list that is another one: the token is for another audience, as with a text.
        if any(f"'{name}'" in str(fault) for name in names):
            fault.status = Forbidden.status
        raise
    claims = json.loads(text)
    if not isinstance(claims, dict):
        raise NotObject
    return claims


def encrypt(key: LocalKey, text: Text, *, footer: Footer = "", assertion: Text = "") -> str:
    """Encrypts a text as a local token, with a nonce from ``os.urandom``.

    >>> key = LocalKey.generate()
    >>> decrypt(encrypt(key, "hello"), key)
    'hello'
    """
    if not isinstance(key, LocalKey):
        raise TypeError("a text is encrypted under a LocalKey")
    return _library.write(key._held(), text_of(text, "a text"), _bound(key, footer, assertion)).decode()


def decrypt(token: Text, key: LocalKey, *, footer: Footer = "", assertion: Text = "") -> str:
    """Decrypts a local token with this key, footer and implicit assertion, and returns its text. It checks no times."""
    if not isinstance(key, LocalKey):
        raise TypeError("a token is decrypted under a LocalKey")
    return _library.read(key._held(), token_of(token), _bound(key, footer, assertion)).decode()


def sign(key: PrivateKey, text: Text, *, footer: Footer = "", assertion: Text = "") -> str:
    """Signs a text as a public token, which everybody can read.

    >>> key = PrivateKey.generate()
    >>> verify(sign(key, "hello"), key.public)
    'hello'
    """
    if not isinstance(key, PrivateKey):
        raise TypeError("a text is signed under a PrivateKey")
    return _library.write(key._held(), text_of(text, "a text"), _bound(key, footer, assertion)).decode()


def verify(token: Text, key: PublicKey, *, footer: Footer = "", assertion: Text = "") -> str:
    """Verifies a public token with this key, footer and implicit assertion, and returns its text. It checks no times."""
    if not isinstance(key, PublicKey):
        raise TypeError("a token is verified under a PublicKey")
    return _library.read(key._held(), token_of(token), _bound(key, footer, assertion)).decode()


def footer_of(token: Text) -> str:
    """The footer of a token, for example the id of its key, or the empty string if it has none.

    Do not trust it before the token has been admitted with it.
    """
    return _library.footer(token_of(token)).decode()


def _writer(key: LocalKey | PrivateKey) -> LocalKey | PrivateKey:
    if not isinstance(key, (LocalKey, PrivateKey)):
        raise TypeError("a token is issued under a LocalKey or a PrivateKey")
    return key


def _reader(key: LocalKey | PublicKey) -> LocalKey | PublicKey:
    if not isinstance(key, (LocalKey, PublicKey)):
        raise TypeError("a token is admitted under a LocalKey or a PublicKey")
    return key


def _bound(key: Key, footer: Footer, assertion: Text) -> Bound:
    """What a token under the key is bound to."""
    bound = Bound(_footer_of(footer), text_of(assertion, "an implicit assertion"))
    if bound.assertion and key.version not in ASSERTING:
        raise ValueError("tokens of the versions 1 and 2 have no implicit assertion")
    return bound
