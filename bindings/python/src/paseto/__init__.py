"""PASETO tokens, versions 1 to 4, on top of the proved C library.

    >>> import paseto
    >>> key = paseto.LocalKey.generate()
    >>> token = paseto.issue(key, {"sub": "ada", "aud": "customers"}, expires_in=3600)
    >>> paseto.admit(token, key, aud="customers")["sub"]
    'ada'

A token that a ``LocalKey`` issues is encrypted. One that a ``PrivateKey`` issues is signed: everybody can read it, and the
``PublicKey`` verifies it. A service decides once, in a ``Reader``, which tokens it takes; ``paseto.asgi`` and ``paseto.wsgi``
have a middleware over it. Each error is an exception class of its own. Exceptions that the token caused are subclasses of
``Refused``, whose ``status`` a service answers: 401, or 403 for a token of another audience. What is wrong with the caller's
own values is a ``TypeError`` or a ``ValueError``, before anything is called. All calls may be made from several threads at once.

The library is the ``libpaseto.so`` of the package, or the one that the environment variable ``PASETO_LIBRARY`` names.
"""

from . import asgi, wsgi
from ._errors import (
    ChaChaCipherError,
    Cryption,
    DuplicateTopLevelPayloadClaim,
    EncryptedKey,
    Expired,
    FooterInvalid,
    FooterNotObject,
    Forbidden,
    FromUtf8Error,
    IncorrectSize,
    Invalid,
    InvalidKey,
    InvalidMoment,
    InvalidNonce,
    InvalidOptions,
    InvalidSignature,
    KeyRejected,
    Missing,
    NeedsKey,
    NeedsPassword,
    NoAssertion,
    NoFooter,
    NoKeyId,
    NoMemory,
    NoPaserk,
    NotNames,
    NotObject,
    NotPem,
    NotUtf8,
    Other,
    OtherAlgorithm,
    OtherCurve,
    OtherLabel,
    OtherSize,
    OtherType,
    OtherVersion,
    PasetoError,
    PayloadBase64Decode,
    PayloadJsonError,
    Random,
    Refused,
    Revoked,
    Rfc3339Date,
    RsaCipher,
    Signature,
    TooCostly,
    TooLong,
    Unexpected,
    UnknownKey,
    UseBeforeAvailable,
    Utf8Error,
    WrongHeader,
    WrongKey,
)
from ._http import bearer_token
from ._keys import Key, LocalKey, PrivateKey, PublicKey
from ._reader import Reader
from ._ring import KeyRing, key_footer, kid_of
from ._tokens import admit, decrypt, encrypt, footer_of, issue, sign, verify

__version__ = "1.0.0"

__all__ = [
    "ChaChaCipherError",
    "Cryption",
    "DuplicateTopLevelPayloadClaim",
    "EncryptedKey",
    "Expired",
    "FooterInvalid",
    "FooterNotObject",
    "Forbidden",
    "FromUtf8Error",
    "IncorrectSize",
    "Invalid",
    "InvalidKey",
    "InvalidMoment",
    "InvalidNonce",
    "InvalidOptions",
    "InvalidSignature",
    "Key",
    "KeyRejected",
    "KeyRing",
    "LocalKey",
    "Missing",
    "NeedsKey",
    "NeedsPassword",
    "NoAssertion",
    "NoFooter",
    "NoKeyId",
    "NoMemory",
    "NoPaserk",
    "NotNames",
    "NotObject",
    "NotPem",
    "NotUtf8",
    "Other",
    "OtherAlgorithm",
    "OtherCurve",
    "OtherLabel",
    "OtherSize",
    "OtherType",
    "OtherVersion",
    "PasetoError",
    "PayloadBase64Decode",
    "PayloadJsonError",
    "PrivateKey",
    "PublicKey",
    "Reader",
    "Random",
    "Refused",
    "Revoked",
    "Rfc3339Date",
    "RsaCipher",
    "Signature",
    "TooCostly",
    "TooLong",
    "Unexpected",
    "UnknownKey",
    "UseBeforeAvailable",
    "Utf8Error",
    "WrongHeader",
    "WrongKey",
    "admit",
    "asgi",
    "bearer_token",
    "decrypt",
    "encrypt",
    "footer_of",
    "issue",
    "key_footer",
    "kid_of",
    "sign",
    "verify",
    "wsgi",
]
