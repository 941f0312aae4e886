"""Keys of every version, as bytes, PASERK and PEM."""

from __future__ import annotations

import hashlib
import hmac
import os
from typing import ClassVar, NoReturn

from . import _library
from ._errors import InvalidKey, KeyRejected
from ._library import Held
from ._values import Text, text_of

# Keys are hashed under it, so that a hash tells nothing of a key.
_HASHED = os.urandom(32)


class Key:
    """A key of a version. Its ``repr`` does not show it, and it cannot be pickled. Two keys are compared in a time that does
    not depend on their bytes."""

    __slots__ = ("_bytes", "_version")
    # How many bytes a key of each version has; one of RSA is DER of any length.
    _lengths: ClassVar[dict[int, int | None]] = {}
    # What the library calls keys of this type.
    _type: ClassVar[str] = ""

    def __init__(self, value: bytes, version: int = 4) -> None:
        if version not in self._lengths:
            raise ValueError("a version is 1, 2, 3 or 4")
        if not isinstance(value, (bytes, bytearray, memoryview)):
            raise TypeError(f"a key is made from bytes, and not from a {type(value).__name__}")
        length = self._lengths[version]
        if length is not None and len(value) != length:
            raise InvalidKey
        self._bytes, self._version = bytes(value), version

    def __repr__(self) -> str:
        return f"<{type(self).__name__} of version {self._version}>"

    def __reduce__(self) -> NoReturn:
        raise TypeError(f"a {type(self).__name__} is stored by to_bytes() or to_text() alone")

    def __eq__(self, other: object) -> bool:
        if not isinstance(other, Key):
            return NotImplemented
        is_same = hmac.compare_digest(self._bytes, other._bytes)
        return is_same and (self._type, self._version) == (other._type, other._version)

    def __hash__(self) -> int:
        return hash((self._type, self._version, hashlib.blake2b(self._bytes, key=_HASHED, digest_size=16).digest()))

    @property
    def version(self) -> int:
        """The version of tokens that the key is for."""
        return self._version

    def to_bytes(self) -> bytes:
        """The key's bytes, to store them."""
        return self._bytes

    def to_text(self) -> str:
        """The key as PASERK text, ``k4.local..``, as in the key files of the program ``paseto``."""
        return _library.key_text(self._held(), "text")

    def to_pem(self) -> str:
        """A private or a public key in PEM, byte for byte as ``openssl pkey`` writes it. A key for local tokens has no PEM
        text.

        >>> PrivateKey.generate().public.to_pem().splitlines()[0]
        '-----BEGIN PUBLIC KEY-----'
        """
        if isinstance(self, LocalKey):
            raise InvalidKey("a key for local tokens has no PEM text")
        return _library.key_text(self._held(), "pem")

    @property
    def id(self) -> str:
        """The PASERK id, ``k4.lid..``, which identifies the key without revealing it. A private key has another one than its
        public key."""
        return _library.key_text(self._held(), "id")

    def _held(self) -> Held:
        """The key as the library takes it."""
        return Held(self._version, self._type, self._bytes)

    @staticmethod
    def from_text(text: Text) -> LocalKey | PrivateKey | PublicKey:
        """Reads a key from PASERK text, which may end in one newline, or a key pair's key from PEM, as ``openssl`` writes it.

        In PEM, an Ed25519 key is read as version 4, a P-384 key as version 3, and an RSA key of 2048 bits as version 1. For
        version 2, make the key from its bytes: ``PrivateKey(key.to_bytes(), 2)``.

        >>> key = LocalKey.generate()
        >>> Key.from_text(key.to_text()) == key
        True
        >>> pair = PrivateKey.generate()
        >>> Key.from_text(pair.to_pem()) == pair
        True
        """
        return _key_of(_library.key_of(text_of(text, "the text of a key")))

    @staticmethod
    def unlock(text: Text, password: Text) -> LocalKey | PrivateKey | PublicKey:
        """Reads a key that is under a password, ``k4.local-pw..`` or ``k4.secret-pw..``. Raises ``WrongKey`` for a wrong one."""
        return _key_of(_library.unlocked(text_of(text, "the text of a key"), text_of(password, "a password")))

    @staticmethod
    def unwrap(text: Text, opener: LocalKey | PrivateKey) -> LocalKey | PrivateKey | PublicKey:
        """Reads a key that another one opens: ``k4.local-wrap..`` or ``k4.secret-wrap..`` with the key that wrapped it, or
        ``k4.seal..`` with the private key of the public one that it was sealed to. Raises ``WrongKey`` for another key."""
        if not isinstance(opener, (LocalKey, PrivateKey)):
            raise TypeError("a key is opened by a LocalKey or a PrivateKey")
        return _key_of(_library.unwrapped(text_of(text, "the text of a key"), opener._held()))


class LocalKey(Key):
    """A key of 32 bytes, which encrypts and decrypts tokens."""

    __slots__ = ()
    _lengths = {1: 32, 2: 32, 3: 32, 4: 32}
    _type = "local"

    @classmethod
    def generate(cls, version: int = 4) -> LocalKey:
        """A new random key from ``os.urandom``."""
        return cls(os.urandom(32), version)


class PublicKey(Key):
    """A key that verifies signed tokens: 32 bytes in versions 2 and 4, 49 in version 3 (a compressed point), and in version 1 a
    PKCS #1 RSAPublicKey in DER."""

    __slots__ = ()
    _lengths = {1: None, 2: 32, 3: 49, 4: 32}
    _type = "public"

    def __init__(self, value: bytes, version: int = 4) -> None:
        super().__init__(value, version)
        if version == 3 and value[0] not in (2, 3):
            raise InvalidKey


class PrivateKey(Key):
    """A key that signs tokens: 64 bytes in versions 2 and 4 (the seed and the public key), 48 in version 3, and in version 1 a
    PKCS #8 PrivateKeyInfo in DER."""

    __slots__ = ()
    _lengths = {1: None, 2: 64, 3: 48, 4: 64}
    _type = "private"

    @classmethod
    def generate(cls, version: int = 4) -> PrivateKey:
        """A new key from a random seed of ``os.urandom``. Make keys of version 1 with ``openssl``."""
        if version == 1:
            raise ValueError("a key of version 1 is made by openssl genpkey")
        if version not in cls._lengths:
            raise ValueError("a version is 1, 2, 3 or 4")
        while True:
            try:
                return cls(_library.generate(version, cls._type).bytes, version)
            except KeyRejected:
                continue

    @property
    def public(self) -> PublicKey:
        """The public key of this private key."""
        return PublicKey(_library.public_half(self._held()).bytes, self._version)


def _key_of(held: Held) -> LocalKey | PrivateKey | PublicKey:
    """The key that the library has read."""
    kinds: dict[str, type[LocalKey] | type[PrivateKey] | type[PublicKey]]
    kinds = {"local": LocalKey, "private": PrivateKey, "public": PublicKey}
    return kinds[held.type](held.bytes, held.version)
