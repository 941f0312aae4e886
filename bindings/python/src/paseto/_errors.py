"""The errors of the library, an exception class each."""

from __future__ import annotations


class PasetoError(Exception):
    """An error of the library. Its text is that of its ``code``, or a message with more detail."""

    # The number of the error in the library for C, or 0 where the package itself finds it.
    code = 0
    # What a service answers by HTTP.
    status = 500

    def __init__(self, line: str | None = None) -> None:
        super().__init__(self.text() if line is None else line)

    @classmethod
    def text(cls) -> str:
        """The library's text for the error, which holds nothing of a token."""
        # That file raises these exceptions, so it is read when this one is.
        from ._library import status_text

        return status_text(cls.code)


class Refused(PasetoError):
    """The token is rejected: the fault lies in the token, and not in the calling program."""

    status = 401

    @property
    def challenge(self) -> str:
        """The value of ``WWW-Authenticate`` (RFC 6750) for this refusal. It holds nothing of a token."""
        error = "insufficient_scope" if self.status == 403 else "invalid_token"
        said = "".join(letter for letter in self.text() if " " <= letter <= "~" and letter not in '"\\')
        return f'Bearer error="{error}", error_description="{said}"'


class Forbidden(Refused):
    """The token is authentic, and was made for another audience."""

    status = 403


# ---- the statuses, from c/statuses.txt


class NoMemory(PasetoError, MemoryError):
    """Out of memory."""

    code = 2


class InvalidKey(PasetoError, ValueError):
    """A key has the wrong length or form."""

    code = 3


class InvalidNonce(PasetoError):
    """A nonce, a seed or a salt has the wrong length."""

    code = 4


class NotUtf8(Refused):
    """The token is not UTF-8 text, for example because of a lone surrogate."""

    code = 5


class NotObject(Refused):
    """Claims are not a JSON object."""

    code = 6


class InvalidMoment(PasetoError, ValueError):
    """The current time, or the time at which the token would expire, is out of range."""

    code = 7


class IncorrectSize(Refused):
    """The token does not have three or four sections, or its payload is too short."""

    code = 8


class FooterInvalid(Refused):
    """The token has a different footer."""

    code = 9


class WrongHeader(Refused):
    """The token has a different version or purpose."""

    code = 10


class PayloadBase64Decode(Refused):
    """A section of the token is not valid base64url."""

    code = 11


class Cryption(Refused):
    """The token was made with a different key or implicit assertion, or was modified."""

    code = 12


class ChaChaCipherError(Refused):
    """The same for local tokens of version 2."""

    code = 13


class InvalidSignature(Refused):
    """The token's signature is not valid under the public key and the implicit assertion."""

    code = 14


class Utf8Error(Refused):
    """The decrypted text, or the token's footer, is not UTF-8."""

    code = 15


class FromUtf8Error(Refused):
    """The signed text is not UTF-8."""

    code = 16


class KeyRejected(PasetoError):
    """These bytes are not a private key."""

    code = 17


class Signature(PasetoError):
    """The two halves of the private key do not belong together."""

    code = 18


class PayloadJsonError(Refused):
    """The payload of the token is not JSON."""

    code = 19


class Expired(Refused):
    """The token has expired."""

    code = 20


class UseBeforeAvailable(Refused):
    """The token may not be used yet."""

    code = 21


class Rfc3339Date(Refused):
    """``exp`` or ``nbf`` is not an RFC 3339 date and time."""

    code = 22


class Missing(Refused):
    """An expected claim is missing."""

    code = 23


class Unexpected(Refused):
    """A claim has another type, or contains a number that is not a 64-bit integer."""

    code = 24


class Invalid(Forbidden):
    """An expected claim has another text."""

    code = 25


class DuplicateTopLevelPayloadClaim(PasetoError):
    """A claim was set twice."""

    code = 26


class Other(PasetoError):
    """No call raises it."""

    code = 27


class RsaCipher(PasetoError):
    """The numbers of a version 1 private key are inconsistent."""

    code = 28


class TooLong(Refused):
    """The token is longer than ``longest``."""

    code = 29


class NotNames(PasetoError):
    """No call raises it."""

    code = 30


class NoPaserk(InvalidKey):
    """The text does not begin as a PASERK key."""

    code = 31


class OtherVersion(InvalidKey):
    """The key is of another version."""

    code = 32


class OtherType(InvalidKey):
    """The key has another type (local, private or public)."""

    code = 33


class NotPem(InvalidKey):
    """The text is not a key in PEM, or has more than one."""

    code = 34


class EncryptedKey(InvalidKey):
    """The key in PEM is encrypted."""

    code = 35


class OtherLabel(InvalidKey):
    """The PEM text has another label, for example that of a public key in place of a private one."""

    code = 36


class OtherAlgorithm(InvalidKey):
    """The key in PEM is of another algorithm."""

    code = 37


class OtherCurve(InvalidKey):
    """The key in PEM is of another curve."""

    code = 38


class OtherSize(InvalidKey):
    """The key in PEM is an RSA key of another size than 2048 bits."""

    code = 39


class NoAssertion(PasetoError, ValueError):
    """Tokens of versions 1 and 2 have no implicit assertion."""

    code = 40


class NeedsPassword(InvalidKey):
    """The key is under a password."""

    code = 41


class NeedsKey(InvalidKey):
    """The key is wrapped or sealed."""

    code = 42


class WrongKey(InvalidKey):
    """The password or the key is a wrong one, or the text was modified."""

    code = 43


class TooCostly(InvalidKey):
    """The password of the key asks for more work than is allowed."""

    code = 44


class InvalidOptions(PasetoError):
    """The library is of another version than the package."""

    code = 45


class NoFooter(Refused):
    """The token has no footer."""

    code = 46


class FooterNotObject(Refused):
    """The footer of the token is not a JSON object."""

    code = 47


class NoKeyId(Refused):
    """The footer of the token has no string under ``kid``."""

    code = 48


class UnknownKey(Refused):
    """The footer of the token names no key, or a key that is not in the ring."""

    code = 49


class Random(PasetoError):
    """The system has no random bytes."""

    code = 50


# ---- other faults


class Revoked(Refused):
    """The token was revoked."""

    @classmethod
    def text(cls) -> str:
        return "the token was revoked"


def _faults(of: type[PasetoError]) -> dict[int, type[PasetoError]]:
    """The exceptions by their codes."""
    found: dict[int, type[PasetoError]] = {}
    for fault in of.__subclasses__():
        found.update(_faults(fault))
        if "code" in vars(fault):
            found[fault.code] = fault
    return found


FAULTS = _faults(PasetoError)
