"""``libpaseto.so``: every call of the library that the package makes stands in this file."""

from __future__ import annotations

import ctypes
import os
from collections.abc import Callable
from pathlib import Path
from typing import Any, NamedTuple

from ._errors import FAULTS, InvalidKey

# The versions whose tokens are bound to an implicit assertion.
ASSERTING = (3, 4)
_OK = 0
_ROOM = 1
# How many random bytes are enough for each call that takes some.
_DRAWN = 48
# What the library calls a type of key.
_NUMBERS = {"local": 1, "private": 2, "public": 3}
_TYPES = {number: name for name, number in _NUMBERS.items()}


class Bound(NamedTuple):
    """What a token is bound to: its footer, and its implicit assertion."""

    footer: bytes
    assertion: bytes


class Checks(NamedTuple):
    """What is asked of a token's claims: the expected ones and the required names as JSON, the leeway in seconds, and how many
    bytes a token may have, with 0 for any number."""

    expected: bytes
    required: bytes
    leeway: int
    longest: int


class Held(NamedTuple):
    """A key: its version, its type, ``local``, ``private`` or ``public``, and its bytes."""

    version: int
    type: str
    bytes: bytes


class _Options(ctypes.Structure):
    """``struct paseto_options``."""

    _fields_ = [
        ("size", ctypes.c_size_t),
        ("leeway", ctypes.c_uint32),
        ("longest", ctypes.c_size_t),
        ("longest_footer", ctypes.c_size_t),
        ("required", ctypes.c_char_p),
        ("required_length", ctypes.c_size_t),
    ]


class _Key(ctypes.Structure):
    """``struct paseto_key``."""

    _fields_ = [
        ("version", ctypes.c_uint8),
        ("type", ctypes.c_uint8),
        ("length", ctypes.c_uint16),
        ("bytes", ctypes.c_uint8 * 1244),
    ]


def _found() -> str:
    """The path of the library: that of ``PASETO_LIBRARY``, that in the package, or one that the loader finds."""
    own = Path(__file__).with_name("libpaseto.so")
    return os.environ.get("PASETO_LIBRARY") or (str(own) if own.exists() else "libpaseto.so.1")


# What ctypes makes of pointers has types of its own.
_LENT: list[Any] = [ctypes.c_char_p, ctypes.c_size_t]
_ANSWER: list[Any] = [*_LENT, ctypes.POINTER(ctypes.c_size_t)]
_BOUND: list[Any] = [*_LENT, *_LENT]
_HELD: Any = ctypes.POINTER(_Key)
_CLAIMS: list[Any] = [*_LENT, ctypes.c_int64, *_BOUND]
# The argument types of each call before the buffers for the result and for the reason of a refusal; a call that makes a key has only
# the latter.
_TOLD: dict[str, list[Any]] = {
    "paseto_encrypt_with": [_HELD, *_LENT, *_LENT, *_BOUND, *_ANSWER],
    "paseto_sign_with": [_HELD, *_LENT, *_LENT, *_BOUND, *_ANSWER],
    "paseto_issue_with": [_HELD, *_LENT, *_CLAIMS, *_ANSWER],
    "paseto_decrypt": [_HELD, *_LENT, *_BOUND, *_ANSWER],
    "paseto_verify": [_HELD, *_LENT, *_BOUND, *_ANSWER],
    "paseto_admit": [_HELD, *_LENT, *_CLAIMS, ctypes.POINTER(_Options), *_ANSWER],
    "paseto_token_footer": [*_LENT, *_ANSWER],
    "paseto_key_text": [_HELD, *_ANSWER],
    "paseto_key_pem": [_HELD, *_ANSWER],
    "paseto_key_id": [_HELD, *_ANSWER],
    "paseto_key_read": [*_LENT, _HELD],
    "paseto_key_unlock": [*_LENT, *_LENT, _HELD],
    "paseto_key_unwrap": [*_LENT, _HELD, _HELD],
    "paseto_key_public": [_HELD, _HELD],
    "paseto_key_generate_with": [ctypes.c_uint8, ctypes.c_uint8, *_LENT, _HELD],
}


_Calls = dict[str, Callable[..., int]]


def _calls_of(library: ctypes.CDLL) -> _Calls:
    """The calls of a library, with their types."""
    calls: _Calls = {}
    for name, types in [*((it, [*types, *_ANSWER]) for it, types in _TOLD.items()), ("paseto_error_text", [ctypes.c_uint8, *_ANSWER])]:
        call = getattr(library, name)
        call.argtypes, call.restype = types, ctypes.c_uint8
        calls[name] = call
    return calls


_library = ctypes.CDLL(_found())
_CALLS = _calls_of(_library)
# The same, with the interpreter's lock held. A local token of this many bytes takes some microseconds, and threads that give up
# the lock for so short a time admit a fifth fewer tokens.
_SHORT_CALLS = _calls_of(ctypes.PyDLL(_found()))
_SHORT = 8192


# ---- tokens


def write(key: Held, text: bytes, bound: Bound) -> bytes:
    """The token that holds a text, encrypted or signed."""
    call = "paseto_encrypt_with" if key.type == "local" else "paseto_sign_with"
    return _ask(call, (_held(key), *_drawn(), *_lent(text), *_tail(bound)), 1024 + 2 * len(text), _calls(key, text))


def build(key: Held, claims: bytes, moment: int, bound: Bound) -> bytes:
    """The token that holds claims, with ``exp``, ``iat`` and ``nbf`` where they have none. A moment is in nanoseconds."""
    words = (_held(key), *_drawn(), *_lent(claims), moment, *_tail(bound))
    return _ask("paseto_issue_with", words, 1024 + 2 * len(claims), _calls(key, claims))


def read(key: Held, token: bytes, bound: Bound) -> bytes:
    """The text of a token, decrypted or verified."""
    call = "paseto_decrypt" if key.type == "local" else "paseto_verify"
    return _ask(call, (_held(key), *_lent(token), *_tail(bound)), len(token), _calls(key, token))


def parse(key: Held, token: bytes, moment: int, bound: Bound, checks: Checks) -> bytes:
    """The claims of a token that passes the checks."""
    options = _Options(ctypes.sizeof(_Options), checks.leeway, checks.longest, 0, *_lent(checks.required))
    words = (_held(key), *_lent(token), *_lent(checks.expected), moment, *_tail(bound), ctypes.byref(options))
    return _ask("paseto_admit", words, len(token), _calls(key, token))


def footer(token: bytes) -> bytes:
    """The footer of a token."""
    return _ask("paseto_token_footer", _lent(token), len(token))


# ---- keys


def generate(version: int, key_type: str) -> Held:
    """A new key from random bytes."""
    return _made("paseto_key_generate_with", (version, _NUMBERS[key_type], *_drawn()))


def public_half(key: Held) -> Held:
    """The public key of a private one."""
    return _made("paseto_key_public", (_held(key),))


def key_text(key: Held, form: str) -> str:
    """What a key is in a form: ``text``, ``id`` or ``pem``."""
    # In PEM the keys of version 2 are those of version 4.
    told = key._replace(version=4) if form == "pem" and key.version == 2 else key
    return _ask(f"paseto_key_{form}", (_held(told),), 2048).decode()


def key_of(text: bytes) -> Held:
    """The key of a text, PASERK or PEM."""
    return _made("paseto_key_read", _lent(text))


def unlocked(text: bytes, password: bytes) -> Held:
    """The key of a text that is under a password."""
    return _made("paseto_key_unlock", (*_lent(text), *_lent(password)))


def unwrapped(text: bytes, opener: Held) -> Held:
    """The key of a text that another key opens."""
    return _made("paseto_key_unwrap", (*_lent(text), _held(opener)))


# ---- arguments and results


def status_text(code: int) -> str:
    """The library's text for a status, in one line."""
    room, written = ctypes.create_string_buffer(100), ctypes.c_size_t()
    _CALLS["paseto_error_text"](code, room, 100, ctypes.byref(written))
    return room.raw[: written.value].decode()


def _lent(value: bytes) -> tuple[bytes, int]:
    """Bytes as a pointer and a length, as C takes them."""
    return value, len(value)


def _held(key: Held) -> _Key:
    """A key as C has it."""
    held = _Key(key.version, _NUMBERS[key.type], len(key.bytes))
    if len(key.bytes) > len(held.bytes):
        raise InvalidKey
    ctypes.memmove(held.bytes, key.bytes, len(key.bytes))
    return held


def _drawn() -> tuple[bytes, int]:
    """Random bytes, as many as a call may take."""
    return _lent(os.urandom(_DRAWN))


def _tail(bound: Bound) -> tuple[Any, ...]:
    """The footer, and the implicit assertion."""
    return (*_lent(bound.footer), *_lent(bound.assertion))


def _made(call: str, words: tuple[Any, ...]) -> Held:
    """The key that a call makes."""
    held = _Key()
    _ask(call, (*words, held), None)
    return Held(held.version, _TYPES[held.type], bytes(held.bytes[: held.length]))


def _calls(key: Held, text: bytes) -> _Calls:
    """The calls to ask of a key and a text or token."""
    return _SHORT_CALLS if key.type == "local" and len(text) <= _SHORT else _CALLS


def _ask(call: str, words: tuple[Any, ...], length: int | None, calls: _Calls = _CALLS) -> bytes:
    """The result of a call, first with a buffer of this length, then with one of the length that is needed. With no length the
    call has no buffer for a result. The text of an exception is the line in which the library says why."""
    line_length = 200
    while True:
        room, line = ctypes.create_string_buffer(max(length or 0, 1)), ctypes.create_string_buffer(line_length)
        written, told = ctypes.c_size_t(), ctypes.c_size_t()
        answer = () if length is None else (room, length, ctypes.byref(written))
        code = calls[call](*words, *answer, line, line_length, ctypes.byref(told))
        if code == _OK:
            return room.raw[: written.value]
        if code == _ROOM:
            length = written.value
        elif told.value > line_length:
            line_length = told.value
        else:
            raise FAULTS[code](line.raw[: told.value].decode())
