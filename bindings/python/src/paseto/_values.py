"""The caller's values as the library takes them. What is wrong with them is a ``TypeError`` or a ``ValueError``."""

from __future__ import annotations

import json
import time
from collections.abc import Iterable, Mapping
from datetime import datetime, timedelta, timezone
from typing import Any, Union
from uuid import UUID

from ._errors import InvalidMoment

Text = Union[str, bytes]
Footer = Union[str, bytes, Mapping[str, Any]]
Seconds = Union[int, timedelta]
Moment = Union[int, datetime, None]
# How many nanoseconds a second has.
SECOND = 10**9
# How deeply the library reads lists and objects within each other.
_DEEPEST = 127


def text_of(value: Text, what: str) -> bytes:
    """The bytes of a text, which must be UTF-8."""
    if isinstance(value, bytes):
        value.decode()
        return value
    if not isinstance(value, str):
        raise TypeError(f"{what} is a str, and not a {type(value).__name__}")
    return value.encode()


def footer_of(value: Footer) -> bytes:
    """The bytes of a footer, which is a text, or a mapping that becomes compact JSON."""
    return json_of(value, "a footer") if isinstance(value, Mapping) else text_of(value, "a footer")


def token_of(value: Text) -> bytes:
    """The bytes of a token. Those that are no UTF-8, and lone surrogates, are passed on: the library refuses the token."""
    if not isinstance(value, (str, bytes)):
        raise TypeError(f"a token is a str or bytes, and not a {type(value).__name__}")
    return value.encode("utf-8", "surrogatepass") if isinstance(value, str) else value


def json_of(values: Mapping[str, Any], what: str) -> bytes:
    """The text of a JSON object. A datetime is written as RFC 3339 and a UUID as its text; what JSON does not have, and a
    number that is not a 64-bit integer, is refused."""
    if not isinstance(values, Mapping):
        raise TypeError(f"{what} is a mapping, and not a {type(values).__name__}")
    return json.dumps(_said(values, what, 0), ensure_ascii=False, separators=(",", ":")).encode()


def _said(value: Any, what: str, depth: int) -> Any:
    """A value of JSON as plain Python."""
    if value is None or isinstance(value, (bool, str)):
        return value
    if isinstance(value, int):
        if not -(2**63) <= value < 2**64:
            raise ValueError(f"{what} cannot have a number of more than 64 bits")
        return int(value)
    if isinstance(value, datetime):
        if value.tzinfo is None:
            raise TypeError(f"a datetime in {what} names its time zone")
        return value.isoformat()
    if isinstance(value, UUID):
        return str(value)
    if not isinstance(value, (Mapping, list, tuple)):
        raise TypeError(f"{what} cannot have a {type(value).__name__}")
    if depth == _DEEPEST:
        raise ValueError(f"{what} is nested more than {_DEEPEST} deep")
    if not isinstance(value, Mapping):
        return [_said(item, what, depth + 1) for item in value]
    if not all(isinstance(key, str) for key in value):
        raise TypeError(f"a key in {what} is a str")
    return {str(key): _said(item, what, depth + 1) for key, item in value.items()}


def names_of(require: Iterable[str]) -> bytes:
    """The JSON array of required names, empty where none is required."""
    names = [require] if isinstance(require, str) else list(require)
    if not all(isinstance(name, str) for name in names):
        raise TypeError("the name of a required claim is a str")
    return json.dumps(names, ensure_ascii=False).encode() if names else b""


def seconds_of(value: Seconds, what: str) -> int:
    """A number of whole seconds; a part of one counts as a whole one."""
    if isinstance(value, timedelta):
        value = -(-value // timedelta(seconds=1))
    if isinstance(value, bool) or not isinstance(value, int):
        raise TypeError(f"{what} is an int or a timedelta, and not a {type(value).__name__}")
    return value


def moment_of(now: Moment) -> int:
    """The given time, or the current time, in nanoseconds after 1970."""
    if isinstance(now, datetime):
        if now.tzinfo is None:
            raise TypeError("a datetime names its time zone")
        moment = (now - datetime(1970, 1, 1, tzinfo=timezone.utc)) // timedelta(microseconds=1) * 1000
    else:
        moment = time.time_ns() if now is None else seconds_of(now, "now") * SECOND
    if not -(2**63) <= moment < 2**63:
        raise InvalidMoment
    return moment


def date_of(moment: int) -> str:
    """The RFC 3339 text of a time, in seconds after 1970."""
    try:
        return (datetime(1970, 1, 1, tzinfo=timezone.utc) + timedelta(seconds=moment)).isoformat()
    except OverflowError:
        raise InvalidMoment from None
