"""What the middlewares share: where a token stands in a request, and what a refusal says."""

from __future__ import annotations

import logging

from ._errors import Refused

LOG = logging.getLogger("paseto")


def bearer_token(authorization: str | None) -> str | None:
    """The token of an ``Authorization`` header, or ``None`` where the header is not there or names another scheme.

    >>> bearer_token("Bearer v4.local.AA")
    'v4.local.AA'
    """
    scheme, _, token = (authorization or "").strip().partition(" ")
    return token.strip() if scheme.lower() == "bearer" else None


def cookie_token(cookies: str | None, name: str) -> str | None:
    """The value of the first cookie of this name in a ``Cookie`` header, or ``None`` where there is none."""
    for pair in (cookies or "").split(";"):
        found, is_set, value = pair.strip().partition("=")
        if is_set and found == name:
            return value
    return None


def answer_to(refusal: Refused | None) -> tuple[int, list[tuple[str, str]], bytes]:
    """The status, the headers and the body of the answer to a request whose token is refused, or that has none."""
    status = 401 if refusal is None else refusal.status
    body = (b"a token is needed" if refusal is None else b"the token is for others" if status == 403 else b"the token is refused") + b"\n"
    headers = [
        ("WWW-Authenticate", "Bearer" if refusal is None else refusal.challenge),
        ("Content-Type", "text/plain; charset=utf-8"),
        ("Content-Length", str(len(body))),
        ("Cache-Control", "no-store"),
    ]
    if refusal is not None:
        LOG.info("token refused: %s: %s", type(refusal).__name__, refusal.text())
    return status, headers, body
