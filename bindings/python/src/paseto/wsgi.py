"""A middleware for WSGI, as under Flask and Django.

    application = paseto.wsgi.TokenMiddleware(application, paseto.Reader(ring, aud="customers"))

The application finds the claims of an admitted token in ``environ["paseto"]``.
"""

from __future__ import annotations

from collections.abc import Callable, Iterable
from http import HTTPStatus
from typing import Any

from ._errors import Refused, Revoked
from ._http import answer_to, bearer_token, cookie_token
from ._reader import Reader

Environ = dict[str, Any]
App = Callable[[Environ, Callable[..., Any]], Iterable[bytes]]


class TokenMiddleware:
    """Lets requests through whose token the reader admits, and answers 401 or 403 to others.

    The token is that of the ``Authorization: Bearer`` header or, if ``cookie`` names one, of a cookie. With ``is_optional`` a
    request without a token goes through with ``None`` for claims; one with a token that is refused does not. ``is_revoked`` gets
    the claims of an admitted token. What it raises, and what is wrong with the set-up, is for the server, which answers 500.
    """

    def __init__(
        self, app: App, reader: Reader, *, cookie: str | None = None, is_optional: bool = False,
        is_revoked: Callable[[dict[str, Any]], bool] | None = None,
    ) -> None:
        self._app, self._reader, self._cookie = app, reader, cookie
        self._is_optional, self._is_revoked = is_optional, is_revoked

    def __call__(self, environ: Environ, start_response: Callable[..., Any]) -> Iterable[bytes]:
        try:
            token = self._token(environ)
            claims = None if token is None else self._admitted(token)
        except Refused as refusal:
            return _refuse(start_response, refusal)
        if claims is None and not self._is_optional:
            return _refuse(start_response, None)
        environ["paseto"] = claims
        return self._app(environ, start_response)

    def _token(self, environ: Environ) -> str | None:
        """The token of a request."""
        if self._cookie is not None:
            return cookie_token(environ.get("HTTP_COOKIE"), self._cookie)
        return bearer_token(environ.get("HTTP_AUTHORIZATION"))

    def _admitted(self, token: str) -> dict[str, Any]:
        """The claims of a token that is admitted, and that was not revoked."""
        claims = self._reader.admit(token)
        if self._is_revoked is not None and self._is_revoked(claims):
            raise Revoked
        return claims


def _refuse(start_response: Callable[..., Any], refusal: Refused | None) -> Iterable[bytes]:
    """Answers a request whose token is refused, or that has none."""
    status, headers, body = answer_to(refusal)
    start_response(f"{status} {HTTPStatus(status).phrase}", headers)
    return [body]
