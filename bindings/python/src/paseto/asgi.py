"""A middleware for ASGI, as under Starlette, FastAPI and uvicorn.

    app = paseto.asgi.TokenMiddleware(app, paseto.Reader(ring, aud="customers"))

The application finds the claims of an admitted token in ``scope["paseto"]``.
"""

from __future__ import annotations

import inspect
from collections.abc import Awaitable, Callable, MutableMapping
from typing import Any, Union

from ._errors import Refused, Revoked
from ._http import answer_to, bearer_token, cookie_token
from ._reader import Reader

Scope = MutableMapping[str, Any]
Receive = Callable[[], Awaitable[MutableMapping[str, Any]]]
Send = Callable[[MutableMapping[str, Any]], Awaitable[None]]
App = Callable[[Scope, Receive, Send], Awaitable[None]]
IsRevoked = Callable[[dict[str, Any]], Union[bool, Awaitable[bool]]]


class TokenMiddleware:
    """Lets requests and websockets through whose token the reader admits, and answers 401 or 403 to others.

    The token is that of the ``Authorization: Bearer`` header or, if ``cookie`` names one, of a cookie. With ``is_optional`` a
    request without a token goes through with ``None`` for claims; one with a token that is refused does not. ``is_revoked`` gets
    the claims of an admitted token, and may be a coroutine function. What it raises, and what is wrong with the set-up, is for
    the server, which answers 500.
    """

    def __init__(
        self, app: App, reader: Reader, *, cookie: str | None = None, is_optional: bool = False, is_revoked: IsRevoked | None = None
    ) -> None:
        self._app, self._reader, self._cookie = app, reader, cookie
        self._is_optional, self._is_revoked = is_optional, is_revoked

    async def __call__(self, scope: Scope, receive: Receive, send: Send) -> None:
        if scope["type"] not in ("http", "websocket"):
            await self._app(scope, receive, send)
            return
        try:
            token = self._token(scope)
            claims = None if token is None else await self._admitted(token)
        except Refused as refusal:
            await _refuse(scope, receive, send, refusal)
            return
        if claims is None and not self._is_optional:
            await _refuse(scope, receive, send, None)
        else:
            await self._app({**scope, "paseto": claims}, receive, send)

    def _token(self, scope: Scope) -> str | None:
        """The token of a request."""
        name = b"authorization" if self._cookie is None else b"cookie"
        found = [value.decode("latin-1") for header, value in scope["headers"] if header.lower() == name]
        if self._cookie is not None:
            # HTTP/2 may send the cookies in several headers.
            return cookie_token("; ".join(found), self._cookie)
        # Of two headers another service might read the other one: together they are no token, as under WSGI.
        return bearer_token(",".join(found) or None)

    async def _admitted(self, token: str) -> dict[str, Any]:
        """The claims of a token that is admitted, and that was not revoked."""
        claims = self._reader.admit(token)
        if self._is_revoked is not None:
            found = self._is_revoked(claims)
            if await found if inspect.isawaitable(found) else found:
                raise Revoked
        return claims


async def _refuse(scope: Scope, receive: Receive, send: Send, refusal: Refused | None) -> None:
    """Answers a request, or closes a websocket before it is opened, which the server answers with 403."""
    status, headers, body = answer_to(refusal)
    if scope["type"] == "websocket":
        await receive()
        await send({"type": "websocket.close", "code": 1008})
        return
    encoded = [(name.lower().encode(), value.encode("latin-1")) for name, value in headers]
    await send({"type": "http.response.start", "status": status, "headers": encoded})
    await send({"type": "http.response.body", "body": body})
