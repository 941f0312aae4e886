"""Asks the middlewares under Starlette and uvicorn, Flask and Django, and runs the recipes of README.md as they stand there.

The frameworks are those of Debian's packages; README names the path of README.md.
"""

from __future__ import annotations

import asyncio
import contextlib
import http.client
import io
import json
import logging
import os
import re
import tempfile
import threading
import time
import unittest
import wsgiref.simple_server
from collections.abc import Iterator
from pathlib import Path
from typing import Any

import django
import django.conf
import flask
import paseto
import starlette.applications
import starlette.middleware
import starlette.responses
import starlette.routing
import uvicorn

README = Path(os.environ.get("README") or Path(__file__).resolve().parent.parent / "README.md")
Answer = tuple[int, "http.client.HTTPMessage", str]


def recipe(word: str) -> dict[str, Any]:
    """What the block of README.md that holds the word defines."""
    blocks = re.findall(r"^```python\n(.*?)^```$", README.read_text(encoding="utf-8"), re.M | re.S)
    named: dict[str, Any] = {"__name__": "recipe"}
    exec(next(block for block in blocks if word in block and ">>>" not in block), named)
    return named


def asked(port: int, path: str = "/me", **headers: str) -> Answer:
    """What a service on the loopback interface answers."""
    connection = http.client.HTTPConnection("127.0.0.1", port, timeout=10)
    try:
        connection.request("GET", path, headers=headers)
        answer = connection.getresponse()
        return answer.status, answer.headers, answer.read().decode()
    finally:
        connection.close()


@contextlib.contextmanager
def served_asgi(app: Any) -> Iterator[int]:
    """The port of an application under uvicorn."""
    server = uvicorn.Server(uvicorn.Config(app, host="127.0.0.1", port=0, log_level="critical"))
    thread = threading.Thread(target=server.run, daemon=True)
    thread.start()
    for _ in range(1000):
        if server.started:
            break
        time.sleep(0.01)
    yield server.servers[0].sockets[0].getsockname()[1]
    server.should_exit = True
    thread.join(10)


class Silent(wsgiref.simple_server.WSGIRequestHandler):
    def log_message(self, *_words: object) -> None:
        """Writes no log."""


@contextlib.contextmanager
def served_wsgi(app: Any) -> Iterator[int]:
    """The port of an application under the server of the standard library."""
    with wsgiref.simple_server.make_server("127.0.0.1", 0, app, handler_class=Silent) as server:
        thread = threading.Thread(target=server.serve_forever, daemon=True)
        thread.start()
        yield server.server_port
        server.shutdown()
        thread.join(10)


KEY = paseto.LocalKey.generate()
RING = paseto.KeyRing()
KID = RING.add(KEY)
READER = paseto.Reader(RING, aud="customers")


def token(**claims: Any) -> str:
    return RING.issue(KID, {"sub": "ada", "aud": "customers", **claims})


def old() -> str:
    return RING.issue(KID, {"sub": "ada", "aud": "customers"}, now=1_700_000_000)


class Services(unittest.TestCase):
    """What every service answers."""

    def ask(self, port: int) -> None:
        """A service at whose ``/me`` is the name of the token's claims."""
        fresh = token()
        status, _, body = asked(port, Authorization=f"Bearer {fresh}")
        self.assertEqual((status, json.loads(body)), (200, {"user": "ada"}))
        self.assertEqual(asked(port, Authorization=f"bearer {fresh}")[0], 200)
        for name, headers, status, challenge in (
            ("no token", {}, 401, "Bearer"),
            ("another scheme", {"Authorization": "Basic YTpi"}, 401, "Bearer"),
            ("a modified token", {"Authorization": f"Bearer {fresh[:30]}AAAA{fresh[34:]}"}, 401, 'Bearer error="invalid_token", '),
            ("no token of PASETO", {"Authorization": "Bearer a.b.c"}, 401, 'Bearer error="invalid_token", '),
            ("an expired token", {"Authorization": f"Bearer {old()}"}, 401, 'Bearer error="invalid_token", '),
            ("a long token", {"Authorization": f"Bearer {token(text='x' * 9000)}"}, 401, 'Bearer error="invalid_token", '),
            ("another audience", {"Authorization": f"Bearer {token(aud='staff')}"}, 403, 'Bearer error="insufficient_scope", '),
            ("an unknown key", {"Authorization": f"Bearer {paseto.issue(KEY, {})}"}, 401, 'Bearer error="invalid_token", '),
        ):
            found, answered, body = asked(port, **headers)
            said = answered["WWW-Authenticate"] or ""
            self.assertEqual(found, status, name)
            self.assertTrue(said.startswith(challenge) and (challenge != "Bearer" or said == "Bearer"), f"{name}: {said}")
            self.assertNotIn("v4.local", f"{answered}{body}", name)

    def ask_cookies(self, port: int) -> None:
        """A service that takes the token from the cookie ``session``, lets requests without one through, and asks what was revoked."""
        fresh = token()
        self.assertEqual(asked(port, Cookie=f"a=b; session={fresh}")[::2], (200, '{"user": "ada"}'))
        self.assertEqual(asked(port, Authorization=f"Bearer {fresh}")[::2], (200, '{"user": null}'))
        self.assertEqual(asked(port)[::2], (200, '{"user": null}'))
        self.assertEqual(asked(port, Cookie=f"session={old()}")[0], 401)
        self.assertEqual(asked(port, Cookie=f"session={old()}; session={fresh}")[0], 401)
        status, answered, _ = asked(port, Cookie=f"session={token(jti='ended')}")
        self.assertEqual((status, answered["WWW-Authenticate"]), (401, 'Bearer error="invalid_token", error_description="the token was revoked"'))
        self.assertEqual(asked(port, Cookie=f"session={token(jti='failing')}")[0], 500)


def is_revoked(claims: dict[str, Any]) -> bool:
    if claims.get("jti") == "failing":
        raise OSError("the list cannot be read")
    return claims.get("jti") == "ended"


async def is_revoked_later(claims: dict[str, Any]) -> bool:
    await asyncio.sleep(0)
    return is_revoked(claims)


class Asgi(Services):
    def app(self, **options: Any) -> Any:
        async def me(request: Any) -> Any:
            claims = request.scope["paseto"]
            return starlette.responses.Response(json.dumps({"user": claims and claims["sub"]}))

        middleware = starlette.middleware.Middleware(paseto.asgi.TokenMiddleware, reader=READER, **options)
        return starlette.applications.Starlette(routes=[starlette.routing.Route("/me", me)], middleware=[middleware])

    def test_starlette(self) -> None:
        with served_asgi(self.app()) as port:
            self.ask(port)

    def test_starlette_with_cookies(self) -> None:
        for ask in (is_revoked, is_revoked_later):
            with served_asgi(self.app(cookie="session", is_optional=True, is_revoked=ask)) as port:
                self.ask_cookies(port)

    def test_websockets(self) -> None:
        seen: list[Any] = []

        async def app(scope: Any, _receive: Any, send: Any) -> None:
            seen.append(scope.get("paseto", "none"))
            await send({"type": "websocket.accept"})

        async def receive() -> Any:
            return {"type": "websocket.connect"}

        def sent(kind: str, *headers: tuple[bytes, bytes]) -> list[Any]:
            messages: list[Any] = []

            async def send(message: Any) -> None:
                messages.append(message)

            scope = {"type": kind, "headers": list(headers)}
            asyncio.run(paseto.asgi.TokenMiddleware(app, READER)(scope, receive, send))
            self.assertNotIn("paseto", scope)
            return messages

        self.assertEqual(sent("websocket"), [{"type": "websocket.close", "code": 1008}])
        self.assertEqual(sent("websocket", (b"authorization", b"Bearer " + old().encode())), [{"type": "websocket.close", "code": 1008}])
        self.assertEqual(seen, [])
        self.assertEqual(sent("websocket", (b"authorization", b"Bearer " + token().encode())), [{"type": "websocket.accept"}])
        self.assertEqual(seen[0]["sub"], "ada")
        two = [(b"authorization", b"Bearer " + token().encode())] * 2
        self.assertEqual(sent("websocket", *two), [{"type": "websocket.close", "code": 1008}])
        self.assertEqual(sent("http", *two)[0]["status"], 401)
        sent("lifespan")
        self.assertEqual(seen[1:], ["none"])

    def test_fastapi(self) -> None:
        with tempfile.TemporaryDirectory() as folder, contextlib.chdir(folder):
            Path("keys").mkdir()
            Path("keys/a.key").write_text(KEY.to_text())
            app = recipe("FastAPI")["app"]
        with served_asgi(app) as port:
            self.ask(port)


class Wsgi(Services):
    def app(self, **options: Any) -> Any:
        app = flask.Flask("office")

        @app.route("/me")
        def me() -> str:
            claims = flask.request.environ["paseto"]
            return json.dumps({"user": claims and claims["sub"]})

        app.wsgi_app = paseto.wsgi.TokenMiddleware(app.wsgi_app, READER, **options)  # type: ignore[assignment]
        return app

    def test_flask(self) -> None:
        with served_wsgi(self.app()) as port:
            self.ask(port)

    def test_flask_with_cookies(self) -> None:
        with contextlib.redirect_stderr(io.StringIO()), served_wsgi(self.app(cookie="session", is_optional=True, is_revoked=is_revoked)) as port:
            self.ask_cookies(port)

    def test_headers_cannot_forge_claims(self) -> None:
        with served_wsgi(self.app(is_optional=True)) as port:
            for name in ("paseto", "Paseto", "HTTP_PASETO"):
                self.assertEqual(asked(port, **{name: '{"sub":"eve"}'})[::2], (200, '{"user": null}'))

    def test_log(self) -> None:
        with served_wsgi(self.app()) as port, self.assertLogs("paseto", logging.INFO) as log:
            asked(port, Authorization=f"Bearer {old()}")
        self.assertEqual(log.output, ["INFO:paseto:token refused: Expired: This token is expired"])


class Django(Services):
    @classmethod
    def setUpClass(cls) -> None:
        django.conf.settings.configure(ROOT_URLCONF="urls_of_the_test", ALLOWED_HOSTS=["*"], SECRET_KEY="none", LOGGING_CONFIG=None)
        django.setup()
        import sys
        import types

        from django.urls import path

        with tempfile.TemporaryDirectory() as folder, contextlib.chdir(folder):
            Path("keys").mkdir()
            Path("keys/a.key").write_text(KEY.to_text())
            me = recipe("django")["me"]

        def within(request: Any) -> Any:
            from django.http import HttpResponse

            claims = request.META["paseto"]
            return HttpResponse(json.dumps({"user": claims and claims["sub"]}))

        urls = types.ModuleType("urls_of_the_test")
        urls.urlpatterns = [path("me", me), path("within", within)]  # type: ignore[attr-defined]
        sys.modules["urls_of_the_test"] = urls

    def test_recipe_under_wsgi(self) -> None:
        from django.core.wsgi import get_wsgi_application

        with served_wsgi(get_wsgi_application()) as port:
            self.ask(port)

    def test_recipe_under_asgi(self) -> None:
        from django.core.asgi import get_asgi_application

        with served_asgi(get_asgi_application()) as port:
            self.ask(port)

    def test_middleware(self) -> None:
        from django.core.wsgi import get_wsgi_application

        with served_wsgi(paseto.wsgi.TokenMiddleware(get_wsgi_application(), READER)) as port:
            self.assertEqual(asked(port, "/within", Authorization=f"Bearer {token()}")[::2], (200, '{"user": "ada"}'))
            self.assertEqual(asked(port, "/within")[0], 401)


if __name__ == "__main__":
    unittest.main()
