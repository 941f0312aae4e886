#!/usr/bin/env python3
"""A session service with tokens of version 4: a user who logs in gets a cookie that is a token; no sessions are stored.

    PYTHONPATH=bindings/python/src PASETO_LIBRARY=PREFIX/lib/libpaseto.so examples/session_service.py --port 8000 --database sessions.db

    curl -c jar -d 'user=ada&password=lovelace' http://127.0.0.1:8000/login
    curl -b jar http://127.0.0.1:8000/me
    curl -b jar -c jar -X POST http://127.0.0.1:8000/logout

The keys rotate: every so many seconds a new key issues the tokens, the footer of a token names its key, and a key is
deleted once all its tokens have expired. Logging out revokes the session by the ``jti`` of its token, which is refused
until it would have expired. Keys and revoked sessions are stored in SQLite, in a file that only its owner may read: they
survive a restart, so a session that was revoked before a crash is revoked after it. The service listens only on the
loopback interface; a proxy in front of it provides TLS. With ``--secure`` cookies are ``Secure``.
"""

from __future__ import annotations

import argparse
import hashlib
import hmac
import json
import os
import secrets
import sqlite3
import tempfile
import threading
import time
from http.cookies import CookieError, SimpleCookie
from http.server import BaseHTTPRequestHandler, ThreadingHTTPServer
from urllib.parse import parse_qs

import paseto

AUDIENCE = "session"
LONGEST_FORM = 1000


class Store:
    """The keys of the sessions by their ids, and the revoked sessions, in a file."""

    def __init__(self, path: str, lifetime: int, rotate_every: int) -> None:
        self._lifetime, self._rotate_every = lifetime, rotate_every
        self._lock = threading.Lock()
        os.close(os.open(path, os.O_RDWR | os.O_CREAT, 0o600))
        # Each statement is a separate transaction, which is in the file before the call returns.
        self._base = sqlite3.connect(path, check_same_thread=False, isolation_level=None)
        self._base.execute("PRAGMA journal_mode = WAL")
        self._base.execute("PRAGMA synchronous = FULL")
        self._base.execute("CREATE TABLE IF NOT EXISTS keys (kid TEXT PRIMARY KEY, key BLOB NOT NULL, made REAL NOT NULL)")
        self._base.execute("CREATE TABLE IF NOT EXISTS ended (jti TEXT PRIMARY KEY, until REAL NOT NULL)")

    def issuing(self) -> tuple[str, paseto.LocalKey]:
        """The key that issues tokens, and its id: the newest, or a new one if the newest is old enough."""
        now = time.time()
        with self._lock:
            self._base.execute("DELETE FROM keys WHERE made <= ?", (now - self._rotate_every - self._lifetime,))
            found = self._base.execute("SELECT kid, key, made FROM keys ORDER BY made DESC LIMIT 1").fetchone()
            if found is not None and found[2] > now - self._rotate_every:
                return found[0], paseto.LocalKey(found[1])
            kid, key = secrets.token_hex(8), paseto.LocalKey.generate()
            self._base.execute("INSERT INTO keys VALUES (?, ?, ?)", (kid, key.to_bytes(), now))
            return kid, key

    def admitting(self, kid: str | None) -> paseto.LocalKey | None:
        """The key with this id, if there is one."""
        with self._lock:
            found = self._base.execute("SELECT key FROM keys WHERE kid = ?", (kid,)).fetchone()
        return paseto.LocalKey(found[0]) if found else None

    def end(self, jti: str) -> None:
        """Revokes a session, and forgets those that have expired meanwhile."""
        now = time.time()
        with self._lock:
            self._base.execute("DELETE FROM ended WHERE until <= ?", (now,))
            self._base.execute("INSERT OR REPLACE INTO ended VALUES (?, ?)", (jti, now + self._lifetime))

    def is_ended(self, jti: str) -> bool:
        """Whether the session was revoked."""
        with self._lock:
            return self._base.execute("SELECT 1 FROM ended WHERE jti = ?", (jti,)).fetchone() is not None


class Users:
    """Who may log in, by salted hashes of their passwords."""

    def __init__(self, passwords: dict[str, str]) -> None:
        self._hashes = {user: self._salted(password) for user, password in passwords.items()}
        self._nobody = self._salted(secrets.token_hex(16))

    def _salted(self, password: str) -> tuple[bytes, bytes]:
        salt = os.urandom(16)
        return salt, self._hash(password, salt)

    @staticmethod
    def _hash(password: str, salt: bytes) -> bytes:
        return hashlib.scrypt(password.encode("utf-8", "surrogatepass"), salt=salt, n=2**12, r=8, p=1)

    def knows(self, user: str, password: str) -> bool:
        """Whether this is the user's password; it takes as long for an unknown user as for a known one."""
        salt, wanted = self._hashes.get(user, self._nobody)
        return hmac.compare_digest(self._hash(password, salt), wanted) and user in self._hashes


class Sessions:
    """Cookies that are tokens: made, read, and refused once they are logged out."""

    def __init__(self, store: Store, lifetime: int) -> None:
        self._store, self._lifetime = store, lifetime

    def begin(self, user: str) -> str:
        """A token for the user."""
        kid, key = self._store.issuing()
        claims = {"sub": user, "aud": AUDIENCE, "jti": secrets.token_hex(16)}
        return paseto.issue(key, claims, expires_in=self._lifetime, footer=paseto.key_footer(kid))

    def read(self, token: str) -> dict | None:
        """The claims of a token of this service that was not logged out."""
        try:
            footer = paseto.footer_of(token)
            key = self._store.admitting(paseto.kid_of(footer))
            if key is None:
                return None
            claims = paseto.admit(token, key, aud=AUDIENCE, require=["exp", "jti"], longest=8192, footer=footer)
        except paseto.Refused:
            return None
        return None if self._store.is_ended(claims["jti"]) else claims

    def end(self, claims: dict) -> None:
        """Logs the session out."""
        self._store.end(claims["jti"])


class Handler(BaseHTTPRequestHandler):
    """The responses: 200 with JSON, 401 without a session, 400 and 404 for invalid requests."""

    protocol_version = "HTTP/1.1"
    timeout = 10
    server: Service

    def do_GET(self) -> None:
        if self.path.partition("?")[0] != "/me":
            self.answer(404, {"error": "there is no such page"})
            return
        claims = self.session()
        if claims is None:
            self.answer(401, {"error": "log in"})
        else:
            self.answer(200, {"user": claims["sub"], "until": claims["exp"]})

    def do_POST(self) -> None:
        form = self.form()
        if form is None:
            self.close_connection = True
            self.answer(400, {"error": "the form is not read"})
        elif self.path == "/login":
            self.log_in(form)
        elif self.path == "/logout":
            self.log_out()
        else:
            self.answer(404, {"error": "there is no such page"})

    def log_in(self, form: dict[str, str]) -> None:
        user = form.get("user", "")
        if self.server.users.knows(user, form.get("password", "")):
            self.answer(200, {"user": user}, self.cookie(self.server.sessions.begin(user)))
        else:
            self.answer(401, {"error": "who is that?"})

    def log_out(self) -> None:
        claims = self.session()
        if claims is None:
            self.answer(401, {"error": "log in"})
        else:
            self.server.sessions.end(claims)
            self.answer(200, {"user": None}, self.cookie("", "; Max-Age=0"))

    def session(self) -> dict | None:
        """The claims of the cookie."""
        try:
            cookie = SimpleCookie(self.headers.get("Cookie", "")).get("session")
        except CookieError:
            return None
        return self.server.sessions.read(cookie.value) if cookie else None

    def form(self) -> dict[str, str] | None:
        """The posted form, the first value of each name."""
        length = self.headers.get("Content-Length", "0")
        is_number = length.isascii() and length.isdigit()
        if "Transfer-Encoding" in self.headers or not is_number or int(length) > LONGEST_FORM:
            return None
        text = self.rfile.read(int(length)).decode("utf-8", "replace")
        return {name: values[0] for name, values in parse_qs(text).items()}

    def cookie(self, value: str, more: str = "") -> str:
        secure = "; Secure" if self.server.is_secure else ""
        return f"session={value}; Path=/; HttpOnly; SameSite=Strict{secure}{more}"

    def answer(self, status: int, said: dict, cookie: str | None = None) -> None:
        body = json.dumps(said).encode()
        self.send_response(status)
        self.send_header("Content-Type", "application/json")
        self.send_header("Content-Length", str(len(body)))
        if cookie is not None:
            self.send_header("Set-Cookie", cookie)
        self.end_headers()
        self.wfile.write(body)

    def log_message(self, *_words: object) -> None:
        """Writes no log."""


class Service(ThreadingHTTPServer):
    """The service on the loopback interface."""

    daemon_threads = True
    request_queue_size = 64

    def __init__(self, port: int, users: Users, sessions: Sessions, is_secure: bool) -> None:
        self.users, self.sessions, self.is_secure = users, sessions, is_secure
        super().__init__(("127.0.0.1", port), Handler)


def main() -> None:
    words = argparse.ArgumentParser(description="A session service over PASETO tokens.")
    words.add_argument("--port", type=int, default=0, help="0 takes a free one; the first line of output names it")
    words.add_argument("--lifetime", type=int, default=3600, help="how many seconds a session lasts")
    words.add_argument("--rotate-every", type=int, default=86400, help="how many seconds a key issues")
    words.add_argument("--database", help="the file of keys and ended sessions; without it a new one in a folder of its own")
    words.add_argument("--stop-after", type=float, help="how many seconds the service runs; else for ever")
    words.add_argument("--secure", action="store_true", help="let cookies go over TLS alone")
    given = words.parse_args()
    users = Users({"ada": "lovelace", "alan": "turing"})
    path = given.database or os.path.join(tempfile.mkdtemp(prefix="sessions-"), "sessions.db")
    sessions = Sessions(Store(path, given.lifetime, given.rotate_every), given.lifetime)
    with Service(given.port, users, sessions, given.secure) as service:
        print(f"http://127.0.0.1:{service.server_port}", flush=True)
        if given.stop_after is not None:
            stop = threading.Timer(given.stop_after, service.shutdown)
            stop.daemon = True
            stop.start()
        try:
            service.serve_forever()
        except KeyboardInterrupt:
            pass


if __name__ == "__main__":
    main()
