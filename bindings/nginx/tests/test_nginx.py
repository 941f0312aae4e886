"""Asks the module in a real nginx on the loopback interface: each directive, variable and status, and what a client can't do.

    MODULE=FOLDER/ngx_http_paseto_module.so python3 -m unittest test_nginx

The tokens are made by the package for Python. SEED decides the hostile tokens; LOAD_SECONDS, 10 by default, how long wrk asks.
"""

from __future__ import annotations

import atexit
import base64
import contextlib
import hashlib
import http.client
import json
import os
import random
import re
import signal
import shutil
import socket
import subprocess
import tempfile
import threading
import time
import unittest
from collections.abc import Iterator
from datetime import datetime, timedelta, timezone
from pathlib import Path
from typing import Any

import paseto

MODULE = os.environ["MODULE"]
NGINX = shutil.which("nginx", path=os.environ["PATH"] + ":/usr/sbin:/sbin") or "nginx"
SECONDS = int(os.environ.get("LOAD_SECONDS", "10"))
SEED = os.environ.get("SEED") or str(int(time.time()))



def openssl(*words: str, given: bytes = b"") -> bytes:
    """What OpenSSL writes."""
    return subprocess.run(["openssl", *words], input=given, check=True, capture_output=True).stdout


def rsa(bits: int = 2048) -> bytes:
    """A new private key of version 1, in PEM."""
    return openssl("genpkey", "-quiet", "-algorithm", "RSA", "-pkeyopt", f"rsa_keygen_bits:{bits}")


def rsa_texts(private: bytes) -> tuple[str, str]:
    """The text and the id of its public key in PASERK, by OpenSSL and hashlib alone."""
    text = "k1.public." + base64.urlsafe_b64encode(openssl("pkey", "-pubout", "-outform", "DER", given=private)).decode().rstrip("=")
    return text, "k1.pid." + base64.urlsafe_b64encode(hashlib.sha384(b"k1.pid." + text.encode()).digest()[:33]).decode()


LOCAL, OTHER, PAIR, P384 = (paseto.LocalKey.generate(), paseto.LocalKey.generate(), paseto.PrivateKey.generate(), paseto.PrivateKey.generate(3))
RSA_PEM, OTHER_PEM = rsa(), rsa()
RSA, OTHER_RSA = paseto.Key.from_text(RSA_PEM), paseto.Key.from_text(OTHER_PEM)
(RSA_TEXT, RSA_KID), (_, OTHER_KID) = rsa_texts(RSA_PEM), rsa_texts(OTHER_PEM)
RING = paseto.KeyRing()
KID, PUBLIC_KID = RING.add(LOCAL), RING.add(PAIR)

# The headers that the gateway sends on, and an upstream that tells them.
SENT = """
            proxy_set_header X-User $paseto_claim_sub;
            proxy_set_header X-Seats $paseto_claim_seats;
            proxy_set_header X-Roles $paseto_claim_roles;
            proxy_set_header X-Admin $paseto_claim_isAdmin;
            proxy_set_header X-Kid $paseto_kid;
            proxy_set_header X-Status $paseto_status;
            proxy_pass http://127.0.0.1:{upstream};
"""
UPSTREAM = "user=$http_x_user|seats=$http_x_seats|roles=$http_x_roles|admin=$http_x_admin|kid=$http_x_kid|status=$http_x_status"

LOCATIONS = {
    "/on": "paseto on;",
    "/optional": "paseto optional;",
    "/off": "paseto off;",
    "/cookie": "paseto on; paseto_token $cookie_session;",
    "/query": "paseto on; paseto_token $arg_token;",
    "/claims": "paseto on; paseto_claim aud customers; paseto_claim 'office \"1\"' 'a\\\\b';",
    "/require": "paseto on; paseto_require exp jti;",
    "/never": "paseto on; paseto_require off;",
    "/leeway": "paseto on; paseto_leeway 1h;",
    "/strict": "paseto on; paseto_leeway 0;",
    "/short": "paseto on; paseto_longest 300;",
    "/footer": "paseto on; paseto_keys {work}/local.key; paseto_footer office-1;",
    "/plain": "paseto on; paseto_keys {work}/local.key; paseto_footer '';",
    "/single": "paseto on; paseto_keys {work}/local.key;",
    "/pem": "paseto on; paseto_keys {work}/p384.pem;",
    "/old": "paseto on; paseto_keys {work}/old;",
    "/rsa": "paseto on; paseto_keys {work}/old/rsa.pub;",
    "/assertion": "paseto on; paseto_assertion $http_x_tenant;",
    "/any": "paseto on; satisfy any; deny all;",
    "/both": "paseto on; satisfy any; allow all;",
    "/named": "paseto on; error_page 401 = @login;",
}
RETURNED = {
    # The phase of rewriting, and that before access, ask the variables early.
    "/rewrite": "paseto on; if ($paseto_claim_sub != ada) { return 404; } return 200 rewritten;",
    "/all": "paseto on; return 200 '$paseto_claims';",
    "/status": "paseto optional; return 200 '$paseto_status';",
    "/recursion": "paseto on; paseto_assertion $paseto_claim_sub; return 200 '$paseto_status';",
    "/text": "paseto on; return 200 '[$paseto_claim_text]';",
    "/case": "paseto on; return 200 '[$paseto_claim_userId]';",
}


def free_port() -> int:
    with socket.socket() as free:
        free.bind(("127.0.0.1", 0))
        return int(free.getsockname()[1])


class Gateway:
    """nginx with the module, in a folder of its own."""

    def __init__(self, more: str = "", before: tuple[str, ...] = (), http_options: str = "") -> None:
        self.work = Path(tempfile.mkdtemp(prefix="nginx-"))
        self.work.chmod(0o755)
        self.before = before
        self.port, self.upstream, self.http2, self.bare = (free_port() for _ in range(4))
        (self.work / "keys").mkdir()
        (self.work / "old").mkdir()
        for name, text in (
            ("keys/a.key", LOCAL.to_text()), ("keys/b.pub", PAIR.public.to_text()), ("keys/.hidden", "no key"),
            ("local.key", LOCAL.to_text() + "\n"), ("p384.pem", P384.public.to_pem()),
            ("old/rsa.pub", RSA_TEXT), ("old/rsa.pem", openssl("pkey", "-pubout", given=OTHER_PEM).decode()), ("old/a.key", LOCAL.to_text()),
        ):
            (self.work / name).write_text(text)
            (self.work / name).chmod(0o600)
        (self.work / "keys/folder").mkdir()
        locations = "".join(f"        location {path} {{ {text}{SENT} }}\n" for path, text in LOCATIONS.items())
        locations += "".join(f"        location {path} {{ {text} }}\n" for path, text in RETURNED.items())
        self.write(f"""
    limit_req_zone $paseto_claim_sub zone=users:1m rate=1r/m;
    server {{
        listen 127.0.0.1:{{upstream}};
        location / {{ return 200 '{UPSTREAM}'; }}
    }}
    server {{
        listen 127.0.0.1:{{bare}};
        location / {{ return 200 bare; }}
    }}
    server {{
        listen 127.0.0.1:{{port}};
        listen 127.0.0.1:{{http2}} http2;
        paseto_keys keys;
{locations}
        location @login {{ return 302 /login; }}
        location /limited {{ paseto on; limit_req zone=users burst=1 nodelay; {SENT} }}
        location /load {{ paseto on; try_files /none @loaded; }}
        location @loaded {{ return 200 '$paseto_claim_sub'; }}
    }}
{more}""", http_options)

    def write(self, http_block: str, http_options: str = "") -> None:
        who = "user root;" if os.getuid() == 0 else ""
        temporary = "".join(f"    {name}_temp_path {self.work}/{name};\n" for name in ("client_body", "proxy", "fastcgi", "uwsgi", "scgi"))
        block = http_block
        for name in ("upstream", "bare", "port", "http2", "work"):
            block = block.replace("{" + name + "}", str(getattr(self, name)))
        (self.work / "nginx.conf").write_text(f"""{who}
load_module {MODULE};
pid {self.work}/nginx.pid;
error_log {self.work}/error.log info;
worker_processes 1;
events {{ worker_connections 1024; }}
http {{
    log_format told '$request_uri $status $paseto_status $paseto_claim_sub';
    access_log {self.work}/access.log told;
    keepalive_requests 1000000;
{temporary}{http_options}{block}
}}
""")

    def start(self) -> Gateway:
        words = [*self.before, NGINX, "-p", str(self.work), "-c", str(self.work / "nginx.conf"), "-g", "daemon off;"]
        self.process = subprocess.Popen(words, stdout=subprocess.DEVNULL, stderr=open(self.work / "stderr", "w"))
        atexit.register(self.end)
        for _ in range(600):
            with contextlib.suppress(OSError), socket.create_connection(("127.0.0.1", self.port), 1):
                return self
            if self.process.poll() is not None:
                break
            time.sleep(0.05)
        raise AssertionError((self.work / "stderr").read_text())

    def stop(self) -> int:
        # Where nginx is one process, a signal that comes just before it waits for events is seen with the next one.
        for _ in range(30):
            self.process.send_signal(signal.SIGQUIT)
            with contextlib.suppress(subprocess.TimeoutExpired):
                return self.process.wait(2)
        raise AssertionError("nginx does not stop")

    def end(self) -> None:
        """Where a test failed, nothing of it goes on."""
        if self.process.poll() is None:
            self.process.terminate()
            self.process.wait(60)
        shutil.rmtree(self.work, ignore_errors=True)

    def log(self) -> str:
        return (self.work / "error.log").read_text(errors="replace")

    def last(self, *wanted: str) -> tuple[str, ...]:
        """What the log says of the last request: its path, its status and $paseto_status. It is written behind the answer."""
        for _ in range(100):
            found = tuple((self.work / "access.log").read_text(errors="replace").splitlines()[-1].split()[:3])
            if found == wanted:
                break
            time.sleep(0.02)
        return found

    def get(self, path: str, token: str | None = None, **headers: str) -> tuple[int, str, str]:
        """The status, WWW-Authenticate and the body."""
        connection = http.client.HTTPConnection("127.0.0.1", self.port, timeout=30)
        try:
            return ask(connection, path, token, **headers)
        finally:
            connection.close()


def ask(connection: http.client.HTTPConnection, path: str, token: str | None = None, **headers: str) -> tuple[int, str, str]:
    given = {name.replace("_", "-"): value for name, value in headers.items()}
    if token is not None:
        given["Authorization"] = f"Bearer {token}"
    connection.request("GET", path, headers=given)
    answer = connection.getresponse()
    return answer.status, answer.headers["WWW-Authenticate"] or "", answer.read().decode()


def issue(key: Any = LOCAL, kid: str | None = KID, **claims: Any) -> str:
    """A token whose footer names the key."""
    return paseto.issue(key, {"sub": "ada", **claims}, footer=paseto.key_footer(kid) if kid else "")


class Requests(unittest.TestCase):
    gateway: Gateway

    @classmethod
    def setUpClass(cls) -> None:
        cls.gateway = Gateway().start()

    @classmethod
    def tearDownClass(cls) -> None:
        cls.gateway.stop()
        shutil.rmtree(cls.gateway.work)

    def refused(self, path: str, token: str | None, status: int, challenge: str, **headers: str) -> None:
        found, said, body = self.gateway.get(path, token, **headers)
        self.assertEqual(found, status, f"{path}: {said}: {body}")
        if challenge in ("", "Bearer"):
            self.assertEqual(said, challenge, path)
        else:
            error, text = challenge.split(": ")
            self.assertEqual(said, f'Bearer error="{error}", error_description="{text}"', path)
        self.assertNotIn("user=", body)

    def admitted(self, path: str, token: str | None, **headers: str) -> str:
        status, said, body = self.gateway.get(path, token, **headers)
        self.assertEqual((status, said), (200, ""), f"{path}: {body}: {self.gateway.log()[-400:]}")
        return body

    def test_on(self) -> None:
        token = issue(seats=4, roles=["a", {"b": None}], isAdmin=True, aud="customers")
        self.assertEqual(self.admitted("/on", token), f'user=ada|seats=4|roles=["a",{{"b":null}}]|admin=true|kid={KID}|status=admitted')
        self.assertEqual(self.admitted("/on", issue(PAIR, PUBLIC_KID)), f"user=ada|seats=|roles=|admin=|kid={PUBLIC_KID}|status=admitted")
        self.assertEqual(self.admitted("/on", None, Authorization=f"bearer   {token}").split("|")[0], "user=ada")

    def test_off_and_optional(self) -> None:
        self.assertEqual(self.admitted("/off", None), "user=|seats=|roles=|admin=|kid=|status=")
        self.assertEqual(self.admitted("/off", "no token"), "user=|seats=|roles=|admin=|kid=|status=")
        self.assertEqual(self.admitted("/optional", None), "user=|seats=|roles=|admin=|kid=|status=no_token")
        self.assertTrue(self.admitted("/optional", issue()).startswith("user=ada|"))
        self.refused("/optional", "v4.local.AA", 401, "invalid_token: No key has the id that the footer names")

    def test_statuses(self) -> None:
        """Of each refusal the answer, and its name."""
        token, signed = issue(text="x" * 100), issue(PAIR, PUBLIC_KID)
        old = paseto.issue(LOCAL, {}, now=1_700_000_000, footer=paseto.key_footer(KID))
        early = paseto.issue(LOCAL, {}, now=int(time.time()) + 600, footer=paseto.key_footer(KID))
        footer = token.split(".")[3]
        rows = [
            ("/on", None, 401, "no_token"),
            ("/on", "v4", 401, "incorrect_size"),
            ("/on", f"v4.local.AAAA.{footer}", 401, "incorrect_size"),
            ("/on", f"v3.{token[3:]}", 401, "wrong_header"),
            ("/on", f"v4.local.!!!!{token[13:]}", 401, "payload_base64_decode"),
            ("/on", token[:40] + ("A" if token[40] != "A" else "B") + token[41:], 401, "cryption"),
            ("/on", signed[:40] + "AAAA" + signed[44:], 401, "invalid_signature"),
            ("/on", paseto.encrypt(LOCAL, "hello", footer=paseto.key_footer(KID)), 401, "payload_json_error"),
            ("/on", old, 401, "expired"),
            ("/on", early, 401, "use_before_available"),
            ("/on", paseto.issue(LOCAL, {"exp": "never"}, footer=paseto.key_footer(KID)), 401, "rfc3339_date"),
            ("/on", paseto.issue(LOCAL, {}, expires_in=None, footer=paseto.key_footer(KID)), 401, "missing"),
            ("/require", token, 401, "missing"),
            ("/on", paseto.encrypt(LOCAL, '{"price":1.5,"exp":"2100-01-01T00:00:00Z"}', footer=paseto.key_footer(KID)), 401, "unexpected"),
            ("/claims", issue(aud="staff"), 403, "invalid"),
            ("/claims", issue(aud=["customers"]), 403, "invalid"),
            ("/claims", issue(seats=4), 401, "missing"),
            ("/short", issue(text="x" * 300), 401, "too_long"),
            ("/on", issue(OTHER, OTHER.id), 401, "unknown_key"),
            ("/on", issue(kid=None), 401, "unknown_key"),
            ("/footer", paseto.issue(LOCAL, {}, footer="office-2"), 401, "footer_invalid"),
        ]
        for path, sent, status, name in rows:
            self.assertEqual(self.gateway.get(path, sent)[0], status, name)
            wanted = (path, str(status), name)
            self.assertEqual(self.gateway.last(*wanted), wanted)

    def test_challenges(self) -> None:
        self.refused("/on", None, 401, "Bearer")
        self.refused("/on", None, 401, "Bearer", Authorization="Basic YTpi")
        self.refused("/on", None, 401, "Bearer", Authorization="Bearer ")
        self.refused("/on", None, 401, "Bearer", Authorization="Bearer")
        old = paseto.issue(LOCAL, {}, now=1_700_000_000, footer=paseto.key_footer(KID))
        self.refused("/on", old, 401, "invalid_token: This token is expired")
        said = self.gateway.get("/claims", issue(aud="staff"))[1]
        self.assertRegex(said, r'^Bearer error="insufficient_scope", error_description="[ !#-\[\]-~]+"$')

    def test_tokens_elsewhere(self) -> None:
        self.assertTrue(self.admitted("/cookie", None, Cookie=f"a=b; session={issue()}").startswith("user=ada|"))
        self.refused("/cookie", issue(), 401, "Bearer")
        self.assertTrue(self.admitted(f"/query?token={issue()}", None).startswith("user=ada|"))

    def test_claims_and_names(self) -> None:
        self.admitted("/claims", issue(aud="customers", **{'office "1"': "a\\b"}))
        self.refused("/claims", issue(aud="customers", **{'office "1"': "a"}), 403, f"insufficient_scope: {self.text('/claims')}")
        self.admitted("/require", issue(jti="1"))
        self.admitted("/never", paseto.issue(LOCAL, {}, expires_in=None, footer=paseto.key_footer(KID)))

    def text(self, path: str) -> str:
        """What is said of another claim."""
        return re.findall(r'error_description="(.*)"', self.gateway.get(path, issue(aud="staff"))[1])[0]

    def test_leeway(self) -> None:
        now = int(time.time())
        late = paseto.issue(LOCAL, {}, now=now - 120, expires_in=60, footer=paseto.key_footer(KID))
        self.admitted("/leeway", late)
        self.refused("/on", late, 401, "invalid_token: This token is expired")
        # A token is admitted at once, with a leeway and without.
        for _ in range(3):
            time.sleep(1.05 - time.time() % 1)
            fresh = paseto.issue(LOCAL, {"nbf": datetime.now(timezone.utc).replace(microsecond=0)}, footer=paseto.key_footer(KID))
            self.admitted("/on", fresh)
            self.admitted("/strict", fresh)
        # A clock that is five seconds ahead: a leeway of an hour covers it, and none does not.
        ahead = paseto.issue(LOCAL, {"nbf": datetime.now(timezone.utc) + timedelta(seconds=5)}, footer=paseto.key_footer(KID))
        self.admitted("/leeway", ahead)
        self.assertEqual(self.gateway.get("/strict", ahead)[0], 401)

    def test_one_key(self) -> None:
        for footer in ("", "office-1", paseto.key_footer("x")):
            body = self.admitted("/single", paseto.issue(LOCAL, {"sub": "ada"}, footer=footer))
            self.assertTrue(body.startswith("user=ada|") and f"kid={LOCAL.id}" in body, body)
        self.admitted("/footer", paseto.issue(LOCAL, {}, footer="office-1"))
        self.admitted("/plain", paseto.issue(LOCAL, {}))
        for path, footer in (("/footer", ""), ("/plain", "office-1")):
            self.assertEqual(self.gateway.get(path, paseto.issue(LOCAL, {}, footer=footer))[0], 401)
        self.admitted("/pem", paseto.issue(P384, {}))
        self.assertEqual(self.gateway.get("/single", paseto.issue(OTHER, {}))[0], 401)

    def test_version_1(self) -> None:
        """The public keys of a folder are found by their ids, as those of other versions, from PASERK and from PEM."""
        for key, kid in ((RSA, RSA_KID), (OTHER_RSA, OTHER_KID), (LOCAL, KID)):
            self.assertEqual(self.admitted("/old", issue(key, kid)), f"user=ada|seats=|roles=|admin=|kid={kid}|status=admitted")
        for footer in ("", "office-1", paseto.key_footer("x")):
            self.assertIn(f"user=ada|seats=|roles=|admin=|kid={RSA_KID}|", self.admitted("/rsa", paseto.issue(RSA, {"sub": "ada"}, footer=footer)))
        token = issue(RSA, RSA_KID)
        for path, sent, name in (
            ("/old", issue(OTHER_RSA, RSA_KID), "invalid_signature"),
            ("/old", token[:40] + ("A" if token[40] != "A" else "B") + token[41:], "invalid_signature"),
            ("/old", issue(RSA, OTHER_KID), "invalid_signature"),
            ("/old", issue(RSA, KID), "wrong_header"),
            ("/old", issue(LOCAL, RSA_KID), "wrong_header"),
            ("/old", issue(RSA, RSA.id), "unknown_key"),
            ("/on", token, "unknown_key"),
            ("/rsa", issue(OTHER_RSA, RSA_KID), "invalid_signature"),
        ):
            self.assertEqual(self.gateway.get(path, sent)[0], 401, name)
            self.assertEqual(self.gateway.last(path, "401", name), (path, "401", name))

    def test_assertion(self) -> None:
        token = paseto.issue(LOCAL, {"sub": "ada"}, footer=paseto.key_footer(KID), assertion="office-1")
        self.assertTrue(self.admitted("/assertion", token, X_Tenant="office-1").startswith("user=ada|"))
        for headers in ({"X_Tenant": "office-2"}, {}):
            self.assertEqual(self.gateway.get("/assertion", token, **headers)[0], 401)
        # A variable of ours in a directive of ours is empty while it is asked.
        self.assertEqual(self.gateway.get("/recursion", issue())[::2], (200, "admitted"))

    def test_satisfy(self) -> None:
        self.admitted("/any", issue())
        self.assertEqual(self.gateway.get("/any", None)[0], 401)
        self.admitted("/both", None)

    def test_early_phases(self) -> None:
        self.assertEqual(self.gateway.get("/rewrite", issue())[::2], (200, "rewritten"))
        for token in (issue(sub="eve"), None, "v4.local.AA"):
            self.assertEqual(self.gateway.get("/rewrite", token)[0], 404)
        found = [self.gateway.get("/limited", issue(sub="mira"))[0] for _ in range(4)]
        self.assertEqual(found, [200, 200, 503, 503])
        self.assertEqual(self.gateway.get("/limited", issue(sub="nora"))[0], 200)

    def test_redirects(self) -> None:
        self.assertEqual(self.gateway.get("/named", None)[0], 302)
        self.assertEqual(self.gateway.last("/named", "302", "no_token"), ("/named", "302", "no_token"))
        self.assertEqual(self.gateway.get("/load", issue())[::2], (200, "ada"))

    def test_what_variables_show(self) -> None:
        claims = json.loads(self.gateway.get("/all", issue(seats=-4, text="grüße \"x\"", many=[1, "}", {"a": "]"}]))[2])
        self.assertEqual((claims["sub"], claims["seats"], claims["text"], claims["many"]), ("ada", -4, "grüße \"x\"", [1, "}", {"a": "]"}]))
        for given, shown in (
            ("grüße 🔑 \"\\/", "[grüße 🔑 \"\\/]"), ("a\nX-Admin: yes", "[]"), ("a\r\nb", "[]"), ("\x7f", "[]"), ("\x00", "[]"), ("", "[]"),
            (None, "[]"), (2**64 - 1, f"[{2**64 - 1}]"), (False, "[false]"), ({}, "[{}]"), ({"a": "b\n"}, '[{"a":"b\\n"}]'),
        ):
            self.assertEqual(self.gateway.get("/text", issue(text=given))[2], shown)
        self.assertEqual(self.gateway.get("/case", issue(userId="7"))[2], "[7]")
        self.assertEqual(self.gateway.get("/case", issue(userId="7", userid="8"))[2], "[8]")
        self.assertEqual(self.gateway.get("/case", issue(userId="7", UserId="8"))[2], "[]")

    def test_clients_cannot_forge_headers(self) -> None:
        forged = {"X_User": "root", "X_Seats": "9", "X_Roles": "all", "X_Admin": "true", "X_Kid": "x", "X_Status": "admitted", "Paseto_Claim_Sub": "root"}
        wanted = f"user=ada|seats=|roles=|admin=|kid={KID}|status=admitted"
        self.assertEqual(self.admitted("/on", issue(), **forged), wanted)
        self.assertEqual(self.admitted("/optional", None, **forged), "user=|seats=|roles=|admin=|kid=|status=no_token")
        self.assertEqual(self.admitted("/off", None, **forged), "user=|seats=|roles=|admin=|kid=|status=")
        # A claim that would add a header adds none.
        body = self.admitted("/on", issue(sub="ada\r\nX-Admin: true"), **forged)
        self.assertEqual(body, f"user=|seats=|roles=|admin=|kid={KID}|status=admitted")
        self.assertEqual(self.gateway.get("/on?paseto_claim_sub=root", None)[0], 401)

    def test_two_headers(self) -> None:
        """nginx itself refuses them, so that no service behind it reads the other one."""
        headers = f"Authorization: Bearer {issue()}\r\nauthorization: Bearer {issue(sub='eve')}"
        with socket.create_connection(("127.0.0.1", self.gateway.port), 30) as connection:
            connection.sendall(f"GET /on HTTP/1.1\r\nHost: a\r\n{headers}\r\nConnection: close\r\n\r\n".encode())
            self.assertTrue(connection.makefile("rb").read().startswith(b"HTTP/1.1 400 "))

    def test_keep_alive(self) -> None:
        """Nothing of a request is in the next one of its connection."""
        connection = http.client.HTTPConnection("127.0.0.1", self.gateway.port, timeout=30)
        for number in range(100):
            self.assertTrue(ask(connection, "/on", issue(sub=f"user-{number}"))[2].startswith(f"user=user-{number}|"))
            self.assertEqual(ask(connection, "/optional")[2], "user=|seats=|roles=|admin=|kid=|status=no_token")
            self.assertEqual(ask(connection, "/on")[0], 401)
        connection.close()

    def test_http2(self) -> None:
        for headers, wanted in (([f"Authorization: Bearer {issue()}"], "200 2 user=ada"), ([], "401 2 <html>")):
            words = [word for header in headers for word in ("-H", header)]
            found = subprocess.run(["curl", "-sS", "--http2-prior-knowledge", *words, "-w", "\n%{http_code} %{http_version}",
                                    f"http://127.0.0.1:{self.gateway.http2}/on"], capture_output=True, text=True, check=True).stdout
            body, _, line = found.rpartition("\n")
            self.assertTrue(f"{line} {body}".startswith(wanted), found)

    def test_log(self) -> None:
        token = paseto.issue(LOCAL, {"jti": "7\nfake", "sub": "ada"}, now=1_700_000_000, footer=paseto.key_footer(KID))
        self.gateway.get("/on", token)
        self.gateway.get("/on", token[:40] + "AAAA" + token[44:])
        lines = [line for line in self.gateway.log().splitlines() if "paseto: " in line]
        self.assertIn("[info]", lines[-1])
        self.assertIn("token refused: expired: This token is expired, jti: 7?fake,", lines[-2])
        self.assertIn("token refused: cryption: ", lines[-1])
        self.assertIn("jti: unknown,", lines[-1])

    def test_z_nothing_secret_in_logs(self) -> None:
        """After all others: no token and no key."""
        told = self.gateway.log() + (self.gateway.work / "access.log").read_text(errors="replace")
        # nginx itself logs a header that comes twice, and the query.
        told = re.sub(r".*duplicate header line.*|\?token=\S*", "", told)
        self.assertNotIn("v4.local.", told)
        self.assertNotIn("v4.public.", told)
        self.assertNotIn("v1.public.", told)
        for key in (LOCAL, PAIR.public, RSA.public):
            self.assertNotIn(key.to_text()[10:], told)
        self.assertNotRegex(self.gateway.log(), r"\[(alert|crit|emerg|error)\] (?!.*limiting requests|.*access forbidden)")


class Hostile(unittest.TestCase):
    """More than 2,000 tokens of a stranger, the published ones among them, and what a worker keeps of memory."""

    def tokens(self) -> Iterator[str]:
        drawn = random.Random(SEED)
        bases = [issue(), issue(PAIR, PUBLIC_KID), paseto.issue(LOCAL, {}, footer='{"kid":' * 50), "v4.local.", "v2.public." + "A" * 200]
        published = re.findall(r"\bv[1-4]\.(?:local|public)\.\S+", Path(os.environ["PUBLISHED"]).read_text())
        assert len(published) > 20, published
        yield from published
        bases += published
        letters = "ABCabc019-_.=/+ \t{}\":[]\\"
        for _ in range(2000):
            text = list(drawn.choice(bases))
            for _ in range(drawn.randint(1, 8)):
                at, turn = drawn.randrange(len(text) + 1), drawn.random()
                if turn < 0.5 and at < len(text):
                    text[at] = drawn.choice(letters)
                elif turn < 0.7:
                    text[at:at] = drawn.choice(letters) * drawn.choice((1, 1, 3, 500))
                elif turn < 0.9:
                    del text[at : at + drawn.choice((1, 2, 50))]
                else:
                    text[at:at] = text[:at]
            made = "".join(text)[:7000].strip()
            if made not in bases:
                yield made
        for footer in ("{", "[" * 3000, '{"kid":"' + "\\u0000" * 500, '{"kid":' + "[" * 3000, '{"kid":"\\ud800"}', '{"kid":"a",}', '{"kid":1e999}',
                       '{"a":"\\', "\x00", '{"kid":"' + KID + '"'):
            yield paseto.issue(OTHER, {}, footer=footer)

    def test_hostile_tokens(self) -> None:
        gateway = Gateway().start()
        fresh, asked, connection = {issue(), issue(PAIR, PUBLIC_KID)}, 0, http.client.HTTPConnection("127.0.0.1", gateway.port, timeout=30)
        for number, token in enumerate(self.tokens()):
            try:
                status, said, _ = ask(connection, "/on", token)
            except ValueError:
                continue
            self.assertIn((status, said.split("=")[0].split(",")[0]), ((401, "Bearer error"), (401, "Bearer"), (400, "")), f"SEED={SEED}: {number}: {token[:300]}")
            asked += 1
            if status == 400:
                connection.close()
        self.assertGreaterEqual(asked, 2000)
        self.assertNotIn("exited on signal", gateway.log())
        for token in fresh:
            self.assertEqual(gateway.get("/on", token)[0], 200)
        self.assertEqual(gateway.stop(), 0)
        shutil.rmtree(gateway.work)

    def test_under_valgrind(self) -> None:
        log, own = (tempfile.mktemp(prefix=f"valgrind-{name}-") for name in ("log", "own"))
        # What nginx itself leaves behind at its end.
        Path(own).write_text("{\n   environment\n   Memcheck:Leak\n   match-leak-kinds: definite\n   ...\n   fun:ngx_set_environment\n   ...\n}\n")
        gateway = Gateway(before=("valgrind", "-q", "--error-exitcode=9", "--leak-check=full", "--show-leak-kinds=definite",
                                  "--errors-for-leak-kinds=definite", f"--suppressions={own}", f"--log-file={log}"))
        # One process, which ends as a worker does.
        conf = gateway.work / "nginx.conf"
        conf.write_text("master_process off;\n" + conf.read_text())
        gateway.start()
        for number, token in enumerate(self.tokens()):
            if number % 20 == 0:
                with contextlib.suppress(ValueError):
                    gateway.get("/on", token)
        for path in (*LOCATIONS, *RETURNED):
            for token in (issue(aud="customers", text="x", userId="1"), None):
                self.assertLess(gateway.get(path, token)[0], 500, path)
        status = gateway.stop()
        told = Path(log).read_text()
        self.assertEqual((status, told), (0, ""), told[:3000])
        shutil.rmtree(gateway.work)

    def test_memory_of_a_worker(self) -> None:
        gateway = Gateway().start()

        def kilobytes() -> int:
            worker = subprocess.run(["pgrep", "-P", str(gateway.process.pid)], capture_output=True, text=True, check=True).stdout.split()[0]
            return int(re.findall(r"VmRSS:\s+(\d+)", Path(f"/proc/{worker}/status").read_text())[0])

        connection = http.client.HTTPConnection("127.0.0.1", gateway.port, timeout=30)
        token, bad = issue(), issue(OTHER, KID)
        sizes = []
        for _ in range(2):
            for _ in range(3000):
                ask(connection, "/on", token)
                ask(connection, "/on", bad)
            sizes.append(kilobytes())
        self.assertLess(sizes[1] - sizes[0], 500, f"a worker grows: {sizes}")
        gateway.stop()
        shutil.rmtree(gateway.work)


class Memory(unittest.TestCase):
    def test_refused_memory(self) -> None:
        """The library gets none: 500, said at the level of errors, and nothing stays behind."""
        here = Path(os.environ["README"]).parent
        gateway = Gateway()
        subprocess.run(["cc", "-shared", "-fPIC", "-o", gateway.work / "refuse.so", here / "tests/refuse.c", "-ldl"], check=True)
        file = gateway.work / "refuse"
        gateway.before = ("env", f"LD_PRELOAD={gateway.work}/refuse.so", f"REFUSE={file}")
        # nginx passes on the variables that it is told to, and the loader has read its own.
        conf = gateway.work / "nginx.conf"
        conf.write_text("env REFUSE;\n" + conf.read_text())
        gateway.start()
        token = issue()
        for _ in range(2):
            self.assertEqual(gateway.get("/on", token)[0], 200)
            file.touch()
            self.assertEqual(gateway.get("/on", token)[:2], (500, ""))
            self.assertEqual(gateway.last("/on", "500", "memory"), ("/on", "500", "memory"))
            file.unlink()
        self.assertRegex(gateway.log(), r"\[error\] .*paseto: token refused: memory: ")
        gateway.stop()
        shutil.rmtree(gateway.work)


class Load(unittest.TestCase):
    def wrk(self, port: int, path: str, token: str | None, seconds: int) -> str:
        words = ["-H", f"Authorization: Bearer {token}"] if token else []
        return subprocess.run(["wrk", "-t2", "-c100", f"-d{seconds}s", *words, f"http://127.0.0.1:{port}{path}"],
                              capture_output=True, text=True, check=True).stdout

    def test_load(self) -> None:
        gateway = Gateway(http_options="    access_log off;\n").start()
        for name, port, path, token in (("without the module", gateway.bare, "/", None), ("v4.local", gateway.port, "/load", issue()),
                                        ("v4.public", gateway.port, "/load", issue(PAIR, PUBLIC_KID))):
            said = self.wrk(port, path, token, max(SECONDS // 3, 1))
            self.assertNotIn("Non-2xx", said)
            self.assertNotIn("Socket errors", said)
            print(f"\nwrk, 100 connections: {name}: {re.findall(r'Requests/sec: +([0-9.]+)', said)[0]} requests per second", flush=True)
        gateway.stop()
        shutil.rmtree(gateway.work)

    def test_rotation_under_load(self) -> None:
        """The ring is turned five times while clients ask: no request fails whose token both rings, before and after, admit."""
        gateway = Gateway(http_options="    access_log off;\n").start()
        keys, statuses, is_over = gateway.work / "keys", [], threading.Event()
        issuing = [(LOCAL, KID)]

        def client() -> None:
            connection = http.client.HTTPConnection("127.0.0.1", gateway.port, timeout=30)
            while not is_over.is_set():
                key, kid = issuing[0]
                token = issue(key, kid)
                try:
                    statuses.append(ask(connection, "/load", token)[0])
                except (http.client.RemoteDisconnected, ConnectionResetError, BrokenPipeError):
                    # A worker that ends closes a connection that rests; a client asks again.
                    connection.close()
                    statuses.append(ask(connection, "/load", token)[0])

        clients = [threading.Thread(target=client) for _ in range(4)]
        for it in clients:
            it.start()
        before = keys / "a.key"
        for turn in range(5):
            key = paseto.LocalKey.generate()
            fresh = keys / f"{turn}.key"
            fresh.write_text(key.to_text())
            self.reload(gateway)
            issuing[0] = (key, key.id)
            time.sleep(0.5)
            before.unlink()
            self.reload(gateway)
            before = fresh
        is_over.set()
        for it in clients:
            it.join()
        self.assertEqual(set(statuses), {200})
        self.assertGreater(len(statuses), 200)
        self.assertEqual(gateway.get("/load", issue())[0], 401)
        # A broken file leaves the running server as it is.
        (keys / "broken.key").write_text("no key")
        gateway.process.send_signal(signal.SIGHUP)
        time.sleep(0.5)
        self.assertEqual(gateway.get("/load", issue(*issuing[0]))[0], 200)
        self.assertIn("broken.key is no key: ", gateway.log())
        gateway.stop()
        shutil.rmtree(gateway.work)

    def reload(self, gateway: Gateway) -> None:
        """Reloads, and waits until a new worker serves and the one before takes no more."""
        begun = gateway.log().count("gracefully shutting down")
        gateway.process.send_signal(signal.SIGHUP)
        for _ in range(200):
            if gateway.log().count("gracefully shutting down") > begun:
                return
            time.sleep(0.02)
        self.fail(gateway.log()[-1000:])


class Broken(unittest.TestCase):
    def test_broken_configurations(self) -> None:
        gateway = Gateway()
        work = gateway.work
        for name in ("empty", "bad", "rsa", "latin"):
            (work / name).mkdir()
        (work / "bad/a.key").write_text(LOCAL.to_text())
        (work / "bad/readme.txt").write_text("these are keys\n")
        (work / "no.key").write_text("no key")
        (work / "secret.key").write_text(PAIR.to_text())
        (work / "v2.key").write_text(paseto.LocalKey.generate(2).to_text())
        (work / "long.key").write_text("x" * 20000)
        short = rsa(1024)
        (work / "rsa/short.pem").write_bytes(openssl("pkey", "-pubout", given=short))
        (work / "short.pub").write_text(rsa_texts(short)[0])
        (work / "rsa.key").write_text(RSA.to_text())
        (work / "rsa.pem").write_bytes(RSA_PEM)
        (work / "encrypted.pem").write_bytes(openssl("pkey", "-aes256", "-passout", "pass:a", given=RSA_PEM))
        on = "paseto on; "
        for text, wanted in (
            (on, '"paseto" is on, and "paseto_keys" names no keys'),
            ("paseto maybe;", 'invalid value "maybe"'),
            (f"{on}paseto_keys none.key;", f'"paseto_keys": {work}/none.key cannot be opened (2: No such file or directory)'),
            (f"{on}paseto_keys no.key;", f'"paseto_keys": {work}/no.key is no key: '),
            (f"{on}paseto_keys long.key;", f'"paseto_keys": {work}/long.key is too long for a key'),
            (f"{on}paseto_keys secret.key;", f'"paseto_keys": {work}/secret.key is a private key: the gateway needs its public key alone'),
            (f"{on}paseto_keys empty;", f'"paseto_keys": the folder {work}/empty has no key'),
            (f"{on}paseto_keys bad;", f'"paseto_keys": {work}/bad/readme.txt is no key: '),
            (f"{on}paseto_keys rsa;", f'"paseto_keys": {work}/rsa/short.pem is no key: {paseto.OtherSize.text()}'),
            (f"{on}paseto_keys short.pub;", f'"paseto_keys": {work}/short.pub is no key: {paseto.InvalidKey.text()}'),
            (f"{on}paseto_keys rsa.key;", f'"paseto_keys": {work}/rsa.key is a private key: the gateway needs its public key alone'),
            (f"{on}paseto_keys rsa.pem;", f'"paseto_keys": {work}/rsa.pem is a private key: the gateway needs its public key alone'),
            (f"{on}paseto_keys encrypted.pem;", f'"paseto_keys": {work}/encrypted.pem is no key: {paseto.EncryptedKey.text()}'),
            (f"{on}paseto_keys old; paseto_assertion a;", '"paseto_assertion": tokens of version 1 have no implicit assertion'),
            (f"{on}paseto_keys keys; paseto_keys keys;", '"paseto_keys" directive is duplicate'),
            (f"{on}paseto_keys keys; paseto_footer a;", '"paseto_footer": the footer of a token names a key of the folder in "paseto_keys"'),
            (f"{on}paseto_keys v2.key; paseto_assertion a;", '"paseto_assertion": tokens of version 2 have no implicit assertion'),
            (f"{on}paseto_keys keys; paseto_claim aud a; paseto_claim aud b;", '"paseto_claim" directive names a claim twice'),
            (f"{on}paseto_keys keys; paseto_claim aud;", 'invalid number of arguments in "paseto_claim" directive'),
            (f"{on}paseto_keys keys; paseto_require;", 'invalid number of arguments in "paseto_require" directive'),
            (f"{on}paseto_keys keys; paseto_leeway soon;", '"paseto_leeway" directive invalid value'),
            (f"{on}paseto_keys keys; paseto_leeway 200y;", '"paseto_leeway" directive is too long'),
            (f"{on}paseto_keys keys; paseto_longest 0;", '"paseto_longest" directive is 0'),
            (f"{on}paseto_keys keys; paseto_token $nothing;", 'unknown "nothing" variable'),
        ):
            gateway.write("    server { listen 127.0.0.1:{port}; location / { " + text + " } }\n")
            asked = subprocess.run([NGINX, "-t", "-p", str(work), "-c", str(work / "nginx.conf")], capture_output=True, text=True)
            self.assertEqual(asked.returncode, 1, f"{text}: {asked.stderr}")
            self.assertIn(wanted, asked.stderr, text)
            if "unknown" not in wanted:
                self.assertIn(f"{work}/nginx.conf:", asked.stderr, text)
        gateway.write("    server { listen 127.0.0.1:{port}; location / { paseto on; paseto_keys keys; } }\n")
        (work / "keys/a.key").chmod(0o644)
        asked = subprocess.run([NGINX, "-t", "-p", str(work), "-c", str(work / "nginx.conf")], capture_output=True, text=True)
        self.assertEqual(asked.returncode, 0, asked.stderr)
        self.assertIn("[warn] ", asked.stderr)
        self.assertIn(f"others than its owner can read the secret key {work}/keys/a.key", asked.stderr)
        self.assertNotIn("b.pub", asked.stderr)
        shutil.rmtree(work)


class Json(unittest.TestCase):
    """The reader of JSON, alone under the sanitizers, beside that of Python."""

    def value(self, drawn: random.Random, depth: int) -> Any:
        kind = drawn.randrange(8)
        if kind < 4:
            return (None, drawn.random() < 0.5, drawn.randrange(-(10**6), 10**6), drawn.random())[kind]
        if kind < 6 or depth > 3:
            return "".join(drawn.choice(("a", "é", '"', "\\", "\n", "\0", "🔑", "\ud800", "{", "]", ",", ":", " ")) for _ in range(drawn.randrange(8)))
        if kind == 6:
            return [self.value(drawn, depth + 1) for _ in range(drawn.randrange(4))]
        return {drawn.choice("aAbé"): self.value(drawn, depth + 1) for _ in range(drawn.randrange(4))}

    def changed(self, drawn: random.Random, text: bytes) -> bytes:
        made = bytearray(text)
        for _ in range(drawn.randrange(1, 4)):
            at = drawn.randrange(len(made) + 1)
            if drawn.random() < 0.3:
                del made[at:]
            else:
                made[at : at + drawn.randrange(3)] = bytes(drawn.choice(b'{}[]",:\\u0d8a e1') for _ in range(drawn.randrange(3)))
        return bytes(made)

    def test_members(self) -> None:
        here, drawn = Path(os.environ["README"]).parent, random.Random(SEED)
        with tempfile.TemporaryDirectory() as work:
            words = ["cc", "-std=c11", "-D_GNU_SOURCE", "-Wall", "-Wextra", "-Werror", "-g", "-O1", "-fsanitize=address,undefined", "-fno-sanitize-recover=all"]
            subprocess.run([*words, "-I", here / "tests/alone", "-I", here, "-o", f"{work}/json", here / "tests/json.c", here / "paseto_json.c"], check=True)
            whole = [json.dumps({drawn.choice(("a", "A", "b", "é", "aa")): self.value(drawn, 0) for _ in range(drawn.randrange(5))},
                                indent=drawn.choice((None, 1))).encode() for _ in range(2000)]
            texts = [*whole, *(self.changed(drawn, drawn.choice(whole)) for _ in range(10000))]
            ran = subprocess.run([f"{work}/json"], input="".join(f"{text.hex()}\n" for text in texts), capture_output=True, text=True)
        self.assertEqual((ran.returncode, ran.stderr), (0, ""))
        found = ran.stdout.splitlines()
        self.assertEqual(len(found), len(texts))
        for text, line in zip(texts, found):
            try:
                wanted = json.loads(text)
            except ValueError:
                continue
            if not isinstance(wanted, dict) or "a" not in wanted:
                self.assertEqual(line, "0", text)
                continue
            words = line.split(" ")
            self.assertEqual((words[0], json.loads(bytes.fromhex(words[1]))), ("1", wanted["a"]), text)
            is_text = isinstance(wanted["a"], str) and not any("\ud800" <= letter <= "\udfff" for letter in wanted["a"])
            self.assertEqual(words[2:], ["text" + wanted["a"].encode().hex()] if is_text else [], text)


class Readme(unittest.TestCase):
    def test_the_configuration_of_the_readme(self) -> None:
        gateway = Gateway()
        block = re.findall(r"^```nginx\n(.*?)^```$", Path(os.environ["README"]).read_text(), re.M | re.S)[0]
        http_block = block[block.index("http {") + 6 : block.rindex("}")]
        for stands, put in (("443 ssl http2", "127.0.0.1:{port}"), ("/etc/nginx/paseto", "keys"), ("127.0.0.1:8000", "127.0.0.1:{upstream}")):
            self.assertIn(stands, http_block)
            http_block = http_block.replace(stands, put)
        gateway.write(http_block + f"\n    server {{ listen 127.0.0.1:{{upstream}}; location / {{ return 200 '{UPSTREAM}'; }} }}\n")
        gateway.start()
        self.assertEqual(gateway.get("/", None)[0], 401)
        self.assertEqual(gateway.get("/health", None)[0], 200)
        self.assertEqual(gateway.get("/", issue(aud="staff"))[0], 403)
        self.assertTrue(gateway.get("/", issue(aud="customers"), X_User="root")[2].startswith("user=ada|"))
        gateway.stop()
        shutil.rmtree(gateway.work)


if __name__ == "__main__":
    unittest.main()
