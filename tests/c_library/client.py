"""A program in Python over the package of bindings/python, which asks each call; the last line is 'N passed, M failed'."""

from __future__ import annotations

import copy
import inspect
import pickle
import sys
import threading
from datetime import timedelta

import paseto

NOW = 1795608000  # 2026-11-25T12:00:00Z
passed = failed = 0


def check(holds: bool, what: str) -> None:
    """Counts a fact."""
    global passed, failed
    if holds:
        passed += 1
    else:
        failed += 1
        print(f"FAILED: {what}")


def refuses(fault: type[Exception], what: str, call, *words, **named) -> None:
    """Counts that a call raises just this."""
    try:
        call(*words, **named)
    except Exception as raised:
        check(type(raised) is fault, f"{what}: {type(raised).__name__}: {raised}")
    else:
        check(False, f"{what}: nothing is raised")


def changed(token: str) -> str:
    """The token with another character in its payload."""
    return token[:20] + ("A" if token[20] != "A" else "B") + token[21:]


def ask_tokens(issuing, admitting, another, of_another_key: type[Exception]) -> None:
    """Issues under one key and admits under the other."""
    claims = {"sub": "Grüße 🔑", "aud": "customers", "seats": 4, "roles": ["a", {"b": None}], "is": True}
    token = paseto.issue(issuing, claims, now=NOW)
    read = paseto.admit(token, admitting, aud="customers", now=NOW)
    check(claims.items() <= read.items(), "what is issued is admitted, at once")
    check(read["exp"] == "2026-11-25T13:00:00+00:00", f"it expires an hour later: {read['exp']}")
    check(set(read) == {*claims, "exp", "iat", "nbf"}, f"nothing else is in it: {set(read)}")
    check(paseto.admit(token, admitting, now=NOW + 3599)["seats"] == 4, "it is admitted until it expires")
    check(paseto.admit(token, admitting, expected={"seats": 4, "is": True}, now=NOW)["seats"] == 4, "expected claims")
    check(paseto.issue(issuing, claims, now=NOW) != token or isinstance(issuing, paseto.PrivateKey), "nonces are drawn")
    refuses(paseto.Expired, "an hour later", paseto.admit, token, admitting, now=NOW + 3600)
    refuses(paseto.UseBeforeAvailable, "a second before", paseto.admit, token, admitting, now=NOW - 1)
    refuses(paseto.Invalid, "another audience", paseto.admit, token, admitting, aud="others", now=NOW)
    refuses(paseto.Missing, "a claim that is not there", paseto.admit, token, admitting, expected={"iss": "x"}, now=NOW)
    refuses(paseto.Unexpected, "another number", paseto.admit, token, admitting, expected={"seats": 5}, now=NOW)
    refuses(of_another_key, "a tampered token", paseto.admit, changed(token), admitting, now=NOW)
    refuses(of_another_key, "another key", paseto.admit, token, another, now=NOW)
    refuses(of_another_key, "another assertion", paseto.admit, token, admitting, assertion="x", now=NOW)
    refuses(paseto.FooterInvalid, "another footer", paseto.admit, token, admitting, footer="x", now=NOW)
    for short in ("", "v4", "v4.local", token[:8], token[:20], "v4.local.AAAA", "v4.public.AAAA"):
        try:
            paseto.admit(short, admitting, now=NOW)
        except paseto.Refused:
            check(True, short)
        else:
            check(False, f"the short token {short} is admitted")
    refuses(paseto.NotUtf8, "a surrogate", paseto.admit, token + "\ud800", admitting, now=NOW)
    refuses(paseto.InvalidMoment, "a moment beyond C", paseto.admit, token, admitting, now=2**63)
    bound = paseto.issue(issuing, {}, now=NOW, expires_in=timedelta(minutes=5), footer='{"kid":"1"}', assertion="user-7")
    check(paseto.footer_of(bound) == '{"kid":"1"}', "the footer is read")
    check(paseto.footer_of(token) == "", "no footer is the empty text")
    given = {"footer": '{"kid":"1"}', "assertion": "user-7"}
    check(paseto.admit(bound, admitting, now=NOW + 299, **given)["exp"] == "2026-11-25T12:05:00+00:00", "five minutes")
    refuses(paseto.Expired, "five minutes later", paseto.admit, bound, admitting, now=NOW + 300, **given)
    for length in (100_000, 1_100_000):
        claims = {"text": "x" * length}
        long = paseto.issue(issuing, claims, now=NOW)
        check(paseto.admit(long, admitting, expected=claims, now=NOW)["text"] == claims["text"], "a long token finds its room")
    ask_options(token, admitting)
    kept = paseto.issue(issuing, {"exp": "2030-01-01T00:00:00Z", "nbf": "2020-01-01T00:00:00Z"}, now=NOW)
    check(paseto.admit(kept, admitting, now=NOW + 10**7)["exp"] == "2030-01-01T00:00:00Z", "claims say when it expires")
    fresh = paseto.issue(issuing, {"sub": "x"})
    check(paseto.admit(fresh, admitting)["sub"] == "x", "by the clock it is admitted at once")


def ask_options(token: str, key) -> None:
    """What is asked beside claims, and what a refusal tells."""
    check(paseto.admit(token, key, require=["exp", "roles"], now=NOW)["seats"] == 4, "claims that have to be there")
    refuses(paseto.Missing, "a claim that has to be there", paseto.admit, token, key, require=["jti"], now=NOW)
    refuses(TypeError, "a name that is no text", paseto.admit, token, key, require=[1], now=NOW)
    check(paseto.admit(token, key, leeway=1, now=NOW + 3600)["seats"] == 4, "a second of leeway")
    refuses(paseto.Expired, "a second later", paseto.admit, token, key, leeway=1, now=NOW + 3601)
    check(paseto.admit(token, key, longest=len(token), now=NOW)["seats"] == 4, "a token of the limit's length")
    refuses(paseto.TooLong, "a longer token", paseto.admit, token, key, longest=len(token) - 1, now=NOW)
    refuses(ValueError, "a leeway below 0", paseto.admit, token, key, leeway=-1)
    said = "The claim 'aud' failed validation.  Expected 'customers' but received '" + "x" * 300 + "'"
    try:
        paseto.admit(token, key, aud="x" * 300, now=NOW)
    except paseto.Invalid as refusal:
        check(str(refusal) == said, f"what is told: {refusal}")
    else:
        check(False, "another audience is admitted")


def ask_issuing() -> None:
    """What is not issued."""
    key = paseto.LocalKey.generate()
    refuses(TypeError, "a number that is not whole", paseto.issue, key, {"x": 1.5})
    refuses(UnicodeEncodeError, "a surrogate", paseto.issue, key, {"x": "\ud800"})
    refuses(TypeError, "no number", paseto.issue, key, {"x": float("nan")})
    refuses(TypeError, "a key that is no text", paseto.issue, key, {1: 2})
    refuses(TypeError, "no key", paseto.issue, b"k" * 32, {})
    refuses(TypeError, "a public key", paseto.issue, paseto.PrivateKey.generate().public, {})
    refuses(TypeError, "a private key", paseto.admit, "v4.public.AAAA", paseto.PrivateKey.generate())
    refuses(paseto.InvalidMoment, "an end past the year 9999", paseto.issue, key, {}, expires_in=10**12)
    refuses(paseto.InvalidMoment, "a moment past the year 9999", paseto.issue, key, {}, now=10**12)
    refuses(paseto.InvalidMoment, "a moment beyond C", paseto.issue, key, {}, now=2**63)


def ask_keys() -> None:
    """What keys show."""
    private = paseto.PrivateKey.generate()
    for key in (paseto.LocalKey.generate(), private, private.public):
        shown = f"{key} {key!r} {vars(type(key))}"
        check(key.to_bytes().hex() not in shown and repr(key.to_bytes()) not in shown, f"{type(key)} shows itself")
        check(repr(key) == f"<{type(key).__name__} of version 4>", "the name of the key's type is shown")
        check(type(key)(key.to_bytes()).to_bytes() == key.to_bytes(), "a key is read back")
        refuses(TypeError, "pickling", pickle.dumps, key)
        refuses(TypeError, "copying", copy.deepcopy, key)
        for length in (0, 31, 33, 63, 65):
            refuses(paseto.InvalidKey, f"a key of {length} bytes", type(key), b"k" * length)
    broken = bytearray(private.to_bytes())
    broken[40] ^= 1
    refuses(paseto.Signature, "a private key of two halves", paseto.issue, paseto.PrivateKey(bytes(broken)), {})


def ask_faults() -> None:
    """One class a fault, with the library's text."""
    made = {fault.code: fault for _, fault in inspect.getmembers(paseto, inspect.isclass) if getattr(fault, "code", 0)}
    check(sorted(made) == list(range(2, 51)), f"codes with a class: {sorted(made)}")
    same = (paseto.NotUtf8, paseto.Utf8Error, paseto.FromUtf8Error, paseto.RsaCipher)
    texts = [str(fault()) for fault in made.values() if fault not in same]
    check(len(set(texts)) == len(texts), "the texts tell the faults apart, but those of UTF-8 and of ciphers")
    check(str(paseto.Expired()) == "This token is expired", str(paseto.Expired()))
    check(issubclass(paseto.Expired, paseto.Refused) and issubclass(paseto.NoMemory, MemoryError), "the kinds of faults")
    check(not issubclass(paseto.InvalidKey, paseto.Refused), "a fault of the program is no refusal")


def ask_at_once() -> None:
    """Four threads at once."""
    key = paseto.LocalKey.generate()
    admitted = [0] * 4

    def ask(thread: int) -> None:
        for number in range(500):
            token = paseto.issue(key, {"number": number, "thread": thread})
            read = paseto.admit(token, key)
            admitted[thread] += read["number"] == number and read["thread"] == thread

    threads = [threading.Thread(target=ask, args=(thread,)) for thread in range(4)]
    for thread in threads:
        thread.start()
    for thread in threads:
        thread.join()
    check(admitted == [500] * 4, f"four threads admit {admitted}")


def main() -> int:
    """Asks all of them."""
    local, private = paseto.LocalKey.generate(), paseto.PrivateKey.generate()
    ask_tokens(local, local, paseto.LocalKey.generate(), paseto.Cryption)
    ask_tokens(private, private.public, paseto.PrivateKey.generate().public, paseto.InvalidSignature)
    ask_issuing()
    ask_keys()
    ask_faults()
    ask_at_once()
    print(f"{passed} passed, {failed} failed")
    return failed > 0


if __name__ == "__main__":
    sys.exit(main())
