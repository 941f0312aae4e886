"""The calls that scan.py makes, each with the secrets of which nothing may be left.

`cases` yields (name, export, what is given by the names of the header's parameters, secrets by name, status), and is sent what
the call left in its buffers.
"""
import json
import random
import re
import struct
import subprocess

from derived import of_ed25519, of_local, of_p384, of_password, of_rsa, of_sealing, of_wrapping, pae

RANDOM = random.Random(7)
NOW = 1_700_000_000 * 10**9
OK, CRYPTION, CHACHA, EXPIRED, INVALID, WRONG_KEY = 0, 12, 13, 20, 25, 43
LOCAL, PRIVATE, PUBLIC = 1, 2, 3
# How often a password is hashed in versions 1 and 3.
ITERATIONS = 100_000
OPTIONS = struct.pack("<QIxxxxQQQQ", 48, 0, 0, 0, 0, 0)


def draw(n):
    return RANDOM.randbytes(n)


def letters(n):
    return "".join(RANDOM.choice("abcdefghijklmnopqrstuvwxyzABCDEFGHIJKLMNOPQRSTUVWXYZ0123456789") for _ in range(n)).encode()


def held(version, kind, data):
    """struct paseto_key."""
    return struct.pack("<BBH", version, kind, len(data)) + data.ljust(1244, b"\0")


def bytes_of(key):
    return key[4:4 + struct.unpack("<H", key[2:4])[0]]


def told(text):
    """What a text of a key tells of it: not the beginning of DER, which is the same for all keys."""
    if text.startswith(b"-----"):
        written = b"".join(text.split(b"\n")[1:-2])
        return {"text": written[300:] if len(written) > 1000 else written[-20:]}
    written = text[text.rindex(b".") + 1:]
    return {"text": written[300:] if len(written) > 1000 else written}


# ---- tokens


def local_cases(version, size):
    data, drawn, text = draw(32), draw(48), letters(size)
    key, name = held(version, LOCAL, data), f"v{version} {{}} {size} bytes".format
    secrets = {"key": data, **of_local(version, data, drawn[:24] if version == 2 else drawn[:32], text), "text": text}
    after = yield name("encrypting"), "paseto_encrypt_with", {"key": key, "drawn": drawn, "text": text}, secrets, OK
    token = after["room"]
    yield name("decrypting"), "paseto_decrypt", {"key": key, "token": token}, secrets, OK
    modified = token[:-1] + (b"A" if token[-1:] != b"A" else b"Q")
    refusal = CHACHA if version == 2 else CRYPTION
    yield name("decrypting, modified,"), "paseto_decrypt", {"key": key, "token": modified}, secrets, refusal


def claims_cases(version):
    data, drawn = draw(32), draw(48)
    key, name = held(version, LOCAL, data), f"v{version} {{}}".format
    said = {name: letters(24).decode() for name in ("sub", "jti", "iss", "note")}
    claims = json.dumps({**said, "deep": [[[[letters(24).decode()]]]], "n": 12}).encode()
    secrets = {"key": data, **(of_local(version, data, drawn[:32]) if version > 2 else {}),
               **{f"claim {name}": text.encode() for name, text in said.items()}}
    given = {"key": key, "drawn": drawn, "now": NOW}
    footer = b'{"kid":"%s"}'
    after = yield name("id"), "paseto_key_id", {"key": key}, {"key": data}, OK
    footer %= after["room"]
    after = yield name("issuing"), "paseto_issue_with", {**given, "claims": claims, "footer": footer}, secrets, OK
    read = {"token": after["room"], "expected": json.dumps({"sub": said["sub"]}).encode(), "now": NOW, "options": OPTIONS}
    one, ring = {**read, "key": key, "footer": footer}, {**read, "keys": held(version, LOCAL, draw(32)) + key}
    yield name("admitting"), "paseto_admit", one, secrets, OK
    yield name("admitting, expired"), "paseto_admit", {**one, "now": NOW + 10**16}, secrets, EXPIRED
    yield name("admitting for somebody else"), "paseto_admit", {**one, "expected": b'{"sub":"somebody"}'}, secrets, INVALID
    yield name("admitting by a ring"), "paseto_admit_by", {**ring, "footer": b""}, secrets, OK
    deep = b'{"a":' + b"[" * 100 + b'"' + letters(40) + b'"' + b"]" * 100 + b"}"
    secrets = {"key": data, "claim": re.search(rb"\w{40}", deep)[0]}
    after = yield name("issuing 100 levels"), "paseto_issue_with", {**given, "claims": deep}, secrets, OK
    read = {"key": key, "token": after["room"], "expected": b"{}", "now": NOW, "options": OPTIONS}
    yield name("admitting 100 levels"), "paseto_admit", read, secrets, OK


def signing_cases(version, private, public, of):
    """of(message): what is derived when the message is signed."""
    text, half, name = letters(50), bytes_of(public), f"v{version} {{}}".format
    parts = (f"v{version}.public.".encode(), text, b"", *[b""] * (version > 2))
    secrets = of(pae(*[half] * (version == 3), *parts))
    given = {"key": private, "drawn": draw(48)}
    after = yield name("signing"), "paseto_sign_with", {**given, "text": text}, secrets, OK
    yield name("verifying"), "paseto_verify", {"key": public, "token": after["room"]}, {"text": text}, OK
    claims = b'{"sub":"' + letters(24) + b'"}'
    secrets = {**of(b""), "claims": claims}
    after = yield name("issuing a signed token"), "paseto_issue_with", {**given, "claims": claims, "now": NOW}, secrets, OK
    read = {"key": public, "token": after["room"], "expected": claims, "now": NOW, "options": OPTIONS}
    yield name("admitting a signed token"), "paseto_admit", read, {"claims": claims}, OK


# ---- keys


def text_cases(name, key, secrets, forms):
    """A key to its texts and back, and its id."""
    for form in forms:
        after = yield f"{name} to {form}", f"paseto_key_{form}", {"key": key}, secrets, OK
        if form != "id":
            text = after["room"]
            yield f"{name} from {form}", "paseto_key_read", {"text": text}, {**secrets, **(told(text) if secrets else {})}, OK


def locked_cases(name, key, secrets):
    """A key under a password, and under a wrapping key."""
    version, password, wrapping, drawn = key[0], letters(40), draw(32), draw(48)
    under = {**secrets, **of_password(version, password, drawn[:32], ITERATIONS)}
    given = {"key": key, "password": password, "drawn": drawn}
    after = yield f"{name} under a password", "paseto_key_protect_with", given, under, OK
    locked = {"text": after["room"], "password": password}
    yield f"{name} unlocked", "paseto_key_unlock", locked, under, OK
    wrong = letters(40)
    yield f"{name} not unlocked", "paseto_key_unlock", {**locked, "password": wrong}, {**secrets, "password": wrong}, WRONG_KEY
    under = {**secrets, "wrapping key": wrapping, **of_wrapping(version, wrapping, drawn[:32])}
    by = held(version, LOCAL, wrapping)
    after = yield f"{name} wrapped", "paseto_key_wrap_with", {"key": key, "other": by, "drawn": drawn}, under, OK
    yield f"{name} unwrapped", "paseto_key_unwrap", {"text": after["room"], "opener": by}, under, OK
    yield f"{name} wiped", "paseto_key_wipe", {"key": key}, secrets, None


def local_key_cases(version):
    drawn = draw(48)
    given, secrets = {"version": version, "type": LOCAL, "drawn": drawn}, {"key": drawn[:32]}
    after = yield f"v{version} new local key", "paseto_key_generate_with", given, secrets, OK
    yield from text_cases(f"v{version} local key", after["key"], secrets, ("text", "id"))
    yield from locked_cases(f"v{version} local key", after["key"], secrets)


def sealing_cases(version, private, public, secrets):
    data, drawn = draw(32), draw(48)
    given = {"key": held(version, LOCAL, data), "other": public, "drawn": drawn}
    under = {"key": data, **(of_sealing(drawn[:32], bytes_of(public)) if version != 3 else {"ephemeral secret": drawn})}
    after = yield f"v{version} sealing", "paseto_key_seal_with", given, under, OK
    opened = {"text": after["room"], "opener": private}
    yield f"v{version} unsealing", "paseto_key_unwrap", opened, {"key": data, **secrets}, OK


def pair_cases(version):
    of, drawn = of_p384 if version == 3 else of_ed25519, draw(48)
    seed = drawn if version == 3 else drawn[:32]
    secrets, name = of(seed, b""), f"v{version} private key"
    given = {"version": version, "type": PRIVATE, "drawn": drawn}
    after = yield f"v{version} new private key", "paseto_key_generate_with", given, secrets, OK
    private = after["key"]
    after = yield f"v{version} public half", "paseto_key_public", {"private_key": private}, secrets, OK
    public = after["key"]
    yield from signing_cases(version, private, public, lambda message: of(seed, message))
    forms = ("text", "id") if version == 2 else ("text", "pem", "id")
    yield from text_cases(name, private, secrets, forms)
    yield from text_cases(f"v{version} public key", public, {}, forms)
    yield from locked_cases(name, private, secrets)
    yield from sealing_cases(version, private, public, secrets)


def rsa_cases():
    openssl = lambda text, *words: subprocess.run(["openssl", *words], input=text, capture_output=True, check=True).stdout
    pem = openssl(b"", "genpkey", "-algorithm", "RSA", "-pkeyopt", "rsa_keygen_bits:2048")
    private = openssl(pem, "pkcs8", "-topk8", "-nocrypt", "-outform", "DER")
    public = openssl(pem, "rsa", "-RSAPublicKey_out", "-outform", "DER")
    halves = held(1, PRIVATE, private), held(1, PUBLIC, public)
    yield from signing_cases(1, *halves, lambda _: of_rsa(private))
    yield "v1 public half", "paseto_key_public", {"private_key": halves[0]}, of_rsa(private), OK
    yield from text_cases("v1 private key", halves[0], of_rsa(private), ("text", "pem", "id"))
    yield from text_cases("v1 public key", halves[1], {}, ("text", "pem", "id"))
    yield from locked_cases("v1 private key", halves[0], of_rsa(private))


def cases():
    for version in (1, 2, 3, 4):
        for size in (64, 3000):
            yield from local_cases(version, size)
        yield from claims_cases(version)
        yield from local_key_cases(version)
        if version > 1:
            yield from pair_cases(version)
    yield from rsa_cases()
    yield "a footer", "paseto_token_footer", {"token": b"v4.local.QUFB.e30"}, {}, OK
    yield "the text of a status", "paseto_error_text", {"status": 20}, {}, OK
