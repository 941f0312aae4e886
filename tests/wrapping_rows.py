#!/usr/bin/env python3
"""Prints crates/test_vectors/src/wrapping/rows.rt: keys under wrapping keys and under passwords.

They are made as the PASERK specification says by Python's hashlib and hmac, AES of the package cryptography, XChaCha20 of
libsodium and Argon2id of libargon2. The private key of version 1 is the RSAPrivateKey that OpenSSL made, which stands in
crates/test_vectors/src/pem/texts.rt. With a file of vectors as an argument (columns: type, name, expected, key, text, kind,
what it is wrapped under) each of its keys under a wrapping key or a password is first made again, and has to be the same.
With the word `rsa` alone it prints the table of crates/test_vectors/src/wrapping/rsa.rt: of version 1, what others may have wrapped.
"""
import base64
import ctypes
import hashlib
import hmac
import pathlib
import re
import sys

from cryptography.hazmat.primitives.ciphers import Cipher, algorithms, modes

SODIUM = ctypes.CDLL("libsodium.so.23")
ARGON2 = ctypes.CDLL("libargon2.so.1")


def spelled(data):
    return base64.urlsafe_b64encode(data).rstrip(b"=").decode()


def unspelled(text):
    return base64.urlsafe_b64decode(text + "=" * (-len(text) % 4))


def aes(key, counter, data):
    return Cipher(algorithms.AES256(key), modes.CTR(counter)).encryptor().update(data)


def xchacha20(key, nonce, data):
    out = ctypes.create_string_buffer(len(data))
    assert SODIUM.crypto_stream_xchacha20_xor(out, data, ctypes.c_ulonglong(len(data)), nonce, key) == 0
    return out.raw


def argon2id(password, salt, memory, passes, lanes):
    out = ctypes.create_string_buffer(32)
    answer = ARGON2.argon2id_hash_raw(
        ctypes.c_uint32(passes), ctypes.c_uint32(memory // 1024), ctypes.c_uint32(lanes), password,
        ctypes.c_size_t(len(password)), salt, ctypes.c_size_t(len(salt)), out, ctypes.c_size_t(32))
    assert answer == 0
    return out.raw


def is_nist(version):
    return version in (1, 3)


def hmac384(key, message):
    return hmac.new(key, message, hashlib.sha384).digest()


def blake2b(length, message, key=b""):
    return hashlib.blake2b(message, digest_size=length, key=key).digest()


def tag_of(version, key, message):
    return hmac384(key, message) if is_nist(version) else blake2b(32, message, key)


def encrypted(version, key, nonce, data):
    return (aes if is_nist(version) else xchacha20)(key, nonce, data)


def wrapped(version, kind, wrapping, nonce, key):
    header = b"k%d.%s-wrap.pie." % (version, kind.encode())
    if is_nist(version):
        x = hmac384(wrapping, b"\x80" + nonce)
        authentication = hmac384(wrapping, b"\x81" + nonce)[:32]
    else:
        x = blake2b(56, b"\x80" + nonce, wrapping)
        authentication = blake2b(32, b"\x81" + nonce, wrapping)
    body = encrypted(version, x[:32], x[32:], key)
    return header.decode() + spelled(tag_of(version, authentication, header + nonce + body) + nonce + body)


def protected(version, kind, password, cost, salt, nonce, key):
    header = b"k%d.%s-pw." % (version, kind.encode())
    iterations, memory, passes, lanes = cost
    if is_nist(version):
        told = iterations.to_bytes(4, "big")
        secret = hashlib.pbkdf2_hmac("sha384", password, salt, iterations, 32)
        encryption = hashlib.sha384(b"\xff" + secret).digest()[:32]
        authentication = hashlib.sha384(b"\xfe" + secret).digest()
    else:
        told = memory.to_bytes(8, "big") + passes.to_bytes(4, "big") + lanes.to_bytes(4, "big")
        secret = argon2id(password, salt, memory, passes, lanes)
        encryption = blake2b(32, b"\xff" + secret)
        authentication = blake2b(32, b"\xfe" + secret)
    front = salt + told + nonce + encrypted(version, encryption, nonce, key)
    return header.decode() + spelled(front + tag_of(version, authentication, header + front))


def published(path):
    """The file's keys under wrapping keys and passwords, with the nonces and the salts that their texts tell."""
    for line in open(path):
        kind, name, expected, key, text, _, under = line.split("\t")[:7]
        version, kind = int(kind[1]), kind[3:]
        key, under = bytes.fromhex(key), bytes.fromhex(under.strip()) if under.strip() != "-" else b""
        if kind == "seal" or expected != "ok":
            continue
        half, payload = kind.split("-")[0], unspelled(text.split(".")[-1])
        if kind.endswith("wrap.pie"):
            front = 48 if is_nist(version) else 32
            nonce = payload[front:front + 32]
            assert wrapped(version, half, under, nonce, key) == text, name
            yield "wrapped", (version, half, key, under, nonce, text)
        elif is_nist(version):
            cost = (int.from_bytes(payload[32:36], "big"), 0, 0, 0)
            assert protected(version, half, under, cost, payload[:32], payload[36:52], key) == text, name
            yield "protected", (version, half, key, under, cost, payload[:32], payload[36:52], text)
        else:
            cost = (0, *(int.from_bytes(payload[a:b], "big") for a, b in ((16, 24), (24, 28), (28, 32))))
            assert protected(version, half, under, cost, payload[:16], payload[32:56], key) == text, name
            yield "protected", (version, half, key, under, cost, payload[:16], payload[32:56], text)


def drawn(name, length):
    return hashlib.shake_256(name.encode()).digest(length)


def in_pem(name):
    """What stands in PEM in the tests of the crate paseto_pem."""
    texts = (pathlib.Path(__file__).parent.parent / "crates/test_vectors/src/pem/texts.rt").read_text()
    text = re.search(r"const %s: &str = concat!\((.*?)\);" % name, texts, re.DOTALL).group(1)
    return base64.b64decode("".join(re.findall(r'"([A-Za-z0-9+/=]+)\\n"', text)))


def others():
    """What may have been wrapped as a private key of version 1, with what the error for it says."""
    key = in_pem("RSA_PRIVATE_PKCS1")
    yield "the PrivateKeyInfo", in_pem("RSA_PRIVATE"), "a key"
    yield "no encoding", drawn("key secret 1", 100), "what was wrapped is no key of the version"
    yield "nothing", b"", "what was wrapped is no key of the version"
    yield "a byte more", key + b"\0", "what was wrapped is no key of the version"
    yield "a byte less", key[:-1], "what was wrapped is no key of the version"
    yield "a key of 1024 bits", in_pem("RSA_1024_PRIVATE")[26:], "what was wrapped is no key of the version"
    yield "the public key", in_pem("RSA_PUBLIC"), "what was wrapped is no key of the version"


if sys.argv[1:] == ["rsa"]:
    nonce, salt = drawn("nonce secret 1", 32), drawn("salt secret 1 0", 32)
    for name, octets, said in others():
        print(f'    // {name}\n    (\n        "{octets.hex()}",')
        print(f'        "{wrapped(1, "secret", drawn("wrapping secret 1", 32), nonce, octets)}",')
        text = protected(1, "secret", b"", (1, 0, 0, 0), salt, drawn("second secret 1 0", 16), octets)
        print(f'        "{text}",\n        "{said}",\n    ),')
    sys.exit()

LENGTHS = {("local", 1): 32, ("local", 2): 32, ("local", 3): 32, ("local", 4): 32,
           ("secret", 1): 0, ("secret", 2): 64, ("secret", 3): 48, ("secret", 4): 64}
COSTS = {True: [(1, 0, 0, 0), (1000, 0, 0, 0)], False: [(0, 8192, 1, 1), (0, 65536, 2, 3)]}

rows = {"wrapped": [], "protected": []}
for path in sys.argv[1:]:
    for table, row in published(path):
        # Tests are also run by interpretation, which fills 64 MiB too slowly: such a row is only made again here.
        if table == "wrapped" or row[4][1] <= 1 << 20:
            rows[table].append(row)
for (kind, version), length in LENGTHS.items():
    key = drawn(f"key {kind} {version}", length) if length else in_pem("RSA_PRIVATE_PKCS1")
    wrapping, nonce = drawn(f"wrapping {kind} {version}", 32), drawn(f"nonce {kind} {version}", 32)
    rows["wrapped"].append((version, kind, key, wrapping, nonce, wrapped(version, kind, wrapping, nonce, key)))
    for number, cost in enumerate(COSTS[is_nist(version)]):
        password = [b"", "pa\u00dfwort".encode()][number]
        salt = drawn(f"salt {kind} {version} {number}", 32 if is_nist(version) else 16)
        nonce = drawn(f"second {kind} {version} {number}", 16 if is_nist(version) else 24)
        text = protected(version, kind, password, cost, salt, nonce, key)
        rows["protected"].append((version, kind, key, password, cost, salt, nonce, text))


def shown(field):
    if isinstance(field, tuple):
        return "(" + ", ".join(f"{number:_}" if number > 9999 else str(number) for number in field) + ")"
    return f'"{field.hex()}"' if isinstance(field, bytes) else f'"{field}"' if isinstance(field, str) else str(field)


def show(name, form, table):
    print(f"pub(super) const {name}: &[{form}] = &[")
    for row in table:
        print("    (")
        for field in row:
            print(f"        {shown(field)},")
        print("    ),")
    print("];")


print("//! What an independent implementation made of keys: `tests/wrapping_rows.py` prints this file. The first rows of each\n"
      "//! table are of the PASERK specification's vectors.\n")
print("/// A key under a wrapping key: the version, the half, the key, the wrapping key, the nonce and the text.")
print("pub(super) type Wrapped = (\n    u8,\n    &'static str,\n    &'static str,\n    &'static str,\n    &'static str,\n    &'static str,\n);\n")
print("/// A key under a password: the version, the half, the key, the password, the iterations, memory, passes and lanes, the\n"
      "/// salt, the nonce and the text.")
print("pub(super) type Protected = (\n    u8,\n    &'static str,\n    &'static str,\n    &'static str,\n    (u32, u64, u32, u32),\n    &'static str,\n    &'static str,\n    &'static str,\n);\n")
show("WRAPPED", "Wrapped", rows["wrapped"])
print()
show("PROTECTED", "Protected", rows["protected"])
