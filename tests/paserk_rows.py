#!/usr/bin/env python3
"""Prints the rows of crates/test_vectors/src/paserk/rows.rt: a key's version, type and bytes, its text, and its id.

The texts and the ids are made by Python's base64 and hashlib, as the PASERK specification says them.
"""
import base64
import hashlib

SECRET = {2: 64, 3: 48, 4: 64}
PUBLIC = {2: 32, 3: 49, 4: 32}


def spelled(data):
    return base64.urlsafe_b64encode(data).rstrip(b"=").decode()


def hashed(version, message):
    if version in (1, 3):
        return hashlib.sha384(message).digest()[:33]
    return hashlib.blake2b(message, digest_size=33).digest()


def row(version, kind, key):
    text = f"k{version}.{kind}.{spelled(key)}"
    front = f"k{version}.{kind[0]}id."
    return (version, kind, key.hex(), text, front + spelled(hashed(version, (front + text).encode())))


def keys(length):
    """The specification's bytes (zeros, and 70 and on), and bytes by which all characters of the encoding come."""
    yield bytes(length)
    yield bytes((0x70 + i) % 256 for i in range(length))
    yield hashlib.shake_256(b"a key of %d bytes" % length).digest(length)


rows = []
for version in (1, 2, 3, 4):
    rows += [row(version, "local", key) for key in keys(32)]
for version, length in SECRET.items():
    rows += [row(version, "secret", key) for key in keys(length)]
for version, length in PUBLIC.items():
    # A key of version 3 is a compressed point: its first byte is 2 or 3.
    front = b"" if version != 3 else b"\x02"
    rows += [row(version, "public", front + key) for key in keys(length - len(front))]

print("//! What an independent implementation made of keys: `tests/paserk_rows.py` prints this file.\n")
print("/// A row: the version, the type, the key's bytes in hexadecimal digits, its text, and its id.")
print("pub(super) type Row = (u8, &'static str, &'static str, &'static str, &'static str);\n")
print("pub(super) const ROWS: &[Row] = &[")
for version, kind, key, text, name in rows:
    print(f'    (\n        {version},\n        "{kind}",\n        "{key}",\n        "{text}",\n        "{name}",\n    ),')
print("];")
