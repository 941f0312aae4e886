#!/usr/bin/env python3
"""Prints crates/test_rows/data/sign_input.txt:

    python3 tests/sign_input_rows.py > crates/test_rows/data/sign_input.txt

The rows are of the kind of `sign.input`, the test vectors of the authors of Ed25519
(https://ed25519.cr.yp.to/python/sign.input): private key, public key, message, and signature with message, for messages
of 0 to 1023 bytes. Keys and messages are other ones, from hashes of their numbers; public keys and signatures are
OpenSSL's (Debian's package libssl3), which verifies each signature too."""

import ctypes
import hashlib

ED25519 = 1087
COUNT = 1024

HEADER = """\
# Signed messages of 0 to 1023 bytes, made by tests/sign_input_rows.py. Bytes are hexadecimal, and '-' is the empty list.
# ed25519_signed PRIVATE PUBLIC MESSAGE SIGNED: the private key is a seed and the public key, and what is signed is the
# signature and the message."""

crypto = ctypes.CDLL("libcrypto.so.3")
for name in ("EVP_PKEY_new_raw_private_key", "EVP_PKEY_new_raw_public_key", "EVP_MD_CTX_new"):
    getattr(crypto, name).restype = ctypes.c_void_p


def checked(answer):
    assert answer == 1
    return answer


def key_of(seed):
    return ctypes.c_void_p(crypto.EVP_PKEY_new_raw_private_key(ED25519, None, seed, ctypes.c_size_t(32)))


def public_of(key):
    public, size = ctypes.create_string_buffer(32), ctypes.c_size_t(32)
    checked(crypto.EVP_PKEY_get_raw_public_key(key, public, ctypes.byref(size)))
    return public.raw


def signature_of(key, message):
    signature, size = ctypes.create_string_buffer(64), ctypes.c_size_t(64)
    context = ctypes.c_void_p(crypto.EVP_MD_CTX_new())
    checked(crypto.EVP_DigestSignInit(context, None, None, None, key))
    checked(crypto.EVP_DigestSign(context, signature, ctypes.byref(size), message, ctypes.c_size_t(len(message))))
    crypto.EVP_MD_CTX_free(context)
    return signature.raw


def verify(public, message, signature):
    key = ctypes.c_void_p(crypto.EVP_PKEY_new_raw_public_key(ED25519, None, public, ctypes.c_size_t(32)))
    context = ctypes.c_void_p(crypto.EVP_MD_CTX_new())
    checked(crypto.EVP_DigestVerifyInit(context, None, None, None, key))
    checked(crypto.EVP_DigestVerify(context, signature, ctypes.c_size_t(64), message, ctypes.c_size_t(len(message))))
    crypto.EVP_MD_CTX_free(context)
    crypto.EVP_PKEY_free(key)


def row(size):
    seed = hashlib.sha256(b"seed %d" % size).digest()
    message = hashlib.shake_256(b"message %d" % size).digest(size)
    key = key_of(seed)
    public, signature = public_of(key), signature_of(key, message)
    crypto.EVP_PKEY_free(key)
    verify(public, message, signature)
    print("ed25519_signed", (seed + public).hex(), public.hex(), message.hex() or "-", (signature + message).hex())


def main():
    print(HEADER)
    for size in range(COUNT):
        row(size)


main()
