#!/usr/bin/env python3
"""Prints the rows of crates/test_vectors/src/boxes/sealings.rt: length of the message, length of the data, tag.

The tags are libsodium's (Debian's package libsodium23), by crypto_aead_xchacha20poly1305_ietf_encrypt. Byte i of the
message and of the data is i % 251, the key is 0x80 to 0x9f, and the nonce 0x40 to 0x57."""

import ctypes

sodium = ctypes.CDLL("libsodium.so.23")
sodium.sodium_init()
KEY = bytes(range(0x80, 0xA0))
NONCE = bytes(range(0x40, 0x58))
MESSAGES = [0, 1, 15, 16, 17, 31, 32, 33, 63, 64, 65, 127, 128, 129, 255, 256, 257, 1023, 1024, 1025]
DATA = [0, 1, 12, 15, 16, 17, 31, 32, 33]


def counted(length):
    return bytes(i % 251 for i in range(length))


def sealed(message, data):
    boxed = ctypes.create_string_buffer(len(message) + 16)
    length = ctypes.c_ulonglong()
    sodium.crypto_aead_xchacha20poly1305_ietf_encrypt(
        boxed, ctypes.byref(length), message, ctypes.c_ulonglong(len(message)),
        data, ctypes.c_ulonglong(len(data)), None, NONCE, KEY)
    return boxed.raw[:length.value]


for row, message in enumerate(MESSAGES):
    for data in (DATA[row % 9], DATA[(row + 4) % 9]):
        tag = sealed(counted(message), counted(data))[-16:]
        print(f'    ({message}, {data}, "{tag.hex()}"),')
