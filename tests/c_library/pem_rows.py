#!/usr/bin/env python3
"""Makes keys by OpenSSL, for pem.c, which reads and writes them by the library.

    pem_rows.py FOLDER

The texts go into the folder. Standard output has rows of these kinds, where a type is 2 for a private key and 3 for a public
one, and a key is in hexadecimal:

    both VERSION TYPE KEY FILE  the text that is written of the key, and is read as it
    read VERSION TYPE KEY FILE  a text that is read as the key
    text VERSION TYPE KEY FILE  the same in PASERK: the text that is written
    form VERSION TYPE KEY FILE  and another text that is read
    id VERSION TYPE KEY FILE    the id in PASERK
    pair VERSION KEY KEY -      a private key and its public key
    refuse STATUS 0 0 FILE      the status at which it is not read

The bytes of keys are taken from what OpenSSL writes, and not from the library.
"""

import base64
import hashlib
import subprocess
import sys
from pathlib import Path

FOLDER = Path(sys.argv[1])
PRIVATE, PUBLIC = 2, 3
# The statuses of paseto.h.
INVALID_KEY, NOT_UTF8, NO_PASERK = 3, 5, 31
NOT_PEM, ENCRYPTED_KEY, OTHER_LABEL, OTHER_ALGORITHM, OTHER_CURVE, OTHER_SIZE = range(34, 40)
# The version as whose key one of an algorithm is read.
VERSIONS = {"ed25519": 4, "p384": 3, "rsa": 1}


def openssl(*words, given=b""):
    """What OpenSSL writes."""
    return subprocess.run(["openssl", *words], input=given, stdout=subprocess.PIPE, stderr=subprocess.PIPE, check=True).stdout


def generated(*words):
    """A new private key, as PEM."""
    return openssl("genpkey", *words)


def public_of(private):
    """The public key of a private one, as PEM."""
    return openssl("pkey", "-pubout", given=private)


def contents_of(text):
    """The contents of a text in PEM, in DER."""
    return base64.b64decode(b"".join(text.splitlines()[1:-1]), validate=True)


def armored(label, contents):
    """The text of contents, by the rules of RFC 7468."""
    lines = base64.encodebytes(contents).replace(b"\n", b"")
    rows = [lines[i : i + 64] for i in range(0, len(lines), 64)]
    return b"\n".join([b"-----BEGIN %s-----" % label, *rows, b"-----END %s-----\n" % label])


def row(*words):
    print(*words)


def put(name, text):
    """Keeps a text, and answers its path."""
    path = FOLDER / f"{name}.pem"
    path.write_bytes(text)
    return path


def bytes_of(algorithm, private, public):
    """The bytes of both keys, as signing and verifying take them."""
    inner, outer = contents_of(private), contents_of(public)
    if algorithm == "ed25519":
        return inner[-32:] + outer[-32:], outer[-32:]
    if algorithm == "rsa":
        return inner, openssl("rsa", "-pubin", "-RSAPublicKey_out", "-outform", "DER", given=public)
    # An ECPrivateKey is the version 1 and the number of 48 octets; the point is 4, x and y.
    at = inner.index(bytes.fromhex("0201010430")) + 5
    x, y = outer[-96:-48], outer[-48:]
    return inner[at : at + 48], bytes([2 + y[-1] % 2]) + x


def refuse(status, name, text):
    """A row for a text that is no key."""
    row("refuse", status, 0, 0, put(name, text))


def good(algorithm, private):
    """Rows for a pair of keys: both ways, other line ends, and faults of the form."""
    version, public = VERSIONS[algorithm], public_of(private)
    keys = bytes_of(algorithm, private, public)
    for kind, text, key in ((PRIVATE, private, keys[0]), (PUBLIC, public, keys[1])):
        name = f"{algorithm}-{kind}"
        row("both", version, kind, key.hex(), put(name, text))
        row("read", version, kind, key.hex(), put(f"{name}-crlf", text.replace(b"\n", b"\r\n")))
        row("read", version, kind, key.hex(), put(f"{name}-open", text.rstrip(b"\n")))
        first = text.splitlines()[1]
        for fault, status, spoiled in (
            ("behind", NOT_PEM, text + b"\n"),
            ("blank", NOT_PEM, text.replace(b"-----\n", b"-----\n\n", 1)),
            ("cut", NOT_PEM, text[:-2]),
            ("character", NOT_PEM, text.replace(first, first[:20] + b"!" + first[21:], 1)),
        ):
            refuse(status, f"{name}-{fault}", spoiled)
        for form, other in (
            ("before", b"\n" + text),
            ("told", b"Key Info:\n\tKey Security Level: High\n\n" + text),
            ("broken", text.replace(first, first[:20] + b"\n" + first[20:], 1)),
        ):
            row("read", version, kind, key.hex(), put(f"{name}-{form}", other))
    row("pair", version, keys[0].hex(), keys[1].hex(), "-")
    return keys


def spelled(data):
    return base64.urlsafe_b64encode(data).rstrip(b"=")


def in_paserk(keys, private):
    """Rows for the texts and the ids of a key pair of version 1, of which OpenSSL writes the forms."""
    public = public_of(private)
    forms = {
        (PRIVATE, "text"): openssl("rsa", "-traditional", "-outform", "DER", given=private),
        (PRIVATE, "form"): openssl("pkcs8", "-topk8", "-nocrypt", "-outform", "DER", given=private),
        (PUBLIC, "text"): openssl("pkey", "-pubin", "-pubout", "-outform", "DER", given=public),
    }
    for (kind, form), contents in forms.items():
        key, half = keys[kind - PRIVATE], b"secret" if kind == PRIVATE else b"public"
        text = b"k1.%s." % half + spelled(contents)
        row(form, 1, kind, key.hex(), put(f"paserk-{kind}-{form}", text))
        if form == "text":
            front = b"k1.%cid." % half[0]
            row("id", 1, kind, key.hex(), put(f"paserk-{kind}-id", front + spelled(hashlib.sha384(front + text).digest()[:33])))
    refuse(INVALID_KEY, "paserk-pkcs1", b"k1.public." + spelled(keys[1]))
    refuse(INVALID_KEY, "paserk-other", b"k1.secret." + spelled(forms[PUBLIC, "text"]))
    refuse(INVALID_KEY, "paserk-longer", b"k1.secret." + spelled(forms[PRIVATE, "text"] + b"\0"))


def main():
    """Prints the rows."""
    ed25519 = generated("-algorithm", "ed25519")
    p384 = generated("-algorithm", "EC", "-pkeyopt", "ec_paramgen_curve:P-384")
    rsa = generated("-algorithm", "RSA", "-pkeyopt", "rsa_keygen_bits:2048")
    good("ed25519", ed25519)
    number, point = good("p384", p384)
    rsa_keys = good("rsa", rsa)
    in_paserk(rsa_keys, rsa)
    public = rsa_keys[1]
    seed = contents_of(ed25519)
    other_p384 = generated("-algorithm", "EC", "-pkeyopt", "ec_paramgen_curve:P-384")

    # Other spellings of the same keys.
    row("read", 3, PRIVATE, number.hex(), put("sec1", openssl("pkey", "-traditional", given=p384)))
    compressed = openssl("ec", "-pubin", "-conv_form", "compressed", given=public_of(p384))
    row("read", 3, PUBLIC, point.hex(), put("compressed", compressed))
    row("read", 1, PUBLIC, public.hex(), put("pkcs1", openssl("rsa", "-pubin", "-RSAPublicKey_out", given=public_of(rsa))))

    # Keys of other algorithms, curves and sizes.
    p256 = generated("-algorithm", "EC", "-pkeyopt", "ec_paramgen_curve:P-256")
    refuse(OTHER_CURVE, "p256", p256)
    refuse(OTHER_CURVE, "p256-public", public_of(p256))
    short_rsa = generated("-algorithm", "RSA", "-pkeyopt", "rsa_keygen_bits:1024")
    refuse(OTHER_SIZE, "rsa1024", short_rsa)
    refuse(OTHER_SIZE, "rsa1024-public", public_of(short_rsa))
    refuse(INVALID_KEY, "rsa1024-paserk", b"k1.secret." + spelled(openssl("rsa", "-traditional", "-outform", "DER", given=short_rsa)))
    exponent = generated("-algorithm", "RSA", "-pkeyopt", "rsa_keygen_bits:2048", "-pkeyopt", "rsa_keygen_pubexp:3")
    refuse(INVALID_KEY, "exponent", exponent)
    refuse(INVALID_KEY, "exponent-public", public_of(exponent))
    refuse(OTHER_ALGORITHM, "x25519", generated("-algorithm", "x25519"))

    # Contents that are no key, or one with the public half of another.
    refuse(INVALID_KEY, "empty", armored(b"PRIVATE KEY", b"\x30\x00"))
    refuse(INVALID_KEY, "longer", armored(b"PRIVATE KEY", seed + b"\x00"))
    foreign = contents_of(p384)[:-96] + contents_of(other_p384)[-96:]
    refuse(INVALID_KEY, "foreign", armored(b"PRIVATE KEY", foreign))
    zero = contents_of(p384).replace(number, bytes(48))
    refuse(INVALID_KEY, "zero", armored(b"PRIVATE KEY", zero))
    spoiled = contents_of(public_of(p384))
    spoiled = spoiled[:-1] + bytes([spoiled[-1] ^ 1])
    refuse(INVALID_KEY, "no-point", armored(b"PUBLIC KEY", spoiled))
    inner = seed[:-34] + b"\x04\x1f" + seed[-31:]
    inner = inner[:1] + bytes([inner[1] - 1]) + inner[2:-34] + bytes([inner[-34] - 1]) + inner[-33:]
    refuse(INVALID_KEY, "short-seed", armored(b"PRIVATE KEY", inner))

    # Texts that are no keys of any kind here.
    refuse(ENCRYPTED_KEY, "encrypted", openssl("pkey", "-aes256", "-passout", "pass:a", given=ed25519))
    row("read", 1, PRIVATE, rsa_keys[0].hex(), put("traditional", openssl("pkey", "-traditional", given=rsa)))
    refuse(NOT_PEM, "certificate", armored(b"CERTIFICATE", seed))
    refuse(NO_PASERK, "nothing", b"")
    refuse(NOT_UTF8, "no-text", b"\xff")


if __name__ == "__main__":
    main()
