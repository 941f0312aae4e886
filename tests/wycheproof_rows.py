#!/usr/bin/env python3
"""Prints crates/test_rows/data/wycheproof.txt: the cases of Wycheproof for the box and the schemes.

    tests/wycheproof_rows.py FOLDER

FOLDER has them as tab-separated columns, a file for each algorithm, bytes in hexadecimal and '-' for none:

    wycheproof_ed25519.tsv                  ID RESULT PUBLIC MESSAGE SIGNATURE FLAGS COMMENT
    wycheproof_ecdsa_p384_p1363.tsv         ID RESULT PUBLIC UNCOMPRESSED MESSAGE SIGNATURE FLAGS COMMENT
    wycheproof_rsa_pss_2048_sha384_48.tsv   FILE ID RESULT BITS HASH MGF SALT PUBLIC MESSAGE SIGNATURE FLAGS COMMENT
    wycheproof_xchacha20_poly1305.tsv       ID RESULT KEY NONCE AD TEXT CIPHERTEXT TAG FLAGS COMMENT

Cases whose signature, key, nonce or tag has another length than the calls take as a type are left out, and counted on
standard error."""

import collections
import pathlib
import sys

HEADER = """\
# Cases of Wycheproof (https://github.com/C2SP/wycheproof), Copyright Google LLC and the authors of C2SP, under the Apache
# License, Version 2.0 (http://www.apache.org/licenses/LICENSE-2.0). Changed: the columns were chosen and put in order by
# tests/wycheproof_rows.py. Bytes are hexadecimal, and '-' is the empty list.
# ed25519_valid, ed25519_refused, p384_verified, p384_refused, rsa_verified, rsa_refused PUBLIC MESSAGE SIGNATURE
# xchacha20poly1305 KEY NONCE DATA MESSAGE SEALING; xchacha20poly1305_refused KEY NONCE DATA SEALING"""

left_out = collections.Counter()


def size(text):
    return 0 if text == "-" else len(text) // 2


def joined(*texts):
    return "".join(it for it in texts if it != "-") or "-"


def cases(folder, name):
    for line in (folder / name).read_text(encoding="utf-8").splitlines():
        fields = line.split("\t")
        if not line.startswith("#") and ({"valid", "invalid"} & set(fields)):
            yield fields


def signatures(folder, name, length, columns, kinds):
    result, public, message, signature = columns
    for fields in cases(folder, name):
        if size(fields[signature]) != length:
            left_out[name] += 1
            continue
        kind = kinds[fields[result] == "invalid"]
        print(kind, fields[public], fields[message], fields[signature])


def boxes(folder, name):
    for _, result, key, nonce, data, text, ciphertext, tag, *_ in cases(folder, name):
        if (size(key), size(nonce), size(tag)) != (32, 24, 16):
            left_out[name] += 1
        elif result == "valid":
            print("xchacha20poly1305", key, nonce, data, text, joined(ciphertext, tag))
        else:
            print("xchacha20poly1305_refused", key, nonce, data, joined(ciphertext, tag))


def main():
    folder = pathlib.Path(sys.argv[1])
    print(HEADER)
    signatures(folder, "wycheproof_ed25519.tsv", 64, (1, 2, 3, 4), ("ed25519_valid", "ed25519_refused"))
    signatures(folder, "wycheproof_ecdsa_p384_p1363.tsv", 96, (1, 2, 4, 5), ("p384_verified", "p384_refused"))
    signatures(folder, "wycheproof_rsa_pss_2048_sha384_48.tsv", 256, (2, 7, 8, 9), ("rsa_verified", "rsa_refused"))
    boxes(folder, "wycheproof_xchacha20_poly1305.tsv")
    for name, count in left_out.items():
        print(f"{name}: {count} cases left out", file=sys.stderr)


main()
