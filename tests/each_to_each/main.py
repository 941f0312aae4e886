"""A token of the subject ada by the key of a file, or the subject of a token; the texts and the ids of a key, and of the public key of
a private one; and the text of a key that is locked:

    user make KEY
    user read KEY TOKEN
    user tell KEY
    user unlock KEY PASSWORD
    user unwrap KEY OPENER
"""
import pathlib
import sys

import paseto


def read(name):
    return pathlib.Path(name).read_bytes()


call, name, *rest = sys.argv[1:]
if call == "unlock":
    print(paseto.Key.unlock(read(name), rest[0]).to_text())
elif call == "unwrap":
    print(paseto.Key.unwrap(read(name), paseto.Key.from_text(read(rest[0]))).to_text())
else:
    key = paseto.Key.from_text(read(name))
    if call == "make":
        print(paseto.issue(key, {"sub": "ada"}))
    elif call == "read":
        print(paseto.admit(rest[0], key, require=["exp"])["sub"])
    else:
        for it in (key, key.public) if isinstance(key, paseto.PrivateKey) else (key,):
            print(it.to_text(), it.id, sep="\n")
