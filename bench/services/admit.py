"""Prints how many tokens a second the package for Python admits, beside PyJWT, with one thread and with four.

    python3 bench/services/admit.py

The package, PyJWT and its `cryptography` must be found by this Python; bench/services.sh sees to that. Each number is the
best of three runs of two seconds.
"""
import threading
import time

import jwt
from cryptography.hazmat.primitives.asymmetric import ed25519

import paseto

RUNS, SECONDS = 3, 2.0
CLAIMS = {"sub": "ada", "aud": "customers"}


def rate(admit, threads):
    """Calls a second, by this many threads side by side."""
    counts, end = [0] * threads, time.perf_counter() + SECONDS

    def work(number):
        while time.perf_counter() < end:
            for _ in range(50):
                admit()
            counts[number] += 50

    begin = time.perf_counter()
    workers = [threading.Thread(target=work, args=(number,)) for number in range(threads)]
    for worker in workers:
        worker.start()
    for worker in workers:
        worker.join()
    return sum(counts) / (time.perf_counter() - begin)


def of_paseto(kind):
    """A call that admits a token of a kind."""
    if kind == "v4.local":
        issuing = reading = paseto.LocalKey.generate()
    else:
        issuing = paseto.PrivateKey.generate()
        reading = issuing.public
    token = paseto.issue(issuing, CLAIMS)
    reader = paseto.Reader(reading, aud="customers")
    return lambda: reader.admit(token)


def of_jwt(algorithm):
    """The same of PyJWT."""
    if algorithm == "HS256":
        signing = verifying = b"0123456789abcdef0123456789abcdef"
    else:
        signing = ed25519.Ed25519PrivateKey.generate()
        verifying = signing.public_key()
    token = jwt.encode({**CLAIMS, "exp": int(time.time()) + 3600}, signing, algorithm=algorithm)
    return lambda: jwt.decode(token, verifying, algorithms=[algorithm], audience="customers")


def main():
    rows = [(f"this package, {kind}", of_paseto(kind)) for kind in ("v4.local", "v4.public")]
    rows += [(f"PyJWT {jwt.__version__}, {name}", of_jwt(name)) for name in ("HS256", "EdDSA")]
    for name, admit in rows:
        one, four = (max(rate(admit, threads) for _ in range(RUNS)) for threads in (1, 4))
        print(f"| Python: {name} | {one:,.0f} | {four:,.0f} |", flush=True)


main()
