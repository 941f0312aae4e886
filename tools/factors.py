#!/usr/bin/env python3
"""Finds the prime divisors of n - 1, and those of q - 1 for each of them that a certificate rests on.

    python3 tools/factors.py 57896044618658097711785492504343953926634992332820282019728792003956564819949

It prints a row for the table of tools/certificates.py for each number: the number, and the prime divisors of the number
less 1. It needs sympy, and the program `ecm` of GMP-ECM (Debian: python3-sympy, gmp-ecm). Numbers of 380 bits take
minutes, or more.
"""
import subprocess
import sys

from sympy import factorint, isprime

# The bounds of the curves, and how many are tried with each.
CURVES = ((2_000, 20), (11_000, 80), (50_000, 250), (250_000, 500), (1_000_000, 1_000))

# Below this tools/certificates.py finds the divisors itself.
SHORT = 10 ** 7


def split(n):
    """Two factors of n, or more."""
    for bound, count in CURVES:
        command = ["ecm", "-q", "-one", "-c", str(count), str(bound)]
        factors = subprocess.run(command, input=str(n), text=True, capture_output=True).stdout.split()
        if len(factors) > 1:
            return [int(factor) for factor in factors]
    raise SystemExit(f"no factor of {n} was found")


def divisors(n):
    """The prime divisors of n, each once."""
    found, rest = set(), list(factorint(n, limit=10 ** 6, use_rho=False, use_pm1=False))
    while rest:
        q = rest.pop()
        if isprime(q):
            found.add(q)
        else:
            rest += split(q)
    return tuple(sorted(found))


def rows(n, seen):
    """The row of n, and those of the divisors that reach its square root together."""
    if n in seen:
        return
    seen.add(n)
    found = divisors(n - 1)
    print(f"    {n}: {found},", flush=True)
    product = 1
    for q in reversed(found):
        if (product + 1) ** 2 > n:
            break
        product *= q
        if q > SHORT:
            rows(q, seen)


if __name__ == "__main__":
    seen = set()
    for argument in sys.argv[1:]:
        rows(int(argument), seen)
