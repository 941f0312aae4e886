#!/usr/bin/env python3
"""Writes the certificates that four numbers are prime: p and L of edwards25519, and p and n of P-384.

    python3 tools/certificates.py && (cd crates/paseto_primes && rt fmt)

They are the files FieldOfEdwards25519, OrderOfEdwards25519, FieldOfP384 and OrderOfP384 of crates/paseto_primes/proofs,
each a chain of certificates (crates/paseto_primes/specs/Certified.antt), whose first is that of the number itself. A
prime below 100,000 is shown by trial division, and any other by a few of the prime divisors of n - 1, those that cost
the check least. The divisors stand here as tools/factors.py found them. No claim rests on this program: the prover
computes what each certificate says. It needs Python alone.
"""
import itertools
import os
from math import isqrt, prod

FOLDER = os.path.join(os.path.dirname(os.path.abspath(__file__)), "..", "crates", "paseto_primes", "proofs")

# Below this a prime is shown by trial division.
SHORT = 10 ** 5

# The prime divisors of n - 1, each once.
DIVISORS = {
    57896044618658097711785492504343953926634992332820282019728792003956564819949: (
        2, 3, 65147, 74058212732561358302231226437062788676166966415465897661863160754340907),
    74058212732561358302231226437062788676166966415465897661863160754340907: (
        2, 3, 353, 57467, 132049, 1923133, 31757755568855353, 75445702479781427272750846543864801),
    75445702479781427272750846543864801: (2, 3, 5, 75707, 1919519569386763, 72106336199),
    1919519569386763: (2, 3, 7, 19, 47, 127, 8574133),
    8574133: (2, 3, 7, 103, 991),
    7237005577332262213973186563042994240857116359379907606001950938285454250989: (
        2, 3, 11, 198211423230930754013084525763697, 276602624281642239937218680557139826668747),
    276602624281642239937218680557139826668747: (2, 7, 19757330305831588566944191468367130476339),
    19757330305831588566944191468367130476339: (2, 269, 213441916511, 172054593956031949258510691),
    172054593956031949258510691: (2, 5, 1361, 2851, 4434155615661930479),
    4434155615661930479: (2, 41, 43, 1257559732178653),
    1257559732178653: (2, 3, 7, 23, 531581, 1224481),
    39402006196394479212279040100143613805079739270465446667948293404245721771496870329047266088258938001861606973112319: (
        2, 19, 67, 807145746439,
        19173790298027098165721053155794528970226934547887232785722672956982046098136719667167519737147526097),
    19173790298027098165721053155794528970226934547887232785722672956982046098136719667167519737147526097: (
        2, 11, 8389, 38557, 312289, 1357291859799823621, 529709925838459440593,
        12397338596863679689524759770405177749801411),
    12397338596863679689524759770405177749801411: (2, 3, 5, 413244619895455989650825325680172591660047),
    413244619895455989650825325680172591660047: (2, 17, 97, 6051631, 20705423504133292078628634597817),
    20705423504133292078628634597817: (2, 3, 862725979338887169942859774909),
    862725979338887169942859774909: (2, 3, 23964610537191310276190549303),
    23964610537191310276190549303: (2, 336757, 35581458644053887931343),
    35581458644053887931343: (2, 17, 41, 568151, 44925942675193),
    44925942675193: (2, 3, 3517, 532247449),
    39402006196394479212279040100143613805079739270465446667946905279627659399113263569398956308152294913554433653942643: (
        2, 3, 7, 13, 1124679999981664229965379347,
        3055465788140352002733946906144561090641249606160407884365391979704929268480326390471),
    3055465788140352002733946906144561090641249606160407884365391979704929268480326390471: (
        2, 3, 5, 151, 347, 1276987, 1436833069313, 1059392654943455286185473617842338478315215895509773412096307),
    1059392654943455286185473617842338478315215895509773412096307: (
        2, 251, 248431, 8463023, 55942463741690639, 17942392077136950785977011829),
    17942392077136950785977011829: (2, 3, 1495199339761412565498084319),
    1495199339761412565498084319: (2, 3, 64901, 426632512014427833817),
    426632512014427833817: (2, 3, 13, 89, 659, 23314383343543),
    23314383343543: (2, 3, 17, 228572385721),
    228572385721: (2, 3, 5, 7, 272109983),
    55942463741690639: (2, 7, 107, 37344768852931),
    37344768852931: (2, 3, 5, 7, 11, 149, 9863677),
}

# File, what it says, and the number as the contract writes it.
NUMBERS = [
    ("FieldOfEdwards25519", "2 ^ 255 - 19 is prime", "2 ^ 255 - 19", 2 ** 255 - 19),
    ("OrderOfEdwards25519", "the order of the base point of edwards25519 is prime",
     "2 ^ 252 + 27742317777372353535851937790883648493", 2 ** 252 + 27742317777372353535851937790883648493),
    ("FieldOfP384", "the field of P-384 has a prime number of elements",
     "2 ^ 384 - 2 ^ 128 - 2 ^ 96 + 2 ^ 32 - 1", 2 ** 384 - 2 ** 128 - 2 ** 96 + 2 ** 32 - 1),
    ("OrderOfP384", "the order of the base point of P-384 is prime",
     "0xffffffffffffffffffffffffffffffffffffffffffffffffc7634d81f4372ddf581a0db248b0a77aecec196accc52973",
     0xffffffffffffffffffffffffffffffffffffffffffffffffc7634d81f4372ddf581a0db248b0a77aecec196accc52973),
]


def divisors(n):
    """The prime divisors of n - 1."""
    if n in DIVISORS:
        found = DIVISORS[n]
        rest = n - 1
        for q in found:
            while rest % q == 0:
                rest //= q
        assert rest == 1, n
        return found
    found, rest, q = [], n - 1, 2
    while q * q <= rest:
        if rest % q == 0:
            found.append(q)
            while rest % q == 0:
                rest //= q
        q += 1
    return tuple(found + [rest] if rest > 1 else found)


# What stands between the items of a list.
LINE = "\n    ∷ "

CHOSEN = {}


def cost(n):
    """What the certificate of n costs, about: the numbers that are tried, or the bits that are squared. It chooses the
    divisors of n - 1 that are the cheapest, among as few as reach the square root."""
    if n < SHORT:
        return isqrt(n)
    if n not in CHOSEN:
        for count in range(1, 6):
            choices = [
                (sum(cost(q) + 2 * n.bit_length() + 200 for q in some), some)
                for some in itertools.combinations(sorted(divisors(n), reverse=True), count)
                if (prod(some) + 1) ** 2 > n
            ]
            if choices:
                CHOSEN[n] = min(choices)
                break
    return CHOSEN[n][0]


def chain(n, made):
    """Puts the certificate of n behind those that it rests on."""
    if n in made:
        return
    cost(n)
    if n < SHORT:
        count = isqrt(n) - 1
        assert all(n % k for k in range(2, count + 2))
        made[n] = f"divided {n} {count}"
        return
    witnesses = []
    for q in CHOSEN[n][1]:
        chain(q, made)
        base = 2
        while True:
            assert pow(base, n - 1, n) == 1
            try:
                inverse = pow(pow(base, (n - 1) // q, n) - 1, -1, n)
                break
            except ValueError:
                base += 1
        witnesses.append(f"record {{ divisor = {q}; base = {base}; inverse = {inverse} }}")
    made[n] = f"witnessed {n} {n.bit_length()}\n    ({LINE.join(witnesses)}{LINE}[])"


def write(file, says, text, n):
    made = {}
    chain(n, made)
    first, *rest = reversed(made.values())
    operators = "".join(f"◌{sign}◌, " for sign in "+-^" if sign in text)
    with open(os.path.join(FOLDER, file + ".antt"), "w") as it:
        it.write(f"""-- That {says}. Written by tools/certificates.py.
use Rattle.std.proofs.Common.{{{operators}List, [], ◌∷◌, refl}}
use Rattle.paseto_primes.specs.Certified.{{Certificate, divided, witnessed}}
use Rattle.paseto_primes.specs.Prime.{{IsPrime}}
use Rattle.paseto_primes.proofs.CertificateLaws.{{certified, certifying}}

certificate : Certificate
certificate =
    {first}

smaller : List Certificate
smaller =
    {LINE.join(rest)}{LINE}[]

pub is-prime : IsPrime ({text})
unfolding certifying certificate smaller
is-prime = certified certificate smaller refl
""")
    print(f"{file}: {len(made)} primes")


if __name__ == "__main__":
    for number in NUMBERS:
        write(*number)
