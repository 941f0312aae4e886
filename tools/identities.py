#!/usr/bin/env python3
"""Writes why the sum of points of a twisted Edwards curve is a point, and why it is associative: by which multiples of
the equations that hold two expressions are equal.

    python3 tools/identities.py && (cd crates/paseto_edwards_laws && rt fmt)

It writes Closure.antt and Associativity.antt of crates/paseto_edwards_laws/proofs. No claim rests on this program: the prover
computes that both sides have one polynomial. It needs sympy (Debian: python3-sympy).

The points are (x, y), (v, w) and (s, t). The first two have the sum ((x w + y v) / (1 + e), (y w + x v) / q) with
e = d x v y w and q = 1 - e, and the last two have ((v t + w s) / (1 + h), (w t + v s) / r) with h = d v s w t and
r = 1 - h. That the first sum lies on the curve, times both denominators squared, and that the coordinates of both ways
to add all three are equal, as products across, are equations modulo those of the curve, of q and of r. sympy's division
finds by which multiples of these.
"""
import ast
import os

from sympy import Add, expand, reduced, symbols

FOLDER = os.path.join(os.path.dirname(os.path.abspath(__file__)), "..", "crates", "paseto_edwards_laws", "proofs")

# The equations, by the name of what says so.
CURVE = "1 + {0} * {0} + d * ({0} * {0} * ({1} * {1}))"
E = "d * (x * v * (y * w))"
H = "d * (v * s * (w * t))"
EQUATIONS = {
    "on_x": ("y * y", CURVE.format("x", "y"), "IsOn p d x y"),
    "on_v": ("w * w", CURVE.format("v", "w"), "IsOn p d v w"),
    "on_s": ("t * t", CURVE.format("s", "t"), "IsOn p d s t"),
    "at_q": (f"q + {E}", "1", f"(q + {E}) % p ≡ 1 % p"),
    "at_r": (f"r + {H}", "1", f"(r + {H}) % p ≡ 1 % p"),
}

# The sums of two points, over 1 + e and q, and over 1 + h and r.
X, Y = "(x * w + y * v)", "(y * w + x * v)"
V, W = "(v * t + w * s)", "(w * t + v * s)"
G, K = f"(1 + {E})", f"(1 + {H})"

# Each way to add three, x is FIRST / (G * q + CROSS) and y is SECOND / (G * q - CROSS), or with K and r.
LEFT_CROSS = f"d * ({X} * s * ({Y} * t))"
RIGHT_CROSS = f"d * (x * {V} * (y * {W}))"
LEFT_FIRST, LEFT_SECOND = f"({X} * q * t + {Y} * {G} * s)", f"({Y} * {G} * t + {X} * q * s)"
RIGHT_FIRST, RIGHT_SECOND = f"(x * ({W} * {K}) + y * ({V} * r))", f"(y * ({W} * {K}) + x * ({V} * r))"

# Of each file what it says, its variables, and its identities: their names, both sides, and the equations, in the order
# in which they divide, by the variables in theirs.
FILES = {
    "Closure": ("The sum of two points of a twisted Edwards curve lies on it, times both denominators squared.", "x y v w d", {
        "summed": (f"{G} * {G} * ({Y} * {Y}) + 2 * ({E}) * ({G} * {G} + {X} * {X})",
                   f"(1 + {E} * ({E})) * ({G} * {G} + {X} * {X}) + d * ({X} * {X} * ({Y} * {Y}))"),
    }, "on_x on_v", "y w x v d"),
    "Associativity": ("The two ways to add three points of a twisted Edwards curve agree.", "x y v w s t d q r", {
        "first": (f"{LEFT_FIRST} * ({K} * r + {RIGHT_CROSS})", f"{RIGHT_FIRST} * ({G} * q + {LEFT_CROSS})"),
        "second": (f"{LEFT_SECOND} * ({K} * r) + {RIGHT_SECOND} * ({LEFT_CROSS})",
                   f"{RIGHT_SECOND} * ({G} * q) + {LEFT_SECOND} * ({RIGHT_CROSS})"),
    }, "at_q at_r on_x on_v on_s", "q r y w t x v s d"),
}


def quoted(text):
    """The expression that a text is, for the prover."""
    def walk(node):
        if isinstance(node, ast.BinOp):
            word = "sum" if isinstance(node.op, ast.Add) else "product"
            return f"({word} {walk(node.left)} {walk(node.right)})"
        return f"(constant {node.value})" if isinstance(node, ast.Constant) else f"{node.id}\u2032"
    return walk(ast.parse(text, mode="eval").body)


def terms(polynomial, sign, names):
    """The terms of one sign, each a number and the variables that it is multiplied by."""
    found = []
    for part in Add.make_args(polynomial):
        factor, powers = part.as_coeff_mul()
        if factor * sign > 0:
            indices = []
            for power in powers:
                base, exponent = power.as_base_exp()
                indices += [names.index(str(base))] * int(exponent)
            found.append((sorted(indices), abs(factor)))
    if not found:
        return "constant 0"
    lines, line = [], ""
    for indices, factor in sorted(found):
        part = f"term {factor} ({' ∷ '.join(map(str, indices))} ∷ [])" if indices else f"term {factor} []"
        if line and len(line) + len(part) > 108:
            lines.append(line)
            line = ""
        line += f"{part} ∷ "
    return "total\n    (" + "\n    ".join([entry.rstrip() for entry in lines + [line]]) + " [])"


def identity(name, left, right, names, division, order):
    """An identity, and by which multiples of the equations it holds."""
    known = dict(zip(names, symbols(names)))

    def number(text):
        return expand(eval(text, {"__builtins__": {}}, known))

    factors, rest = reduced(number(left) - number(right), [number(a) - number(b) for a, b, _ in
                            (EQUATIONS[of] for of in division)], *(known[of] for of in order), order="lex")
    assert rest == 0
    factors = dict(zip(division, factors))
    used = [of for of in EQUATIONS if of in division]
    text = ""
    for of in used:
        for word, sign in (("added", 1), ("taken", -1)):
            text += f"{name}_{of}_{word} : Expression\n{name}_{of}_{word} =\n    {terms(expand(factors[of]), sign, names)}\n\n"
    equations = "\n    ∷ ".join(f"equation_{of} {name}_{of}_added {name}_{of}_taken" for of in used)
    definitions = " ".join(f"equation_{of} {name}_{of}_added {name}_{of}_taken" for of in used)
    holds = "(".join(f"{of}, " for of in used)
    return f"""{text}{name}_left : Expression
{name}_left = {quoted(left)}

{name}_right : Expression
{name}_right = {quoted(right)}

{name}_equations : List Equation
{name}_equations =
    {equations}
    ∷ []

pub {name} : (p {' '.join(names)} : ℕ) → {' → '.join(EQUATIONS[of][2] for of in used)}
    → ({left}) % p
    ≡ ({right}) % p
unfolding computing {name}_left {name}_right {name}_equations {definitions}
{name} p {' '.join(names)} {' '.join(used)} =
    by-equations {len(names)} p (listed ({' ∷ '.join(names)} ∷ [])) {name}_equations ({holds}tt{')' * len(used)} {name}_left {name}_right refl
"""


def write(file, says, variables, identities, division, order):
    names, division, order = variables.split(), division.split(), order.split()
    parts = [f"""-- {says} Written by tools/identities.py.
use Rattle.std.proofs.Common.{{◌≡◌, ℕ, ◌+◌, ◌*◌, ◌%◌, List, [], ◌∷◌, refl}}
use Rattle.paseto_primes.specs.Identity.{{Equation}}
use Rattle.paseto_primes.specs.Polynomial.{{Expression, constant, product, sum, variable}}
use Rattle.paseto_primes.specs.Program.{{listed}}
use Rattle.paseto_primes.proofs.IdentityLaws.{{by-equations, computing, term, total}}
use Rattle.paseto_edwards_laws.specs.Group.{{IsOn}}
"""]
    for index, of in enumerate(names):
        parts.append(f"abbrev {of}\u2032 : Expression\n{of}\u2032 = variable {index}\n")
    for of, (left, right, _) in EQUATIONS.items():
        if of in division:
            parts.append(f"equation_{of} : Expression → Expression → Equation\nequation_{of} added taken =\n    record {{ added = added; "
                         f"taken = taken; left = {quoted(left)}; right = {quoted(right)} }}\n")
    parts += [identity(name, *sides, names, division, order) for name, sides in identities.items()]
    with open(os.path.join(FOLDER, file + ".antt"), "w") as it:
        it.write("\n".join(parts))


if __name__ == "__main__":
    for file, content in FILES.items():
        write(file, *content)
