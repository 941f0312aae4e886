#!/usr/bin/env python3
"""Prints by which multiples of the equations of a line the complete formulas for a sum give the line's sum.

    python3 tools/lines.py

What it prints stands in crates/paseto_weierstrass_laws/proofs/Lines.antt. No claim rests on this program: the prover computes
that both sides have one polynomial.

The points are (x, y) and (v, w) of y^2 = x^3 + a x + b, and k is the slope of their line: k (v - x) = w - y, and
k (y + w) = x^2 + x v + v^2 + a. With weights 2 for x and v, 3 for y and w, 1 for k, 4 for a and 6 for b all sides are
homogeneous. So each factor is a sum of monomials of a known weight, whose coefficients solve linear equations; these are
solved modulo a prime, and read as small whole numbers. Cubes of x and v are reduced by the equation of the curve.
"""
NAMES = ("y", "x", "w", "v", "k", "a", "b")
WEIGHTS = (3, 2, 3, 2, 1, 4, 6)
MODULUS = 2**61 - 1

# The greatest powers in a factor of the first two: with these the factors are short.
SHORT = (2, 1, 2, 2, 1, 9, 9)
LONG = (9,) * 7


def variable(name):
    """A polynomial: its coefficients, by the powers of the variables."""
    return {tuple(int(other == name) for other in NAMES): 1}


def plus(*polynomials):
    result = {}
    for polynomial in polynomials:
        for powers, coefficient in polynomial.items():
            result[powers] = result.get(powers, 0) + coefficient
    return {powers: coefficient for powers, coefficient in result.items() if coefficient}


def times(*factors):
    result = {(0,) * len(NAMES): 1}
    for factor in factors:
        product = {}
        for left, c in result.items():
            for right, d in factor.items():
                powers = tuple(i + j for i, j in zip(left, right))
                product[powers] = product.get(powers, 0) + c * d
        result = product
    return plus(result)


def number(n):
    return {(0,) * len(NAMES): n}


def minus(left, right):
    return plus(left, times(number(-1), right))


y, x, w, v, k, a, b = (variable(name) for name in NAMES)
CUBES = {1: minus(times(y, y), plus(times(a, x), b)), 3: minus(times(w, w), plus(times(a, v), b))}


def reduced(polynomial):
    """Without cubes of x and v."""
    for place, cube in CUBES.items():
        while any(powers[place] > 2 for powers in polynomial):
            parts = []
            for powers, coefficient in polynomial.items():
                if powers[place] > 2:
                    rest = powers[:place] + (powers[place] - 3,) + powers[place + 1:]
                    parts.append(times({rest: coefficient}, cube))
                else:
                    parts.append({powers: coefficient})
            polynomial = plus(*parts)
    return polynomial


def weight(polynomial):
    (found,) = {sum(i * j for i, j in zip(powers, WEIGHTS)) for powers in polynomial}
    return found


def monomials(total, caps, place=0):
    if place == len(NAMES):
        return [()] if total == 0 else []
    return [(power,) + rest
            for power in range(min(caps[place], total // WEIGHTS[place]) + 1)
            for rest in monomials(total - power * WEIGHTS[place], caps, place + 1)]


def solved(columns, target):
    """The numbers by which columns add up to the target, modulo the prime; the shorter columns first."""
    order = sorted(range(len(columns)), key=lambda place: len(columns[place]))
    rows = {}
    for place in order:
        for powers, coefficient in columns[place].items():
            rows.setdefault(powers, {})[place] = coefficient % MODULUS
    for powers, coefficient in target.items():
        rows.setdefault(powers, {})["sum"] = coefficient % MODULUS
    left, pivots = list(rows.values()), {}
    for place in order:
        usable = [row for row in left if place in row]
        if not usable:
            continue
        pivot = min(usable, key=len)
        left = [row for row in left if row is not pivot]
        inverse = pow(pivot[place], -1, MODULUS)
        pivot = {key: value * inverse % MODULUS for key, value in pivot.items()}
        pivots[place] = pivot
        for row in left + [other for key, other in pivots.items() if key != place]:
            factor = row.get(place, 0)
            if factor:
                for key, value in pivot.items():
                    row[key] = (row.get(key, 0) - factor * value) % MODULUS
                    if not row[key]:
                        del row[key]
    assert not any("sum" in row for row in left), "no multiples"
    return {place: row["sum"] for place, row in pivots.items() if "sum" in row}


def factors(target, equations, caps):
    """Of each equation what it is multiplied by, so that the sum is the target."""
    target, columns, meant = reduced(target), [], []
    for place, equation in enumerate(equations):
        for powers in monomials(weight(target) - weight(equation), caps):
            if powers[1] < 3 and powers[3] < 3:
                columns.append(reduced(times({powers: 1}, equation)))
                meant.append((place, powers))
    result = [{} for _ in equations]
    for column, value in solved(columns, target).items():
        place, powers = meant[column]
        result[place][powers] = value if value < MODULUS // 2 else value - MODULUS
    whole = plus(*(times(factor, equation) for factor, equation in zip(result, equations)))
    assert not reduced(minus(target, whole)), "not the target"
    return result


def shown(name, factor):
    """A factor where a is -3, as the prover reads it."""
    terms = {}
    for powers, coefficient in factor.items():
        key = (powers[:5], powers[6])
        terms[key] = terms.get(key, 0) + coefficient * (-3)**powers[5]
    lines = []
    for (powers, of_b), coefficient in sorted(terms.items(), key=lambda term: (-term[0][1], term[0][0])):
        text = str(coefficient) if coefficient > 0 else f"prime - {-coefficient}"
        if of_b:
            text = f"{text} * curve_b" if coefficient > 0 else f"({text}) * curve_b"
        text = text if text.isdigit() else f"({text})"
        indices = [str(place) for place in range(5) for _ in range(powers[place])]
        lines.append(f"term {text} " + (f"({' ∷ '.join(indices + ['[]'])})" if indices else "[]"))
    return f"unfoldable {name} : Expression\n{name} =\n    total (" + "\n    ∷ ".join(lines) + "\n    ∷ [])\n"


def main():
    xv, s, d = times(x, v), plus(x, v), plus(y, w)
    xy = plus(times(x, w), times(v, y))
    inner = minus(plus(times(a, xv), times(number(3), b, s)), times(a, a))
    low = plus(times(y, w), times(a, s), times(number(3), b))
    high = minus(times(y, w), plus(times(a, s), times(number(3), b)))
    outer = plus(times(number(3), xv), a)
    sum_x = minus(times(xy, high), times(d, inner))
    sum_y = plus(times(outer, inner), times(high, low))
    sum_z = plus(times(d, low), times(xy, outer))
    line_x = minus(times(k, k), s)
    line_y = minus(times(k, minus(x, line_x)), y)
    chord = minus(times(k, minus(v, x)), minus(w, y))
    tangent = minus(times(k, d), plus(times(x, x), xv, times(v, v), a))
    cubic = plus(times(line_x, line_x, line_x), times(a, line_x), b)
    # Y is told where X is: (k (x - X / Z) - y) Z is k x Z - k X - y Z.
    of_x = plus(minus(sum_y, times(minus(times(k, x), y), sum_z)), times(k, sum_x))
    for name, target, caps in (("x", minus(sum_x, times(line_x, sum_z)), SHORT), ("y", of_x, SHORT),
                               ("curve", minus(times(line_y, line_y), cubic), LONG)):
        by_chord, by_tangent = factors(target, [chord, tangent], caps)
        print(shown(f"{name}_by_chord", by_chord))
        print(shown(f"{name}_by_tangent", by_tangent))


if __name__ == "__main__":
    main()
