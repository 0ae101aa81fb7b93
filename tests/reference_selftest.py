#!/usr/bin/env python3
"""Holds the reference to figures that were worked by hand, and its quick ways to slow ones. Exits 1 at a difference."""
import random
import sys
from collections import Counter

sys.dont_write_bytecode = True
import reference
from reference import FIELDS, answer

PART_SHEETS = [  # 14 parts of code 447, and 14 of code 397; width 2, spare 0, no name
    (447, [4, 469762049, 2, 0, 14, 4, 14, 6258, 2797326, 310880624, 0]),
    (397, [4, 469762049, 2, 0, 14, 4, 14, 5558, 2206526, 406228773, 0]),
]

FIGURES = [
    ("roots 17 - - 2 14 1", "ok 2 yes 5 1:1 2:1"),
    ("roots 17 - - 1 0 1", "ok 2 yes 9 4:1 13:1"),
    ("roots 17 - - 14 0 1", "ok 0 no 1"),
    ("roots 17 - - 9 1 6 1", "ok 2 yes 9 1:1 5:2"),
    ("roots 17 - - 0 0 0 1", "ok 1 yes 1 0:3"),
    ("roots 17 - - 5", "ok 0 yes 1"),
    ("roots 17 - - 2 14 1 0", "refused 10"),
    ("roots 17 - - 17 0", "refused 9 0"),
    ("lift 17 - 1 4 2 14 1 0", "refused 10"),
    ("lift 17 - 1 4 17 0", "refused 9 0"),
    ("roots 17 - - 1" + " 0" * 255 + " 1", "ok 0 no 1"),  # x^256 + 1, which is (x^16 + 1)^16
    ("roots 17 - - 1" + " 0" * 256 + " 1", "refused 8 258"),
    ("double 17 - 2 14 1", "ok 4 12 1"),
    ("double 17 - 14 1", "ok 8 1"),
    ("double 17 - 2 14 1 0", "ok 13 5 16 0"),
    ("tangent 17 1 2 14 1", "ok 4:5 12:6 1:0"),
    ("lift 17 - 1 4 2 14 1", "ok 2"),
    ("lift 17 - 1 16 1 0 1", "ok none"),
    ("log 17 2 1 +3*1 +5*2", "ok ok,ok 3 3 13 8 5 5"),
    ("log 17 2 1 +3*1 +5*2 +3*2", "ok ok,ok,4:3 3 3 13 8 5 5"),
    ("log 17 2 1 +3*1 +5*2 +3*1", "ok ok,ok,ok 4 4 16 0 15 1"),
    ("log 17 2 1 +3*1 +4*2", "ok ok,ok 3 3 11 7 2 15"),
    ("log 17 1 0 +1*1 +3*1", "ok ok,ok 2 2 4"),
    ("log 17 1 0 +2*2", "ok ok 2 2 4"),
    ("compare 17 1 0 2 4 / 1 0 2 4", "ok equal"),
    ("compare 17 2 0 1 2 3 4 / 1 2 1 2 3 4", "refused 5"),
    ("log 17 1 0 +3*2 -3*2", "ok ok,ok 4 0 0"),  # the turnover stays, the sums are those of a fresh tally
    ("log 17 0 0", "refused 1"),
    ("log 17 1 33", "refused 1"),
    ("log 17 1 0 +0*1 +17*1 +1*0", "ok 2:0,2:17,3 0 0 0"),
    ("read 17 -", "refused 12 1 0"),
    ("nonsense", "error"),
    ("", "error"),
]

for code, numbers in PART_SHEETS:
    sums = " ".join(map(str, numbers[6:10]))
    text = b"".join(n.to_bytes(4, "big") for n in numbers).hex()
    FIGURES += [
        (f"log 469762049 2 0 +{code}*14", f"ok ok 14 {sums}"),
        (f"write 469762049 - - 2 0 14 {sums}", f"ok {text}"),
        (f"read 469762049 {text}", f"ok 2 0 14 - 0 {sums}"),
        (f"read 469762049 {text[:-2]}", "refused 12 3 40"),
    ]

failures = 0


def hold(what, got, wanted):
    global failures
    if got != wanted:
        failures += 1
        print(f"{what}\n  wanted {wanted}\n  got    {got}")


def trials_of_search(f, field, zeta=3):
    """The trials of the search that the count describes: the odd-th roots of one are tried in the top of the tower, and
    below each multiple root both square roots are tried one level down."""
    q = field.q

    def visit(k, e):
        e_fold = reference.multiplicity(reference.tower(f, k, q), pow(zeta, e, q), q)
        if k == 0 or e_fold < 2:
            return 1
        return 1 + visit(k - 1, e // 2) + visit(k - 1, e // 2 + (q - 1) // 2)

    return sum(visit(field.levels, i << field.levels) for i in range(field.odd))


def trials_by_roots(f, field):
    """All 2^k-th roots of one are in the field, so a 2^k-th power of an element comes only from roots in the field."""
    records = [(a, reference.multiplicity(f, a, field.q)) for a in reference.roots_of(f, field) if a]
    p = 0
    for k in range(1, field.levels + 1):
        above = Counter()
        for a, e in records:
            above[pow(a, 2**k, field.q)] += e
        p += sum(1 for e in above.values() if e >= 2)
    return field.odd + 2 * p


def formula_lift(f, k, b, field):
    """2^k b g_k'(b) / t_k(b), where g_k + eps t_k is f + eps f' transformed k times."""
    q = field.q
    u, v = f, reference.derivative(f, q)
    for _ in range(k):
        u, v = reference.double_pairs(u, v, q)
    slope, tangent = (reference.divided(h, b, q)[1] for h in (reference.derivative(u, q), v))
    return pow(2, k, q) * b * slope * pow(tangent, -1, q) % q


def some_polynomial(chance, q, most):
    """A random product of linear factors, with repeats, times a random polynomial. Its top is not zero."""
    f = [chance.randrange(q) for _ in range(chance.randrange(5))] + [chance.randrange(1, q)]
    for _ in range(chance.randrange(most)):
        f = reference.times(f, [chance.randrange(q), 1], q)
    return f


def main():
    for question, wanted in FIGURES:
        hold(question, answer(question), wanted)
    chance, made = random.Random(7), 0
    for name, count, most in (("17", 150, 30), ("469762049", 6, 12)):
        field = FIELDS[name]
        q = field.q
        for _ in range(count):
            f = some_polynomial(chance, q, most)
            made += 1
            hold(f"trials of {f}", reference.trials(f, field), trials_of_search(f, field))
            hold(f"trials of {f}", reference.trials(f, field), trials_by_roots(f, field))
            for a in reference.roots_of(f, field):
                k = chance.randrange(1, field.levels + 1)
                b = pow(a, 2**k, q)
                found = reference.lift(f, k, b, field)
                if found is not None:
                    hold(f"lift of {b} at {k} in {f}", found, formula_lift(f, k, b, field))
            if field.small:
                hold(f"roots of {f}", reference.roots_by_splitting(f, q), reference.roots_by_trying(f, q))
                for k in range(1, field.levels + 1):
                    g = reference.tower(f, k, q)
                    order = (q - 1) >> k
                    tried = reference.multiple_powers_by_trying(g, order, q)
                    hold(f"multiple roots of {g}", reference.multiple_powers_by_gcd(g, order, q), tried)
    if failures:
        sys.exit(1)
    print(f"reference selftest: {len(FIGURES)} figures and {made} polynomials agree")


if __name__ == "__main__":
    main()
