#!/usr/bin/env python3
"""Prints questions, one to a line, for the kinds asked for:  questions.py SEED [KIND,KIND,...]

The same seed gives the same questions, and a kind's questions do not depend on the other kinds. Each kind has its
worked figures, edges, refusals (alone and together, which shows their order), random cases, and lines that are no
question.
"""
import itertools
import random
import sys

SMALL, LARGE = 17, 469762049
FIELDS = (SMALL, LARGE)
LEVELS = {SMALL: 4, LARGE: 26}
LIMIT = {q: (q - 1) // 4 for q in FIELDS}  # the largest turnover
ZETA = 3  # its powers are all nonzero elements, in both fields
U32 = 4294967295
LONGEST = 257  # coefficients


def ask(*parts):
    """A line of the parts: numbers, words, and lists of these."""
    words = []
    for part in parts:
        words += [str(p) for p in part] if isinstance(part, (list, tuple)) else [str(part)]
    return " ".join(words)


def listed(lines):
    """Lines that are written out, with a bar between two."""
    return lines.split(" | ")


def some_codes(rng, q, n):
    return [rng.randrange(q) for _ in range(n)]


def some_polynomial(rng, q, n):
    """n random codes, the top not zero."""
    return some_codes(rng, q, n - 1) + [rng.randrange(1, q)]


def times(f, g, q):
    product = [0] * (len(f) + len(g) - 1)
    for i, a in enumerate(f):
        for j, b in enumerate(g):
            product[i + j] = (product[i + j] + a * b) % q
    return product


def with_roots(roots, q, factor=(1,)):
    """The product of x - a over the roots, times the factor."""
    f = list(factor)
    for a in roots:
        f = times(f, [-a % q, 1], q)
    return f


def around_needed(needed):
    """Lengths of a lent slice: `-`, exact, too short, longer."""
    return ["-", needed, needed - 1, 0, needed + 1, needed + 50]


# double and pairs


def transform(kind, coefficient, rng):
    """The questions of both transforms. `coefficient` makes one of a code and a field."""

    def with_codes(q, out, codes):
        return ask(kind, q, out, [coefficient(c, q) for c in codes])

    for q in FIELDS:
        for codes in ([2, 14, 1], [14, 1], [2, 14, 1, 0], [0], [5], [0, 0], [0, 1], [1, 0], [5, 0, 0], [q - 1] * 6):
            yield with_codes(q, "-", codes)
        for codes in ([q], [q, 1], [1, q], [q + 1, 1, q - 1, U32, 2], [U32] * 3):  # codes of q or more stand for zero
            yield with_codes(q, "-", codes)
        for n in list(range(1, 21)) + [31, 32, 33, 64, 100, 128, 200, 255, 256, LONGEST]:
            for out in rng.sample(around_needed(n), 2 if n > 3 else 6):
                yield with_codes(q, out, some_codes(rng, q, n))
        for n in (0, LONGEST + 1, LONGEST + 2, 260):  # the length is refused before the output
            for out in ("-", 0, n):
                yield with_codes(q, out, some_codes(rng, q, n))
    yield with_codes(SMALL, "-", some_codes(rng, SMALL, 6000))


def double(rng):
    yield from transform("double", lambda c, q: c, rng)
    yield from listed(
        "double | double 17 | double 16 - 1 | double - 1 2 | double 17 x 1 | double 17 -1 1 | double 17 - -1 | "
        "double 17 - +1 | double 17 - 1 2x | double 17 - 1.0 | double 17 - 1:2 | double 17 - 4294967296 | "
        "double 17 - 18446744073709551617 | double 17 4294967296 1 | double 17 - 1 - | doubles 17 - 1 | "
        "Double 17 - 1"
    )
    yield "  double   17  -   2 14    1  "
    yield "double 17 003 0002 00000000000000000014 1"


def pairs(rng):
    yield "pairs 17 - 2:14 14:2 1:0"
    yield from transform("pairs", lambda c, q: f"{c}:{rng.randrange(q)}", rng)
    for q in FIELDS:
        yield from transform_parts(rng, q)
    yield from listed(
        "pairs | pairs 17 | pairs 16 - 1:1 | pairs 17 - 1 | pairs 17 - 1: | pairs 17 - :1 | pairs 17 - : | "
        "pairs 17 - 1:2:3 | pairs 17 - 1:2 3 | pairs 17 - 1: 2 | pairs 17 - 1:-2 | pairs 17 - 1:4294967296 | "
        "pairs 17 - 1;2"
    )


def transform_parts(rng, q):
    """Pairs with a zero part, equal parts, and codes of q or more in either part."""
    for n in (1, 2, 3, 6, 9):
        u, v = some_codes(rng, q, n), some_codes(rng, q, n)
        for a, b in ((u, v), (v, u), (u, u), (u, [0] * n), ([0] * n, v), (u, [q] * n), ([U32] * n, v)):
            yield ask("pairs", q, "-", [f"{x}:{y}" for x, y in zip(a, b)])


# polynomials by codes: tangent, lift, roots


def faulty(rng, q):
    """Polynomials with a fault of the length, a coefficient, the top, or several of them."""
    long = some_polynomial(rng, SMALL, LONGEST + 1)
    yield from ([], [0], [q], [U32], [0, 0], [1, 0], [q, 0], [0, q], [1, q, 0])
    yield from ([1, 2, q + 5], [q, U32, 1], [1, U32, q, 0])
    yield from (long, long[:-1] + [0], [q] + long[1:], long + [1], long + [q, 0])
    yield some_polynomial(rng, q, LONGEST - 1) + [q]
    yield some_codes(rng, q, LONGEST - 1) + [0]


def small_shapes(q):
    """Polynomials that are worth asking for by themselves, over either field."""
    minus = lambda n: -n % q
    yield from ([1], [q - 1], [2, 14, 1], [1, 0, 1], [14, 0, 1], [9, 1, 6, 1], [0, 0, 0, 1], [5])
    yield from ([0, 1], [0, 5], [1, 1], [minus(1), 1], [minus(3), 0, 1], [3, 0, 1], [minus(1), 0, 0, 0, 1])
    yield with_roots([1, q - 1], q)  # two roots with one square
    yield with_roots([2, q - 2, 2, q - 2], q)
    yield with_roots([0, 1, 1, 1, 4, 4], q)
    yield with_roots([0, 0, 3, 5], q, [7])
    yield times([minus(3), 0, 1], [minus(3), 0, 1], q)  # repeated factor without a root
    yield with_roots([1, 2], q, times([minus(3), 0, 1], [minus(3), 0, 1], q))
    yield [minus(3)] + [0] * 16 + [1]  # over 17 its derivative vanishes: (x - 3)^17
    yield [9] + [0] * 16 + [minus(6)] + [0] * 16 + [1]  # its square
    yield [minus(1)] + [0] * 15 + [1]  # over 17 every nonzero element
    yield [0, minus(1)] + [0] * 15 + [1]  # over 17 every element
    yield [minus(1)] + [0] * 31 + [1]
    for k in (1, 2, 3):  # all elements with one 2^k-th power, twice
        root = pow(ZETA, (q - 1) >> k, q)
        orbit = [5 * pow(root, i, q) % q for i in range(2**k)]
        yield with_roots(orbit, q)
        yield with_roots(orbit + orbit, q)
        yield with_roots(orbit[1:], q)


def mixed(rng, q, degree):
    """Random roots with repeats and with shared squares, times a random factor: of exactly this degree."""
    roots, wanted = [], rng.randrange(degree + 1)
    while len(roots) < wanted:
        a = rng.randrange(q)
        roots += rng.choice(([a], [a, a], [a, -a % q], [a, a, -a % q], [0]))
    return with_roots(roots[:degree], q, some_polynomial(rng, q, max(0, degree - len(roots)) + 1))


def tangent(rng):
    yield "tangent 17 1 2 14 1"
    for q in FIELDS:
        m = LEVELS[q]
        for f in small_shapes(q):
            yield ask("tangent", q, rng.randrange(m + 1), f)
        for level in range(m + 1):
            yield ask("tangent", q, level, some_polynomial(rng, q, rng.randrange(1, 20)))
        for n in (17, 18, 35, 100, LONGEST - 1, LONGEST):
            yield ask("tangent", q, rng.choice((1, 2, m)), some_polynomial(rng, q, n))
        for f in faulty(rng, q):  # refused before the level is looked at
            yield ask("tangent", q, rng.choice((0, 1, m, m + 1)), f)
        for level in (m + 1, 100, U32):
            yield ask("tangent", q, level, [1, 1])
    yield from listed(
        "tangent | tangent 17 | tangent 17 - | tangent 17 - 1 1 | tangent 17 x 1 | tangent 17 1 1:1 | "
        "tangent 18 1 1 | tangent 17 4294967296 1"
    )


def lift(rng):
    yield "lift 17 - 1 4 2 14 1"
    yield "lift 17 - 1 16 1 0 1"
    for q in FIELDS:
        m = LEVELS[q]
        # every element, or powers of the roots and others, at every level or some
        for f in small_shapes(q):
            for level in range(1, m + 1) if q == SMALL else (1, 2, 13, m):
                betas = [0, 1, q - 1, 25 % q, pow(5, 2**level, q), pow(2, 2**level, q)]
                if q == SMALL and len(f) < 6:
                    betas = range(q)
                for beta in sorted(set(betas)):
                    yield ask("lift", q, "-", level, beta, f)
        for degree in list(range(1, 13)) + [20, 40] + ([100, 256] if q == SMALL else []):
            a = rng.randrange(1, q)
            f = with_roots([a], q, mixed(rng, q, degree - 1))
            for level in (1, rng.randrange(1, m + 1), m):
                beta = pow(a, 2**level, q)
                for b in (beta, -beta % q, rng.randrange(q), 0):
                    yield ask("lift", q, "-", level, b, f)
        for size in (1, 2, 3, 5, 9):  # every root, up every level
            distinct = rng.sample(range(1, q), size)
            f = with_roots(distinct, q, [rng.randrange(1, q)])
            for a, level in itertools.product(distinct, range(1, m + 1)):
                yield ask("lift", q, "-", level, pow(a, 2**level, q), f)
        yield from lift_refusals(rng, q)
    yield from listed(
        "lift | lift 17 | lift 17 - | lift 17 - 1 | lift 17 - x 1 1 1 | lift 17 - 1 x 1 1 | lift 17 x 1 1 1 1 | "
        "lift 17 - - 1 1 | lift 17 - 1 1 1 / | lift 2 - 1 1 1 1"
    )


def lift_refusals(rng, q):
    m, f = LEVELS[q], with_roots([1, 2, 5], q)
    bad = ([1, q, 2, 1], [1, 2, 3, 0], [q + 1, 2, 3, 0])  # a coefficient, the top, both
    for codes, level, beta, work in itertools.product((*bad, f), (1, 0, m + 1), (4, q), ("-", 7)):
        yield ask("lift", q, work, level, beta, codes)
    for level in (0, m, m + 1, m + 2, 64, U32):
        yield ask("lift", q, "-", level, 1, f)
    for beta in (0, q - 1, q, q + 1, U32):
        yield ask("lift", q, "-", 1, beta, f)
        yield ask("lift", q, 7, 1, beta, f)  # a short work space is refused also where there is no lift
    for work in around_needed(8):
        yield ask("lift", q, work, 1, 4, f)
    for codes in faulty(rng, q):
        yield ask("lift", q, rng.choice(("-", 0)), rng.choice((0, 1, m + 1)), rng.choice((1, q)), codes)


def roots(rng):
    for q in FIELDS:
        for f in small_shapes(q):
            yield ask("roots", q, "-", "-", f)
        yield from roots_refusals(rng, q)
        for degree in range(1, 17):
            yield ask("roots", q, "-", "-", some_polynomial(rng, q, degree + 1))
            yield ask("roots", q, degree + 3, "-", with_roots(some_codes(rng, q, degree), q))
    for degree in list(range(41)) * 2 + list(range(41, 257, 5)) + [255, 256, 256]:
        yield ask("roots", SMALL, "-", "-", mixed(rng, SMALL, degree))
    for degree in (64, 128, 255, 256):
        yield ask("roots", SMALL, "-", "-", with_roots(some_codes(rng, SMALL, degree), SMALL))
        yield ask("roots", SMALL, "-", "-", with_roots([rng.randrange(SMALL)] * degree, SMALL))
        yield ask("roots", SMALL, "-", "-", some_polynomial(rng, SMALL, degree + 1))
    yield ask("roots", SMALL, "-", "-", [16] + [0] * 255 + [1])  # (x^16 - 1)^16
    yield ask("roots", SMALL, "-", "-", [0] * 256 + [1])
    yield ask("roots", SMALL, "-", "-", [14] + [0] * 255 + [1])
    for degree in list(range(13)) * 3 + [20, 20, 25, 25, 30, 30, 40, 40, 40, 256]:
        yield ask("roots", LARGE, "-", "-", mixed(rng, LARGE, degree))
    for bits in (1, 2, 4, 5, 13, 26):  # roots that share their 2^bits-th power
        order = pow(ZETA, (LARGE - 1) >> bits, LARGE)
        sharing = [7 * pow(order, i, LARGE) % LARGE for i in rng.sample(range(2**bits), min(2**bits, 12))]
        yield ask("roots", LARGE, "-", "-", with_roots(sharing, LARGE))
        yield ask("roots", LARGE, "-", "-", with_roots(sharing + sharing[:3] + [0], LARGE))
    for degree in (40, 255):
        yield ask("roots", LARGE, "-", "-", with_roots(rng.sample(range(LARGE), degree), LARGE))
    yield from listed(
        "roots | roots 17 | roots 17 - | roots 17 - x 1 | roots 17 x - 1 | roots 17 - - 1 y | roots 19 - - 1 | "
        "roots 17 -- - 1"
    )


def roots_refusals(rng, q):
    f, levels = with_roots([1, 2, 2], q), LEVELS[q] + 1
    for room in around_needed(3):
        yield ask("roots", q, room, "-", f)
    for work in around_needed(levels * 4):
        yield ask("roots", q, "-", work, f)
    yield ask("roots", q, 0, levels, [3])  # a constant needs no record
    yield ask("roots", q, 0, levels - 1, [3])
    bad = ([1, q, 2, 1], [1, 2, 3, 0], [q + 1, 2, 3, 0])  # a coefficient, the top, both
    for codes, room, work in itertools.product((*bad, f), ("-", 2), ("-", levels * 4 - 1)):
        yield ask("roots", q, room, work, codes)
    yield ask("roots", q, 2, "-", [-3 % q, 1, 0, 1])  # the list is as long as the degree even where roots are few
    for codes in faulty(rng, q):
        yield ask("roots", q, rng.choice(("-", 0)), rng.choice(("-", 0)), codes)


# tallies and sheets


def call(sign, code, quantity):
    return f"{sign}{code}*{quantity}"


def log(rng):
    yield from listed(
        "log 17 2 1 +3*1 +5*2 | log 17 2 1 +3*1 +5*2 +7*2 +7*1 | log 17 2 1 +3*1 +4*2 | log 17 1 1 +1*1 +2*1 | "
        "log 17 1 0 +1*1 +2*1 | log 17 1 0 +1*1 +3*1 | log 17 1 0 +2*2"
    )
    yield from listed(
        "log 469762049 2 0 +447*14 | log 469762049 2 0 +397*14 | log 469762049 2 0 +447*14 -447*14 +397*14"
    )
    for q in FIELDS:
        for w, s in itertools.product((0, 1, 2, 32, 33, U32), (0, 1, 32, 33, U32)):
            yield ask("log", q, w, s)
            yield ask("log", q, w, s, call("+", 3, 1), call("-", 2, 1))
        top = LIMIT[q]
        codes, quantities = (0, 1, q - 1, q, U32), (0, 1, top, top + 1, U32)
        for code, quantity, sign in itertools.product(codes, quantities, "+-"):
            yield ask("log", q, 2, 1, call(sign, code, quantity))
            yield ask("log", q, 2, 1, call("+", 2, 1), call(sign, code, quantity), call("-", 5, 1))
        for used in (0, 1, top - 1, top):  # full exactly above the limit
            first = [call("-", 4, used)] if used else []
            for more in (1, top - used, top - used + 1, U32 - used, U32):
                yield ask("log", q, 1, 2, first, call("+", 5, more), call("+", 1, 1), call("-", 1, 1))
        for _ in range(40):
            lines = []
            for _ in range(rng.randrange(12)):
                code = rng.choice((0, 1, 2, q - 1, q, rng.randrange(1, q), rng.randrange(1, q)))
                quantity = rng.choice((0, 1, 1, 2, U32, rng.randrange(1, top // 2 + 1)))
                lines.append(call(rng.choice("+-"), code, quantity))
            yield ask("log", q, rng.randrange(1, 33), rng.randrange(33), lines)
    yield from listed(
        "log | log 17 | log 17 1 | log 17 x 1 | log 17 1 - | log 17 1 1 3*1 | log 17 1 1 +3 | log 17 1 1 +3* | "
        "log 17 1 1 +*3 | log 17 1 1 +3*1*1 | log 17 1 1 +3*-1 | log 17 1 1 ++3*1 | log 17 1 1 + 3*1 | "
        "log 17 1 1 +3*4294967296 | log 17 1 1 +4294967296*1 | log 16 1 1 | log 17 0 0 nonsense"
    )


def compare(rng):
    yield from listed(
        "compare 17 1 0 2 4 / 1 0 2 4 | compare 17 2 0 1 2 3 4 / 1 2 1 2 3 4 | compare 17 1 2 1 2 3 4 / 2 0 1 2 3 4"
    )
    for q in FIELDS:
        for w, s in ((1, 0), (1, 1), (2, 0), (2, 1), (3, 4), (32, 0), (32, 32)):
            sums = some_codes(rng, q, 2 * w + s)
            yield ask("compare", q, w, s, sums, "/", w, s, sums)
            for place in range(len(sums)) if len(sums) < 12 else (0, 1, len(sums) // 2, len(sums) - 2, len(sums) - 1):
                other = sums[:]
                other[place] = (other[place] + rng.choice((1, q - 1))) % q
                yield ask("compare", q, w, s, sums, "/", w, s, other)
            for w2, s2 in ((w + 1, s), (w, s + 1), (w - 1, s + 2)):  # unlike or refused; the last has as many sums
                yield ask("compare", q, w, s, sums, "/", w2, s2, some_codes(rng, q, 2 * w2 + s2))
                yield ask("compare", q, w2, s2, some_codes(rng, q, 2 * w2 + s2), "/", w, s, sums)
        for bad in ((0, 0), (0, 2), (33, 0), (1, 33), (U32, U32)):  # refused by its frame, whatever its sums
            yield ask("compare", q, bad, "/ 1 0 0 0")
            yield ask("compare", q, "1 0 0 0 /", bad)
            yield ask("compare", q, bad, 1, 2, "/ 1 0 0 0")
        for sums in ([], [1], [1, 2, 3], [q, 0], [0, q], [U32, 0]):  # no tally could hold these
            yield ask("compare", q, 1, 0, sums, "/ 1 0 0 0")
            yield ask("compare", q, "1 0 0 0 / 1 0", sums)
    yield from listed(
        "compare | compare 17 | compare 17 / | compare 17 1 0 1 1 | compare 17 1 0 1 1 / | compare 17 1 0 1 1 / 1 | "
        "compare 17 / 1 0 1 1 | compare 17 1 0 1 1 / 1 0 1 1 / | compare 17 1 0 1 1 / 1 0 1 x | "
        "compare 17 1 0 1 1/1 0 1 1 | compare 5 1 0 1 1 / 1 0 1 1"
    )


def sheet(q, w, s, turnover, sums, name):
    """The bytes of a sheet, whatever the numbers."""
    items = [4, q, w, s, turnover, len(sums)] + sums + [len(name)]
    return b"".join(item.to_bytes(4, "big") for item in items) + name


def shown(text):
    return text.hex() or "-"


def some_name(rng, n):
    return bytes(rng.randrange(32, 127) for _ in range(n))


def with_byte(text, place, byte):
    return text[:place] + bytes([byte]) + text[place + 1 :]


def write(rng):
    for q in FIELDS:
        top = LIMIT[q]
        shapes = (1, 0, 0, 0), (1, 0, top, 1), (2, 1, 3, 7), (3, 32, 1, 40), (32, 0, 2, 39), (32, 32, top, 40)
        for w, s, turnover, n in shapes:
            tally = [w, s, turnover] + some_codes(rng, q, 2 * w + s)
            name = some_name(rng, n)
            for out in around_needed(4 * (7 + 2 * w + s) + n):
                yield ask("write", q, out, shown(name), tally)
        tally = [1, 1, 2, 3, 4, 5]
        for n in (1, 2, 39, 40):
            for byte in (0, 9, 10, 31, 32, 126, 127, 128, 159, 160, 255):
                for place in sorted({0, n // 2, n - 1}):
                    yield ask("write", q, "-", shown(with_byte(some_name(rng, n), place, byte)), tally)
        for n in (41, 42, 80, 300):  # too long before bad bytes, and both before a short output
            for name in (some_name(rng, n), with_byte(some_name(rng, n), 3, 7), with_byte(some_name(rng, n), 40, 200)):
                yield ask("write", q, rng.choice(("-", 0)), shown(name), tally)
        two_bad = with_byte(with_byte(some_name(rng, 20), 5, 31), 9, 127)
        for out in ("-", 0, 59, 60):
            yield ask("write", q, out, shown(two_bad), tally)
        for w, s in ((0, 0), (0, 2), (33, 0), (1, 33), (U32, 1)):  # the frame is refused before all else
            yield ask("write", q, 0, shown(two_bad), w, s, 0, 1, 2)
        for turnover in (top + 1, U32):  # no tally could hold these, nor the next
            yield ask("write", q, "-", "-", 1, 0, turnover, 1, 2)
        for sums in ([], [1], [1, 2, 3], [q, 1], [1, U32]):
            yield ask("write", q, "-", "-", 1, 0, 0, sums)
    yield from listed(
        "write | write 17 | write 17 - | write 17 - - | write 17 - - 1 0 | write 17 - 4 1 0 0 1 1 | "
        "write 17 - 4A 1 0 0 1 1 | write 17 - 4g 1 0 0 1 1 | write 17 - -- 1 0 0 1 1 | write 17 x - 1 0 0 1 1 | "
        "write 17 - - 1 0 x 1 1 | write 3 - - 1 0 0 1 1"
    )


def read(rng):
    for q in FIELDS:
        top = LIMIT[q]
        shapes = (1, 0, 0, 0), (1, 0, top, 1), (2, 1, 3, 7), (3, 32, 1, 40), (32, 0, 2, 39), (32, 32, top, 40)
        for w, s, turnover, n in shapes:
            whole = sheet(q, w, s, turnover, some_codes(rng, q, 2 * w + s), some_name(rng, n))
            yield ask("read", q, shown(whole))
            for after in (1, 60, 500):
                yield ask("read", q, shown(whole + rng.randbytes(after)))
            yield ask("read", FIELDS[q == SMALL], shown(whole))  # of the other field
        whole = sheet(q, 1, 1, 2, [3, 4, 5], some_name(rng, 6))
        for cut in range(len(whole)):
            yield ask("read", q, shown(whole[:cut]))
        for place in range(len(whole)):
            for byte in {0, 255, whole[place] ^ 1, rng.randrange(256)}:
                yield ask("read", q, shown(with_byte(whole, place, byte)))
        yield from sheet_faults(rng, q, whole)
        for _ in range(60):  # several faults at once, some cut: the first from the left is told
            text = whole + rng.randbytes(rng.randrange(3))
            for _ in range(rng.randrange(1, 4)):
                place = rng.randrange(len(text))
                text = with_byte(text, place, rng.randrange(256))
            yield ask("read", q, shown(text[: rng.choice((len(text), rng.randrange(len(text))))]))
    yield from listed(
        "read | read 17 | read 17 0 | read 17 000 | read 17 0G | read 17 0A | read 17 - - | read 17 00 00 | "
        "read 17 -- | read 4 -"
    )


def sheet_faults(rng, q, whole):
    """Each number of a sheet at and just beyond the ends of its range. `whole` has the frame (1, 1)."""
    number_at = lambda place, n: whole[:place] + n.to_bytes(4, "big") + whole[place + 4 :]
    ranges = {
        0: (3, 4, 5),
        4: (q - 1, q, q + 1),
        8: (0, 1, 2, 32, 33),
        12: (0, 1, 2, 32, 33),
        16: (0, LIMIT[q], LIMIT[q] + 1),
        20: (0, 2, 3, 4),
        24: (0, q - 1, q),
        28: (q - 1, q),
        32: (q - 1, q),
        36: (0, 5, 6, 7, 40, 41),
    }
    for place, values in ranges.items():
        for n in values + (U32,):
            yield ask("read", q, shown(number_at(place, n)))
            yield ask("read", q, shown(number_at(place, n)[: place + 4]))
            yield ask("read", q, shown(number_at(place, n)[: place + 3]))  # not whole: cut, however large
    for byte in (0, 31, 32, 126, 127, 128, 160, 255):
        for place in (40, 43, 45):
            yield ask("read", q, shown(with_byte(whole, place, byte)))
            yield ask("read", q, shown(with_byte(whole, place, byte)[: place + 1]))
    for n in (40, 41):
        yield ask("read", q, shown(sheet(q, 1, 0, 0, [1, 2], some_name(rng, n))))


KINDS = {kind.__name__: kind for kind in (double, pairs, tangent, lift, roots, log, compare, write, read)}


def main():
    seed = sys.argv[1] if len(sys.argv) > 1 else "1"
    kinds = sys.argv[2].split(",") if len(sys.argv) > 2 else list(KINDS)
    unknown = [kind for kind in kinds if kind not in KINDS]
    if unknown:
        sys.exit(f"questions.py: no questions of the kind {unknown[0]}; there are {', '.join(KINDS)}")
    for line in ("", "   ", "nonsense", "17", "- - -", "nonsense 17 - 1"):
        print(line)
    for kind in kinds:
        for line in KINDS[kind](random.Random(f"{seed} {kind}")):
            print(line)


if __name__ == "__main__":
    main()
