#!/usr/bin/env python3
"""The reference: answers questions about roots, tallies and sheets straight from the definitions.

It reads questions from standard input, one to a line, and prints one answer line for each. It shares no code with the
library and goes other ways: products of polynomials are convolutions, roots come from trying every element or from
gcds and random splitting, and a lift is looked up among the roots.

A line is its words, with one or more spaces between them. A line that is no question is answered `error`; so is a kind
that is not in KINDS. Every word of a line is read before anything else is judged:
  FIELD             17 or 469762049
  number            decimal digits without a sign, 0 to 4294967295; leading zeros may stand
  LIST, WORK, OUT   a number, or `-` for exactly the length that is needed
  bytes             pairs of lower-case hexadecimal digits, `-` for none
An answer is `ok ...`, or `refused NUMBER values...`.

  double FIELD OUT c0 c1 ...               ok c0 c1 ...
  pairs FIELD OUT u0:v0 u1:v1 ...          ok u0:v0 u1:v1 ...
  tangent FIELD LEVEL c0 c1 ...            ok u0:v0 u1:v1 ...
  lift FIELD WORK LEVEL BETA c0 c1 ...     ok code, or ok none
  roots FIELD LIST WORK c0 c1 ...          ok n yes/no trials code:multiplicity ...
  log FIELD w s +code*n -code*n ...        ok answers turnover S0 S1 ...
  compare FIELD w s S0 ... / w s S0 ...    ok equal, or ok unequal
  write FIELD OUT name w s turnover S0 ... ok bytes
  read FIELD bytes                         ok w s turnover name restlength S0 S1 ...
"""
import random
import re
import sys
from operator import mul


class Field:
    """The whole numbers modulo the prime q, where q - 1 = odd * 2^levels. An element is its code, 0 to q - 1."""

    def __init__(self, q, odd, levels):
        self.q, self.odd, self.levels = q, odd, levels
        self.limit = (q - 1) // 4  # the largest turnover of a tally
        self.small = q < 1000  # every element can be tried


FIELDS = {"17": Field(17, 1, 4), "469762049": Field(469762049, 7, 26)}


class NoQuestion(Exception):
    """The line is no question."""


class Refused(Exception):
    """A refusal: its number, then its values."""


# Polynomials: lists of codes, the constant first. No coefficient is a polynomial too, the zero one.


def times(f, g, q):
    """The product: each place sums the products of the places that add up to it."""
    back, n, product = g[::-1], len(g), []
    for k in range(len(f) + n - 1):
        low, high = max(0, k - n + 1), min(len(f), k + 1)
        product.append(sum(map(mul, f[low:high], back[n - 1 - k + low : n - 1 - k + high])) % q)
    return product


def at_minus_x(f, q):
    return [(-c if i % 2 else c) % q for i, c in enumerate(f)]


def halved(product, d, q):
    """The g with g(x^2) = (-1)^d product(x), where the product has no odd power."""
    assert not any(product[1::2])
    return [(-c if d % 2 else c) % q for c in product[0::2]]


def double(f, q):
    """The Graeffe transform g of f: g(x^2) = (-1)^d f(x) f(-x), d the length of f less one, whatever its top."""
    return halved(times(f, at_minus_x(f, q), q), len(f) - 1, q)


def double_pairs(u, v, q):
    """The same for u + v eps with eps^2 = 0, given and answered as the two lists of parts."""
    crossed = [a + b for a, b in zip(times(u, at_minus_x(v, q), q), times(v, at_minus_x(u, q), q))]
    return double(u, q), halved([c % q for c in crossed], len(u) - 1, q)


def tower(f, k, q):
    """g_k: f transformed k times."""
    for _ in range(k):
        f = double(f, q)
    return f


def derivative(f, q):
    """As long as f: a zero stands at the top."""
    return [i * c % q for i, c in enumerate(f)][1:] + [0]


def divided(f, a, q):
    """The quotient and the rest of f by x - a, by synthetic division."""
    rest, quotient = 0, []
    for c in reversed(f):
        quotient.append(rest)
        rest = (rest * a + c) % q
    return quotient[:0:-1], rest


def multiplicity(f, a, q):
    """The largest e for which (x - a)^e divides f, which is not zero."""
    e = 0
    quotient, rest = divided(f, a, q)
    while rest == 0:
        e += 1
        quotient, rest = divided(quotient, a, q)
    return e


def stripped(f):
    """f without the zeros at its top."""
    n = len(f)
    while n and f[n - 1] == 0:
        n -= 1
    return f[:n]


def long_division(f, g, q):
    """The quotient and the rest of f by g, whose top is not zero."""
    rest, one_over_top, quotient = f[:], pow(g[-1], -1, q), []
    while len(rest) >= len(g):
        c, shift = rest[-1] * one_over_top % q, len(rest) - len(g)
        if c:
            rest[shift:] = [(a - c * b) % q for a, b in zip(rest[shift:], g)]
        rest.pop()
        quotient.append(c)
    return quotient[::-1], stripped(rest)


def remainder(f, g, q):
    return long_division(f, g, q)[1]


def gcd(f, g, q):
    f, g = stripped(f), stripped(g)
    while g:
        f, g = g, remainder(f, g, q)
    return f


def power(base, n, g, q):
    """base^n modulo the polynomial g."""
    result = remainder([1], g, q)
    for bit in bin(n)[2:]:
        result = remainder(times(result, result, q), g, q)
        if bit == "1":
            result = remainder(times(result, base, q), g, q)
    return result


def plus(f, place, number, q):
    """f with a number added at a place."""
    f = f + [0] * (place + 1 - len(f))
    f[place] = (f[place] + number) % q
    return f


# Roots


def roots_by_trying(f, q):
    return [a for a in range(q) if divided(f, a, q)[1] == 0]


def roots_by_splitting(f, q):
    """x^q - x is the product of all x - a, so its gcd with f has each root of f once. Then about half of the elements
    b + a have (b + a)^((q - 1) / 2) = 1: a gcd parts the roots by that, for one random a after another."""
    chance = random.Random(1)
    todo, found = [gcd(f, plus(power([0, 1], q, f, q), 1, -1, q), q)], []
    while todo:
        h = todo.pop()
        if len(h) == 2:
            found.append(-h[0] * pow(h[1], -1, q) % q)
        elif len(h) > 2:
            some = plus(power([chance.randrange(q), 1], (q - 1) // 2, h, q), 0, -1, q)
            part = gcd(h, some, q)
            if 1 < len(part) < len(h):
                todo += [part, long_division(h, part, q)[0]]
            else:
                todo.append(h)
    return sorted(found)


KNOWN_ROOTS = {}  # the roots of polynomials that were asked for before


def roots_of(f, field):
    """The codes of the roots, ascending."""
    key = field.q, tuple(f)
    if key not in KNOWN_ROOTS:
        KNOWN_ROOTS[key] = (roots_by_trying if field.small else roots_by_splitting)(f, field.q)
    return KNOWN_ROOTS[key]


def multiple_powers_by_trying(g, order, q):
    return sum(1 for b in range(1, q) if pow(b, order, q) == 1 and multiplicity(g, b, q) >= 2)


def multiple_powers_by_gcd(g, order, q):
    """A root is multiple exactly when the derivative vanishes there too. x^order - 1 has no multiple root (order
    divides q - 1), so the degree of a gcd with it counts the roots that are in both."""
    multiple = gcd(g, derivative(g, q), q)
    if len(multiple) == 1:
        return 0
    return len(gcd(multiple, plus(power([0, 1], order, multiple, q), 0, -1, q), q)) - 1


def trials(f, field):
    """odd + 2 P. P counts the pairs of a level k from 1 and a nonzero b that is a 2^k-th power of an element
    (b^((q - 1) / 2^k) = 1) and a root of g_k of multiplicity 2 or more."""
    q, p, g = field.q, 0, f
    count = multiple_powers_by_trying if field.small else multiple_powers_by_gcd
    for k in range(1, field.levels + 1):
        g = double(g, q)
        p += count(g, (q - 1) >> k, q)
    return field.odd + 2 * p


def lift(f, k, b, field):
    """The root a of f with a^(2^k) = b, where b is nonzero and a simple root of g_k; else None."""
    q = field.q
    if b == 0 or multiplicity(tower(f, k, q), b, q) != 1:
        return None
    found = [a for a in roots_of(f, field) if pow(a, 2**k, q) == b]
    assert len(found) == 1
    return found[0]


# Refusals. Each function of a kind below makes its tests in the order in which they are specified.


def refuse_length(f):
    """8 LENGTH: no coefficient, or more than 257."""
    if not 1 <= len(f) <= 257:
        raise Refused(8, len(f))


def refuse_codes(f, field):
    """8; then 9 COEFFICIENT, place of the first code of q or more; then 10 TOP, the last coefficient zero."""
    refuse_length(f)
    for place, c in enumerate(f):
        if c >= field.q:
            raise Refused(9, place)
    if f[-1] == 0:
        raise Refused(10)


def refuse_short(length, needed):
    """6 SHORT, the length needed. `-` (None) is exactly that long."""
    if length is not None and length < needed:
        raise Refused(6, needed)


def refuse_frame(w, s):
    """1 FRAME: the width is from 1 to 32, the spare from 0 to 32."""
    if not (1 <= w <= 32 and 0 <= s <= 32):
        raise Refused(1)


# The words of a line


def number(word):
    if not re.fullmatch("[0-9]+", word):
        raise NoQuestion
    digits = word.lstrip("0") or "0"
    if len(digits) > 10 or int(digits) > 4294967295:
        raise NoQuestion
    return int(digits)


def numbers(words):
    return [number(word) for word in words]


def length_or_needed(word):
    return None if word == "-" else number(word)


def byte_string(word):
    if word != "-" and not re.fullmatch("([0-9a-f][0-9a-f])+", word):
        raise NoQuestion
    return b"" if word == "-" else bytes.fromhex(word)


def shown_bytes(text):
    return text.hex() or "-"


def shown_pairs(pairs):
    return [f"{a}:{b}" for a, b in pairs]


def at_least(n, words):
    if len(words) < n:
        raise NoQuestion
    return words


# The kinds: each takes the field and the words after it, and answers the words after `ok`


def element(code, field):
    """The element of a code: zero for a code of q or more. Doubling takes elements, the other kinds take codes."""
    return code if code < field.q else 0


def double_question(field, words):
    out, codes = length_or_needed(at_least(1, words)[0]), numbers(words[1:])
    refuse_length(codes)
    refuse_short(out, len(codes))
    return double([element(c, field) for c in codes], field.q)


def pairs_question(field, words):
    out = length_or_needed(at_least(1, words)[0])
    parts = [word.split(":") for word in words[1:]]
    if any(len(part) != 2 for part in parts):
        raise NoQuestion
    u, v = numbers(part[0] for part in parts), numbers(part[1] for part in parts)
    refuse_length(u)
    refuse_short(out, len(u))
    return shown_pairs(zip(*double_pairs([element(c, field) for c in u], [element(c, field) for c in v], field.q)))


def tangent_question(field, words):
    """f + eps f', doubled LEVEL times. 8, 9, 10 as in lifting; then a level above the field's is no question."""
    level, *f = numbers(at_least(1, words))
    refuse_codes(f, field)
    if level > field.levels:
        raise NoQuestion
    u, v = f, derivative(f, field.q)
    for _ in range(level):
        u, v = double_pairs(u, v, field.q)
    return shown_pairs(zip(u, v))


def lift_question(field, words):
    """8, 9, 10; 11 LEVEL, level 0 or above the field's; 2 CODE, a code of q or more; 6, 2 (d + 1) dual numbers."""
    work = length_or_needed(at_least(3, words)[0])
    level, code, *f = numbers(words[1:])
    refuse_codes(f, field)
    if not 1 <= level <= field.levels:
        raise Refused(11, level)
    if code >= field.q:
        raise Refused(2, code)
    refuse_short(work, 2 * len(f))
    root = lift(f, level, code, field)
    return ["none" if root is None else root]


def roots_question(field, words):
    """8, 9, 10; 6 for the list, d records; 6 for the work space, (levels + 1) (d + 1) dual numbers."""
    room, work = map(length_or_needed, at_least(2, words)[:2])
    f = numbers(words[2:])
    refuse_codes(f, field)
    refuse_short(room, len(f) - 1)
    refuse_short(work, (field.levels + 1) * len(f))
    records = [(a, multiplicity(f, a, field.q)) for a in roots_of(f, field)]
    splits = sum(e for _, e in records) == len(f) - 1
    return [len(records), "yes" if splits else "no", trials(f, field)] + shown_pairs(records)


def log_question(field, words):
    """A tally from its opening: entering n of code a adds n a^k to each sum S_k, withdrawing subtracts it, and either
    adds n to the turnover. A call is refused by 2 CODE, code 0 or of q or more; 3 QUANTITY, quantity 0; 4 FULL with the
    turnover, where turnover plus quantity is above the limit. The answers are joined by commas; `-` for none."""
    w, s = numbers(at_least(2, words)[:2])
    calls = []
    for word in words[2:]:
        call = re.fullmatch(r"([+-])([0-9]+)\*([0-9]+)", word)
        if not call:
            raise NoQuestion
        calls.append((1 if call[1] == "+" else -1, number(call[2]), number(call[3])))
    refuse_frame(w, s)
    sums, turnover, answers = [0] * (2 * w + s), 0, []
    for sign, code, quantity in calls:
        if code == 0 or code >= field.q:
            answers.append(f"2:{code}")
        elif quantity == 0:
            answers.append("3")
        elif turnover + quantity > field.limit:
            answers.append(f"4:{turnover}")
        else:
            sums = [(total + sign * quantity * pow(code, k, field.q)) % field.q for k, total in enumerate(sums)]
            turnover += quantity
            answers.append("ok")
    return [",".join(answers) or "-", turnover] + sums


def given_tally(field, w, s, turnover, sums):
    """A tally as a sheet that was read could hold it: refused by its frame, and no question where the number of sums is
    not 2 w + s, a sum is q or more, or the turnover is above the limit: no sheet with these could be read."""
    refuse_frame(w, s)
    if len(sums) != 2 * w + s or any(total >= field.q for total in sums) or turnover > field.limit:
        raise NoQuestion
    return w, s, turnover, sums


def compare_question(field, words):
    """The first tally is judged whole before the second; then 5 UNLIKE, another width or spare. The turnovers are 0."""
    if words.count("/") != 1:
        raise NoQuestion
    cut = words.index("/")
    (w, s, *sums), (w2, s2, *sums2) = (numbers(at_least(2, part)) for part in (words[:cut], words[cut + 1 :]))
    given_tally(field, w, s, 0, sums)
    given_tally(field, w2, s2, 0, sums2)
    if (w, s) != (w2, s2):
        raise Refused(5)
    return ["equal" if sums == sums2 else "unequal"]


# Sheets. Numbers take 4 bytes, the most significant first. Three sections, each after its count:
# 1 frame (count 4): q, w, s, turnover; 2 sums (count 2 w + s); 3 job name (count 0 to 40): bytes from 32 to 126.

LONGEST_NAME = 40


def lawful_byte(byte):
    return 32 <= byte <= 126


def write_question(field, words):
    """15 JOB: place 40 for a longer name, else the place of its first bad byte; then 6, the length of the sheet."""
    out, name = length_or_needed(at_least(5, words)[0]), byte_string(words[1])
    w, s, turnover, *sums = numbers(words[2:])
    given_tally(field, w, s, turnover, sums)
    if len(name) > LONGEST_NAME:
        raise Refused(15, LONGEST_NAME)
    for place, byte in enumerate(name):
        if not lawful_byte(byte):
            raise Refused(15, place)
    refuse_short(out, 4 * (7 + 2 * w + s) + len(name))
    items = [4, field.q, w, s, turnover, len(sums)] + sums + [len(name)]
    return [shown_bytes(b"".join(item.to_bytes(4, "big") for item in items) + name)]


def read_question(field, words):
    """The first fault from the left, with its section and the place of its item: 12 CUT, an item that is not whole;
    13 COUNT, a count other than prescribed; 14 VALUE, a number or byte out of its range, or another q."""
    if len(words) != 1:
        raise NoQuestion
    sheet, place = byte_string(words[0]), 0

    def item(section, size, fault, lawful):
        nonlocal place
        start, whole = place, sheet[place : place + size]
        if len(whole) < size:
            raise Refused(12, section, start)
        value = int.from_bytes(whole, "big")
        if not lawful(value):
            raise Refused(fault, section, start)
        place += size
        return value

    item(1, 4, 13, lambda count: count == 4)
    item(1, 4, 14, lambda q: q == field.q)
    w = item(1, 4, 14, lambda w: 1 <= w <= 32)
    s = item(1, 4, 14, lambda s: s <= 32)
    turnover = item(1, 4, 14, lambda n: n <= field.limit)
    item(2, 4, 13, lambda count: count == 2 * w + s)
    sums = [item(2, 4, 14, lambda total: total < field.q) for _ in range(2 * w + s)]
    length = item(3, 4, 13, lambda count: count <= LONGEST_NAME)
    name = bytes(item(3, 1, 14, lawful_byte) for _ in range(length))
    return [w, s, turnover, shown_bytes(name), len(sheet) - place] + sums


KINDS = {
    "double": double_question,
    "pairs": pairs_question,
    "tangent": tangent_question,
    "lift": lift_question,
    "roots": roots_question,
    "log": log_question,
    "compare": compare_question,
    "write": write_question,
    "read": read_question,
}


def answer(line):
    try:
        kind, field, *words = at_least(2, [word for word in line.split(" ") if word])
        if kind not in KINDS or field not in FIELDS:
            raise NoQuestion
        return " ".join(map(str, ["ok"] + KINDS[kind](FIELDS[field], words)))
    except NoQuestion:
        return "error"
    except Refused as refusal:
        return " ".join(map(str, ("refused",) + refusal.args))


if __name__ == "__main__":
    for question in sys.stdin.buffer:
        print(answer(question.removesuffix(b"\n").decode("latin-1")))
