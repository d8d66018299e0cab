#!/usr/bin/env python3
"""Writes vectors.txt: figures of documents 01 and 02 worked by Python's whole numbers.

The lines of Bellard's runs come first, then those of check runs (document 02,
slip 4), by the same functions over another formula; their words start with
"check-".

Method. A term is worked by its definition: N = mk + j, E = 4n + l - step * k + 128,
q = floor(2^E / N) mod 2^128 for E >= 0, else 0. While E is at most 10^6 the
power 2^E is written out in full and divided. Above that it cannot be written
out, and q = floor(2^128 * (2^(E-128) mod N) / N), which is the same number
because 2^E = 2^128 * (N * Q + r) with r = 2^(E-128) mod N, and 2^128 * Q is a
multiple of 2^128. Wherever both ways are possible both are taken and compared.
No Montgomery arithmetic, no inverse of N, no C.

A ticket's sum is the signed sum of its q, reduced modulo 2^128 at the end. So
is that of a half, over the terms before floor((first + end) / 2) or from there.

A term is charged if its E is 0 or more (document 02, slip 5). a and b, the numbers
of added and of subtracted charged terms, come from the last charged k of each row;
up to p = 10^6 they are counted term by term as well, and compared. A closing
compares two floor divisions for d = 32 down to 1, by whole numbers of any sign. It
has at least the digits that it has where every term is charged: both are worked
and compared. The digits of pi that closings are compared with come from Machin's
formula, not from either of these.

The squarings of a ticket or a half (document 02, slip 7) are added up term by
term where there are at most 10^5 terms. A term with E of 128 or more takes s where
2^s is the greatest power of two in E - 64; so it takes 6, and one more for each
power from 2^7 on that E - 64 reaches. Of any number of terms, the exponents are an
arithmetic progression, and those that reach a power are one whose length Python
tells: the squarings are 6 times the first such length and each of the others once.
Where both ways are possible both are taken and compared.
"""
import collections
import functools
import random
import sys

M = 1 << 128
WRITTEN_OUT = 10**6
COUNTED = 10**6
SQUARED = 10**5


def bellard_terms(K):
    if K % 2 == 0:
        return 7 * K // 2, 7 * K // 2
    return 7 * (K - 1) // 2 + 2, 7 * (K - 1) // 2 + 5


def check_terms(K):
    return K, 3 * K


# A kind of runs. The rows are (m, j, l, sign); `all_terms` gives from K the numbers of added and of subtracted terms, charged
# or not. At p = 1, C = 256 block `one_term` has one term; at the last position and C = 256 block `wrapping` ends past 2^64 / 256.
Formula = collections.namedtuple("Formula", "title prefix last step alternates all_terms one_term wrapping rows")
BELLARD = Formula("", "", 1 << 60, 10, True, bellard_terms, 18, 39,
                  ((4, 1, -1, -1), (4, 3, -6, -1), (10, 1, 2, 1), (10, 3, 0, -1),
                   (10, 5, -4, -1), (10, 7, -4, -1), (10, 9, -6, 1)))
CHECK = Formula("Check runs. ", "check-", 1 << 59, 4, False, check_terms, 7, 31,
                ((8, 1, 2, 1), (2, 1, -1, -1), (8, 5, 0, -1), (4, 3, -1, -1)))


def row_numbers(f):
    return range(len(f.rows))


def terms_in_row(f, p):
    return (4 * (p - 1) + 130) // f.step + 1


def numbers(f, p, row, k):
    m, j, l, s = f.rows[row]
    return m * k + j, 4 * (p - 1) + l - f.step * k + 128, -s if f.alternates and k % 2 == 1 else s


def quotient(E, N):
    if E < 0:
        return 0
    literal = (1 << E) // N % M if E <= WRITTEN_OUT else None
    if E < 128:
        return literal
    by_residue = (pow(2, E - 128, N) << 128) // N
    assert literal is None or literal == by_residue
    return by_residue


def size(f, p, row, k):
    N, E, _ = numbers(f, p, row, k)
    return quotient(E, N)


def block(f, p, c, i):
    K = terms_in_row(f, p)
    return i * K // c, (i + 1) * K // c


def halves(f, p, c, i):
    first, end = block(f, p, c, i)
    cut = (first + end) // 2
    return (first, cut), (cut, end)


def range_sum(f, p, row, first, end):
    total = 0
    for k in range(first, end):
        total += numbers(f, p, row, k)[2] * size(f, p, row, k)
    return total % M


def ticket(f, p, c, row, i):
    return range_sum(f, p, row, *block(f, p, c, i))


def term_squarings(E):
    return (E - 64).bit_length() - 1 if E >= 128 else 0


def range_squarings(f, p, row, first, end):
    exponents = range(numbers(f, p, row, first)[1], numbers(f, p, row, end)[1], -f.step)
    reaching = [len(range(exponents.start, max(exponents.stop, 2**s + 63), -f.step)) for s in range(6, 63)]
    squarings = 6 * reaching[0] + sum(reaching[1:])
    assert len(exponents) > SQUARED or squarings == sum(map(term_squarings, exponents))
    assert len(exponents) == end - first and squarings <= 62 * (end - first)
    return squarings


def last_charged(f, p, row):
    k = numbers(f, p, row, 0)[1] // f.step
    assert numbers(f, p, row, k)[1] >= 0 > numbers(f, p, row, k + 1)[1] and k < terms_in_row(f, p)
    return k


def counted_charges(f, p):
    terms = (numbers(f, p, row, k) for row in row_numbers(f) for k in range(terms_in_row(f, p)))
    count = collections.Counter(s for _, E, s in terms if E >= 0)
    return count[1], count[-1]


@functools.lru_cache(maxsize=None)
def charges(f, p):
    count = collections.Counter()
    for row in row_numbers(f):
        k = last_charged(f, p, row)
        count[numbers(f, p, row, 0)[2]] += k // 2 + 1
        count[numbers(f, p, row, 1)[2]] += (k + 1) // 2
    assert p > COUNTED or (count[1], count[-1]) == counted_charges(f, p)
    return count[1], count[-1]


def settled(total, a, b):
    low, high = total - b - 1, total + a + 1
    for d in range(32, 0, -1):
        unit = 1 << (128 - 4 * d)
        if low // unit == high // unit:
            return d, "%0*X" % (d, low // unit % (1 << (4 * d)))
    return -9, "-"


def closing(f, p, total):
    d, digits = settled(total, *charges(f, p))
    before, digits_before = settled(total, *f.all_terms(terms_in_row(f, p)))
    assert before == -9 or d >= before and digits.startswith(digits_before)
    return d, digits


def pi_digits(count):
    guard = 16
    one = 1 << (4 * (count + guard))

    def arctan_inverse(x):
        power = one // x
        total, k = power, 1
        while power:
            power //= x * x
            total += (-1) ** k * (power // (2 * k + 1))
            k += 1
        return total
    pi = 4 * (4 * arctan_inverse(5) - arctan_inverse(239))
    return "%0*X" % (count, (pi - 3 * one) >> (4 * guard))


# Lines. The words of the kinds in a title are written with {}, where the prefix belongs.

def title(f, text):
    print("\n# " + f.title + text.format(*[f.prefix] * text.count("{}")))


def last_power(f):
    return "2^%d" % (f.last.bit_length() - 1)


def term_line(f, p, row, k, note):
    N, E, s = numbers(f, p, row, k)
    print("%sterm %d %d %d %d %d %s %032x  # %s" %
          (f.prefix, p, row, k, N, E, "+" if s > 0 else "-", size(f, p, row, k), note))


def count_line(f, p):
    print("%scount %d %d" % (f.prefix, p, terms_in_row(f, p)))


def range_line(f, kind, p, c, i, terms):
    print("%s%s %d %d %d %d %d" % ((f.prefix, kind, p, c, i) + terms))


def block_line(f, p, c, i):
    range_line(f, "block", p, c, i, block(f, p, c, i))


def sum_line(f, kind, p, c, row, i, s):
    print("%s%s %d %d %d %d %032x %s" %
          (f.prefix, kind, p, c, row, i, s, s.to_bytes(16, "little").hex()))


def ticket_line(f, p, c, row, i, kind="ticket"):
    sum_line(f, kind, p, c, row, i, ticket(f, p, c, row, i))


def half_lines(f, p, c, row, i, kinds=("lower", "upper")):
    sums = [range_sum(f, p, row, *half) for half in halves(f, p, c, i)]
    for kind, s in zip(kinds, sums):
        sum_line(f, kind, p, c, row, i, s)
    return sum(sums) % M


def squarings_lines(f, p, c, row, i):
    counts = [range_squarings(f, p, row, *terms) for terms in (block(f, p, c, i), *halves(f, p, c, i))]
    assert counts[0] == counts[1] + counts[2]
    for kind, count in zip(("squarings", "squarings-lower", "squarings-upper"), counts):
        print("%s%s %d %d %d %d %d" % (f.prefix, kind, p, c, row, i, count))


def closing_line(f, p, total):
    d, digits = closing(f, p, total)
    print("%sclosing %d %032x %d %s" % (f.prefix, p, total, d, digits))


# Sections.

def bellard_figures():
    f = BELLARD
    title(f, "Figures of document 01 on terms (starred and unstarred)")
    for p, row, k, want in [(1, 0, 0, 1 << 127), (1, 2, 0, 0),
                            (1, 3, 0, int("5" * 32, 16)),
                            (1, 4, 0, int("3" * 31, 16)),
                            (3, 4, 0, int("3" * 32, 16)),
                            (1, 2, 11, 9446), (1, 2, 12, 8), (1, 2, 13, 0),
                            (1, 0, 12, 2), (1, 0, 13, 0)]:
        assert size(f, p, row, k) == want
        term_line(f, p, row, k, "document 01, Marked figures")
    title(f, "Terms in a row: {}count p K")
    for p, want in [(1, 14), (3, 14), (4, 15), (1 << 60, 461168601842738804)]:
        assert terms_in_row(f, p) == want
        count_line(f, p)
    for p in (2, 5, 6, 7, 17, 100, 1000, 12345, 10**5, 10**6, 10**7, 10**8):
        count_line(f, p)
    title(f, "Blocks: {}block p C i first end (end not included)")
    assert block(f, 1, 256, 0) == (0, 0) and block(f, 1, 256, 255) == (13, 14)
    for p, c, i in [(1, 256, 0), (1, 256, 1), (1, 256, 17), (1, 256, 18),
                    (1, 256, 19), (1, 256, 254), (1, 256, 255), (1, 1, 0),
                    (1, 14, 0), (1, 14, 13), (1, 13, 0), (1, 13, 12),
                    (1, 15, 0), (1, 15, 14)]:
        block_line(f, p, c, i)
    assert halves(f, 1, 256, 0) == ((0, 0), (0, 0)) and halves(f, 1, 256, 255) == ((13, 13), (13, 14))
    assert halves(f, 1, 3, 2) == ((9, 11), (11, 14))
    assert charges(f, 1) == (44, 48)
    assert [closing(f, 1, total)[0] for total in (48, 49, 50, M - 46, M - 45)] == [-9, 30, 30, 30, -9]
    assert numbers(f, f.last, 3, (4 * (f.last - 1)) // 10)[0] == (1 << 62) - 1


def check_figures():
    f = CHECK
    title(f, "The first terms: their signs do not alternate")
    for row in row_numbers(f):
        for k in range(4):
            term_line(f, 1, row, k, "k = %d" % k)
    assert size(f, 1, 0, 0) == 0 and size(f, 1, 1, 0) == 1 << 127
    assert size(f, 1, 2, 0) == int("3" * 32, 16) and size(f, 1, 3, 0) == (1 << 127) // 3
    title(f, "Terms in a row: {}count p K")
    for p in (1, 2, 3, 4, 5, 6, 7, 17, 100, 1000, 12345, 10**5, 10**6, 10**7, 10**8, f.last - 1, f.last):
        assert terms_in_row(f, p) == p + 32
        count_line(f, p)
    title(f, "Blocks: {}block p C i first end (end not included)")
    assert block(f, 1, 256, 0) == (0, 0) and block(f, 1, 256, 7) == (0, 1) and block(f, 1, 256, 255) == (32, 33)
    for c, places in [(256, (0, 1, 6, 7, 8, 15, 254, 255)), (1, (0,)), (33, (0, 32)), (32, (0, 30, 31)), (34, (0, 1, 33))]:
        for i in places:
            block_line(f, 1, c, i)
    assert halves(f, 1, 256, 7) == ((0, 0), (0, 1)) and halves(f, 1, 3, 2) == ((22, 27), (27, 33))
    assert charges(f, 1) == (33, 97)
    for p in (2, 3, 4, 5, 1000, 10**6, f.last):
        assert charges(f, p) == (terms_in_row(f, p), 3 * terms_in_row(f, p) - 2)
    assert [closing(f, 1, total)[0] for total in (97, 98, M - 35, M - 34)] == [-9, 30, 30, -9]
    assert numbers(f, f.last, 2, terms_in_row(f, f.last) - 1)[0] == (1 << 62) + 253


def terms_with(f, N):
    return [(row, (N - j) // m) for row, (m, j, _, _) in enumerate(f.rows) if N >= j and (N - j) % m == 0]


def corner_terms(f, exponents):
    title(f, "Corner terms: {}term p row k N E sign q (q in hexadecimal, 128 bits)")
    for N in (1, 7):
        for p in (1, 2, 3, 17, f.last):
            for row, k in terms_with(f, N):
                term_line(f, p, row, k, "N = %d" % N)
    for E in exponents:
        for row in row_numbers(f):
            found = [(p, k) for p in range(1, 400) for k in range(terms_in_row(f, p))
                     if numbers(f, p, row, k)[1] == E]
            for p, k in found[:1] + found[-1:]:
                term_line(f, p, row, k, "E = %d" % E)


def far_terms(f):
    p = f.last
    K = terms_in_row(f, p)
    title(f, "Terms at p = " + last_power(f))
    for row in row_numbers(f):
        term_line(f, p, row, 0, "first")
        last = (4 * (p - 1) + f.rows[row][2]) // f.step
        assert numbers(f, p, row, last)[1] >= 128 > numbers(f, p, row, last + 1)[1]
        term_line(f, p, row, last - 1, "E >= 128")
        term_line(f, p, row, last, "last with E >= 128")
        term_line(f, p, row, last + 1, "first with E < 128")
        term_line(f, p, row, K - 2, "last but one")
        term_line(f, p, row, K - 1, "last")
    rng = random.Random(1)
    title(f, "Random terms at p = %s and near it, and at powers of ten" % last_power(f))
    for p in (f.last, f.last - 1, 10**17, 10**9, 10**6):
        for row in row_numbers(f):
            for _ in range(3):
                term_line(f, p, row, rng.randrange(terms_in_row(f, p)), "random")


def quotients():
    print("\n# Quotients with N = 1 and N up to 2^63 - 1; E - 64 is all ones, twice, then ones and zeros in turn; then the last E:")
    print("# quotient E N q")
    for N in (1, 2**62 + 135, 0x6c8e9cf570932bd5, 0x7b2f11d390ac4e5f, 2**63 - 25, 2**63 - 1):
        for E in (191, 2**62 + 63, 0xaaaaaaaaaaaaaaaa + 64, 2**64 - 1):
            print("quotient %d %d %032x" % (E, N, quotient(E, N)))


def far_blocks(f):
    title(f, "Block ends at p = %s: {}block p C i first end" % last_power(f))
    for c in (256, 255, 3, 2, 1):
        for i in sorted({0, 1, c // 2, c - 2, c - 1} & set(range(c))):
            block_line(f, f.last, c, i)


# Blocks at p = 10^5, one for each row.
PLACES = ((0, 0), (1, 255), (2, 128), (3, 17), (4, 200), (5, 99), (6, 254))


def ticket_cases(f, places):
    cases = [(1, 1, row, 0) for row in row_numbers(f)]
    cases += [(1, 256, row, i) for row in row_numbers(f) for i in places]
    cases += [(p, c, row, i) for p in (2, 3, 4, 17, 100) for row in row_numbers(f)
              for c, i in ((1, 0), (2, 0), (3, 0), (3, 2), (255, 254), (256, 255))]
    cases += [(p, c, row, i) for p in (1000, 12345) for row in row_numbers(f)
              for c, i in ((1, 0), (4, 3), (7, 3), (256, 255))]
    return cases + [(10**5, 256, row, i) for row, i in PLACES[:len(f.rows)]]


def tickets(f, cases):
    title(f, "Tickets: {}ticket p C row block sum-as-a-number sum-as-16-bytes")
    for case in cases:
        ticket_line(f, *case)


FAR_TICKETS = ((22 * 10**8, 256, 2, 255), (2 * 10**9, 256, 1, 200), (2 * 10**9, 256, 6, 180))


def far_tickets(f):
    title(f, "Tickets of some million terms, with N above 2^33, below 2^32, above 2^32: {}far p C row block sum bytes")
    for case in FAR_TICKETS:
        ticket_line(f, *case, "far")


def half_blocks(f):
    title(f, "Halves of blocks: {}lower-half p C i first end, {}upper-half p C i first end (end not included)")
    for p, c, i in [(1, 256, 0), (1, 256, f.one_term), (1, 256, 255), (1, 1, 0), (1, 3, 0), (1, 3, 1), (1, 3, 2), (1, 7, 6),
                    (4, 1, 0), (4, 2, 1), (1000, 3, 1), (1000, 4, 1), (1000, 8, 5), (1000, 16, 5), (12345, 7, 3),
                    (6 * 10**9, 256, 255), (f.last, 1, 0), (f.last, 2, 1), (f.last, 3, 1), (f.last, 255, 254),
                    (f.last, 256, f.wrapping), (f.last, 256, 255)]:
        for kind, half in zip(("lower-half", "upper-half"), halves(f, p, c, i)):
            range_line(f, kind, p, c, i, half)


def half_cases(f):
    cases = [(1, c, row, i) for row in row_numbers(f)
             for c, i in ((1, 0), (3, 0), (3, 1), (3, 2), (7, 6), (256, 0), (256, f.one_term), (256, 255))]
    cases += [(p, c, row, i) for p in (2, 3, 4, 17, 100) for row in row_numbers(f)
              for c, i in ((1, 0), (3, 1), (7, 6), (256, 255))]
    cases += [(p, c, row, i) for p in (1000, 12345) for row in row_numbers(f) for c, i in ((1, 0), (7, 3))]
    return cases + [(10**5, 256, row, i) for row, i in PLACES[:len(f.rows)]]


def half_tickets(f):
    title(f, "Halves of tickets: {}lower or {}upper, p C row block sum-as-a-number sum-as-16-bytes")
    for case in half_cases(f):
        assert half_lines(f, *case) == ticket(f, *case)


FAR_HALVES = (6 * 10**9, 256, 5, 255)


def far_halves(f):
    title(f, "A ticket of some million terms, with first + end above 2^32: {}far-lower, {}far-upper")
    half_lines(f, *FAR_HALVES, ("far-lower", "far-upper"))


FAR_CHECK_TICKET = (7 * 10**8, 256, 2, 200)


def far_ticket_and_halves(f):
    title(f, "A ticket of some million terms, with N above 2^32, and its halves: {}far, {}far-lower, {}far-upper")
    sum_line(f, "far", *FAR_CHECK_TICKET, half_lines(f, *FAR_CHECK_TICKET, ("far-lower", "far-upper")))


FAR_EXPONENTS = (11 * 10**8, 256, 3, 0)


def far_exponents(f):
    title(f, "A ticket of some million terms, with E above 2^32: {}far")
    p, c, row, i = FAR_EXPONENTS
    assert numbers(f, p, row, block(f, p, c, i)[1])[1] > 1 << 32
    ticket_line(f, *FAR_EXPONENTS, "far")


# Those of all tickets and halves above, each once, then of tickets farther on, most of which no machine can work.
def squarings(f, cases):
    title(f, "Squarings: {}squarings, {}squarings-lower or {}squarings-upper, p C row block number")
    cases = list(dict.fromkeys(cases + half_cases(f)))
    cases += [(f.last, 1, row, 0) for row in row_numbers(f)]
    cases += [(f.last, c, row, i) for row in row_numbers(f)
              for c, i in ((256, 0), (256, f.wrapping), (256, 255), (255, 128), (3, 1), (3, 2))]
    cases += [(p, c, row, i) for p in (f.last - 1, f.last // 2, f.last // 2 + 1, 10**17, 10**9, 10**6) for row in row_numbers(f)
              for c, i in ((1, 0), (256, 255), (7, 3))]
    for case in cases:
        squarings_lines(f, *case)


# Totals on both sides of the edges, and of the edges that there would be with every term charged.
def edge_lines(f, p):
    offsets = set()
    for a, b in (charges(f, p), f.all_terms(terms_in_row(f, p))):
        offsets |= {b, b + 1, -a - 2, -a - 1}
    for multiple in (1 << 124, 5 << 120, 9 << 100, 0xABC << 80, 0):
        for off in sorted(offsets):
            closing_line(f, p, (multiple + off) % M)


def closings(f):
    title(f, "Closings, all tickets marked: {}closing p total answer digits")
    a, b = charges(f, 1)
    for total in (0, b - 1, b, b + 1, b + 2, M - a - 3, M - a - 2, M - a - 1, M - a, M - 1,
                  (1 << 124) + (1 << 120), 1 << 127, 1 << 124):
        closing_line(f, 1, total)
    assert closing(f, 1, b)[0] == -9 and closing(f, 1, b + 1) == (30, "0" * 30)
    assert closing(f, 1, M - a - 2) == (30, "F" * 30) and closing(f, 1, M - a - 1)[0] == -9
    assert closing(f, 1, (1 << 124) + (1 << 120)) == (1, "1")
    assert closing(f, 1, 0)[0] == -9
    rng = random.Random(2)
    for p in (1, 2, 3, 4, 5, 6, 1000, 10**6, 10**12, f.last // 2, f.last - 1, f.last):
        for _ in range(4):
            closing_line(f, p, rng.getrandbits(128))
        edge_lines(f, p)
    for p in (7, 8, 9, 10):
        edge_lines(f, p)


# The last position is `longer`, at which there is a digit more than with every term charged.
def worked_runs(f, digits_at_1, longer):
    title(f, "Runs worked and closed, compared with the digits of pi")
    pi = pi_digits(1100)
    for p in (1, 2, 3, 4, 5, 17, 100, 1000, longer):
        total = sum(ticket(f, p, 1, row, 0) for row in row_numbers(f)) % M
        d, digits = closing(f, p, total)
        assert digits == pi[p - 1:p - 1 + d], p
        assert p > 1 or d == digits_at_1
        assert p != longer or d == settled(total, *f.all_terms(terms_in_row(f, p)))[0] + 1
        closing_line(f, p, total)


def bellard_runs():
    f = BELLARD
    bellard_figures()
    corner_terms(f, (-10, -3, -2, -1, 0, 1, 2, 63, 64, 65, 126, 127, 128, 129, 130, 191, 192, 193))
    far_terms(f)
    far_blocks(f)
    cases = ticket_cases(f, (0, 18, 36, 37, 54, 128, 237, 255))
    tickets(f, cases)
    far_tickets(f)
    half_blocks(f)
    half_tickets(f)
    far_halves(f)
    far_exponents(f)
    squarings(f, cases + [*FAR_TICKETS, FAR_HALVES, FAR_EXPONENTS])
    closings(f)
    worked_runs(f, 30, 529)


def check_runs():
    f = CHECK
    check_figures()
    corner_terms(f, (-1, 0, 2, 3, 4, 62, 63, 64, 66, 67, 124, 126, 127, 128, 130, 131, 190, 191, 192, 194, 195))
    far_terms(f)
    far_blocks(f)
    cases = ticket_cases(f, (0, 6, 7, 15, 54, 128, 248, 255))
    tickets(f, cases)
    half_blocks(f)
    half_tickets(f)
    far_ticket_and_halves(f)
    far_exponents(f)
    squarings(f, cases + [FAR_CHECK_TICKET, FAR_EXPONENTS])
    closings(f)
    worked_runs(f, 29, 117)


def main():
    print("# Written by tools/vectors.py (whole numbers, straight from document 01).")
    print("# A line is a word that says its kind, then its numbers; '#' starts a comment.")
    bellard_runs()
    quotients()
    check_runs()
    return 0


if __name__ == "__main__":
    sys.exit(main())
