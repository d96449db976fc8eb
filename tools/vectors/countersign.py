#!/usr/bin/env python3
"""countersign.py [--check]: writes crates/countersign_cases/stdin and stdout: cases of `countersign` and what request C-13 says of each.
It follows the request's text, by Python's whole numbers and fractions, and no code of this repository. With --check it compares with
what the two files hold and writes nothing. The draws are fixed by SEED."""
import sys

del sys.path[0]  # numbers.py beside this file is not Python's own

import fractions  # noqa: E402
import math  # noqa: E402
import os  # noqa: E402
import random  # noqa: E402
import struct  # noqa: E402

BLOCK = 98304  # bytes that crates/countersign_cases reads at a time
SEED = 20261115
HERE = os.path.dirname(os.path.abspath(__file__))
FOLDER = os.path.join(HERE, '..', '..', 'crates', 'countersign_cases')
GRID = 2 ** 18
UNIT = fractions.Fraction(1, 2 ** 54)


def bits(x):
    return struct.unpack('<Q', struct.pack('<d', x))[0]


def cells(numbers):
    """Complex whole numbers of 2^-18 as floats, real part first."""
    out = []
    for re, im in numbers:
        out += [re / GRID, im / GRID]
    return out


# ---- the request's text

def allowed(x):
    return math.isfinite(x) and abs(fractions.Fraction(x)) <= 2 ** 200


def on_grid(x):
    return (fractions.Fraction(x) * GRID).denominator == 1 and abs(x) <= 1


def refusal(a, m, n, u, s, vt):
    if m < 1 or n < 1 or m * n > 4096 or min(m, n) > 16:
        return (1, 0)
    k = min(m, n)
    for place, (have, need) in enumerate([(a, 2 * m * n), (u, 2 * m * k), (s, k), (vt, 2 * k * n)]):
        if len(have) != need:
            return (6, place)
    for number, test in [(7, allowed), (11, on_grid)]:
        for numbers, per in [(a, 2), (u, 2), (s, 1), (vt, 2)]:
            for i, x in enumerate(numbers):
                if not test(x):
                    return (number, i // per)
    return None


class Exact:
    """A complex number whose parts are fractions."""

    def __init__(self, re, im=0):
        self.re, self.im = fractions.Fraction(re), fractions.Fraction(im)

    def __add__(self, o):
        return Exact(self.re + o.re, self.im + o.im)

    def __sub__(self, o):
        return Exact(self.re - o.re, self.im - o.im)

    def __mul__(self, o):
        return Exact(self.re * o.re - self.im * o.im, self.re * o.im + self.im * o.re)

    def conj(self):
        return Exact(self.re, -self.im)

    def within(self, tolerance):
        return abs(self.re) <= tolerance * UNIT and abs(self.im) <= tolerance * UNIT


def whole_cells(numbers):
    """The cells as pairs of whole numbers of 2^-18."""
    parts = [int(fractions.Fraction(x) * GRID) for x in numbers]
    return list(zip(parts[0::2], parts[1::2]))


def tests(a, m, n, u, s, vt, tolerance):
    """Whole numbers: a product of three is in units of 2^-54, of two in units of 2^-36."""
    k = min(m, n)
    aa, uu, vv = whole_cells(a), whole_cells(u), whole_cells(vt)
    ss = [int(fractions.Fraction(x) * GRID) for x in s]
    for c in range(m * n):
        j, i = divmod(c, m)
        re, im = aa[c][0] * 2 ** 36, aa[c][1] * 2 ** 36
        for t in range(k):
            (a1, b1), (a2, b2) = uu[t * m + i], vv[t * n + j]
            re -= (a1 * a2 - b1 * b2) * ss[t]
            im -= (a1 * b2 + b1 * a2) * ss[t]
        if abs(re) > tolerance or abs(im) > tolerance:
            return (0, 1, c)
    # U-dagger U and V-dagger V, entry (p, q): the first is conjugated in the one, the second in the other
    for test, x, length in [(2, uu, m), (3, vv, n)]:
        for p in range(k):
            for q in range(k):
                re, im = -(2 ** 36) * (p == q), 0
                for i in range(length):
                    (a1, b1), (a2, b2) = x[p * length + i], x[q * length + i]
                    if test == 2:
                        b1 = -b1
                    else:
                        b2 = -b2
                    re += a1 * a2 - b1 * b2
                    im += a1 * b2 + b1 * a2
                if abs(re) * 2 ** 18 > tolerance or abs(im) * 2 ** 18 > tolerance:
                    return (0, test, p * k + q)
    for i in range(k):
        if ss[i] < 0 or (i > 0 and ss[i] > ss[i - 1]):
            return (0, 4, i)
    return (1, 0, 0)


def by_fractions(a, m, n, u, s, vt, tolerance):
    """The same by exact fractions of the floats themselves; for small cases."""
    k = min(m, n)

    def cell(x, c):
        return Exact(fractions.Fraction(x[2 * c]), fractions.Fraction(x[2 * c + 1]))

    for c in range(m * n):
        j, i = divmod(c, m)
        d = cell(a, c)
        for t in range(k):
            d = d - cell(u, t * m + i) * Exact(fractions.Fraction(s[t])) * cell(vt, t * n + j)
        if not d.within(tolerance):
            return (0, 1, c)
    for test, x, length in [(2, u, m), (3, vt, n)]:
        for p in range(k):
            for q in range(k):
                d = Exact(-1 if p == q else 0)
                for i in range(length):
                    left, right = cell(x, p * length + i), cell(x, q * length + i)
                    d = d + (left.conj() * right if test == 2 else left * right.conj())
                if not d.within(tolerance):
                    return (0, test, p * k + q)
    for i in range(k):
        if s[i] < 0 or (i > 0 and s[i] > s[i - 1]):
            return (0, 4, i)
    return (1, 0, 0)


def expected(a, m, n, u, s, vt, tolerance):
    answer = refusal(a, m, n, u, s, vt)
    if answer:
        return answer + (0, 0, 0)
    said = tests(a, m, n, u, s, vt, tolerance)
    if m * n <= 64:
        assert said == by_fractions(a, m, n, u, s, vt, tolerance)
    return (0, 0) + said


# ---- the cases

def identity_case(m, n, values):
    """U the first k unit vectors, V-dagger too: A has the values on its diagonal."""
    k = min(m, n)
    a, u, vt = [0.0] * (2 * m * n), [0.0] * (2 * m * k), [0.0] * (2 * k * n)
    for t in range(k):
        a[2 * (t * m + t)] = values[t]
        u[2 * (t * m + t)] = 1.0
        vt[2 * (t * n + t)] = 1.0
    return [a, m, n, u, list(values), vt]


def rotated(rng, m, n):
    """Exact factors of one pair of vectors with 3/5 and 4/5 rounded to the grid, with complex phases."""
    k = min(m, n)
    case = identity_case(m, n, sorted((rng.randrange(GRID + 1) / GRID for _ in range(k)), reverse=True))
    if k > 1:
        c, d = round(0.6 * GRID) / GRID, round(0.8 * GRID) / GRID
        u = case[3]
        u[0], u[3] = c, d
        u[2 * m + 1], u[2 * m + 2] = d, c
    return case


def needed(case):
    """The least tolerance at which every test of the tolerance passes."""
    low, high = 0, 2 ** 62
    while low < high:
        middle = (low + high) // 2
        if tests(*case, middle)[1] in (0, 4):
            high = middle
        else:
            low = middle + 1
    return low


def with_changes(case, which, place, value):
    out = [list(x) if isinstance(x, list) else x for x in case]
    out[which][place] = value
    return out


def all_cases(rng):
    A, U, S, V = 0, 3, 4, 5
    small = identity_case(2, 2, [1.0, 0.5])
    yield small + [0]
    # refusals, in their order
    for m, n in [(0, 1), (1, 0), (17, 17), (4097, 1), (1, 4097), (2 ** 63, 2), (2 ** 32, 2 ** 32), (257, 16), (17, 240)]:
        yield [[], m, n, [], [], [], 0]
    for which in (A, U, S, V):
        short = [list(x) if isinstance(x, list) else x for x in small]
        short[which] = short[which][:-1]
        yield short + [0]
        long = [list(x) if isinstance(x, list) else x for x in small]
        long[which] = long[which] + [0.0]
        yield long + [2 ** 64 - 1]
    both = [list(x) if isinstance(x, list) else x for x in small]
    both[U], both[V] = both[U][:-2], both[V] + [0.0]
    yield both + [0]
    for bad in (math.inf, -math.inf, math.nan, 2.0 ** 201, math.nextafter(2.0 ** 200, math.inf)):
        for which in (A, U, S, V):
            yield with_changes(small, which, 1, bad) + [0]
    for off in (2.0 ** 200, 2.0 ** -19, 1 + 2.0 ** -18, -1 - 2.0 ** -52, 5e-324, 0.1, -2.0, 2.0 ** -18 + 2.0 ** -70):
        for which in (A, U, S, V):
            yield with_changes(small, which, 1, off) + [2 ** 64 - 1]
    # 7 in the last argument before 11 in the first, and a later 7 before an earlier 11
    yield with_changes(with_changes(small, A, 0, 0.1), V, 7, math.inf) + [0]
    yield with_changes(with_changes(small, S, 0, 0.1), S, 1, math.nan) + [0]
    # both zeros, and the smallest numbers of the grid
    yield with_changes(small, U, 1, -0.0) + [0]
    yield with_changes(small, A, 2, 2.0 ** -18) + [2 ** 36]
    yield with_changes(small, A, 2, 2.0 ** -18) + [2 ** 36 - 1]
    yield with_changes(small, A, 5, -2.0 ** -18) + [2 ** 36 - 1]
    # each test's first failing cell
    for place in range(8):
        yield with_changes(small, A, place, small[A][place] - 0.25) + [2 ** 52 - 1]
        yield with_changes(small, A, place, small[A][place] - 0.25) + [2 ** 52]
    flat = identity_case(3, 3, [0.0, 0.0, 0.0])
    for which in (U, V):
        for place in range(18):
            for value in (0.5, -0.5):
                yield with_changes(flat, which, place, value) + [0]
                yield with_changes(flat, which, place, value) + [2 ** 53]
    yield with_changes(with_changes(flat, U, 2, 0.5), V, 4, 0.5) + [0]
    # the values: exact, whatever the tolerance
    for values in ([0.5, 1.0], [-(2.0 ** -18), 0.0], [0.0, -(2.0 ** -18)], [0.5, 0.5 + 2.0 ** -18], [0.5, 0.5], [0.0, 0.0], [-0.0, 0.0], [-1.0, -1.0]):
        yield identity_case(2, 2, values) + [0]
        yield identity_case(2, 2, values) + [2 ** 64 - 1]
    yield identity_case(1, 4096, [1.0]) + [0]
    yield identity_case(4096, 1, [0.0]) + [0]
    # met exactly and missed by one unit
    for m, n in [(1, 1), (2, 2), (3, 2), (2, 3), (4, 5), (16, 16), (16, 3)]:
        for _ in range(3):
            case = rotated(rng, m, n)
            k = min(m, n)
            case[A] = cells([(rng.randrange(-9, 10), rng.randrange(-9, 10)) for _ in range(m * n)])
            for t in range(k):
                place = 2 * (t * m + t)
                case[A][place] = max(-1.0, min(1.0, case[S][t] + case[A][place]))
            least = needed(case)
            yield case + [least]
            if least:
                yield case + [least - 1]
    # complex vectors drawn whole, so that each part counts
    for _ in range(12):
        m, n = rng.choice([(2, 2), (3, 2), (2, 4), (5, 3)])
        k = min(m, n)

        def draw(count):
            return cells([(rng.randrange(-GRID, GRID + 1), rng.randrange(-GRID, GRID + 1)) for _ in range(count)])

        case = [draw(m * n), m, n, draw(m * k), sorted((rng.randrange(GRID + 1) / GRID for _ in range(k)), reverse=True), draw(k * n)]
        least = needed(case)
        for tolerance in (0, least - 1, least, 2 ** 64 - 1):
            yield case + [tolerance]
    # the largest product sums: 32 times 2^54 in the real part, in the imaginary part
    for second in ((GRID, -GRID), (GRID, GRID), (-GRID, GRID)):
        case = [cells([(GRID, 0)] * 256), 16, 16, cells([(GRID, GRID)] * 256), [1.0] * 16, cells([second] * 256)]
        least = needed(case)
        for tolerance in (2 ** 59 - 2 ** 54, 2 ** 59 - 2 ** 54 - 1, least, least - 1) if second[1] < 0 else (least,):
            yield case + [tolerance]
    # m n of 4096 with side 16, both ways round, and wrong in the last cell
    for m, n in [(256, 16), (16, 256)]:
        case = identity_case(m, n, [1.0 - t * 2.0 ** -18 for t in range(16)])
        yield case + [0]
        yield with_changes(case, A, 8191, 2.0 ** -18) + [2 ** 36 - 1]
        yield with_changes(case, A, 8191, 2.0 ** -18) + [2 ** 36]
        yield with_changes(case, U, len(case[U]) - 1, 1.0) + [0]
        yield with_changes(case, V, len(case[V]) - 1, 1.0) + [0]
        yield with_changes(case, S, 15, 1.0) + [0]
        yield with_changes(case, A, 8191, 0.1) + [0]
    # sums whose product by 2^18 would wrap to 0: 1025 ones in one vector; and one above and below
    for ones, m, n, extra in [(1, 4096, 1, (0,)), (2, 1, 4096, (0, -1)), (1024, 4096, 1, (0,)), (1025, 4096, 1, (0, -1, 2 ** 18 - 1, None)),
                              (1025, 1, 4096, (-1, None)), (1026, 1, 4096, (None,))]:
        case = identity_case(m, n, [0.0])
        case[A] = [0.0] * 8192
        case[U if n == 1 else V] = [1.0, 0.0] * ones + [0.0] * (2 * (4096 - ones))
        for more in extra:
            yield case + [0 if more is None else min((ones - 1) * 2 ** 54 + more, 2 ** 64 - 1)]
    # the longest vector: no tolerance is enough
    case = identity_case(4096, 1, [0.0])
    case[A], case[U] = [0.0] * 8192, [1.0, 0.0] * 4096
    yield case + [2 ** 64 - 1]


def text_of(case):
    a, m, n, u, s, vt, tolerance = case
    words = [1, m, n, tolerance]
    for numbers in (a, u, s, vt):
        kept = [(i, bits(x)) for i, x in enumerate(numbers) if bits(x)]
        words += [len(numbers), len(kept)]
        for pair in kept:
            words += pair
    return ' '.join('%X' % w for w in words)


def in_blocks(lines):
    """The lines in blocks as the program reads them: none goes from one block into the next, and spaces fill up each but the last."""
    blocks = ['']
    for line in lines:
        assert len(line) <= BLOCK
        if len(blocks[-1]) + len(line) > BLOCK:
            blocks.append('')
        blocks[-1] += line
    return ''.join(block[:-1].ljust(BLOCK - 1) + '\n' for block in blocks[:-1]) + blocks[-1]


def main():
    cases = list(all_cases(random.Random(SEED)))
    head = '# Cases of countersign, made by tools/vectors/countersign.py, seed %d.\n' % SEED
    stdin = in_blocks([head] + [text_of(c) + '\n' for c in cases])
    stdout = ''.join(''.join('%016X ' % w for w in expected(*c)) + '\n' for c in cases)
    files = [(os.path.join(FOLDER, 'stdin'), stdin), (os.path.join(FOLDER, 'stdout'), stdout)]
    if '--check' in sys.argv[1:]:
        differ = [path for path, text in files if open(path).read() != text]
        print('differs: ' + ', '.join(differ) if differ else 'the same')
        sys.exit(1 if differ else 0)
    for path, text in files:
        open(path, 'w').write(text)
    print('%d cases' % len(cases))


if __name__ == '__main__':
    main()
