#!/usr/bin/env python3
"""entropy.py [--check]: writes the part `entropy` of crates/factor_cases: weights of floats, bands of pairs of whole numbers, and the
entropy's band of the cuts of the part `schmidt`, whose values are the published Rust's. Weights are exact (fractions); every band that is written
is first held to 2^lo * w^4096 <= W^4096 <= 2^hi * w^4096 and to a width of at most 2, by exact whole numbers, and to 4096 times the
logarithm where the ratio is a power of two. It follows 02's text and C-23's intervals, and no code of this repository.
With --check it compares with what is there and writes nothing. The draws are fixed by SEED."""
import os
import sys

HERE = os.path.dirname(os.path.abspath(__file__))
sys.path = [x for x in sys.path if os.path.abspath(x) != HERE]  # numbers.py beside this one is not Python's module
import random  # noqa: E402
import struct  # noqa: E402
from fractions import Fraction  # noqa: E402
sys.path.append(HERE)
sys.dont_write_bytecode = True
import parts  # noqa: E402

SEED = 20261115
FOLDER = os.path.join(HERE, '..', '..', 'crates', 'factor_cases')


def value_of(bits):
    return struct.unpack('<d', struct.pack('<Q', bits))[0]


def bits_of(x):
    return struct.unpack('<Q', struct.pack('<d', x))[0]


def weight(bits):
    """The floor of the exact square times 2^24; 0 from 2 on and where the float is not finite."""
    if bits >> 52 & 2047 == 2047:
        return 0
    exact = Fraction(value_of(bits))
    if abs(exact) >= 2:
        return 0
    scaled = exact * exact * 2 ** 24
    return scaled.numerator // scaled.denominator


def squarings(x):
    """The digits, how far they were moved up, and the bounds of their 4096th power."""
    up = 32 - x.bit_length()
    digits = x << up
    low, high, power = digits // 2, (digits + 1) // 2, 1
    for _ in range(12):
        shift = 30 if low * low < 2 ** 61 else 31
        low, high, power = low * low >> shift, -(-high * high >> shift), 2 * power + shift
    return digits, up, low, high, power


def doublings(b, a):
    return 0 if b <= a else 1 if b <= 2 * a else 2


TESTED = {}


def band(w, whole):
    if (w, whole) in TESTED:
        return TESTED[w, whole]
    digits, up, low, high, power = squarings(w)
    all_digits, all_up, all_low, all_high, all_power = squarings(whole)
    if digits == all_digits:
        lo = hi = 4096 * (up - all_up)
        assert whole == w << (up - all_up)
    else:
        between = max(0, all_power + 4096 * up - power - 4096 * all_up)
        lo = max(0, between - doublings(high, all_low))
        hi = between + doublings(all_high, low)
    assert (w ** 4096) << lo <= whole ** 4096 <= (w ** 4096) << hi and 0 <= hi - lo <= 2, (w, whole, lo, hi)
    TESTED[w, whole] = (lo, hi)
    return lo, hi


def bands_of(values):
    left = [w for w in map(weight, values) if w]
    assert left == sorted(left, reverse=True)
    whole = sum(left)
    triples = [(w, *band(w, whole)) for w in left]
    return triples, sum(w * lo for w, lo, hi in triples), sum(w * hi for w, lo, hi in triples), 4096 * whole


# ---- the cases

class Cases:
    def __init__(self):
        self.asked, self.told = [], []

    def add(self, asked, told):
        self.asked.append(' '.join('%X' % x for x in asked))
        self.told.append(''.join('%016X ' % x for x in told))


def weights(cases, draw):
    edges = [0, 1 << 63, 1, (1 << 52) - 1, 1 << 52]
    for exponent in (1010, 1011, 1012, 1022, 1023, 1024, 2046):
        for digits in (0, 1, (1 << 51) - 1, 1 << 51, (1 << 52) - 1):
            edges += [exponent << 52 | digits, 1 << 63 | exponent << 52 | digits]
    edges += [2047 << 52, 1 << 63 | 2047 << 52]
    for root in (1, 2, 3, 5, 7, 1000, 4095, 4096, 2 ** 12 - 1):
        exact = bits_of(root / 4096.0)
        edges += [exact - 1, exact, exact + 1]
    drawn = [bits_of(draw.random() * 2.0 ** -draw.randrange(0, 14)) for _ in range(400)]
    every = edges + drawn
    for start in range(0, len(every), 40):
        part = every[start:start + 40]
        cases.add([9, len(part)] + part, [weight(b) for b in part])


def pairs(cases, draw):
    chosen = [(1, 1), (1, 2), (1, 3), (2, 3), (1, 2 ** 32 - 1), (2 ** 32 - 1, 2 ** 32 - 1), (2 ** 32 - 2, 2 ** 32 - 1), (2 ** 31, 2 ** 32 - 1),
              (2 ** 31 - 1, 2 ** 31), (2 ** 24, 2 ** 26), (3, 3 << 20), (5, 5 << 29), (2 ** 23, 2 ** 24), (2 ** 23 - 1, 2 ** 24), (2 ** 23 + 1, 2 ** 24)]
    for _ in range(160):
        whole = draw.randrange(1, 2 ** draw.randrange(1, 33))
        chosen.append((draw.randrange(1, whole + 1), whole))
    for w, whole in chosen:
        cases.add([10, w, whole], band(w, whole))


def cuts(cases, draw):
    """The cases of the part `schmidt` with bands in the place of out."""
    text, printed = next(part[1:] for part in parts.read(FOLDER) if part[0] == 'schmidt')
    words = [int(x, 16) for line in text.split('\n') for x in line.split('#')[0].split()]
    told = [[int(x, 16) for x in line.split()] for line in printed.splitlines()]
    at = 0
    for answer in told:
        assert words[at] == 7
        size = words[at + 1]
        state, at = words[at + 2:at + 2 + size], at + 2 + size
        n, k = words[at], words[at + 1]
        listed, at = words[at + 2:at + 2 + k], at + 2 + k
        cap, room, scratch = words[at:at + 3]
        at += 3
        number, place, count, begun, quiet = answer[:5]  # and then the pairs turned, and whether every root came out even
        out, left = answer[7:7 + room], answer[7 + room:]
        assert len(left) == scratch
        length = min(512, 3 * room + draw.randrange(3))
        asked = [8, size] + state + [n, k] + listed + [cap, length, scratch]
        rows = 2 ** min(k, n - k) if n >= k else 0
        cells, low, high, whole, left_over = [7] * length, 0, 0, 0, 0
        if number == 0:
            triples, low, high, whole = bands_of(out[:count])
            flat = [x for triple in triples for x in triple]
            cells[:3 * rows] = flat + [0] * (3 * rows - len(flat))
            left_over = len(triples)
            assert left_over
        elif number in (8, 9):
            cells[:3 * rows] = [0] * (3 * rows)
        cases.add(asked, [number, place, left_over, low, high, whole, begun, quiet] + cells + left)
    assert at == len(words)


def paper(cases):
    """01's listing: four values of one half, whose entropy is 2 bits."""
    file = open(os.path.join(HERE, '..', '..', 'examples', 'paper.cut'), 'rb').read()
    n, k = struct.unpack_from('<II', file, 4)
    listed = list(struct.unpack_from('<%dI' % k, file, 24))
    state = list(struct.unpack_from('<%dQ' % (2 << n), file, 24 + 4 * k))
    triples, low, high, whole = bands_of([bits_of(0.5)] * 4)
    assert (low, high, whole) == (137438953472, 137438953472, 68719476736)
    scratch = 8 * 2 ** n + 2 * 2 ** k
    cases.add([8, len(state)] + state + [n, k] + listed + [13, 12, scratch],
              [0, 0, 4, low, high, whole, 1, 1] + [x for triple in triples for x in triple] + [0] * scratch)


def main():
    draw = random.Random(SEED)
    cases = Cases()
    weights(cases, draw)
    pairs(cases, draw)
    cuts(cases, draw)
    paper(cases)
    head = ('weights, bands, and the entropy of cuts; %d bands held to exact powers.\n'
            '# Made by tools/vectors/entropy.py with seed %d, which follows 02 and no code of this repository.\n' % (len(TESTED), SEED))
    parts.put(FOLDER, 'entropy', head, cases.asked, cases.told)


if __name__ == '__main__':
    main()
