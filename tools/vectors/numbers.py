#!/usr/bin/env python3
"""Writes the cases of crates/numbers_cases (stdin) and what they must give (stdout).

The square roots come from whole numbers: a float is a whole number of 2^-1074, the root of a * 2^-1074 is
the root of a * 2^1074 in the same units, and isqrt gives its floor; of the two floats about it the nearer
one is chosen by comparing squares. Each step of the modulus is a fraction of whole numbers, rounded
once. Nothing of the library is called and no hardware root is used.
Run it in the repository's root: python3 tools/vectors/numbers.py"""
import math, random, struct

SEED = 20261115
random.seed(SEED)
NAN = 0x7FF8000000000000
INF = 0x7FF0000000000000
SIGN = 1 << 63


def float_of(bits):
    return struct.unpack('<d', struct.pack('<Q', bits))[0]


def bits_of(x):
    return NAN if x != x else struct.unpack('<Q', struct.pack('<d', x))[0]


def units(bits):
    """The magnitude of a finite pattern in units of 2^-1074."""
    field, digits = bits >> 52 & 0x7FF, bits & (1 << 52) - 1
    return digits if field == 0 else (1 << 52 | digits) << field - 1


def root(bits):
    if bits in (0, SIGN, INF):
        return bits
    if bits & SIGN or bits > INF:
        return NAN
    square = units(bits) << 1074
    floor = math.isqrt(square)
    drop = max(floor.bit_length() - 53, 0)
    low = floor >> drop << drop
    high = low + (1 << drop)
    # nearer to low exactly when the root is below their middle: 4 * square < (low + high)^2, never a tie
    nearest = low if 4 * square < (low + high) ** 2 else high
    drop = max(nearest.bit_length() - 53, 0)
    return (drop << 52) + (nearest >> drop)


def even(bits):
    """1 where the square of the root is the pattern's float: both zeros are, an infinity, a NaN and a negative number are not."""
    if bits in (0, SIGN):
        return 1
    return int(bits < INF and units(root(bits)) ** 2 == units(bits) << 1074)


def rounded(p, q):
    """The pattern of the float nearest to p / q, which is at least 0; ties to even, +infinity above the floats."""
    p <<= 1074
    drop = max((p // q).bit_length() - 53, 0)
    q <<= drop
    nearest, rest = divmod(p, q)
    nearest += 2 * rest > q or (2 * rest == q and nearest % 2)
    return min((drop << 52) + nearest, INF)


def modulus(re, im):
    if re & ~SIGN >= INF or im & ~SIGN >= INF:
        x, y = float_of(re), float_of(im)
        return root(bits_of(x * x + y * y))
    larger = max(units(re), units(im))
    if larger == 0:
        return 0
    power = 1 << larger.bit_length() - 1        # in units too
    scaled = [units(rounded(units(part), power)) for part in (re, im)]
    squares = [units(rounded(x * x, 1 << 2148)) for x in scaled]
    return rounded(units(root(rounded(sum(squares), 1 << 1074))) * power, 1 << 2148)


def near(bits):
    return [b for b in (bits - 1, bits, bits + 1) if 0 <= b < 1 << 64]


def root_inputs():
    out = [0, SIGN, INF, INF | SIGN, NAN, NAN | SIGN, INF + 1, (INF + 1) | SIGN, (1 << 64) - 1, 1, 2, 3]
    out += [SIGN | 1, SIGN | bits_of(1.0), bits_of(-2.5), INF - 1, INF - 2, (INF - 1) | SIGN]
    for e in range(2047):                       # every power of two, some one float off
        out += near(e << 52) if e % 5 == 0 else [e << 52]
    for k in range(52):                         # subnormal powers of two
        out += near(1 << k)
    for _ in range(300):                        # perfect squares, one float off each side
        k = random.getrandbits(26) | 1 << 25
        out += near(bits_of(math.ldexp(float(k * k), 2 * random.randrange(-500, 480))))
    out += [random.getrandbits(52) for _ in range(150)]
    out += [random.randrange(INF) for _ in range(300)]
    return [b for b in out if b < 1 << 64]


SPECIAL = [0, SIGN, 1, SIGN | 1, INF, INF | SIGN, NAN, INF - 1, bits_of(1.0), bits_of(-1.0),
           bits_of(2.0 ** 200), bits_of(2.0 ** 200) + 1, bits_of(2.0 ** 200) - 1, bits_of(-(2.0 ** 200)),
           bits_of(-(2.0 ** 200)) + 1, bits_of(2.0 ** 201), bits_of(3.5), bits_of(-7.25e-310)]


def helpers(b):
    x = float_of(b)
    if x != x:
        return [NAN, NAN, 0, 0]
    finite = b & ~SIGN < INF
    return [b & ~SIGN, bits_of(-1.0 if b & SIGN else 1.0), int(finite), int(finite and abs(x) <= 2.0 ** 200)]


def key(b):
    if float_of(b) != float_of(b):
        return 1 << 64                          # the one NaN stands above all else
    return -(b & ~SIGN) - 1 if b & SIGN else b


def order(a, b):
    return (key(a) > key(b)) - (key(a) < key(b)) + 1


def divide(x, y):
    if x != x or y != y:
        return math.nan
    if y == 0:
        if x == 0:
            return math.nan
        return math.copysign(math.inf, math.copysign(1, x) * math.copysign(1, y))
    return x / y


def arithmetic(words):
    ar, ai, br, bi = map(float_of, words)
    norm = ar * ar + ai * ai
    return [bits_of(v) for v in (ar * br - ai * bi, ar * bi + ai * br, ar + br, ai + bi, ar - br, ai - bi, -ar, -ai, ar, -ai,
                                 norm)] + [modulus(*words[:2])] + \
        [bits_of(v) for v in (ar * br, ai * br, divide(ar, br), divide(ai, br))]


def moduli():
    """Pairs of parts for the modulus."""
    def at(low, high):                          # an exponent's field from low to high
        digits = random.choice([0, (1 << 52) - 1] + 4 * [random.getrandbits(52)])
        return random.choice([0, SIGN]) | random.randint(low, high) << 52 | digits

    def faint():
        return random.choice([0, SIGN]) | random.getrandbits(random.randint(1, 52))

    odd = [INF, INF | SIGN, NAN, INF + 1, NAN | SIGN]
    edges = [0, 1, 2, 3, (1 << 52) - 1, 1 << 52, (1 << 52) + 1, bits_of(1e-170), bits_of(2.0 ** -27), bits_of(2.0 ** -26),
             bits_of(1.0), bits_of(2.0 ** 512), INF - 1]
    yield from ((a, b) for a in (0, SIGN) for b in (0, SIGN))
    yield from ((a, random.choice([0, SIGN]) | b) for a in edges for b in edges)
    for _ in range(50):
        yield faint(), faint()                  # both below the normal range
        yield at(0, 2), at(0, 2)                # about its begin
        yield bits_of(random.uniform(-1e-169, 1e-169)), bits_of(random.uniform(-1e-169, 1e-169))
        yield at(1, 511), at(1, 511)            # squares that underflow
        yield at(1535, 2046), at(1535, 2046)    # squares that overflow
        yield at(2045, 2046), at(2045, 2046)    # results that may
        yield at(0, 2046), at(0, 2046)
        high, apart = random.randint(61, 2046), random.randint(20, 60)
        yield at(high - apart, high - apart), at(high, high)
        yield random.choice([0, SIGN]), at(0, 2046)
        yield random.choice(odd), random.choice(odd + drawn)
        yield bits_of(random.uniform(-1, 1)), bits_of(random.uniform(-1, 1))


cases = [(1, [b], [root(b), root(NAN if float_of(b) != float_of(b) else b), even(b)]) for b in root_inputs()]
drawn = SPECIAL + [random.randrange(INF) | random.choice([0, SIGN]) for _ in range(40)]
cases += [(2, [b], helpers(b)) for b in drawn]
cases += [(3, [a, b], [order(a, b)]) for a in drawn[:24] for b in drawn[:24]]
for _ in range(200):
    words = [random.choice(drawn) for _ in range(4)]
    cases.append((4, words, arithmetic(words)))
for parts in moduli():
    words = [*parts, random.choice(drawn), random.choice(drawn)]
    cases.append((4, words, arithmetic(words)))

with open('crates/numbers_cases/stdin', 'w') as cases_file, open('crates/numbers_cases/stdout', 'w') as expected:
    print(f'# {len(cases)} cases of the number helpers and the complex record, {sum(k == 1 for k, _, _ in cases)} of them square roots and {sum(k == 4 for k, _, _ in cases)} with a modulus.', file=cases_file)
    print(f'# Made by tools/vectors/numbers.py with seed {SEED}: roots and moduli by whole numbers, the rest by IEEE 754 doubles.', file=cases_file)
    for kind, words, answer in cases:
        print(kind, *('%X' % w for w in words), file=cases_file)
        print(''.join('%016X ' % w for w in answer), file=expected)
