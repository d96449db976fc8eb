#!/usr/bin/env python3
"""Cut files and what `cutprint` must print of them, worked out here from the paper and the published Rust and not by the code
that is tested. Python's floats are binary64 and its square root is rounded once, so the bits must agree.

    cutfiles.py examples DIR     the examples: NAME.cut, its printout NAME.txt beside it, and of some the state NAME.state.txt
    cutfiles.py cases FILE OUT   the table `certificates.bin` that the program `file_cases` runs, and the printouts that it must write
"""
import math, os, random, struct, sys

sys.dont_write_bytecode = True
sys.path.insert(0, os.path.dirname(os.path.abspath(__file__)))
import entropy  # noqa: E402

# ---- the model: a file's bytes to the text that is printed


def product(a, b):
    return (a[0] * b[0] - a[1] * b[1], a[0] * b[1] + a[1] * b[0])


def plus(a, b):
    return (a[0] + b[0], a[1] + b[1])


def conjugate(a):
    return (a[0], -a[1])


def norm_sqr(a):
    return a[0] * a[0] + a[1] * a[1]


def modulus(a):
    """Of two finite parts that are not both zero: scaled so that the larger is at least 1 and under 2, and back."""
    power = math.frexp(max(abs(a[0]), abs(a[1])))[1] - 1
    return math.ldexp(math.sqrt(norm_sqr((math.ldexp(a[0], -power), math.ldexp(a[1], -power)))), power)


def turn(x, y, c, s, phase):
    """Two cells of the columns p and q, turned. Cosine and sine are complex numbers with imaginary part 0."""
    back = conjugate(phase)
    one = plus(product((c, 0.0), x), product(product((s, 0.0), back), y))
    two = plus(product((-s, -0.0), x), product(product((c, 0.0), back), y))
    return one, two


def even(x):
    """Whether a float of at least 0 is the square of a float: its odd part is a square and the power of two beside it is even."""
    if not x:
        return True
    top, bottom = x.as_integer_ratio()
    zeros = (top & -top).bit_length() - 1
    odd = top >> zeros
    return (zeros - bottom.bit_length() + 1) % 2 == 0 and math.isqrt(odd) ** 2 == odd


def singular_values(columns):
    """One-sided Jacobi on columns that are at least as long as they are many: the values, unsorted, how many sweeps were begun,
    whether the last one turned no pair, and whether every value is exact."""
    tolerance = 1e-15 * 1e-15
    begun = 0
    for sweep in range(100):
        begun += 1
        turned = False
        for p in range(len(columns)):
            for q in range(p + 1, len(columns)):
                pp, qq, pq = 0.0, 0.0, (0.0, 0.0)
                for x, y in zip(columns[p], columns[q]):
                    pp += norm_sqr(x)
                    qq += norm_sqr(y)
                    pq = plus(pq, product(conjugate(x), y))
                if norm_sqr(pq) <= tolerance * pp * qq:
                    continue
                turned = True
                beta = modulus(pq)
                phase = (pq[0] / beta, pq[1] / beta)
                tau = (qq - pp) / (2.0 * beta)
                root = math.sqrt(1.0 + tau * tau)
                t = -1.0 / (tau + root) if tau >= 0.0 else 1.0 / (-tau + root)
                c = 1.0 / math.sqrt(1.0 + t * t)
                s = t * c
                for r in range(len(columns[p])):
                    columns[p][r], columns[q][r] = turn(columns[p][r], columns[q][r], c, s, phase)
        if not turned:
            break
    values, exact = [], True
    for column in columns:
        total = 0.0
        for x in column:
            total += norm_sqr(x)
        values.append(math.sqrt(total))
        exact = exact and math.isfinite(total) and even(total)
    return values, begun, not turned, exact


def submasks(mask):
    x, all_of_them = 0, []
    while True:
        all_of_them.append(x)
        x = (x - mask) & mask
        if x == 0:
            return all_of_them


def cut_values(state, n, named):
    """For a list that was validated: the answer with its place, the values, the sweeps begun, whether the last was quiet, the total
    of the squares of the kept values before the scale, and whether all roots came out even."""
    k = len(named)
    side = min(k, n - k)
    inside = sum(1 << q for q in named)
    outside = (1 << n) - 1 - inside
    rows, cols = (inside, outside) if k == side else (outside, inside)
    # the matrix is wide or square; a wide one is worked on as its conjugate transpose, a square one as it stands
    if 2 * side < n:
        columns = [[conjugate(state[row | col]) for col in submasks(cols)] for row in submasks(rows)]
    else:
        columns = [[state[row | col] for row in submasks(rows)] for col in submasks(cols)]
    values, begun, quiet, exact = singular_values(columns)
    if not all(math.isfinite(v) for v in values):
        return (9, 0), [], 0, False, 0.0, False
    values.sort(reverse=True)
    floor = values[0] * 1e-14
    kept = []
    for v in values:
        if v <= floor:
            break
        kept.append(v)
    if not kept:
        return (8, 0), [], 0, False, 0.0, False
    total = 0.0
    for v in kept:
        total += v * v
    scale = 1.0 / math.sqrt(total)
    return (0, 0), [v * scale for v in kept], begun, quiet, total, exact and even(total)


def answer_list(named, n):
    for i, q in enumerate(named):
        if q >= n:
            return (2, i)
        if q in named[:i]:
            return (3, i)
    if not named:
        return (4, 0)
    if len(named) == n:
        return (5, 0)
    return (0, 0)


def offset(k):
    return (24 + 4 * k + 7) // 8 * 8


def answer_header(file):
    if len(file) < 24 or file[:4] != b'CUT1':
        return (10, 0)
    n, k, listed, amplitudes, length = struct.unpack('<5I', file[4:24])
    if not 1 <= n <= 9:
        return (1, 0)
    if k > 64 or listed != 24 or amplitudes != offset(k) or length != offset(k) + 16 * 2 ** n or len(file) != length:
        return (10, 0)
    if any(file[24 + 4 * k:offset(k)]):
        return (10, 0)
    return (0, 0)


def contents(file):
    """The answer as far as header, list and amplitudes give one, and of an accepted file n, the list and the state."""
    answer = answer_header(file)
    if answer[0]:
        return answer, None
    n, k = struct.unpack('<2I', file[4:12])
    named = list(struct.unpack('<%dI' % k, file[24:24 + 4 * k]))
    answer = answer_list(named, n)
    if answer[0]:
        return answer, None
    numbers = struct.unpack('<%dd' % (2 * 2 ** n), file[offset(k):])
    for i, x in enumerate(numbers):
        if not abs(x) <= 2.0 ** 200:
            return (7, i // 2), None
    return (0, 0), (n, named, list(zip(numbers[::2], numbers[1::2])))


def printout(file):
    answer, held = contents(file)
    if answer[0]:
        return 'refused %d %d\n' % answer
    return page_one(*held[:2], *cut_values(held[2], *held[:2]))


def page_one(n, named, answer, values, begun, quiet, *_):
    if answer[0]:
        return 'refused %d %d\n' % answer
    k = len(named)
    side = min(k, n - k)
    smaller = named if k == side else [q for q in range(n) if q not in named]
    lines = ['cut %d %d %d %d' % (n, k, 2 ** side, 2 ** (n - side)), ' '.join(['side'] + [str(q) for q in smaller])]
    lines += ['value %d %016X' % (i, struct.unpack('<Q', struct.pack('<d', v))[0]) for i, v in enumerate(values)]
    _, low, high, whole = entropy.bands_of([struct.unpack('<Q', struct.pack('<d', v))[0] for v in values])
    lines.append('entropy %d %d %d' % (low, high, whole))
    return '\n'.join(lines + ['end %d %d %s' % (len(values), begun, 'yes' if quiet else 'no')]) + '\n'


# ---- files


def cut_file(n, named, amplitudes, mark=b'CUT1', k=None, listed=24, start=None, length=None, gap=None, claimed=None):
    """A file; every field can be given another value than the right one. `claimed` stands in n's field."""
    count = len(named)
    right = offset(count)
    body = struct.pack('<%dI' % count, *named)
    body += (b'\0' * (right - 24 - 4 * count)) if gap is None else gap
    for re, im in amplitudes:
        body += (re if isinstance(re, bytes) else struct.pack('<d', re)) + (im if isinstance(im, bytes) else struct.pack('<d', im))
    fields = (n if claimed is None else claimed, count if k is None else k, listed, right if start is None else start,
              right + 16 * 2 ** n if length is None else length)
    return mark + struct.pack('<5I', *fields) + body


def set_at(n, places):
    return [(places.get(i, 0.0), 0.0) for i in range(2 ** n)]


def drawn(n, rng, width=1.0):
    return [(rng.uniform(-width, width), rng.uniform(-width, width)) for _ in range(2 ** n)]


PAPER = cut_file(4, [0, 1], set_at(4, {0: 1.0, 5: 1.0, 10: 1.0, 15: 1.0}))


def product_state(n):
    cells = [(1.0, 0.0)]
    for q in range(n):
        cells = [product(x, (0.6, 0.0)) for x in cells] + [product(x, (0.0, 0.8)) for x in cells]
    return cells


HALF = math.sqrt(0.5)   # of binary64, rounded once


def circuit(n, gates):
    """The state after gates on qubits that are all 0: H on one qubit, T on one, C (the controlled not) on control and target."""
    cells = [(1.0, 0.0)] + [(0.0, 0.0)] * (2 ** n - 1)
    for gate in gates.split():
        kind, qubits = gate[0], [int(q) for q in gate[1:]]
        bit = 1 << qubits[-1]
        if kind == 'T':
            cells = [product(x, (HALF, HALF)) if i & bit else x for i, x in enumerate(cells)]
        elif kind == 'H':
            sums = [plus(cells[i & ~bit], signed(cells[i | bit], i & bit)) for i in range(2 ** n)]
            cells = [(re * HALF, im * HALF) for re, im in sums]
        else:
            cells = [cells[i ^ bit] if i >> qubits[0] & 1 else cells[i] for i in range(2 ** n)]
    return cells


def signed(x, negative):
    return (-x[0], -x[1]) if negative else x


# Clifford+T: gate and qubits, in the order in which they are done
CIRCUIT = 'H0 H2 H4 C01 C23 C45 T1 T3 T5 H1 H3 H5 C12 C34 C50 T2 T4 T0 H2 H4 H0 C01 C23 C45 T1 T4'

# all 100 sweeps turn a pair
GIVES_UP = cut_file(4, [0, 1], set_at(4, {0: 1.0, 1: 1.0, 4: 1.0, 8: 1.0}))

EXAMPLES = {
    'paper': PAPER,
    'ghz': cut_file(6, [0, 1, 2], set_at(6, {0: 1.0, 63: 1.0})),
    'product': cut_file(5, [4, 0], product_state(5)),
    'refused': cut_file(3, [2, 0, 2], set_at(3, {0: 1.0})),
}

# those whose two pages stand beside them too, as NAME.pages.txt (pages.py)
BOTH_PAGES = {'circuit': cut_file(6, [4, 1, 2], circuit(6, CIRCUIT))}


NAN_AT_2 = [(1.0, 0.0), (0.0, 0.0), (struct.pack('<Q', 0x7ff8000000000000), 0.0), (0.0, 0.0)]

# one file for each number that a file can be refused by
REFUSED = {
    'refused-1': cut_file(4, [0, 1], set_at(4, {0: 1.0}), claimed=10),
    'refused-2': cut_file(3, [0, 7], set_at(3, {0: 1.0})),
    'refused-3': cut_file(2, [1, 1], set_at(2, {0: 1.0})),
    'refused-4': cut_file(3, [], set_at(3, {0: 1.0})),
    'refused-5': cut_file(2, [0, 1], set_at(2, {0: 1.0})),
    'refused-7': cut_file(2, [0], NAN_AT_2),
    'refused-8': cut_file(3, [1], set_at(3, {})),
    'refused-10': PAPER + b'\0',
}


def cases():
    """The files of the table, each with what it is for."""
    rng = random.Random(20261115)
    one = {0: 1.0}
    yield 'the paper\'s file', PAPER
    yield 'empty', b''
    for m in (1, 3, 4, 7, 8, 11, 12, 15, 16, 19, 20, 23, 24, 27, 28, 31, 32, 39, 40, 47, len(PAPER) - 1):
        yield 'cut after %d bytes' % m, PAPER[:m]
    yield 'a trailing byte', PAPER + b'\0'
    yield 'a trailing byte, claimed too', cut_file(4, [0, 1], set_at(4, one), length=offset(2) + 16 * 16 + 1) + b'\0'
    for mark in (b'CUT2', b'cut1', b'1TUC', b'\0UT1', b'CUT\0'):
        yield 'another mark', cut_file(4, [0, 1], set_at(4, one), mark=mark)
    yield 'n of 0', cut_file(0, [], [(1.0, 0.0)])
    for n in (10, 12, 13, 2 ** 31, 2 ** 32 - 1):
        yield 'n of %d' % n, cut_file(4, [0, 1], set_at(4, one), claimed=n)
    yield 'n before k', cut_file(4, [0, 1], set_at(4, one), claimed=10, k=65)
    yield 'n before the offsets', cut_file(4, [0, 1], set_at(4, one), claimed=0, listed=0, start=0, length=0)
    yield 'n in the other byte order', cut_file(1, [0], set_at(1, one), claimed=1 << 24)
    yield 'k of 65', cut_file(1, [0] * 65, set_at(1, one))
    yield 'k of 2^32 - 1', cut_file(4, [0, 1], set_at(4, one), k=2 ** 32 - 1)
    yield 'k of 64', cut_file(9, list(range(9)) + [0] * 55, set_at(9, one))
    yield 'k off by one', cut_file(4, [0, 1], set_at(4, one), k=1)
    yield 'list offset', cut_file(4, [0, 1], set_at(4, one), listed=28)
    yield 'amplitude offset', cut_file(4, [0, 1], set_at(4, one), start=40)
    yield 'amplitude offset not rounded', cut_file(4, [0], set_at(4, one), start=28)
    yield 'length', cut_file(4, [0, 1], set_at(4, one), length=offset(2) + 16 * 16 - 1)
    for i in range(4):
        yield 'a gap byte', cut_file(4, [0], set_at(4, one), gap=bytes(1 if j == i else 0 for j in range(4)))
    yield 'a gap byte of 255', cut_file(4, [0], set_at(4, one), gap=b'\0\0\0\xff')
    yield 'out of range', cut_file(2, [5, 1], set_at(2, one))
    yield 'out of range, second', cut_file(4, [1, 4], set_at(4, one))
    yield 'out of range by far', cut_file(4, [1, 2 ** 32 - 1], set_at(4, one))
    yield 'twice', cut_file(2, [1, 1], set_at(2, one))
    yield 'twice, then out of range', cut_file(3, [1, 1, 9], set_at(3, one))
    yield 'out of range, then twice', cut_file(3, [9, 1, 1], set_at(3, one))
    yield 'twice, late', cut_file(5, [0, 1, 2, 3, 4, 0], set_at(5, one))
    yield 'an empty list', cut_file(3, [], set_at(3, one))
    yield 'the whole register', cut_file(2, [0, 1], set_at(2, one))
    yield 'one qubit, the whole register', cut_file(1, [0], set_at(1, one))
    nan = struct.pack('<Q', 0x7ff8000000000000)
    for bits in (0x7ff8000000000000, 0x7ff0000000000001, 0xffffffffffffffff, 0xfff0000000000001, 0x7ff0000000000000, 0xfff0000000000000):
        cells = set_at(3, one)
        cells[5] = (0.0, struct.pack('<Q', bits))
        yield 'bits %016X' % bits, cut_file(3, [1], cells)
    yield 'a list before a component', cut_file(2, [0, 0], [(nan, 0.0)] * 4)
    yield 'the bound', cut_file(2, [0], set_at(2, {0: 2.0 ** 200, 3: -(2.0 ** 200)}))
    above = struct.unpack('<d', struct.pack('<Q', struct.unpack('<Q', struct.pack('<d', 2.0 ** 200))[0] + 1))[0]
    yield 'above the bound', cut_file(2, [0], set_at(2, {3: above}))
    yield 'below minus the bound', cut_file(2, [0], set_at(2, {2: -above}))
    yield 'a zero state', cut_file(3, [1], set_at(3, {}))
    yield 'minus zeros', cut_file(3, [1], [(-0.0, -0.0)] * 8)
    yield 'three and four', cut_file(2, [0], set_at(2, {0: 3.0, 1: 4.0}))
    yield 'the least that counts', cut_file(2, [0], set_at(2, {0: 2.0 ** -537}))
    yield 'half of it', cut_file(2, [0], set_at(2, {0: 2.0 ** -538}))
    for name, file in EXAMPLES.items():
        yield name, file
    yield 'gives up', GIVES_UP
    for n in range(2, 6):
        for k in range(1, n):
            named = rng.sample(range(n), k)
            yield 'drawn, n %d, k %d' % (n, k), cut_file(n, named, drawn(n, rng))
    yield 'drawn, half cut of 6', cut_file(6, [5, 0, 3], drawn(6, rng, 2.0 ** 100))
    yield 'drawn, half cut of 8', cut_file(8, [7, 0, 2, 5], drawn(8, rng))
    yield 'drawn, n 9, k 5', cut_file(9, [8, 1, 6, 3, 4], drawn(9, rng, 1e-30))
    yield 'longer than any valid file', cut_file(9, [0], set_at(9, one)) + b'\0' * 500
    yield 'longer, n of 10 decides', cut_file(9, [0], set_at(9, one), claimed=10) + b'\0' * 500
    yield 'longer, the mark decides', b'CUT3' + PAPER[4:] + b'\0' * 8200


def state_text(name, file):
    """The state of a file as a text that tools/pack takes, with the same bytes as its result."""
    n, k = struct.unpack('<2I', file[4:12])
    named = struct.unpack('<%dI' % k, file[24:24 + 4 * k])
    numbers = struct.unpack('<%dd' % (2 * 2 ** n), file[offset(k):])
    lines = ['# The state of examples/%s.cut, amplitude by amplitude: real part, imaginary part. Qubit q is bit q of the index.' % name,
             '# tools/pack examples/%s.state.txt -q %s' % (name, ','.join(map(str, named)))]
    lines += ['# Clifford+T, from all qubits 0: ' + CIRCUIT] if name == 'circuit' else []
    lines += ['%r %r' % numbers[i:i + 2] + '   # %s' % format(i // 2, '0%db' % n) for i in range(0, len(numbers), 2)]
    return '\n'.join(lines) + '\n'


def main():
    kind = sys.argv[1]
    if kind == 'examples':
        for name, file in (EXAMPLES | BOTH_PAGES | REFUSED).items():
            with open(os.path.join(sys.argv[2], name + '.cut'), 'wb') as f:
                f.write(file)
            with open(os.path.join(sys.argv[2], name + '.txt'), 'w') as f:
                f.write(printout(file))
        for name in ('paper', 'ghz', 'product', 'circuit'):
            with open(os.path.join(sys.argv[2], name + '.state.txt'), 'w') as f:
                f.write(state_text(name, (EXAMPLES | BOTH_PAGES)[name]))
    elif kind == 'cases':
        with open(sys.argv[2], 'wb') as table, open(sys.argv[3], 'w') as out:
            for name, file in cases():
                table.write(struct.pack('<I', len(file)) + file)
                out.write(printout(file))


if __name__ == '__main__':
    main()
