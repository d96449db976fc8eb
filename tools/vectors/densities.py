#!/usr/bin/env python3
"""densities.py [--check]: writes the part `densities` of crates/cut_cases: cases of the density, the mirror, trace scaling and the block
factor, and what 01 says they give. With --check it compares with what is there and writes nothing.
Copies of density cases behind plates on the far side have the text of the case that they copy.

Written from the paper alone: Python's floats are IEEE 754 doubles, and each operation below is one rounding."""
import os, random, struct, sys

sys.dont_write_bytecode = True
import parts  # noqa: E402

seed = 20261115
draw = random.Random(seed)
top = 2.0 ** 200


def bits(x):
    return struct.unpack('<Q', struct.pack('<d', x))[0]


def word(x):
    return '%X' % (bits(x) if isinstance(x, float) else x)


# ---- the paper

def product(a, b):
    return (a[0] * b[0] - a[1] * b[1], a[0] * b[1] + a[1] * b[0])


def conjugate(a):
    return (a[0], -a[1])


def allowed(x):
    return x == x and abs(x) <= top


def bad_cell(numbers):
    for i, x in enumerate(numbers):
        if not allowed(x):
            return i // 2
    return None


def cell(numbers, i):
    return (numbers[2 * i], numbers[2 * i + 1])


def qubit_list(n, listed):
    for i, q in enumerate(listed):
        if q >= n:
            return (2, i)
        if q in listed[:i]:
            return (3, i)
    return (4, 0) if not listed else (0, 0)


def density(n, cap, listed, state, out, scratch):
    k = len(listed)
    if not 1 <= n <= 12 or 2 * k > min(cap, 13):
        return (1, 0)
    answer = qubit_list(n, listed)
    if answer[0]:
        return answer
    side = 2 ** k
    if len(state) != 2 * 2 ** n:
        return (6, 0)
    if len(out) < 2 * side * side:
        return (6, 2)
    if len(scratch) < 2 * side:
        return (6, 3)
    place = bad_cell(state)
    if place is not None:
        return (7, place)
    others = [q for q in range(n) if q not in listed]

    def amplitude(t, e):
        index = 0
        for i, q in enumerate(listed):
            index += (t >> i & 1) << q
        for i, q in enumerate(others):
            index += (e >> i & 1) << q
        return cell(state, index)

    for t in range(side):
        for u in range(t + 1):
            re, im = 0.0, 0.0
            for e in range(2 ** len(others)):
                z = product(amplitude(t, e), conjugate(amplitude(u, e)))
                re, im = re + z[0], im + z[1]
            at = 2 * (t * side + u)
            out[at], out[at + 1] = re, im
            if u < t:
                at = 2 * (u * side + t)
                out[at], out[at + 1] = re, -im
    for i in range(2 * side):
        scratch[i] = 0.0
    return (0, 0)


def square(dim, rho):
    if not 1 <= dim <= 64:
        return (1, 0)
    if len(rho) != 2 * dim * dim:
        return (6, 0)
    place = bad_cell(rho)
    return (0, 0) if place is None else (7, place)


def mirror(dim, rho):
    answer = square(dim, rho)
    if answer[0] == 0:
        for t in range(dim):
            for u in range(t):
                a, b = 2 * (t * dim + u), 2 * (u * dim + t)
                rho[b], rho[b + 1] = rho[a], -rho[a + 1]
    return answer


def divide(x, y):
    if y != 0.0:
        try:
            return x / y
        except OverflowError:
            return float('inf')
    raise ValueError('a zero trace is refused before')


def normalize(dim, rho):
    answer = square(dim, rho)
    if answer[0]:
        return answer
    trace = -0.0
    for t in range(dim):
        trace = trace + rho[2 * (t * dim + t)]
    if trace == 0.0:
        return (8, 0)
    scale = divide(1.0, trace)
    result = [x * scale for x in rho]
    if any(x != x or x in (float('inf'), float('-inf')) for x in result):
        return (9, 0)
    rho[:] = result
    return (0, 0)


def block(dim, positions, side, rho, factor):
    if dim not in (2, 4, 8, 16, 32, 64):
        return (1, 0)
    width = dim.bit_length() - 1
    if not 1 <= len(positions) <= 6 or len(set(positions)) != len(positions) or any(p >= width for p in positions):
        return (1, 0)
    if side != 2 ** len(positions):
        return (1, 0)
    if len(rho) != 2 * dim * dim:
        return (6, 0)
    if len(factor) != 2 * side * side:
        return (6, 2)
    for numbers in (rho, factor):
        place = bad_cell(numbers)
        if place is not None:
            return (7, place)
    gather = [sum((t >> p & 1) << j for j, p in enumerate(positions)) for t in range(dim)]
    for t in range(dim):
        for u in range(dim):
            at = t * dim + u
            rho[2 * at], rho[2 * at + 1] = product(cell(rho, at), cell(factor, gather[t] * side + gather[u]))
    return (0, 0)


# ---- the cases

cases, results = [], []
densities = []  # of each density case: its arguments, and its number among the cases


def add(kind, arguments, answer, slices):
    words = ['%X' % kind]
    for a in arguments:
        words += [word(len(a))] + [word(x) for x in a] if isinstance(a, list) else [word(a)]
    cases.append(' '.join(words))
    results.append(''.join('%016X ' % (bits(x) if isinstance(x, float) else x) for x in list(answer) + [x for s in slices for x in s]))


def add_density(n, cap, listed, state, o, w):
    out, scratch = [1.0] * o, [1.0] * w
    answer = density(n, cap, listed, state, out, scratch)
    densities.append((n, cap, listed, state, o, w, len(cases)))
    add(1, [n, cap, listed, state, o, w], answer, [out, scratch])


def add_square(kind, call, dim, rho):
    before = list(rho)
    answer = call(dim, rho)
    add(kind, [dim, before], answer, [rho])


def add_block(dim, positions, side, rho, factor):
    before = list(rho)
    answer = block(dim, positions, side, rho, factor)
    add(4, [dim, positions, side, before, factor], answer, [rho])


def number(style):
    pick = draw.random()
    sign = draw.choice((1.0, -1.0))
    if style == 'zeros':
        return sign * (0.0 if pick < 0.6 else draw.choice((1.0, 0.5, 3.0)))
    if style == 'small':
        return sign * draw.randrange(0, 2 ** 20) * 2.0 ** -1074 if pick < 0.7 else sign * 2.0 ** -draw.randrange(500, 560)
    if style == 'large':
        return sign * (top if pick < 0.2 else draw.random() * top)
    if style == 'whole':
        return sign * float(draw.randrange(0, 9))
    if pick < 0.1:
        return sign * 0.0
    return sign * draw.random() * 2.0 ** draw.randrange(-40, 41)


styles = ('zeros', 'small', 'large', 'whole', 'plain', 'plain')


def numbers(count):
    style = draw.choice(styles)
    return [number(style) for _ in range(count)]


def bench():
    add_density(6, 13, [3, 1, 0, 5, 2, 4], numbers(128), 8192, 130)
    sparse = [0.0] * 8192
    for _ in range(60):
        sparse[draw.randrange(8192)] = number('plain')
    add_density(12, 13, [0, 7, 3, 11, 5, 9], sparse, 8192, 128)
    add_density(12, 12, [2], sparse, 8, 4)
    add_density(7, 13, [0, 1, 2, 3, 4, 5, 6], numbers(256), 40, 20)
    add_density(6, 11, [0, 1, 2, 3, 4, 5], numbers(128), 40, 20)
    add_density(3, 13, [2, 0], numbers(16), 36, 10)
    add_density(3, 3, [2, 0], numbers(16), 36, 10)
    add_density(3, 4, [2, 0], numbers(16), 32, 8)
    add_density(2, 13, [1, 1], numbers(8), 32, 8)
    add_density(2, 13, [5, 1], numbers(8), 32, 8)
    add_density(2, 13, [0, 1], [0.0] * 8, 33, 9)
    add_density(2, 13, [], numbers(8), 32, 8)
    add_density(0, 13, [0], numbers(2), 8, 4)
    add_density(13, 13, [0], numbers(2), 8, 4)
    add_density(2, 13, [0], numbers(7), 1, 1)
    add_density(2, 13, [0], numbers(9), 1, 1)
    add_density(2, 13, [0], numbers(8), 7, 1)
    add_density(2, 13, [0], numbers(8), 8, 3)
    for x in (top, -top, 2.0 ** 200 * (1 + 2.0 ** -52), float('inf'), float('-inf')):
        state = numbers(8)
        state[5] = x
        add_density(2, 13, [1], state, 10, 6)
    add_square(3, normalize, 1, [2.0 ** -1074, 0.0])
    add_square(3, normalize, 1, [2.0 ** -1022, 1.0])
    add_square(3, normalize, 1, [-0.0, 1.0])
    add_square(3, normalize, 1, [3.0, -0.0])
    add_square(3, normalize, 2, [1.0, 0.0, 5.0, 6.0, 7.0, 8.0, -1.0, 0.0])
    for dim, count in ((0, 0), (65, 2), (2, 7), (2, 9), (1, 3)):
        add_square(3, normalize, dim, numbers(count))
        add_square(2, mirror, dim, numbers(count))
    add_square(2, mirror, 2, [1.0, -0.0, 2.0, 3.0, 4.0, 0.0, 5.0, -6.0])
    add_square(2, mirror, 2, [1.0, 0.0, 2.0, 3.0, 4.0, float('inf'), 5.0, 6.0])
    add_block(4, [1, 0], 4, numbers(32), numbers(32))
    for dim, positions, side, r, f in (
            (3, [0], 2, 18, 8), (1, [0], 2, 2, 8), (128, [0], 2, 8, 8), (4, [2], 2, 32, 8), (4, [0, 0], 4, 32, 32), (4, [], 1, 32, 2),
            (4, [0], 4, 32, 32), (4, [0], 2, 31, 8), (4, [0], 2, 32, 9), (2, [0], 2, 8, 8)):
        add_block(dim, positions, side, numbers(r), numbers(f))
    rho, factor = numbers(32), numbers(8)
    factor[3] = float('inf')
    add_block(4, [1], 2, rho, factor)
    rho = numbers(32)
    rho[31] = -2.0 * top
    add_block(4, [1], 2, rho, numbers(8))


def generated():
    for _ in range(110):
        n = draw.randrange(1, 5)
        k = draw.randrange(1, n + 1)
        listed = draw.sample(range(n), k)
        add_density(n, draw.choice((13, 2 * k, 40)), listed, numbers(2 * 2 ** n), 2 * 4 ** k + draw.randrange(3), 2 * 2 ** k + draw.randrange(3))
    for _ in range(40):
        dim = draw.randrange(1, 6)
        add_square(2, mirror, dim, numbers(2 * dim * dim))
        add_square(3, normalize, dim, numbers(2 * dim * dim))
    for _ in range(40):
        width = draw.randrange(1, 4)
        positions = draw.sample(range(width), draw.randrange(1, width + 1))
        side = 2 ** len(positions)
        add_block(2 ** width, positions, side, numbers(2 * 4 ** width), numbers(2 * side * side))


# times 1, i, -1, -i: parts exchanged and negated
plates = (lambda a, b: (a, b), lambda a, b: (-b, a), lambda a, b: (-a, -b), lambda a, b: (b, -a))


def plated():
    """Copies of density cases, refused ones too: before all amplitudes of a setting of the unnamed qubits stands a plate, drawn. What is
    expected is the text of the case that is copied; that 01's sums give it is seen as well."""
    choice = random.Random(seed + 1)
    for n, cap, listed, state, o, w, at in list(densities):
        if len(state) > 256:
            continue
        others = [q for q in range(n) if q not in listed]
        chosen = [choice.choice(plates) for _ in range(2 ** len(others))]
        behind = list(state)
        for x in range(len(state) // 2):
            setting = sum((x >> q & 1) << i for i, q in enumerate(others))
            behind[2 * x:2 * x + 2] = chosen[setting](*state[2 * x:2 * x + 2])
        add_density(n, cap, listed, behind, o, w)
        assert results[-1] == results[at], (n, listed, state)
        results[-1] = results[at]


bench()
made = len(cases)
generated()
drawn = len(cases) - made
plated()
head = '%d cases, %d of them generated and %d copies behind plates, of the density, the mirror, trace scaling and the block factor.\n' % (
    len(cases), drawn, len(cases) - made - drawn)
head += '# Made by tools/vectors/densities.py with seed %d, the expected values from the paper by IEEE 754 doubles.\n' % seed
parts.put(os.path.join(os.path.dirname(os.path.abspath(__file__)), '..', '..', 'crates', 'cut_cases'), 'densities', head, cases, results, 6)
