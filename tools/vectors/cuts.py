#!/usr/bin/env python3
"""cuts.py [--check]: writes the part `cuts` of crates/cut_cases: cases of qubit lists, row offsets, traced bases, the smaller side and
the cut matrix, and what 01 says of each. It follows 01's text, by bits and sets, and no code of this repository. Far-named copies of
cuts have the text of the cut that they copy, at half size its transpose.
With --check it compares with what is there and writes nothing. The draws are fixed by SEED."""
import itertools
import os
import random
import struct
import sys

sys.dont_write_bytecode = True
import parts  # noqa: E402

SEED = 20261115
HERE = os.path.dirname(os.path.abspath(__file__))
FOLDER = os.path.join(HERE, '..', '..', 'crates', 'cut_cases')


# ---- 01's table

def sizes_broken(n):
    return n < 1 or n > 12


def list_refusal(n, qubits):
    """2 and 3 in list order, then 4."""
    for place, q in enumerate(qubits):
        if q >= n:
            return (2, place)
        if q in qubits[:place]:
            return (3, place)
    return (4, 0) if not qubits else None


def qubit_set(n, qubits):
    if sizes_broken(n):
        return (1, 0)
    return list_refusal(n, qubits) or (0, 0)


def subsystem(n, qubits):
    first = qubit_set(n, qubits)
    if first != (0, 0):
        return first
    return (5, 0) if len(qubits) == n else (0, 0)


def density_size_broken(n, k, cap):
    return sizes_broken(n) or 2 * k > min(cap, 13)


def cut_size_broken(n, cap):
    return sizes_broken(n) or n + 1 > min(cap, 13)


# ---- where bits land

def put_bits(index, qubits):
    """Bit i of the index on the i-th qubit."""
    return sum(((index >> i) & 1) << q for i, q in enumerate(qubits))


def rest_of(n, qubits):
    return [q for q in range(n) if q not in qubits]


def submasks(qubits):
    """Every number with bits on these qubits alone, rising."""
    return sorted(put_bits(i, qubits) for i in range(2 ** len(qubits)))


# ---- the calls

def row_offsets(n, cap, qubits, room):
    held = [0x100 + i for i in range(room)]
    need = 2 ** len(qubits)
    if density_size_broken(n, len(qubits), cap):
        answer = (1, 0)
    else:
        answer = list_refusal(n, qubits) or ((6, 1) if room < need else (0, 0))
    if answer == (0, 0):
        held[:need] = [put_bits(t, qubits) for t in range(need)]
    return answer, held


def traced_base(n, cap, qubits, e):
    k = len(qubits)
    if density_size_broken(n, k, cap) or e >= 2 ** max(n - k, 0):
        return (1, 0), 0
    refusal = list_refusal(n, qubits)
    if refusal:
        return refusal, 0
    return (0, 0), put_bits(e, rest_of(n, qubits))


def cut_refusal(n, cap, qubits):
    if cut_size_broken(n, cap):
        return (1, 0)
    return list_refusal(n, qubits) or ((5, 0) if len(qubits) == n else None)


def smaller_side(n, cap, qubits, room):
    held = [0x100 + i for i in range(room)]
    k = len(qubits)
    refusal = cut_refusal(n, cap, qubits)
    if refusal:
        return refusal, held, []
    if k <= n - k:
        return (0, 0), held, list(qubits)
    rest = rest_of(n, qubits)
    if room < len(rest):
        return (6, 1), held, []
    held[:len(rest)] = rest
    return (0, 0), held, rest


def allowed(bits):
    """Finite, and of magnitude at most 2^200."""
    x = struct.unpack('<d', struct.pack('<Q', bits))[0]
    return x == x and abs(x) <= 2.0 ** 200


def cut_matrix(n, cap, qubits, long, room, changes):
    state = [0x3FF0000000000000 + i for i in range(long)]
    for place, bits in changes:
        if place < long:
            state[place] = bits
    held = [0xC000000000000000 + i for i in range(room)]
    refusal = cut_refusal(n, cap, qubits)
    if refusal:
        return refusal, held
    need = 2 * 2 ** n
    if long != need:
        return (6, 0), held
    if room < need:
        return (6, 2), held
    for cell in range(2 ** n):
        if not (allowed(state[2 * cell]) and allowed(state[2 * cell + 1])):
            return (7, cell), held
    rest = rest_of(n, qubits)
    side, other = (qubits, rest) if len(qubits) <= len(rest) else (rest, qubits)
    at = 0
    for column in submasks(other):
        for row in submasks(side):
            held[at:at + 2] = state[2 * (row | column):2 * (row | column) + 2]
            at += 2
    return (0, 0), held


# ---- the two pages

def number(bits):
    return struct.unpack('<d', struct.pack('<Q', bits))[0]


def bits_of(x):
    return struct.unpack('<Q', struct.pack('<d', x))[0]


def density_of(side, groups, amplitude):
    """From +0.0, e rising, amplitude(t,e) times the conjugate of amplitude(u,e); the upper half is the lower's conjugate."""
    cells = [[None] * side for _ in range(side)]
    for t in range(side):
        for u in range(t + 1):
            re, im = 0.0, 0.0
            for e in range(groups):
                (a, b), (c, d) = amplitude(t, e), amplitude(u, e)
                d = -d
                re, im = re + (a * c - b * d), im + (a * d + b * c)
            cells[t][u] = (re, im)
            if u < t:
                cells[u][t] = (re, -im)
    return [bits_of(x) for row in cells for cell in row for x in cell]


def pages(n, cap, qubits, changes):
    """The answers of the cut, of the density and of the density from the cut matrix, and the two densities."""
    need, k = 2 * 2 ** n, len(qubits)
    cut, matrix = cut_matrix(n, cap, qubits, need, need, changes)
    size = 2 * 4 ** k if k <= 6 else 2
    if density_size_broken(n, k, cap):
        dense = (1, 0)
    else:
        dense = list_refusal(n, qubits) or (0, 0)
    state = [0x3FF0000000000000 + i for i in range(need)]
    for place, bits in changes:
        state[place] = bits
    if dense == (0, 0) and cut[0] == 7:
        dense = cut
    both = (1, 0) if (1, 0) in (dense, cut) else (list_refusal(n, qubits) or (cut if cut[0] == 5 else (0, 0)))
    first, second = [0] * size, [0] * size
    rest = rest_of(n, qubits)
    if dense == (0, 0):
        def from_state(t, e):
            x = put_bits(t, qubits) | put_bits(e, rest)
            return number(state[2 * x]), number(state[2 * x + 1])
        first = density_of(2 ** k, 2 ** (n - k), from_state)
    if both == (0, 0):
        order = submasks(qubits)
        if cut != (0, 0):
            matrix = [0] * need  # a refused cut leaves the lent zeros, and their density is summed

        def from_matrix(t, e):
            named = order.index(put_bits(t, qubits))
            x = e * 2 ** k + named if k <= n - k else named * 2 ** (n - k) + e
            return number(matrix[2 * x]), number(matrix[2 * x + 1])
        second = density_of(2 ** k, 2 ** (n - k), from_matrix)
    return cut, dense, both, size, first, second


# ---- lines

def words(numbers):
    return ''.join('%016X ' % x for x in numbers)


def matrix_words(bits):
    if len(bits) < 200:
        return words(bits)
    total = 0
    for b in bits:
        total = (total * 31 + b % 0x7FFFFFFF) % 0x7FFFFFFF
    return words([total])


class Cases:
    def two(self, n, cap, qubits, changes):
        cut, dense, both, size, first, second = pages(n, cap, qubits, changes)
        flat = [x for pair in changes for x in pair]
        out = words(cut) + words(dense) + matrix_words(first) + words(both) + matrix_words(second)
        self.case(6, n, cap, qubits, [2 * 2 ** n, size, len(changes)] + flat, out)

    def __init__(self):
        self.lines, self.answers, self.cuts = [], [], []

    def case(self, kind, n, cap, qubits, more, out):
        self.lines.append(' '.join('%X' % x for x in [kind, n, cap, len(qubits)] + list(qubits) + more))
        self.answers.append(out)

    def lists(self, n, qubits):
        self.case(1, n, 0, qubits, [], words(qubit_set(n, qubits)) + words(subsystem(n, qubits)))

    def offsets(self, n, cap, qubits, room):
        answer, held = row_offsets(n, cap, qubits, room)
        self.case(2, n, cap, qubits, [room], words(answer) + words(held))

    def base(self, n, cap, qubits, e):
        answer, base = traced_base(n, cap, qubits, e)
        self.case(3, n, cap, qubits, [e], words(answer) + words([base]))

    def side(self, n, cap, qubits, room):
        answer, held, part = smaller_side(n, cap, qubits, room)
        self.case(4, n, cap, qubits, [room], words(answer) + words(held) + words(part))

    def cut(self, n, cap, qubits, long=None, room=None, changes=()):
        need = 2 * 2 ** n if n <= 12 else 8192
        long = need if long is None else long
        room = need if room is None else room
        answer, held = cut_matrix(n, cap, qubits, long, room, list(changes))
        flat = [x for pair in changes for x in pair]
        self.case(5, n, cap, qubits, [long, room, len(changes)] + flat, words(answer) + matrix_words(held))
        self.cuts.append((n, cap, qubits, long, room, changes, answer, held, self.answers[-1]))


def page_cases(c):
    """Both pages of one state. First the smallest reason for 'signs of zeros aside': all amplitudes 1, the lists 0,1 and 1,0 of n=3."""
    ones = [(i, 0x3FF0000000000000 if i % 2 == 0 else 0) for i in range(16)]
    c.two(3, 13, [0, 1], ones)
    c.two(3, 13, [1, 0], ones)
    draw = random.Random(SEED + 1)
    for n in (2, 3, 4):
        for k in range(1, n):
            for qubits in itertools.permutations(range(n), k):
                c.two(n, 13, list(qubits), [(draw.randrange(2 * 2 ** n), bits_of(draw.choice([-3.5, 0.0, -0.0, 1e-300, 2.0 ** 99]))) for _ in range(4)])
    for _ in range(40):
        n = draw.choice([5, 6, 7])
        k = draw.randint(1, n - 1)
        c.two(n, draw.choice([13, 13, n + 1, n, 2 * k]), draw.sample(range(n), k), [(draw.randrange(2 * 2 ** n), bits_of(draw.uniform(-2, 2))) for _ in range(8)])
    c.two(4, 13, [0, 0], [])
    c.two(4, 13, [0, 1, 2, 3], [])
    c.two(4, 13, [], [])
    c.two(4, 13, [1, 3], [(5, 0x7FF0000000000000)])


def bench(c):
    """01's cases on the bench that belong here."""
    for qubits in ([2], [0, 1], [0, 2]):
        c.cut(3, 13, qubits)
    c.cut(4, 10, [0, 1])
    c.offsets(3, 13, [2, 0], 4)
    for e in (0, 1, 2):
        c.base(3, 13, [2, 0], e)
    for qubits in ([1, 1], [5, 1], [0, 1], []):
        c.lists(2, qubits)
        c.cut(2, 13, qubits)
        c.side(2, 13, qubits, 2)
    for cap in (13, 12, 14, 0, 2 ** 64 - 1):
        c.cut(12, cap, [0])
        c.cut(12, cap, list(range(11)))
        c.side(12, cap, list(range(1, 12)), 1)
    for n in (0, 13, 2 ** 64 - 1):
        c.lists(n, [0])
        c.cut(n, 13, [0])
        c.offsets(n, 13, [0], 2)
        c.base(n, 13, [0], 0)
    for k in (6, 7):
        c.offsets(12, 13, list(range(k)), 128)
        c.offsets(12, 12, list(range(k)), 128)
        c.offsets(12, 11, list(range(k)), 128)
        c.base(12, 13, list(range(k)), 2 ** (12 - k) - 1)
        c.base(12, 13, list(range(k)), 2 ** (12 - k))
    top, above, infinity, nan = 0x4C70000000000000, 0x4C70000000000001, 0x7FF0000000000000, 0x7FF8000000000000
    for bits in (top, above, infinity, nan, top | 1 << 63, above | 1 << 63):
        for place in (0, 1, 7, 15):
            c.cut(3, 13, [1], changes=[(place, bits)])
    c.cut(3, 13, [1], changes=[(9, above), (4, infinity)])


def small(c):
    """Every order of every list at small n; buffers exact, one short and one long."""
    for n in (1, 2, 3, 4):
        for k in range(0, n + 1):
            for qubits in itertools.permutations(range(n), k):
                qubits = list(qubits)
                c.lists(n, qubits)
                c.cut(n, n + 1, qubits)
                if n < 4:
                    need = 2 * 2 ** n
                    c.cut(n, n, qubits)
                    for long, room in ((need - 1, need), (need + 1, need), (need, need - 1), (need, need + 1), (need - 1, need - 1)):
                        c.cut(n, 13, qubits, long, room)
                    for room in (2 ** k - 1, 2 ** k, 2 ** k + 1):
                        c.offsets(n, 13, qubits, room)
                    c.offsets(n, 2 * k - 1 if k else 0, qubits, 2 ** k)
                    for e in range(2 ** (n - k) + 1):
                        c.base(n, 13, qubits, e)
                for room in (max(n - k - 1, 0), n - k, n - k + 1):
                    c.side(n, 13, qubits, room)


def drawn(c):
    """Registers of 5, 6 and more, and damaged lists, drawn."""
    draw = random.Random(SEED)
    for _ in range(160):
        n = draw.choice([5, 6, 6, 6, 7, 8, 12])
        k = draw.randint(1, n)
        qubits = draw.sample(range(n), k)
        if draw.random() < 0.2:
            qubits[draw.randrange(k)] = draw.choice([n, n + 1, qubits[0], 2 ** 63, 2 ** 64 - 1])
        need = 2 * 2 ** n
        c.lists(n, qubits)
        c.cut(n, draw.choice([n, n + 1, 13, 13, 13]), qubits, need + draw.choice([0, 0, 0, 0, -1, 1]), need + draw.choice([0, 0, 0, 2, -1]))
        c.offsets(n, draw.choice([13, 13, 12, 2 * k]), qubits, min(2 ** k + draw.choice([0, 0, 1, -1]), 128))
        c.base(n, 13, qubits, draw.randrange(2 ** max(n - k, 0) + 1))
        c.side(n, 13, qubits, max(n - k + draw.choice([0, 0, 1, -1]), 0))
    for k in (13, 16):
        qubits = [i % 12 for i in range(k)]
        c.lists(12, qubits)
        c.cut(12, 13, qubits)
        c.base(3, 13, [0, 1, 2, 0], 0)
        c.base(3, 13, [0, 1, 2, 0], 1)


def far_named(c):
    """The same cuts asked from the far end: the unnamed qubits, in an order that is drawn. Sides of different size: the same text. Half
    size: the cells across the diagonal. A list that is refused has no far side. That 01's gather gives it is seen as well."""
    draw = random.Random(SEED + 2)
    asked = [cut for cut in c.cuts if not cut_refusal(cut[0], cut[1], cut[2])]
    for n, cap, qubits, long, room, changes, answer, held, text in draw.sample(asked, 120):
        far = rest_of(n, qubits)
        draw.shuffle(far)
        if answer == (0, 0) and 2 * len(qubits) == n:
            side = 2 ** len(qubits)
            across = [x for k in range(2 ** n) for at in [k % side * side + k // side] for x in held[2 * at:2 * at + 2]]
            text = words(answer) + matrix_words(across + held[2 * 2 ** n:])
        c.cut(n, cap, far, long, room, changes)
        assert c.answers[-1] == text, (n, qubits, far)
        c.answers[-1] = text


def main():
    c = Cases()
    bench(c)
    small(c)
    drawn(c)
    page_cases(c)
    far_named(c)
    head = ('%d cases of qubit lists, row offsets, traced bases, the smaller side and the cut matrix.\n'
            '# Made by tools/vectors/cuts.py with seed %d, which follows 01 and no code of this repository.\n' % (len(c.lines), SEED))
    parts.put(FOLDER, 'cuts', head, c.lines, c.answers)


main()
