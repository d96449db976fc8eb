#!/usr/bin/env python3
"""Both pages of a certificate as `pageprint` must print them, worked out here from the paper and the published Rust and not by the code
that is tested. Page one is the model of cutfiles.py; the density matrix, its trace and its scaling are summed here in the paper's order,
and once more from the cut matrix alone. Python's floats are binary64, so the bits must agree.

    pages.py text FILE.cut         the printout of one file, of its first 8480 bytes
    pages.py examples DIR          the printouts NAME.pages.txt of the examples that have one
    pages.py cases FILE OUT        a table of files, each behind its length as four bytes, and the printouts one after another
    pages.py drawn SEED COUNT DIR  COUNT drawn files and their printouts, DIR/I.cut and DIR/I.txt
"""
import os, random, struct, sys

sys.dont_write_bytecode = True
sys.path.insert(0, os.path.dirname(os.path.abspath(__file__)))
import cutfiles  # noqa: E402
from cutfiles import conjugate, cut_file, plus, product, set_at, submasks  # noqa: E402

READ = 8480     # bytes of a file that the program reads
CAP = 10        # twice the most qubits that page two names
TOP = 2.0 ** 200


def bits(x):
    return '%016X' % struct.unpack('<Q', struct.pack('<d', x))[0]


def yes(x):
    return 'yes' if x else 'no'


def digest(data):
    """FNV-1a of 64 bits."""
    hashed = 0xCBF29CE484222325
    for byte in data:
        hashed = (hashed ^ byte) * 0x100000001B3 % 2 ** 64
    return '%016X' % hashed


# ---- page two


def put(index, qubits):
    """Bit i of the index on the i-th qubit."""
    return sum((index >> i & 1) << q for i, q in enumerate(qubits))


def summed(amplitude, n, named):
    """The density matrix, rows of cells: the lower triangle summed over the settings of the other qubits from +0.0 in rising order, the
    upper one its mirror."""
    others = [q for q in range(n) if q not in named]
    side = 2 ** len(named)
    matrix = [[None] * side for _ in range(side)]
    for t in range(side):
        for u in range(t + 1):
            total = (0.0, 0.0)
            for e in range(2 ** len(others)):
                base = put(e, others)
                total = plus(total, product(amplitude(put(t, named) | base), conjugate(amplitude(put(u, named) | base))))
            matrix[t][u] = total
            if u < t:
                matrix[u][t] = conjugate(total)
    return matrix


def cut_matrix(state, n, named):
    """Where each amplitude stands in the cut matrix: its rows and columns as lists of settings, and the cells column by column."""
    inside = sum(1 << q for q in named)
    outside = 2 ** n - 1 - inside
    rows, columns = (inside, outside) if 2 * len(named) <= n else (outside, inside)
    row_list, column_list = submasks(rows), submasks(columns)
    return (rows, row_list), (columns, column_list), [state[r | c] for c in column_list for r in row_list]


def from_cut(state, n, named):
    """The same matrix from the cut matrix's cells and nothing else."""
    (rows, row_list), (columns, column_list), cells = cut_matrix(state, n, named)
    row_at, column_at = ({x: i for i, x in enumerate(some)} for some in (row_list, column_list))
    return summed(lambda x: cells[column_at[x & columns] * len(row_list) + row_at[x & rows]], n, named)


def trace_of(matrix):
    total = -0.0
    for t in range(len(matrix)):
        total += matrix[t][t][0]
    return total


def scaled(matrix):
    """The answer with its place, and the matrix times 1 / trace."""
    side = len(matrix)
    for t in range(side):
        for u in range(side):
            if not all(abs(x) <= TOP for x in matrix[t][u]):
                return (7, t * side + u), None
    trace = trace_of(matrix)
    if trace == 0.0:
        return (8, 0), None
    factor = 1.0 / trace
    result = [[(re * factor, im * factor) for re, im in row] for row in matrix]
    if not all(abs(x) < float('inf') for row in result for z in row for x in z):
        return (9, 0), None
    return (0, 0), result


def cell_lines(word, matrix):
    return ['%s %d %d %s %s' % (word, t, u, bits(z[0]), bits(z[1])) for t, row in enumerate(matrix) for u, z in enumerate(row)]


def page_two(n, named, state):
    """The lines behind the list, up to the trace, and those behind `kept`."""
    if 2 * len(named) > CAP:
        return ['refused 1 0'], []
    matrix = summed(lambda x: state[x], n, named)
    answer, result = scaled(matrix)
    below = cell_lines('scaled', result) if result else ['scaled refused %d %d' % answer]
    same = cell_lines('cell', matrix) == cell_lines('cell', from_cut(state, n, named))
    return cell_lines('cell', matrix) + ['trace ' + bits(trace_of(matrix))], below + ['summed ' + yes(same)]


def printout(file):
    file = file[:READ]
    answer, held = cutfiles.contents(file)
    if answer[0]:
        return 'refused %d %d\n' % answer
    n, named, state = held
    work = cutfiles.cut_values(state, n, named)
    refused, total, exact = work[0][0] != 0, work[4], work[5]
    head = 'digest ' + digest(file)
    lines = ['page 1', head] + cutfiles.page_one(n, named, *work).splitlines()
    lines += [] if refused else ['exact ' + yes(exact)]
    above, below = page_two(n, named, state)
    lines += ['page 2', head, ' '.join(['list'] + [str(q) for q in named])] + above
    lines += [] if refused else ['kept ' + bits(total)]
    return '\n'.join(lines + below + ['end pages']) + '\n'


# ---- files


def cases():
    """The files of the table: those of cutprint's that are refused or small, and what page two adds."""
    for name, file in cutfiles.cases():
        n, k = struct.unpack('<2I', file[4:12]) if len(file) >= 12 else (0, 0)
        if len(file) > 600 and k > 3:
            continue
        yield name, file
    rng = random.Random(20261116)
    one = {0: 1.0}
    yield 'two equal terms, an upper cell of minus zero', cut_file(3, [0, 1], [(1.0, 0.0)] * 8)
    yield 'the same, the list turned', cut_file(3, [1, 0], [(1.0, 0.0)] * 8)
    for k in (4, 5):
        yield '%d named of 9' % k, cut_file(9, rng.sample(range(9), k), set_at(9, {rng.randrange(512): 1.0 for _ in range(6)}))
    for k in (6, 7, 8):
        yield '%d named, too many for page two' % k, cut_file(9, rng.sample(range(9), k), set_at(9, {0: 1.0, 511: -1.0, 77: 0.5}))
    yield '6 named of 7 and no weight: both refused', cut_file(7, [6, 5, 4, 3, 2, 1], set_at(7, {}))
    yield 'a trace above the bound', cut_file(3, [2, 0], set_at(3, {0: 2.0 ** 150, 5: 1.0, 7: 2.0 ** 150}))
    yield 'a cell above the bound in the last row', cut_file(3, [2, 0], set_at(3, {0: 1.0, 7: 2.0 ** 101}))
    yield 'a trace whose inverse is not finite', cut_file(2, [0], set_at(2, {1: 2.0 ** -530}))
    yield 'fainter than its square', cut_file(2, [1], [(2.0 ** -600, 0.0), (0.0, -(2.0 ** -600)), (0.0, 0.0), (0.0, 0.0)])
    yield 'an exact root', cut_file(2, [0], set_at(2, {0: 3.0, 1: 4.0}))
    yield 'a state of phases', cut_file(4, [3, 1], [(0.5, 0.5), (0.5, -0.5), (-0.5, 0.5), (-0.5, -0.5)] * 4)
    yield 'too long', cut_file(9, [8, 0], set_at(9, one)) + b'\0' * 9


def drawn_state(rng, n):
    """A state of one of several kinds: drawn numbers of any width, whole numbers, few cells, phases, both zeros."""
    kind = rng.randrange(7)
    count = 2 ** n
    if kind == 0:
        width = 2.0 ** rng.choice([0, 0, 0, 99, 150, 199, -100, -270, -535, -540])
        return cutfiles.drawn(n, rng, width)
    if kind == 1:
        return [(float(rng.randint(-4, 4)), float(rng.randint(-4, 4))) for _ in range(count)]
    if kind == 2:
        return [(rng.choice([0.0, -0.0, 0.0, -0.0, 1.0]), rng.choice([0.0, -0.0])) for _ in range(count)]
    if kind == 3:
        return set_at(n, {rng.randrange(count): rng.choice([1.0, -1.0, 0.5, 3.0]) for _ in range(rng.randint(0, 4))})
    if kind == 4:
        return [rng.choice([(0.5, 0.5), (0.5, -0.5), (0.0, 1.0), (-1.0, 0.0), (0.7071067811865476, 0.7071067811865476)]) for _ in range(count)]
    if kind == 5:
        return [(rng.choice([0.0, 1.0]), 0.0) for _ in range(count)]
    return [(rng.uniform(-1, 1) * 2.0 ** rng.randint(-600, 200), rng.uniform(-1, 1) * 2.0 ** rng.randint(-600, 200)) for _ in range(count)]


def drawn_file(rng):
    """A cut file; of eight one is damaged."""
    n = rng.choice([1, 2, 2, 3, 3, 3, 4, 4, 4, 5, 5, 6, 7, 7])
    if rng.randrange(40) == 0:
        n = rng.choice([8, 9])
    k = rng.randint(1, max(n - 1, 1))
    named = rng.sample(range(n), k)
    state = drawn_state(rng, n)
    damage = rng.randrange(64)
    if damage == 0:
        named[rng.randrange(k)] = rng.choice([n, n + 1, 63, 2 ** 32 - 1])
    elif damage == 1:
        named.append(rng.choice(named))
    elif damage == 2:
        named = []
    elif damage == 3:
        named = rng.sample(range(n), n)
    elif damage == 4:
        bad = struct.pack('<Q', rng.choice([0x7FF8 << 48, 0x7FF << 52, 0xFFF << 52, (0x7FF << 52) + 1, 2 ** 64 - 1, 0x4C70000000000001]))
        state[rng.randrange(2 ** n)] = rng.choice([(bad, 0.0), (0.0, bad), (bad, bad)])
    elif damage == 5:
        return cut_file(n, named, state, claimed=rng.choice([0, n + 1, 10, 2 ** 31]))
    elif damage == 6:
        file = bytearray(cut_file(n, named, state))
        file[rng.randrange(24)] ^= 1 << rng.randrange(8)
        return bytes(file)
    elif damage == 7:
        return cut_file(n, named, state)[:rng.randrange(60)] if rng.randrange(2) else cut_file(n, named, state) + b'\0'
    return cut_file(n, named, state)


def main():
    words = sys.argv[1:]
    if len(words) == 2 and words[0] == 'text':
        with open(words[1], 'rb') as file:
            sys.stdout.write(printout(file.read(READ)))
    elif len(words) == 2 and words[0] == 'examples':
        for name, file in cutfiles.BOTH_PAGES.items():
            with open(os.path.join(words[1], name + '.pages.txt'), 'w') as out:
                out.write(printout(file))
    elif len(words) == 3 and words[0] == 'cases':
        with open(words[1], 'wb') as table, open(words[2], 'w') as out:
            for _, file in cases():
                table.write(struct.pack('<I', len(file)) + file)
                out.write(printout(file))
    elif len(words) == 4 and words[0] == 'drawn':
        rng = random.Random(int(words[1]))
        for i in range(int(words[2])):
            file = drawn_file(rng)
            with open(os.path.join(words[3], '%d.cut' % i), 'wb') as out:
                out.write(file)
            with open(os.path.join(words[3], '%d.txt' % i), 'w') as out:
                out.write(printout(file))
    else:
        sys.exit(__doc__)


if __name__ == '__main__':
    main()
