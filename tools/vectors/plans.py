#!/usr/bin/env python3
"""plans.py [--check]: writes the part `plans` of crates/cut_cases: sequences of changes of a plan, calls of its list between them, and what
each answers and leaves. It follows 01's and 02's text, by bits, sets and lists, and no code of this repository: a plan is worked out from
its list anew at every step. The states of the Schmidt values have at most one amplitude in each row and column of the cut, so that no
pair is turned and every value is a whole number's, scaled.
With --check it compares with what is there and writes nothing. The draws are fixed by SEED."""
import math
import os
import random
import struct
import sys

sys.dont_write_bytecode = True
import parts  # noqa: E402

SEED, P = 20261116, 2**31 - 1
FOLDER = os.path.join(os.path.dirname(os.path.abspath(__file__)), '..', '..', 'crates', 'cut_cases')
TOP, LENT = 2.0**200, 0xC000000000000000


# ---- 01: the list, and where bits land

def cut_refusal(n, cap, qubits):
    if not 1 <= n <= 12 or n + 1 > min(cap, 13):
        return (1, 0)
    for place, q in enumerate(qubits):
        if q >= n:
            return (2, place)
        if q in qubits[:place]:
            return (3, place)
    if not qubits:
        return (4, 0)
    return (5, 0) if len(qubits) == n else (0, 0)


def others(n, qubits):
    return [q for q in range(n) if q not in qubits]


def mask(qubits):
    return sum(1 << q for q in qubits)


def sides(n, qubits):
    """The rows' and the columns' qubits."""
    rest = others(n, qubits)
    return (qubits, rest) if len(qubits) <= len(rest) else (rest, qubits)


def put_bits(index, qubits):
    return sum(((index >> i) & 1) << q for i, q in enumerate(qubits))


def submasks(qubits):
    return sorted(put_bits(i, qubits) for i in range(2**len(qubits)))


# ---- 02: the plan

def plan_of(n, qubits):
    rows, columns = sides(n, qubits)

    def padded(numbers):
        return numbers + [0] * (12 - len(numbers))
    return [n, len(qubits), mask(rows), mask(columns), 2**len(rows), 2**len(columns), *padded(list(qubits)), *padded(list(rows))]


def list_of(plan):
    """The list that makes the plan under cap 13, or None."""
    n, k = plan[:2]
    qubits = plan[6:6 + k] if k <= 12 else None
    if qubits is None or cut_refusal(n, 13, qubits) != (0, 0) or plan != plan_of(n, qubits):
        return None
    return qubits


def added(n, qubits, q):
    return cut_refusal(n, 13, qubits + [q]), qubits + [q]


def dropped(n, qubits, q):
    left = [x for x in qubits if x != q]
    return cut_refusal(n, 13, left) if q in qubits else (12, 0), left


def switched(n, qubits, q):
    return cut_refusal(n, 13, others(n, qubits)), others(n, qubits)


# ---- the calls

def bits(x):
    return struct.unpack('<Q', struct.pack('<d', x))[0]


def state_refusal(n, state, lent, needs):
    """6, then 7: the state is slice 0, the list's place 1."""
    if len(state) != 2 * 2**n:
        return (6, 0)
    for at, (room, need) in enumerate(zip(lent, needs)):
        if room < need:
            return (6, 2 + at)
    for at, x in enumerate(state):
        if x != x or abs(x) > TOP:
            return (7, at // 2)
    return (0, 0)


def lent(room):
    return [LENT + i for i in range(room)]


def cut(n, qubits, state, room):
    out = lent(room)
    answer = (1, 0) if qubits is None else state_refusal(n, state, [room], [2 * 2**n])
    if answer == (0, 0):
        rows, columns = sides(n, qubits)
        cells = [row | column for column in submasks(columns) for row in submasks(rows)]
        for at, cell in enumerate(cells):
            out[2 * at:2 * at + 2] = [bits(x) for x in state[2 * cell:2 * cell + 2]]
    return answer, [], [out]


def density(n, qubits, state, room, more):
    out, scratch = lent(room), lent(more)
    if qubits is None or len(qubits) > 6:
        return (1, 0), [], [out, scratch]
    side = 2**len(qubits)
    answer = state_refusal(n, state, [room, more], [2 * side * side, 2 * side])
    if answer == (0, 0):
        rest = others(n, qubits)

        def amplitude(t, e):
            at = put_bits(t, qubits) | put_bits(e, rest)
            return state[2 * at], state[2 * at + 1]
        for t in range(side):
            for u in range(t + 1):
                re, im = 0.0, 0.0
                for e in range(2**len(rest)):
                    (a, b), (c, d) = amplitude(t, e), amplitude(u, e)
                    d = -d
                    re, im = re + (a * c - b * d), im + (a * d + b * c)
                at, across = 2 * (t * side + u), 2 * (u * side + t)
                out[at:at + 2] = bits(re), bits(im)
                if u < t:
                    out[across:across + 2] = bits(re), bits(-im)
        scratch[:2 * side] = [0] * (2 * side)
    return answer, [], [out, scratch]


def even(x):
    """Whether a whole number is a square."""
    return math.isqrt(int(x))**2 == int(x)


def values(n, qubits, state, room, more):
    """Of a state with at most one amplitude, a whole number, in each row and column of the cut."""
    out, scratch = lent(room), lent(more)
    none = [0, 0, 0, 0, 0]
    if qubits is None:
        return (1, 0), none, [out, scratch]
    rows = 2**len(sides(n, qubits)[0])
    need = 8 * 2**n + 2 * rows
    answer = state_refusal(n, state, [room, more], [rows, need])
    if answer != (0, 0):
        return answer, none, [out, scratch]
    scratch[:need] = [0] * need
    found = sorted((abs(x) for x in state if x), reverse=True)
    if not found:
        out[:rows] = [0] * rows
        return (8, 0), none, [out, scratch]
    total = sum(x * x for x in found)
    scale = 1.0 / math.sqrt(total)
    out[:rows] = [bits(x * scale) for x in found] + [0] * (rows - len(found))
    return (0, 0), [len(found), 1, 1, 0, int(even(total))], [out, scratch]


# ---- the cases

def digest(numbers):
    total = 0
    for x in numbers:
        total = (total * 31 + x % P) % P
    return total


class Cases:
    def __init__(self):
        self.plan, self.asked, self.said = [0] * 30, [], []

    def line(self, words, answer, more):
        self.asked.append(' '.join('%X' % w for w in words))
        self.said.append(''.join('%016X ' % w for w in [*answer, *more, *self.plan]))

    def clear(self):
        self.plan = [0] * 30
        self.line([0], (0, 0), [])

    def poke(self, place, value):
        self.plan[place] = value
        self.line([5, place, value], (0, 0), [])

    def make(self, n, cap, qubits):
        answer = cut_refusal(n, cap, qubits)
        if answer == (0, 0):
            self.plan = plan_of(n, qubits)
        self.line([1, n, cap, len(qubits), *qubits], answer, [])

    def change(self, kind, q=None):
        qubits, n = list_of(self.plan), self.plan[0]
        answer = (1, 0)
        if qubits is not None:
            answer, left = {2: added, 3: dropped, 4: switched}[kind](n, qubits, q)
            if answer == (0, 0):
                self.plan = plan_of(n, left)
        self.line([kind] if q is None else [kind, q], answer, [])

    def call(self, kind, state, *rooms):
        answer, counts, slices = {6: cut, 7: density, 8: values}[kind](self.plan[0], list_of(self.plan), state, *rooms)
        shown = [w for s in slices for w in (s if len(s) < 200 else [digest(s)])]
        self.line([kind, len(state), *map(bits, state), *rooms], answer, [*counts, *shown])


def numbers(rng, n):
    return [float(rng.randint(-9, 9)) for _ in range(2 * 2**n)]


def spread(rng, n, qubits):
    """A state with at most one amplitude in each row and column of the cut."""
    rows, columns = (submasks(side) for side in sides(n, qubits))
    state = [0.0] * (2 * 2**n)
    for row, column in zip(rows, rng.sample(columns, len(rows))):
        state[2 * (row | column) + rng.randint(0, 1)] = float(rng.randint(-6, 6))
    return state


def three_calls(rng, cases):
    """The calls of the plan as it is, with room, and sometimes with one number less."""
    n, qubits = cases.plan[0], list_of(cases.plan)
    if qubits is None or not 2 <= n <= 5:
        n, qubits = 3, [1]
    short = lambda need: need - (rng.random() < 0.1) + (rng.random() < 0.2)
    rows, side = 2**len(sides(n, qubits)[0]), 2**min(len(qubits), 4)
    state = numbers(rng, n)
    if rng.random() < 0.1:
        state[rng.randrange(len(state))] = 2.0 * TOP
    cases.call(6, state, short(2 * 2**n))
    cases.call(7, state, short(2 * side * side), short(2 * side))
    cases.call(8, spread(rng, n, qubits), short(rows), short(8 * 2**n + 2 * rows))


def listed():
    rng, cases = random.Random(SEED), Cases()
    three_calls(rng, cases)  # no list makes the zeros
    cases.change(2, 0)
    # 02's own: adding, dropping, switching, and what each refuses
    for n, qubits in ((3, [2]), (4, [0, 1]), (4, [3, 1, 0]), (5, [4, 2]), (2, [1]), (12, [5, 7, 0]), (12, list(range(11))), (7, [6, 0, 3])):
        cases.make(n, 13, qubits)
        for q in (n, n + 5, qubits[0], 2**64 - 1, others(n, qubits)[-1]):
            cases.change(2, q)
        for q in (n, others(n, list_of(cases.plan))[0], qubits[0]):
            cases.change(3, q)
        cases.change(4)
        cases.change(4)
        if n <= 5:
            three_calls(rng, cases)
    # making is refused as a cut; the plan stays
    for n, cap, qubits in ((0, 13, [0]), (13, 13, [0]), (12, 12, [0]), (3, 13, [3]), (3, 13, [1, 1]), (3, 13, []), (3, 13, [2, 0, 1]), (12, 13, [11]), (3, 4, [2]), (3, 3, [2])):
        cases.make(n, cap, qubits)
    # each of the thirty numbers counts
    cases.make(5, 13, [3, 0])
    for place in range(30):
        was = cases.plan[place]
        cases.poke(place, was + 1)
        cases.change(2, 1)
        if place % 6 == 0:
            three_calls(rng, cases)
        cases.poke(place, was)
    cases.poke(1, 13)
    cases.change(4)
    cases.poke(1, 2**64 - 1)
    three_calls(rng, cases)
    # walks
    for _ in range(60):
        n = rng.randint(2, 6)
        cases.make(n, 13, rng.sample(range(n), rng.randint(1, n - 1)))
        for _ in range(rng.randint(3, 9)):
            draw = rng.random()
            if draw < 0.4:
                cases.change(2, rng.randint(0, n))
            elif draw < 0.8:
                cases.change(3, rng.randint(0, n))
            else:
                cases.change(4)
            if n <= 5 and rng.random() < 0.2:
                three_calls(rng, cases)
    cases.make(12, 13, [0, 1, 2, 3, 4, 5, 6])
    cases.call(7, [], 520, 520)  # more than six named
    cases.clear()
    return cases


def main():
    cases = listed()
    head = ('changes of a plan, and the calls of its list.\n'
            '# Made by tools/vectors/plans.py with seed %d, which follows 01 and 02 and no code of this repository.\n' % SEED)
    parts.put(FOLDER, 'plans', head, cases.asked, cases.said, 16)


if __name__ == '__main__':
    main()
