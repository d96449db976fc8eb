#!/usr/bin/env python3
"""slabs.py [--check]: writes crates/slab_cases/stdin and stdout: sequences of operations on slabs, and what each answers and leaves.
It follows 02's text, by plain lists and sets of cell numbers, and no code of this repository.
With --check it compares with what the two files hold and writes nothing. The draws are fixed by their seeds."""
import os
import random
import sys

CELLS, MOST, MASK, P = 4096, 64, 2**64 - 1, 2**31 - 1


class Slab:
    def __init__(self):
        self.numbers = [0] * (2 * CELLS)
        self.index = [0] * (1 + 3 * MOST)

    def sites(self):
        return [tuple(self.index[1 + 3 * i:4 + 3 * i]) for i in range(self.index[0])]

    def broken(self):
        if self.index[0] > MOST:
            return True
        taken, seen = set(), set()
        for number, start, cells in self.sites():
            if cells == 0 or start + cells > CELLS or number in seen:
                return True
            mine = set(range(start, start + cells))
            if mine & taken:
                return True
            seen.add(number)
            taken |= mine
        return any(self.numbers[2 * c] or self.numbers[2 * c + 1] for c in range(CELLS) if c not in taken)

    def lowest(self, cells, sites):
        held = bytearray(CELLS)
        for _, start, count in sites:
            held[start:start + count] = b'\1' * count
        at = held.find(b'\0' * cells)
        return None if at < 0 else at

    def keep(self, sites):
        """The index holds these sites; what a shorter list leaves behind is zeros."""
        was = self.index[0]
        self.index[0] = len(sites)
        for i, site in enumerate(sites):
            self.index[1 + 3 * i:4 + 3 * i] = site
        for i in range(len(sites), was):
            self.index[1 + 3 * i:4 + 3 * i] = (0, 0, 0)

    def put(self, number, data):
        if self.broken() or bad(data):
            return 1
        sites = self.sites()
        if number in [s[0] for s in sites]:
            return 13
        at = self.lowest(len(data) // 2, sites)
        if at is None:
            return 14
        if len(sites) == MOST:
            return 15
        self.numbers[2 * at:2 * at + len(data)] = data
        self.keep(sites + [(number, at, len(data) // 2)])
        return 0

    def drop(self, number):
        if self.broken():
            return 1
        sites = self.sites()
        mine = [s for s in sites if s[0] == number]
        if not mine:
            return 13
        _, start, cells = mine[0]
        self.numbers[2 * start:2 * (start + cells)] = [0] * (2 * cells)
        self.keep([s for s in sites if s[0] != number])
        return 0

    def replace(self, number, data):
        if self.broken() or bad(data):
            return 1
        sites = self.sites()
        mine = [s for s in sites if s[0] == number]
        if not mine:
            return 13
        at = self.lowest(len(data) // 2, [s for s in sites if s[0] != number])
        if at is None:
            return 14
        _, start, cells = mine[0]
        self.numbers[2 * start:2 * (start + cells)] = [0] * (2 * cells)
        self.numbers[2 * at:2 * at + len(data)] = data
        self.keep([(number, at, len(data) // 2) if s[0] == number else s for s in sites])
        return 0


def bad(data):
    return len(data) == 0 or len(data) % 2 == 1 or len(data) > 2 * CELLS


def digest(numbers):
    total = 0
    for n in numbers:
        total = (total * 31 + n % P) % P
    return total


class Run:
    def __init__(self):
        self.slab, self.text, self.lines, self.counts = Slab(), [], [], {}

    def note(self, words):
        self.text.append('# ' + words)

    def line(self, words, answer):
        self.text.append(' '.join('%X' % w for w in words))
        s = self.slab
        out = [answer, 0, s.index[0], digest(s.numbers), digest(s.index)]
        self.lines.append(''.join('%016X ' % w for w in out))
        if words[0] in (1, 2, 3):
            key = ('', 'put', 'drop', 'replace')[words[0]], answer
            self.counts[key] = self.counts.get(key, 0) + 1
        return answer

    def fresh(self):
        self.slab = Slab()
        self.line([0], 0)

    def put(self, number, length, bits=0x3FF0000000000000):
        return self.line([1, number, length, bits], self.slab.put(number, [(bits + t) & MASK for t in range(min(length, 8300))]))

    def drop(self, number):
        return self.line([2, number], self.slab.drop(number))

    def replace(self, number, length, bits=0x4000000000000000):
        return self.line([3, number, length, bits], self.slab.replace(number, [(bits + t) & MASK for t in range(min(length, 8300))]))

    def cell(self, place, bits):
        self.slab.numbers[place] = bits
        self.line([4, place, bits], 0)

    def entry(self, place, value):
        self.slab.index[place] = value
        self.line([5, place, value], 0)


NAN, QUIET, MINUS_ZERO = 0x7FF0000000000001, 0x7FF8DEADBEEF0000, 0x8000000000000000


def by_hand(r):
    r.note('one site of one cell, of all cells, and back')
    r.fresh()
    r.put(7, 2); r.put(7, 2); r.drop(8); r.drop(7); r.drop(7)
    r.put(0xFFFFFFFF, 8192); r.put(1, 2); r.replace(0xFFFFFFFF, 8192, NAN); r.replace(0xFFFFFFFF, 2, QUIET)
    r.put(1, 8190); r.put(2, 2); r.replace(1, 8192); r.drop(0xFFFFFFFF); r.replace(1, 8192); r.drop(1)
    r.note('data of no cells, of an odd count, too long')
    for n in (0, 1, 3, 8191, 8193, 8194, 8300):
        r.put(1, n)
    r.put(1, 2)
    for n in (0, 1, 3, 8191, 8193, 8194, 8300):
        r.replace(1, n)
    r.replace(2, 0); r.replace(2, 2)
    r.note('dropped room is used again: the lowest run that fits')
    r.fresh()
    for k, n in enumerate((6, 4, 10, 2, 8, 4)):
        r.put(100 + k, n, 0x7FF0000000000000 + (k << 40))
    r.drop(101); r.drop(103); r.put(200, 4); r.put(201, 2); r.put(202, 2)
    r.drop(100); r.drop(102); r.put(203, 16); r.put(204, 14); r.put(205, 2)
    r.note('a replace shrinks, grows in place, grows over its old room, moves down')
    r.fresh()
    r.put(1, 20); r.put(2, 20); r.put(3, 20)
    r.replace(2, 4, NAN); r.replace(2, 20, QUIET); r.replace(2, 22); r.replace(1, 40); r.replace(1, 42); r.replace(3, 2)
    r.replace(3, 0x1FFE)
    r.drop(1); r.replace(3, 8192 - 22); r.replace(3, 8192 - 20); r.drop(2); r.replace(3, 8192)
    r.note('64 sites: 14 before 15, and a replace where all are held')
    r.fresh()
    for k in range(64):
        r.put(1000 + k, 2 + 2 * (k % 3), (0xFFF8 << 48) + k * 4096)
    r.put(1, 2); r.put(1, 8192); r.put(1000, 2); r.put(1, 3)
    r.replace(1031, 64); r.replace(1000, 8192); r.drop(1063); r.put(1, 8192); r.put(1, 2); r.put(2, 2)
    r.note('64 sites that fill the slab')
    r.fresh()
    for k in range(64):
        r.put(k, 128, k << 32)
    r.put(64, 2); r.drop(0); r.drop(63); r.put(64, 258); r.put(64, 256); r.put(64, 130); r.put(64, 128); r.put(65, 2); r.put(66, 126)
    r.drop(64); r.drop(1); r.put(67, 258); r.put(67, 256)
    r.note('any bits: each kind of NaN, infinities, minus zero')
    r.fresh()
    for k, b in enumerate((NAN, QUIET, 0xFFFFFFFFFFFFFFFF, 0x7FF0000000000000, 0xFFF0000000000000, MINUS_ZERO, 0, 1, 0xFFF4000000000000)):
        r.put(k, 6, b)
    r.replace(4, 2, 0xFFFFFFFFFFFFFFFF); r.drop(2); r.replace(0, 8, MINUS_ZERO - 3)


def broken(r):
    def base():
        r.fresh()
        r.put(5, 6, QUIET); r.put(6, 4); r.put(7, 8)
        r.drop(6)

    def tries():
        r.put(9, 2); r.put(9, 0); r.put(5, 2); r.drop(5); r.drop(9); r.replace(5, 2); r.replace(9, 2)

    r.note('a slab with 65 sites, and with as many as there are numbers')
    for n in (65, 0xFFFFFFFF, 0x80000000):
        base(); r.entry(0, n); tries()
    r.note('two sites share a number; a cell; the whole room')
    base(); r.entry(4, 5); tries()
    base(); r.entry(5, 2); tries()
    base(); r.entry(5, 0); r.entry(6, 3); tries()
    r.note('neighbours are no overlap')
    base(); r.entry(5, 3); r.entry(6, 6); tries()
    r.note('an empty site; a site that leaves the slab, by one and by a sum that wraps')
    base(); r.entry(3, 0); tries()
    base(); r.entry(5, 4093); tries()
    base(); r.entry(5, 4092); tries()
    base(); r.entry(5, 0xFFFFFFFF); tries()
    base(); r.entry(6, 0xFFFFFFFF); tries()
    base(); r.entry(5, 0xFFFFFFFC); r.entry(6, 4); tries()
    r.note('a free cell that is not +0.0: the real part, the imaginary part, minus zero, the last number, a NaN')
    for place, bits in ((6, 1), (7, 1), (7, MINUS_ZERO), (8191, NAN), (8190, MINUS_ZERO), (0x1000, 0x3FF0000000000000)):
        base(); r.cell(place, bits); tries()
    r.note('a held cell may be anything')
    base(); r.cell(0, MINUS_ZERO); r.cell(5, NAN); tries()
    r.note('entries behind the count are not looked at')
    base(); r.entry(7, 5); r.entry(8, 1); r.entry(9, 77); r.entry(192, 0xFFFFFFFF); tries()
    r.note('mended: the same slab goes on')
    base(); r.cell(6, 1); r.put(9, 2); r.cell(6, 0); r.put(9, 2)


def at_random(r, seed, steps, numbers, most, puts=0.45):
    rng = random.Random(seed)
    r.note('at random, seed %d' % seed)
    r.fresh()
    for _ in range(steps):
        held = [s[0] for s in r.slab.sites()]
        number = rng.choice(held) if held and rng.random() < 0.5 else rng.randrange(numbers)
        length = 2 * rng.choice((1, 2, rng.randint(1, most), rng.randint(1, most)))
        if rng.random() < 0.03:
            length += 1
        bits = rng.choice((rng.getrandbits(64), 0x7FF8000000000000 + rng.getrandbits(51), 0, MINUS_ZERO))
        kind = rng.random()
        if kind < puts:
            r.put(number, length, bits)
        elif kind < puts + 0.25:
            r.drop(number)
        else:
            r.replace(number, length, bits)


def main():
    r = Run()
    r.note('Made by: tools/vectors/slabs.py')
    by_hand(r)
    broken(r)
    at_random(r, 1, 300, 40, 200)
    at_random(r, 2, 300, 2**32, 60, 0.65)
    at_random(r, 3, 300, 90, 60)
    at_random(r, 4, 300, 2**32, 900)
    at_random(r, 5, 300, 2**32, 2000)
    at_random(r, 6, 300, 200, 50, 0.6)
    at_random(r, 7, 400, 2**32, 8, 0.8)
    here = os.path.join(os.path.dirname(os.path.abspath(__file__)), '..', '..', 'crates', 'slab_cases')
    files = (('stdin', '\n'.join(r.text) + '\n'), ('stdout', '\n'.join(r.lines) + '\n'))
    for name, text in files:
        path = os.path.join(here, name)
        if '--check' not in sys.argv:
            open(path, 'w').write(text)
        elif open(path).read() != text:
            sys.exit('slabs.py: %s differs' % name)
    for key in sorted(r.counts):
        print('%-8s answered %2d: %d' % (key[0], key[1], r.counts[key]))
    print(len(r.lines), 'lines')


main()
