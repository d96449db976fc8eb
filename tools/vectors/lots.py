#!/usr/bin/env python3
"""Lots and what must be printed of them, worked out here from 02's text by plain lists. A file's single result is taken from the model of
cutfiles.py: its number, and how many values it prints.

    lots.py            writes the tables of lots of crates/file_cases and its stdout from there on, crates/nightbatch/data/lot.bin and stdout
    lots.py --check    says whether they are as they would be written
"""
import importlib.util
import os
import random
import struct
import sys

sys.dont_write_bytecode = True
HERE = os.path.dirname(os.path.abspath(__file__))
spec = importlib.util.spec_from_file_location('cutfiles', os.path.join(HERE, 'cutfiles.py'))
cutfiles = importlib.util.module_from_spec(spec)
spec.loader.exec_module(cutfiles)
SEEN = {}


def single(file):
    """The number, and the rank: how many values are printed, 0 of a refused file."""
    if file not in SEEN:
        lines = cutfiles.printout(file).split('\n')
        words = lines[0].split(' ')
        SEEN[file] = (int(words[1]), 0) if words[0] == 'refused' else (0, sum(line.startswith('value ') for line in lines))
    return SEEN[file]


def files_of(lot):
    """None where the lot is refused by 16, else each file as far as it goes."""
    if len(lot) < 4:
        return None
    count = int.from_bytes(lot[:4], 'little')
    if count > 1000 or len(lot) < 4 + 4 * count:
        return None
    files, at = [], 4 + 4 * count
    for i in range(count):
        size = int.from_bytes(lot[4 + 4 * i:8 + 4 * i], 'little')
        files.append(lot[at:at + size])
        at += size
    return files


def sheet(lot):
    files = files_of(lot)
    if files is None:
        return 'refused 16 0\n'
    results = [single(file) for file in files]
    ranks = [rank for number, rank in results if number == 0]
    lines = ['lot %d' % len(files)]
    lines += ['answer %d %d' % (k, [number for number, rank in results].count(k)) for k in range(11)]
    lines += ['rank %d %d' % (r, ranks.count(r)) for r in range(1, 17)]
    for word, pick in (('smallest', min), ('largest', max)):
        r = pick(ranks) if ranks else 0
        lines.append('%s %d %d' % (word, r, 1 + results.index((0, r)) if ranks else 0))
    return '\n'.join(lines + ['sum %d' % sum(ranks)]) + '\n'


def lot_of(files, sizes=None, count=None):
    sizes = [len(file) for file in files] if sizes is None else sizes
    return struct.pack('<I', len(sizes) if count is None else count) + struct.pack('<%dI' % len(sizes), *sizes) + b''.join(files)


def of_rank(r):
    """A state with that rank: r equal terms on the diagonal of the half cut."""
    half = next(h for h in range(1, 5) if r <= 2 ** h)
    return cutfiles.cut_file(2 * half, list(range(half)), cutfiles.set_at(2 * half, {i + (i << half): 1.0 for i in range(r)}))


PAPER = cutfiles.PAPER
REFUSED = list(cutfiles.REFUSED.values())
RANKS = [of_rank(r) for r in range(1, 17)]
LONG = cutfiles.cut_file(9, [0], cutfiles.set_at(9, {0: 1.0})) + b'\0' * 900


def cases():
    yield 'no bytes', b''
    for m in range(1, 4):
        yield 'the count cut short', b'\0' * m
    yield 'no files', lot_of([])
    yield 'no files, and bytes behind', lot_of([]) + PAPER
    for m in range(4, 8):
        yield 'one length cut short', lot_of([PAPER])[:m]
    for m in range(8, 12):
        yield 'the second length cut short', lot_of([PAPER, PAPER])[:m]
    yield 'a header and nothing behind it', lot_of([PAPER, PAPER])[:12]
    yield 'an empty file', lot_of([b''])
    yield 'the paper\'s file', lot_of([PAPER])
    yield 'bytes behind the last file', lot_of([PAPER]) + b'CUT1 and more'
    for m in (1, 4, 23, 24, 100, len(PAPER) - 1):
        yield 'a file cut short', lot_of([PAPER])[:8 + m]
        yield 'a file that the room would complete', lot_of([PAPER, PAPER])[:12 + len(PAPER) + m]
        yield 'a front of a file', lot_of([PAPER, PAPER[:m]])
    yield 'an overstated last length', lot_of([PAPER], [len(PAPER) + 1])
    yield 'an overstated first length', lot_of([PAPER, PAPER], [len(PAPER) + 1, len(PAPER)])
    yield 'an understated length', lot_of([PAPER, PAPER], [len(PAPER) - 1, len(PAPER)])
    yield 'a length past the end', lot_of([PAPER, PAPER, PAPER], [len(PAPER), 2 ** 32 - 1, len(PAPER)])
    yield 'lengths whose sum passes 2^32', lot_of([PAPER] * 3, [2 ** 32 - 1, 2 ** 32 - 1, len(PAPER)])
    yield 'a length that is 0 between', lot_of([PAPER, b'', PAPER])
    yield 'longer than the room', lot_of([LONG])
    yield 'longer than the room, then another', lot_of([PAPER, LONG, PAPER])
    yield 'longer than the room, the mark decides', lot_of([b'CUT2' + LONG[4:], RANKS[2]])
    yield 'as long as the room', lot_of([LONG[:8480], RANKS[2]])
    yield 'one more than the room', lot_of([LONG[:8481], RANKS[2]])
    yield 'refused between accepted', lot_of([RANKS[1], REFUSED[0], RANKS[3], REFUSED[2], REFUSED[5], RANKS[1], REFUSED[7]])
    yield 'all refused', lot_of(REFUSED)
    yield 'all refused, twice', lot_of(REFUSED + REFUSED[::-1])
    yield 'every rank', lot_of(RANKS)
    yield 'every rank, downward', lot_of(RANKS[7::-1])
    yield 'the same rank first and last', lot_of([RANKS[2], RANKS[4], RANKS[1], RANKS[1], RANKS[4], RANKS[2]])
    yield 'one rank only', lot_of([REFUSED[1], RANKS[2], RANKS[2], RANKS[2]])
    yield 'falling', lot_of([RANKS[r] for r in (5, 4, 3, 2, 1, 0, 0, 1, 5)])
    yield 'rising', lot_of([RANKS[r] for r in (0, 1, 2, 3, 4, 5, 5, 0)])
    yield '1,000 empty files', lot_of([b''] * 1000)
    some = [b''] * 1000
    some[0] = some[499] = some[999] = RANKS[1]
    yield '1,000 files', lot_of(some)
    yield '1,000 files, the header one byte short', lot_of([b''] * 1000)[:-1]
    yield '1,001 files', lot_of([b''] * 1001)
    yield '1,001 files, the first accepted', lot_of([PAPER] + [b''] * 1000)
    yield '1,001 and nothing behind', struct.pack('<I', 1001)
    yield '2^32 - 1 files', struct.pack('<I', 2 ** 32 - 1) + b'\0' * 40
    yield 'the count in the other byte order', struct.pack('>I', 1) + lot_of([PAPER])[4:]
    rng = random.Random(20261116)
    pool = RANKS[:4] + REFUSED + [PAPER, cutfiles.EXAMPLES['ghz'], b'', PAPER[:60]]
    for i in range(40):
        files = [rng.choice(pool) for _ in range(rng.randrange(1, 12))]
        lot = lot_of(files, [max(0, len(f) + rng.choice((0, 0, 0, 0, 1, -1, 8))) for f in files])
        yield 'drawn', lot[:rng.randrange(len(lot))] if i % 4 == 0 else lot


def main():
    crates = os.path.join(HERE, '..', '..', 'crates')
    tables, out, counts = [b''], 'lots-1.bin\n', {}
    for name, lot in cases():
        row = struct.pack('<I', len(lot)) + lot
        if len(tables[-1]) + len(row) > 81920:
            tables.append(b'')
            out += 'lots-%d.bin\n' % len(tables)
        tables[-1] += row
        out += sheet(lot)
        for file in files_of(lot) or []:
            counts[single(file)[0]] = counts.get(single(file)[0], 0) + 1
    assert len(tables) == 3
    night = lot_of([RANKS[3], REFUSED[0], RANKS[8], RANKS[1], REFUSED[7], RANKS[8], RANKS[1], LONG] + REFUSED + [PAPER[:100]])
    before = open(os.path.join(crates, 'file_cases', 'stdout')).read().partition('lots-1.bin\n')[0]
    made = {'file_cases/data/lots-%d.bin' % (i + 1): table for i, table in enumerate(tables)}
    made.update({'file_cases/stdout': (before + out).encode(), 'nightbatch/data/lot.bin': night, 'nightbatch/stdout': sheet(night).encode()})
    for name, text in made.items():
        path = os.path.join(crates, name)
        if '--check' not in sys.argv:
            open(path, 'wb').write(text)
        elif open(path, 'rb').read() != text:
            sys.exit('lots.py: %s differs' % name)
    print(out.count('lot '), 'lots answered 0,', out.count('refused '), 'refused;', sum(map(len, tables)), 'bytes; files by answer:', dict(sorted(counts.items())))


if __name__ == '__main__':
    main()
