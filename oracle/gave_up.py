"""Reads the lines of `gave_up` and prints, for states whose last sweep turned a pair and for those whose last was quiet: how many,
their sweeps, their ranks, how many have another count of values than numpy's rank, how far a value is from numpy's, and what
became of them times 2^-20."""
import struct
import sys

import numpy

kinds = {True: [], False: []}
for line in sys.stdin:
    code, sweeps, turned, _, small_turned, same, *bits = line.split()
    got = [struct.unpack('>d', bytes.fromhex(word))[0] for word in bits]
    matrix = numpy.array([int(code) >> at & 1 for at in range(16)], float).reshape(4, 4).T
    want = numpy.linalg.svd(matrix, compute_uv=False)
    want /= numpy.linalg.norm(want)
    rank = int(numpy.linalg.matrix_rank(matrix))
    apart = abs(numpy.pad(got, (0, 4 - len(got))) - want).max()
    kinds[turned != '0'].append((apart, rank, len(got) != rank, int(sweeps), small_turned != '0', same == '0'))
for gave_up, states in kinds.items():
    apart, ranks, other, sweeps, small_gave_up, small_other = zip(*states)
    print('%s: %d states, sweeps %d to %d, ranks %d to %d, %d with another count, at most %.1e from numpy; times 2^-20: %d gave up, '
          '%d with other bits' % ('gave up' if gave_up else 'quiet', len(states), min(sweeps), max(sweeps), min(ranks), max(ranks),
                                  sum(other), max(apart), sum(small_gave_up), sum(small_other)))
