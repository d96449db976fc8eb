"""Entropy bands against exact whole numbers and numpy: weights by fractions from the cut's own values, each band against the 4096th powers,
the sums, and the entropy of the weights and of numpy's own values inside the band. Needs numpy, a C compiler and
target/staticlib/libexports.a (tools/library). ENTROPY_STATES says how many states (500)."""
import ctypes
import fractions
import importlib.machinery
import importlib.util
import math
import os
import random
import unittest

import numpy

ROOT = os.path.join(os.path.dirname(os.path.abspath(__file__)), '..', '..')
ARCHIVE = os.path.join(ROOT, 'target', 'staticlib', 'libexports.a')
STATES = int(os.environ.get('ENTROPY_STATES', 500))


def module_of(path, name):
    loader = importlib.machinery.SourceFileLoader(name, path)
    module = importlib.util.module_from_spec(importlib.util.spec_from_loader(name, loader))
    loader.exec_module(module)
    return module


circuits = module_of(os.path.join(ROOT, 'tools', 'tests', 'test_circuits.py'), 'circuits')


class Library:
    def __init__(self):
        library = module_of(os.path.join(ROOT, 'tools', 'countersign'), 'countersign_tool').shared(ARCHIVE)
        self.band, self.values = library.zg_entropy_band, library.zg_dense_schmidt_values

    def ask(self, state, n, listed):
        """The cut's values, and what its band says: weights with lo and hi, and the three sums."""
        size, side = ctypes.c_size_t, 2 ** min(len(listed), n - len(listed))
        numbers = (ctypes.c_double * (2 * 2 ** n))(*[part for z in state for part in (z.real, z.imag)])
        named, scratch = (size * len(listed))(*listed), (ctypes.c_double * (8 * 2 ** n + 2 * side))()
        out, bands = (ctypes.c_double * side)(), (size * (3 * side))()
        place, count, sweeps, turned, quiet, exact = size(), size(), size(), size(), ctypes.c_bool(), ctypes.c_bool()
        low, high, whole = ctypes.c_uint64(), ctypes.c_uint64(), ctypes.c_uint64()
        ref, front = ctypes.byref, (numbers, size(2 * 2 ** n), size(n), named, size(len(listed)), size(13))
        rest = (scratch, size(len(scratch)), ref(place), ref(count))
        answer = self.values(*front, out, size(side), *rest, ref(sweeps), ref(quiet), ref(turned), ref(exact))
        values = list(out[:count.value])
        same = self.band(*front, bands, size(3 * side), *rest, ref(low), ref(high), ref(whole), ref(sweeps), ref(quiet), ref(turned))
        if (answer, same) != (0, 0):
            raise AssertionError((answer, same))
        rows = [tuple(bands[3 * i:3 * i + 3]) for i in range(count.value)]
        return values, rows, list(bands[3 * count.value:]), (low.value, high.value, whole.value)


def drawn(rng, n):
    kind = rng.randrange(5)
    size = 2 ** n
    if kind == 0:
        return circuits.circuit(rng, n)
    if kind == 1:
        return numpy.array([float(rng.randrange(2)) for _ in range(size - 1)] + [1.0])
    if kind == 2:
        left, right = (numpy.array([complex(rng.gauss(0, 1), rng.gauss(0, 1)) for _ in range(2 ** m)]) for m in (n // 2, n - n // 2))
        return numpy.kron(right, left) + 10.0 ** -rng.randrange(3, 9) * numpy.array([rng.gauss(0, 1) for _ in range(size)])
    return numpy.array([complex(rng.gauss(0, 1), rng.gauss(0, 1)) for _ in range(size)])


@unittest.skipUnless(os.path.exists(ARCHIVE), 'the static library is not built')
class Entropy(unittest.TestCase):
    def test_bands(self):
        library, rng = Library(), random.Random(23)
        powers = held = 0
        for _ in range(STATES):
            n = rng.randrange(2, 9)
            listed = rng.sample(range(n), rng.randrange(1, n))
            state = drawn(rng, n)
            values, rows, behind, (low, high, whole) = library.ask(state, n, listed)
            weights = [math.floor(fractions.Fraction(v) ** 2 * 2 ** 24) for v in values]
            weights = [w for w in weights if w]
            self.assertEqual([row[0] for row in rows], weights)
            self.assertEqual(weights, sorted(weights, reverse=True))
            self.assertFalse(any(behind))
            total = sum(weights)
            self.assertEqual((low, high, whole), (sum(w * lo for w, lo, _ in rows), sum(w * hi for w, _, hi in rows), 4096 * total))
            for w, lo, hi in set(rows):
                small, large = w ** 4096, total ** 4096
                self.assertTrue(small << lo <= large <= small << hi and hi - lo <= 2, (w, lo, hi, total))
                powers += 1
            # the entropy of the weights, and that of numpy's values, which have other digits
            bits = sum(w / total * math.log2(total / w) for w in weights)
            self.assertTrue(low / whole - 1e-12 <= bits <= high / whole + 1e-12, (low / whole, bits, high / whole))
            cut = numpy.array(state).reshape([2] * n)
            axes = [n - 1 - q for q in listed] + [n - 1 - q for q in range(n) if q not in listed]
            found = numpy.linalg.svd(cut.transpose(axes).reshape(2 ** len(listed), -1), compute_uv=False) ** 2
            parts = found[found > 0] / found.sum()
            lost = sum(1 for p in parts) * 26 / 2 ** 24  # a weight is a floor: at most 2^-24 of each square, times its bits, is dropped
            self.assertTrue(low / whole - lost <= -(parts * numpy.log2(parts)).sum() <= high / whole + lost)
            held += 1
        self.assertEqual(held, STATES)
        print('%d states, %d bands held to exact powers' % (held, powers))


if __name__ == '__main__':
    unittest.main()
