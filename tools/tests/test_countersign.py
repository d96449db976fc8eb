"""The door for partners and the C call under it: tools/countersign over files, the replayed cases over the library, and factors of our
own SVD rounded to the grid. Needs target/staticlib/libexports.a (tools/library) and a C compiler; COUNTERSIGN_LIBRARY names another archive."""
import ctypes
import importlib.machinery
import importlib.util
import math
import os
import random
import struct
import subprocess
import sys
import tempfile
import unittest
import zipfile

ROOT = os.path.join(os.path.dirname(os.path.abspath(__file__)), '..', '..')
TOOL = os.path.join(ROOT, 'tools', 'countersign')
ARCHIVE = os.environ.get('COUNTERSIGN_LIBRARY', os.path.join(ROOT, 'target', 'staticlib', 'libexports.a'))
GRID = 2 ** 18


def module_of(path, name):
    loader = importlib.machinery.SourceFileLoader(name, path)
    spec = importlib.util.spec_from_loader(name, loader)
    module = importlib.util.module_from_spec(spec)
    loader.exec_module(module)
    return module


tool = module_of(TOOL, 'countersign_tool')
vectors = module_of(os.path.join(ROOT, 'tools', 'vectors', 'countersign.py'), 'countersign_vectors')


def npy(values, shape, kind, fortran=False):
    head = repr({'descr': kind, 'fortran_order': fortran, 'shape': shape}).encode()
    head += b' ' * ((-len(head) - 11) % 64) + b'\n'
    return b'\x93NUMPY\x01\x00' + struct.pack('<H', len(head)) + head + struct.pack('<%dd' % len(values), *values)


@unittest.skipUnless(os.path.exists(ARCHIVE), 'the static library is not built')
class Countersign(unittest.TestCase):
    @classmethod
    def setUpClass(cls):
        cls.library = tool.shared(ARCHIVE)

    def run_tool(self, text, *words):
        with tempfile.NamedTemporaryFile('w', suffix='.txt') as file:
            file.write(text)
            file.flush()
            return self.run_file(file.name, *words)

    def run_file(self, path, *words):
        run = subprocess.run([sys.executable, TOOL, path, '--library', ARCHIVE, *words], capture_output=True, text=True)
        return run.returncode, run.stdout.strip().split('\n')[-1]

    def test_cases_through_c(self):
        with open(os.path.join(vectors.FOLDER, 'stdout')) as file:
            expected = [tuple(int(w, 16) for w in line.split()) for line in file]
        cases = list(vectors.all_cases(random.Random(vectors.SEED)))
        self.assertEqual(len(cases), len(expected))
        for (a, m, n, u, s, vt, tolerance), words in zip(cases, expected):
            got = tool.countersign(self.library, a, m, n, u, s, vt, tolerance)
            self.assertEqual(tuple(int(x) for x in got), words)

    def test_text(self):
        text = 'sizes 2 1 # a comment\ntolerance 0\nA 0.5 0  0 0\nU 1 0  0 0\nS 0.5\nVt 1 0\n'
        self.assertEqual(self.run_tool(text), (0, 'yes'))
        self.assertEqual(self.run_tool(text.replace('S 0.5', 'S 0.25'))[0], 1)
        self.assertIn('row 0, column 0', self.run_tool(text.replace('S 0.5', 'S 0.25'))[1])
        self.assertIn('U', self.run_tool(text.replace('U 1 0  0 0', 'U 1 0  0 1'), '--tolerance', str(2 ** 53))[1])
        self.assertEqual(self.run_tool(text.replace('0.5', '-0.5')), (1, 'no: value 0 of S is below zero or above the one before it'))
        self.assertEqual(self.run_tool(text.replace('S 0.5', 'S 2'))[1].split(':')[0], 'refused 11 0')
        self.assertEqual(self.run_tool(text.replace('S 0.5', 'S nan'))[1].split(':')[0], 'refused 7 0')
        self.assertEqual(self.run_tool(text.replace('S 0.5', ''))[0], 3)

    def test_rounding_only_when_asked(self):
        text = 'sizes 1 1\ntolerance 0\nA 0.1 0\nU 1 0\nS 0.1\nVt 1 0\n'
        self.assertEqual(self.run_tool(text)[0], 3)
        self.assertEqual(self.run_tool(text, '--round'), (0, 'yes'))

    def test_npz(self):
        for fortran in (False, True):
            with tempfile.TemporaryDirectory() as folder:
                path = os.path.join(folder, 'factors.npz')
                with zipfile.ZipFile(path, 'w') as archive:
                    # A = [[0, 0.5], [0.25, 0]]: U the identity with its columns exchanged where S asks for it
                    rows = [0.0, 0.5, 0.25, 0.0]
                    archive.writestr('A.npy', npy([rows[2 * j + i] for i in range(2) for j in range(2)] if fortran else rows, (2, 2), '<f8', fortran))
                    archive.writestr('U.npy', npy([1.0, 0, 0, 0, 0, 0, 1.0, 0], (2, 2), '<c16'))
                    archive.writestr('S.npy', npy([0.5, 0.25], (2,), '<f8'))
                    archive.writestr('Vh.npy', npy([0, 0, 1.0, 0, 1.0, 0, 0, 0], (2, 2), '<c16'))
                self.assertEqual(self.run_file(path, '--tolerance', '0'), (0, 'yes'))

    def test_our_own_factors(self):
        """U, S, V-dagger of svd_jacobi, rounded to the grid, are countersigned at the tolerance they need and at no smaller one."""
        if not hasattr(self.library, 'zg_svd_jacobi'):
            self.skipTest('the library has no zg_svd_jacobi')
        rng = random.Random(1)
        for m, n in [(2, 2), (5, 3), (4, 6), (16, 16)]:
            k = min(m, n)
            a = [rng.randrange(-GRID // 16, GRID // 16) / GRID for _ in range(2 * m * n)]
            u, s, vt = [(ctypes.c_double * size)() for size in (2 * m * k, k, 2 * k * n)]
            scratch = (ctypes.c_double * (6 * m * n + 2 * k))()
            place, sweeps, quiet, turned = ctypes.c_size_t(), ctypes.c_size_t(), ctypes.c_bool(), ctypes.c_size_t()
            self.library.zg_svd_jacobi.restype = ctypes.c_uint32
            size = ctypes.c_size_t
            number = self.library.zg_svd_jacobi(*tool.numbers(a), size(m), size(n), u, size(len(u)), s, size(len(s)), vt, size(len(vt)),
                                                scratch, size(len(scratch)), ctypes.byref(place), ctypes.byref(sweeps), ctypes.byref(quiet),
                                                ctypes.byref(turned))
            self.assertEqual(number, 0)
            u, s, vt = ([math.floor(x * GRID + 0.5) / GRID for x in list(xs)] for xs in (u, s, vt))
            low, high = 0, 2 ** 54
            while low < high:
                middle = (low + high) // 2
                if tool.countersign(self.library, a, m, n, u, s, vt, middle)[2]:
                    high = middle
                else:
                    low = middle + 1
            self.assertEqual(tool.countersign(self.library, a, m, n, u, s, vt, low)[:3], (0, 0, True))
            self.assertLess(low, 2 ** 54 // 1000)
            self.assertEqual(vectors.tests(a, m, n, u, s, vt, low), (1, 0, 0))
            if low:
                self.assertEqual(vectors.tests(a, m, n, u, s, vt, low - 1)[0], 0)


if __name__ == '__main__':
    unittest.main()
