"""The Python package: its examples, every call beside numpy and, where it is there, QuTiP; refusals; what is no number. It needs numpy
and target/staticlib/libexports.a (tools/library), which it links to a shared library, or the one that ZEGRAFULT_LIBRARY names."""
import doctest
import importlib
import inspect
import os
import pathlib
import pickle
import pkgutil
import subprocess
import sys
import tempfile
import threading
import unittest

import numpy as np

sys.dont_write_bytecode = True
ROOT = pathlib.Path(__file__).resolve().parent.parent.parent
ROOM = tempfile.TemporaryDirectory()
if 'ZEGRAFULT_LIBRARY' not in os.environ:
    os.environ['ZEGRAFULT_LIBRARY'] = ROOM.name
    subprocess.run([str(ROOT / 'tools' / 'shared'), os.path.join(ROOM.name, 'libzegrafult.so')], check=True)
sys.path.insert(0, str(ROOT / 'bindings' / 'python'))
import zegrafult as zg  # noqa: E402

try:
    import qutip
except ImportError:
    qutip = None
NEAR = 1e-12
SAME = 1e-15


def random_state(rng, n):
    state = rng.normal(size=2 ** n) + 1j * rng.normal(size=2 ** n)
    return state / np.linalg.norm(state)


def random_list(rng, n, most):
    return [int(q) for q in rng.permutation(n)[:rng.integers(1, most + 1)]]


def axes(state, n, listed):
    """The state as rows of the listed qubits' settings (the first listed is the lowest bit) and columns of the others'."""
    tensor = state.reshape([2] * n)
    first = [n - 1 - q for q in reversed(listed)]
    return tensor.transpose(first + [a for a in range(n) if a not in first]).reshape(2 ** len(listed), -1)


class Examples(unittest.TestCase):
    def modules(self):
        return [zg] + [importlib.import_module('zegrafult.' + m.name) for m in pkgutil.iter_modules(zg.__path__)]

    def test_examples(self):
        tried = 0
        for module in self.modules():
            found = doctest.testmod(module)
            self.assertEqual(found.failed, 0, module.__name__)
            tried += found.attempted
        self.assertGreater(tried, 100)

    def test_each_call_has_one(self):
        for module in self.modules():
            for name in getattr(module, '__all__', []):
                thing = getattr(module, name)
                self.assertTrue(inspect.getdoc(thing) or not callable(thing), name)
                if inspect.isfunction(thing):
                    self.assertIn('>>>', thing.__doc__, name)
                    self.assertIs(getattr(zg, name), thing)


class Numpy(unittest.TestCase):
    def setUp(self):
        self.rng = np.random.default_rng(36)

    def test_schmidt_values(self):
        for _ in range(60):
            n = int(self.rng.integers(2, 9))
            state, listed = random_state(self.rng, n), random_list(self.rng, n, n - 1)
            found = zg.dense_schmidt_values(state, listed)
            wanted = np.linalg.svd(axes(state, n, listed), compute_uv=False)
            wanted = wanted[wanted > 1e-14 * wanted[0]]
            self.assertEqual(found.values.shape, wanted.shape)
            self.assertLess(abs(found.values - wanted).max(), NEAR)
            self.assertTrue(found.quiet and found.sweeps >= 1)
            other = zg.dense_schmidt_values(state, [n - 1 - q for q in listed], order='qutip')
            self.assertTrue((other.values == found.values).all() or abs(other.values - found.values).max() < NEAR)

    def test_entropy(self):
        for _ in range(30):
            n = int(self.rng.integers(2, 9))
            state, listed = random_state(self.rng, n), random_list(self.rng, n, n - 1)
            weights = zg.dense_schmidt_values(state, listed).values ** 2
            band = zg.entropy_band(state, listed)
            low, high = band.bits
            entropy = -(weights * np.log2(weights)).sum()
            self.assertTrue(low - 1e-4 <= entropy <= high + 1e-4, (low, entropy, high))
            self.assertLess(high - low, 1e-3)
            self.assertEqual(band.low, int((band.weights * band.lo).sum()))

    def test_cut_and_density(self):
        for _ in range(60):
            n = int(self.rng.integers(1, 9))
            state = random_state(self.rng, n)
            listed = random_list(self.rng, n, min(n, 6))
            rows = axes(state, n, listed)
            rho = zg.dense_reduced_density(state, listed)
            wanted = rows @ rows.conj().T
            self.assertLessEqual(abs(rho - wanted).max(), SAME * abs(wanted).max())
            if len(listed) < n:
                self.assertTrue((zg.density_from_cut(zg.cut_matrix(state, listed), listed) == rho).all())
                self.assertTrue(zg.pages_agree(state, listed))
                if 2 * len(listed) <= n:
                    self.assertTrue((zg.cut_matrix(state, listed) == axes(state, n, sorted(listed))).all())
                    self.assertEqual(zg.smaller_side(listed, n), listed)
            offsets = zg.row_offsets(listed, n)
            self.assertEqual([int(o) for o in offsets], [sum((t >> i & 1) << q for i, q in enumerate(listed)) for t in range(2 ** len(listed))])
            e = int(self.rng.integers(2 ** (n - len(listed))))
            others = [q for q in range(n) if q not in listed]
            self.assertEqual(zg.traced_base(e, listed, n), sum((e >> i & 1) << q for i, q in enumerate(others)))
            values = zg.schmidt_values_from_density(rho).values
            wanted = np.linalg.svd(rows, compute_uv=False)
            strong = wanted[wanted > 1e-5]
            self.assertLess(abs(values[:strong.size] - strong).max(), 1e-9)

    def test_qutip_order_by_numpy(self):
        for _ in range(40):
            n = int(self.rng.integers(2, 8))
            k = int(self.rng.integers(1, n // 2 + 1))
            state = random_state(self.rng, n)
            rows = state.reshape(2 ** k, -1)
            self.assertTrue((zg.cut_matrix(state, range(k), order='qutip') == rows).all())
            rho = zg.dense_reduced_density(state, range(k), order='qutip')
            self.assertLessEqual(abs(rho - rows @ rows.conj().T).max(), SAME * abs(rho).max())
            back = zg.density_from_cut(rows, range(k), order='qutip')
            self.assertTrue((back == rho).all())
            self.assertEqual(zg.smaller_side(range(n - 1), n, order='qutip'), [n - 1] if n > 2 else [0])
        self.assertEqual(zg.smaller_side([0, 1, 2], 5, order='qutip'), [3, 4])

    def test_factors(self):
        for _ in range(40):
            m, n = (int(x) for x in self.rng.integers(1, 13, size=2))
            a = self.rng.normal(size=(m, n)) + 1j * self.rng.normal(size=(m, n))
            k = min(m, n)
            svd = zg.svd_jacobi(a)
            self.assertEqual((svd.u.shape, svd.s.shape, svd.vt.shape), ((m, k), (k,), (k, n)))
            self.assertLess(abs(svd.s - np.linalg.svd(a, compute_uv=False)).max(), NEAR * max(svd.s[0], 1))
            self.assertLess(abs(svd.u * svd.s @ svd.vt - a).max(), NEAR)
            self.assertLess(abs(svd.u.conj().T @ svd.u - np.eye(k)).max(), NEAR)
            self.assertLess(abs(svd.vt @ svd.vt.conj().T - np.eye(k)).max(), NEAR)
            self.assertTrue(svd.quiet and svd.turned <= 100 * k * (k - 1) // 2)
            qr = zg.factorize_gram_schmidt(a)
            self.assertEqual((qr.q.shape, qr.r.shape, qr.rank), ((m, k), (k, n), k))
            self.assertLess(abs(qr.q @ qr.r - a).max(), NEAR)
            self.assertLess(abs(qr.q.conj().T @ qr.q - np.eye(k)).max(), NEAR)

    def test_spectra(self):
        for _ in range(30):
            dim = int(self.rng.integers(1, 13))
            a = self.rng.normal(size=(dim, dim)) + 1j * self.rng.normal(size=(dim, dim))
            a = a + a.conj().T
            wanted = np.linalg.eigvalsh(a)
            eigen = zg.hermitian_eigen(a)
            self.assertLess(abs(eigen.values - wanted).max(), 1e-11)
            self.assertLess(abs(a @ eigen.vectors - eigen.vectors * eigen.values).max(), 1e-11)
            self.assertLess(abs(np.sort(zg.hermitian_eigenvalues(a).values) - wanted).max(), NEAR * dim)

    def test_densities(self):
        a = self.rng.normal(size=(4, 4)) + 1j * self.rng.normal(size=(4, 4))
        kept = a.copy()
        mirrored = zg.mirror_lower_triangle(a)
        self.assertTrue((np.tril(mirrored) == np.tril(a)).all() and (np.tril(mirrored, -1).conj().T == np.triu(mirrored, 1)).all())
        rho = a @ a.conj().T
        self.assertLess(abs(zg.normalize_trace(rho) - rho / np.trace(rho)).max(), SAME)
        factor = self.rng.normal(size=(2, 2)) + 0j
        wanted = np.array([[rho[r, c] * factor[r >> 1 & 1, c >> 1 & 1] for c in range(4)] for r in range(4)])
        self.assertLess(abs(zg.multiply_block_factor(rho, [1], factor) - wanted).max(), NEAR)
        self.assertTrue((a == kept).all(), 'what was given is left as it was')

    def test_sites(self):
        a = self.rng.normal(size=(6, 8)) + 1j * self.rng.normal(size=(6, 8))
        svd = zg.svd_jacobi(a)
        chi = 4
        self.assertTrue((zg.fill_isometry_site_data(svd.u, 3, chi) == svd.u[:, :chi].reshape(3, 2, chi)).all())
        self.assertLess(abs(zg.fill_scaled_u_site_data(svd.u, svd.s, 3, chi) - (svd.u * svd.s)[:, :chi].reshape(3, 2, chi)).max(), SAME * 10)
        self.assertTrue((zg.fill_vt_site_data(svd.vt, chi, 2, 4) == svd.vt[:chi].reshape(chi, 2, 4)).all())
        scaled = (svd.s[:, None] * svd.vt)[:chi].reshape(chi, 2, 4)
        self.assertLess(abs(zg.fill_scaled_vt_data(svd.s, svd.vt, chi, 2, 4) - scaled).max(), SAME * 10)
        apart = np.concatenate([np.concatenate([svd.u[:, c], [9]]) for c in range(chi)])
        self.assertTrue((zg.fill_isometry_site_data(apart, 3, chi, stride=7) == svd.u[:, :chi].reshape(3, 2, chi)).all())
        self.assertEqual(zg.truncated_svd_rank([1, 1e-3, 1e-9], 1e-6, 10), 2)
        self.assertTrue(zg.discards_resolvable_weight([1, 1e-3], 1))

    def test_chain(self):
        for _ in range(20):
            n = int(self.rng.integers(1, 9))
            state = random_state(self.rng, n)
            chain = zg.chain_of_sites(state, 0.0, 64)
            self.assertLess(abs(chain.state() - state).max(), NEAR)
            self.assertEqual((len(chain.sites), len(chain.cuts), chain.dropped), (n, n - 1, 0))
            self.assertTrue(all(cut.quiet for cut in chain.cuts))
            self.assertEqual([cut.rank for cut in chain.cuts], [site.shape[2] for site in chain.sites[:-1]])
            turned = zg.chain_of_sites(state.reshape([2] * n).transpose().reshape(-1), 0.0, 64, order='qutip')
            self.assertTrue(all((a == b).all() for a, b in zip(chain.sites, turned.sites)))
        self.assertEqual(max(cut.rank for cut in zg.chain_of_sites(random_state(self.rng, 8), 0.0, 3).cuts), 3)

    def test_certificates(self):
        folder = pathlib.Path(__file__).resolve().parents[2] / 'examples'
        for path in sorted(folder.glob('*.cut')):
            stored = path.with_suffix('.txt').read_text()
            for page in (zg.certificate(path), zg.certificate(path.read_bytes())):
                self.assertEqual(page.text, stored)
                self.assertEqual(f'refused {page.number} {page.place}\n' == stored, page.number != 0)
            both = zg.certificate_pages(path)
            self.assertEqual(both[1:], page[1:])
            self.assertIn(stored, both.text)
        self.assertEqual(zg.certificate_pages(str(folder / 'circuit.cut')).text, (folder / 'circuit.pages.txt').read_text())

    def test_lot(self):
        files = [(ROOT / 'examples' / name).read_bytes() for name in ('ghz.cut', 'refused-3.cut', 'product.cut', 'ghz.cut')]
        lot = np.array([len(files), *map(len, files)], dtype='<u4').tobytes() + b''.join(files)
        sheet = zg.lot_sheet(lot)
        self.assertEqual((sheet.answers[0], sheet.answers[3], sum(sheet.answers)), (3, 1, 4))
        self.assertEqual((sheet.smallest, sheet.smallest_file, sheet.largest, sheet.largest_file, sheet.sum), (1, 3, 2, 1, 5))
        with self.assertRaises(zg.Refusal) as caught:
            zg.lot_sheet(lot[:3])
        self.assertEqual(caught.exception.number, 16)

    def test_countersign(self):
        grid = 2.0 ** 18
        a = np.round(self.rng.uniform(-0.3, 0.3, size=(5, 3)) * grid) / grid
        u, s, vt = (np.round(x * grid) / grid for x in np.linalg.svd(a, full_matrices=False))
        self.assertTrue(zg.countersign(a, u, s, vt, 2 ** 40).yes)
        found = zg.countersign(a, u, s, vt, 0)
        self.assertEqual((found.yes, found.test), (False, 'product'))
        wrong = u.copy()
        wrong[:, 1] = wrong[:, 0]
        self.assertFalse(zg.countersign(a, wrong, s, vt, 2 ** 40).yes)
        product = a.copy()
        product[4, 2] += 0.25
        self.assertEqual(zg.countersign(product, u, s, vt, 2 ** 40), (False, 'product', (4, 2)))
        with self.assertRaises(zg.Refusal) as caught:
            zg.countersign(a + 1e-9, u, s, vt)
        self.assertEqual(caught.exception.number, 11)

    def test_numbers(self):
        x = np.concatenate([self.rng.uniform(0, 10, 500), [0.0, np.inf, 5e-324]])
        self.assertTrue((zg.sqrt(x) == np.sqrt(x)).all())
        self.assertTrue((zg.sqrt_bits(x.view(np.uint64)) == np.sqrt(x).view(np.uint64)).all())
        self.assertIsInstance(zg.sqrt(2), float)
        self.assertLess(abs(zg.modulus(3 + 4j) - 5), SAME)
        self.assertEqual(zg.total_order(1.0, 2.0), -1)
        self.assertEqual(zg.modulus(np.array([[3 + 4j, 1]])).shape, (1, 2))

    def test_slab(self):
        slab, held = zg.Slab(), {}
        for _ in range(400):
            number = int(self.rng.integers(12))
            data = self.rng.normal(size=int(self.rng.integers(1, 700))) + 0j
            try:
                if number in held and self.rng.integers(2):
                    slab.drop(number)
                    del held[number]
                elif number in held:
                    slab.replace(number, data)
                    held[number] = data
                else:
                    slab.put(number, data)
                    held[number] = data
            except zg.Refusal as refusal:
                self.assertEqual(refusal.number, 14)
            self.assertEqual(sorted(s.number for s in slab.sites()), sorted(held))
            self.assertTrue(all((slab[i] == held[i]).all() for i in held))
        nan = np.array([0x7FF8000000000123, 0], dtype=np.uint64).view(np.complex128)
        slab = zg.Slab()
        slab.put(1, nan)
        again = zg.Slab(slab.cells, slab.index)
        self.assertEqual(again[1].view(np.uint64).tolist(), nan.view(np.uint64).tolist())
        self.assertIn(1, again)
        with self.assertRaises(KeyError):
            again[2]

    def test_threads(self):
        state = random_state(self.rng, 9)
        wanted = zg.dense_schmidt_values(state, [1, 3, 5, 7]).values
        same = []

        def work():
            same.extend((zg.dense_schmidt_values(state, [1, 3, 5, 7]).values == wanted).all() for _ in range(5))

        threads = [threading.Thread(target=work) for _ in range(4)]
        for thread in threads:
            thread.start()
        for thread in threads:
            thread.join()
        self.assertEqual(same, [True] * 20)


class Given(unittest.TestCase):
    """What callers hand in."""

    def refused(self, number, place, call, *words, **more):
        with self.assertRaises(zg.Refusal) as caught:
            call(*words, **more)
        refusal = caught.exception
        self.assertEqual((refusal.number, refusal.place), (number, place))
        self.assertEqual(str(refusal), 'refused %d %d: %s' % (number, place, refusal.meaning))
        self.assertIsInstance(refusal, ValueError)
        again = pickle.loads(pickle.dumps(refusal))
        self.assertEqual((again.number, again.place, again.meaning), (number, place, refusal.meaning))

    def test_refusals(self):
        ghz = np.zeros(8)
        ghz[[0, 7]] = 1
        self.refused(1, 0, zg.dense_schmidt_values, [], [0])
        self.refused(1, 0, zg.dense_schmidt_values, np.ones(2 ** 13), [0])
        self.refused(1, 0, zg.dense_schmidt_values, ghz, [0], cap=3)
        self.refused(2, 1, zg.dense_schmidt_values, ghz, [0, 3])
        self.refused(3, 2, zg.dense_schmidt_values, ghz, [0, 1, 0])
        self.refused(4, 0, zg.dense_schmidt_values, ghz, [])
        self.refused(5, 0, zg.dense_schmidt_values, ghz, [0, 1, 2])
        self.refused(6, 0, zg.dense_schmidt_values, ghz[:7], [0])
        self.refused(6, 0, zg.dense_schmidt_values, ghz, [0], n=4)
        self.refused(7, 5, zg.dense_schmidt_values, np.where(np.arange(8) == 5, np.nan, ghz), [0])
        self.refused(8, 0, zg.dense_schmidt_values, np.zeros(8), [0])
        self.refused(1, 0, zg.svd_jacobi, np.ones((65, 64)))
        self.refused(1, 0, zg.svd_jacobi, np.ones((0, 3)))
        self.refused(7, 3, zg.svd_jacobi, [[1, 1], [1, np.inf]])
        self.refused(1, 0, zg.hermitian_eigen, np.eye(65))
        self.refused(1, 0, zg.factorize_gram_schmidt, np.ones((4097, 1)))
        self.refused(8, 0, zg.normalize_trace, np.zeros((2, 2)))
        self.refused(1, 0, zg.finish_schmidt_values, np.ones(65))
        self.refused(1, 0, zg.cut_rank, 4097, 1, 1)
        self.refused(1, 0, zg.fill_vt_site_data, np.ones((4, 5000)), 1, 5000, 1)
        self.refused(1, 0, zg.dense_reduced_density, np.ones(2 ** 12), range(7))

    def test_place_in_qutip_order(self):
        state = np.ones(16)
        for call in (zg.dense_schmidt_values, zg.cut_matrix, zg.dense_reduced_density, zg.pages_agree):
            self.refused(2, 2, call, state, [0, 1, 4, 9], order='qutip')
            self.refused(3, 1, call, state, [2, 2, 0], order='qutip')
            self.refused(3, 2, call, state, [2, 0, 2], order='qutip')
        self.refused(3, 1, zg.row_offsets, [1, 1], 4, order='qutip')
        self.refused(2, 0, zg.traced_base, 0, [5, 1], 4, order='qutip')

    def test_forms(self):
        state = np.arange(1, 9) + 1j
        wanted = zg.dense_schmidt_values(state, [1]).values

        class Wrapped:
            def full(self):
                return state.reshape(8, 1)

        with tempfile.TemporaryDirectory() as folder:
            path = pathlib.Path(folder) / 'state.npy'
            np.save(path, state)
            np.savez(pathlib.Path(folder) / 'two.npz', a=state, b=state)
            for given in (state, list(state), state.reshape(8, 1), Wrapped(), path, str(path), np.repeat(state, 2)[::2], state[::-1][::-1]):
                self.assertTrue((zg.dense_schmidt_values(given, [1]).values == wanted).all())
            with self.assertRaises(TypeError):
                zg.dense_schmidt_values(pathlib.Path(folder) / 'two.npz', [1])
        self.assertTrue((zg.dense_schmidt_values(state, 1).values == wanted).all())
        self.assertTrue((zg.dense_schmidt_values(state, (np.int64(1),)).values == wanted).all())
        self.assertTrue((zg.dense_schmidt_values(np.arange(1, 9), [1]).values == zg.dense_schmidt_values(np.arange(1.0, 9), [1]).values).all())
        a = np.arange(6).reshape(2, 3) * 1j
        self.assertTrue((zg.svd_jacobi(a).u == zg.svd_jacobi(np.asfortranarray(a)).u).all())

    def test_no_numbers(self):
        state = np.ones(8)
        for error, call in [
            (TypeError, lambda: zg.dense_schmidt_values(['a', 'b'], [0])),
            (TypeError, lambda: zg.dense_schmidt_values([10 ** 400, 1], [0])),
            (TypeError, lambda: zg.dense_schmidt_values(state, [0.0])),
            (TypeError, lambda: zg.dense_schmidt_values(state.astype(np.longdouble), [0])),
            (ValueError, lambda: zg.dense_schmidt_values(state, [-1])),
            (ValueError, lambda: zg.dense_schmidt_values(state.reshape(2, 4), [0])),
            (ValueError, lambda: zg.dense_schmidt_values(state, [0], order='left')),
            (OverflowError, lambda: zg.dense_schmidt_values(state, [0], cap=2 ** 64)),
            (OverflowError, lambda: zg.cut_rank(-1, 1, 1)),
            (TypeError, lambda: zg.cut_rank(1.5, 1, 1)),
            (ValueError, lambda: zg.hermitian_eigenvalues(np.ones((2, 3)))),
            (ValueError, lambda: zg.hermitian_eigen(np.ones((2, 3)))),
            (ValueError, lambda: zg.svd_jacobi(state)),
            (OverflowError, lambda: zg.Slab().put(2 ** 32, [1])),
            (TypeError, lambda: zg.Slab(np.zeros(3), None).put(1, [1])),
        ]:
            with self.assertRaises(error) as caught:
                call()
            self.assertNotIsInstance(caught.exception, zg.Refusal)

    def run_python(self, code, **environment):
        return subprocess.run([sys.executable, '-B', '-c', code], capture_output=True, text=True,
                              env={**os.environ, 'PYTHONPATH': str(ROOT / 'bindings' / 'python'), **environment})

    def test_library_missing(self):
        run = self.run_python('import zegrafult', ZEGRAFULT_LIBRARY='/nonexistent')
        self.assertIn('libzegrafult.so is not found', run.stderr)
        with tempfile.NamedTemporaryFile(suffix='.so') as file:
            run = self.run_python('import zegrafult', ZEGRAFULT_LIBRARY=file.name)
            self.assertIn('cannot be loaded', run.stderr)

    def test_environment(self):
        self.assertTrue(zg.environment())
        self.assertRegex(zg.__version__, r'^\d+\.\d+\.\d+$')
        self.assertEqual(zg.version(), sum(w * int(p) for w, p in zip((10000, 100, 1), zg.__version__.split('.'))))

    def test_the_import_asks_for_the_environment(self):
        """A thread that fesetround left rounding upward, downward or to zero is warned of at the import; one as promised is not."""
        code = 'import ctypes, numpy; ctypes.CDLL("libm.so.6").fesetround(%d); import zegrafult; print(zegrafult.environment())'
        for mode in (0, 0x400, 0x800, 0xc00):
            run = self.run_python(code % mode)
            self.assertEqual((run.returncode, run.stdout), (0, '%s\n' % (mode == 0)), run.stderr)
            self.assertEqual('RuntimeWarning: zegrafult: this thread does not round to nearest' in run.stderr, mode != 0, run.stderr)
        run = self.run_python('import warnings; warnings.simplefilter("error"); ' + code % 0x400)
        self.assertNotEqual(run.returncode, 0)

    def test_library_of_another_version(self):
        package = ROOT / 'bindings' / 'python' / 'zegrafult'
        with tempfile.TemporaryDirectory() as room:
            copy = pathlib.Path(room) / 'zegrafult'
            copy.mkdir()
            for file in package.glob('*.py'):
                text = file.read_text()
                (copy / file.name).write_text(text.replace("VERSION = '0.", "VERSION = '7.") if file.name == '_table.py' else text)
            run = self.run_python('import zegrafult', PYTHONPATH=room)
            self.assertRegex(run.stderr, r'ImportError: .* is of version \d+, this package is 7\.')


@unittest.skipIf(qutip is None, 'QuTiP is not installed')
class Qutip(unittest.TestCase):
    def test_beside(self):
        rng = np.random.default_rng(4)
        for _ in range(30):
            n = int(rng.integers(2, 8))
            ket = qutip.Qobj(random_state(rng, n).reshape(-1, 1), dims=[[2] * n, [1] * n])
            listed = sorted(random_list(rng, n, min(n - 1, 6)))
            theirs = ket.ptrace(listed)
            ours = zg.dense_reduced_density(ket, listed, order='qutip')
            self.assertLessEqual(abs(ours - theirs.full()).max(), SAME * abs(ours).max())
            values = zg.dense_schmidt_values(ket, listed, order='qutip').values
            weights = np.sort(theirs.eigenenergies())[::-1][:values.size]
            self.assertLess(abs(values ** 2 - weights).max(), NEAR)
            entropy = qutip.entropy_vn(theirs, 2)
            self.assertLess(abs(-(values ** 2 * np.log2(values ** 2)).sum() - entropy), 1e-10)
            rho = qutip.Qobj(theirs.full())
            self.assertLess(abs(zg.hermitian_eigen(rho).values - rho.eigenenergies()).max(), NEAR)

    def test_named_states(self):
        ghz = qutip.ghz_state(4)
        found = zg.dense_schmidt_values(ghz, [0, 1], order='qutip')
        self.assertLess(abs(found.values - np.sqrt(0.5)).max(), SAME)
        mixed = qutip.tensor(qutip.basis(2, 1), qutip.basis(2, 0))  # the first qubit is 1: the highest bit
        self.assertEqual(zg.dense_reduced_density(mixed, [0], order='qutip')[1, 1], 1)
        self.assertEqual(zg.dense_reduced_density(mixed, [1], order='bits')[1, 1], 1)


if __name__ == '__main__':
    unittest.main()
