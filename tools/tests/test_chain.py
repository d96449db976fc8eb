"""Chains of sites contracted back by numpy: with nothing dropped the state returns within 1e-13 of its norm, and every site but the last is
an isometry where its kept values are not zero; tools/chain and tools/read over the examples. Needs numpy, a C compiler and
target/staticlib/libexports.a (tools/library), or the archive that CHAIN_LIBRARY names; crates/chainprint/out/chainprint, or the program that CHAINPRINT names, where it
is there. CHAIN_STATES says how many states."""
import importlib.machinery
import importlib.util
import os
import random
import shutil
import subprocess
import sys
import tempfile
import unittest

import numpy

ROOT = os.path.join(os.path.dirname(os.path.abspath(__file__)), '..', '..')
ARCHIVE = os.environ.get('CHAIN_LIBRARY', os.path.join(ROOT, 'target', 'staticlib', 'libexports.a'))
PROGRAM = os.environ.get('CHAINPRINT', os.path.join(ROOT, 'crates', 'chainprint', 'out', 'chainprint'))
STATES = int(os.environ.get('CHAIN_STATES', 2000))
SEED = 20261121
NEAR = 1e-13


def module_of(path, name):
    loader = importlib.machinery.SourceFileLoader(name, path)
    module = importlib.util.module_from_spec(importlib.util.spec_from_loader(name, loader))
    loader.exec_module(module)
    return module


tool = module_of(os.path.join(ROOT, 'tools', 'chain'), 'chain_tool')
circuits = module_of(os.path.join(ROOT, 'tools', 'tests', 'test_circuits.py'), 'circuits')


def drawn(rng, kind, n):
    """A state of n qubits: bit q of an amplitude's number is qubit q."""
    size = 2 ** n
    at = numpy.arange(size)
    noise = lambda: numpy.array([complex(rng.gauss(0, 1), rng.gauss(0, 1)) for _ in range(size)])
    if kind == 'circuit':
        return circuits.circuit(rng, n)
    if kind == 'ghz':
        return numpy.where((at == 0) | (at == size - 1), 0.5 ** 0.5, 0j)
    if kind == 'w':
        return numpy.where([bin(x).count('1') == 1 for x in at], n ** -0.5, 0j)
    if kind == 'cluster':
        return numpy.array([(-1) ** bin(x & x >> 1).count('1') for x in at]) * size ** -0.5 + 0j
    if kind == 'product':
        state = numpy.ones(1, dtype=complex)
        for _ in range(n):
            state = numpy.kron(numpy.array([complex(rng.gauss(0, 1), rng.gauss(0, 1)) for _ in range(2)]), state)
        return state
    if kind == 'dependent':
        return numpy.kron(numpy.array([1, rng.choice([-1, 2, 1j])]), noise()[:size // 2]) if n > 1 else noise()
    return noise()


def site_of(left, right, cells):
    return numpy.array([complex(*cell) for cell in cells]).reshape(left, 2, right)


def contracted(sites):
    """The amplitudes: qubit 0 is the lowest bit, so the sites' bits come last first."""
    whole = numpy.ones((1, 1), dtype=complex)
    for site in sites:
        # bits of later sites are higher ones
        whole = numpy.einsum('xa,aib->ixb', whole, site).reshape(-1, site.shape[2])
    return whole[:, 0]


@unittest.skipUnless(os.path.exists(ARCHIVE), 'the static library is not built')
class Chains(unittest.TestCase):
    @classmethod
    def setUpClass(cls):
        cls.library = tool.countersign.shared(ARCHIVE)

    def chain(self, state, n, threshold, limit):
        return tool.chain_of_sites(self.library, [complex(z) for z in state], n, threshold, limit)

    def test_contracted_back(self):
        rng = random.Random(SEED)
        kinds = ['circuit', 'noise', 'circuit', 'product', 'ghz', 'circuit', 'w', 'cluster', 'dependent', 'circuit']
        most, skew, gave_up = 0.0, 0.0, 0
        for drawn_so_far in range(STATES):
            kind = kinds[drawn_so_far % 10]
            n = rng.choice([2, 3, 4, 4, 5, 5, 6, 6, 7, 8]) if drawn_so_far % 100 else 12 - drawn_so_far // 100 % 4
            state = drawn(rng, kind, n)
            said, qubits, sites, marks, dropped = self.chain(state, n, 0.0 if drawn_so_far % 2 else 1e-14, 64)
            self.assertEqual((said, qubits, dropped), ('chain', n, 0), kind)
            self.assertEqual([sites[0][0]] + [right for _, right, _ in sites[:-1]], [left for left, _, _ in sites])
            self.assertEqual((sites[0][0], sites[-1][1], len(sites), len(marks)), (1, 1, n, n - 1))
            parts = [site_of(*site) for site in sites]
            far = numpy.linalg.norm(contracted(parts) - state) / numpy.linalg.norm(state)
            most, gave_up = max(most, far), gave_up + any(not quiet for _, quiet, _ in marks)
            self.assertLessEqual(far, NEAR, (kind, n))
        print(f'chain: {STATES} states with nothing dropped come back within {most:.2e} of their norm; {gave_up} had a cut that gave up')

    def test_isometries(self):
        rng = random.Random(SEED + 1)
        most = 0.0
        for kind in ['circuit', 'noise', 'product', 'ghz', 'w', 'cluster', 'dependent'] * 6:
            n = rng.randint(2, 7)
            for limit in [64, 2, 1]:
                said, _, sites, _, _ = self.chain(drawn(rng, kind, n), n, 1e-6, limit)
                self.assertEqual(said, 'chain')
                for left, right, cells in sites[:-1]:
                    self.assertLessEqual(right, limit)
                    columns = site_of(left, right, cells).reshape(-1, right)
                    most = max(most, abs(columns.conj().T @ columns - numpy.eye(right)).max())
        self.assertLessEqual(most, 1e-12)
        print(f'chain: sites whose kept values are above 1e-6 of the largest are isometries within {most:.2e}')

    def test_dropped_weight(self):
        rng = random.Random(SEED + 2)
        for _ in range(20):
            state = drawn(rng, 'noise', 6)
            _, _, sites, _, dropped = self.chain(state, 6, 0.0, 2)
            # each step keeps at most what it is given, and the last site holds what is left
            last = numpy.linalg.norm([complex(*cell) for cell in sites[-1][2]])
            self.assertLess(last, numpy.linalg.norm(state))
            self.assertGreater(dropped, 0)

    def test_refusals(self):
        self.assertEqual(self.chain([1, 0, 0, 1], 2, 1e-12, 0), ('refused', 1, 0))
        self.assertEqual(self.chain([1, 0, 0, 1], 3, 1e-12, 1), ('refused', 6, 0))
        self.assertEqual(self.chain([1, 0, 2.0 ** 190 * (1 + 2 ** -52), 1], 2, 1e-12, 1), ('refused', 7, 2))
        self.assertEqual(self.chain([0, 0, 0, -0.0], 2, 1e-12, 1), ('refused', 8, 0))

    def run_tools(self, *words, cut='ghz', svg=None):
        file = os.path.join(ROOT, 'examples', cut + '.cut')
        chain = subprocess.run([sys.executable, os.path.join(ROOT, 'tools', 'chain'), file, '--library', ARCHIVE, *words], capture_output=True, text=True)
        page = ['--svg', svg] if svg else []
        shown = subprocess.run([sys.executable, os.path.join(ROOT, 'tools', 'read'), '--cut', file, *page], input=chain.stdout, capture_output=True, text=True)
        return chain.returncode, chain.stdout, shown.returncode, shown.stdout + shown.stderr

    def test_tools(self):
        with tempfile.TemporaryDirectory() as folder:
            svg = os.path.join(folder, 'page.svg')
            status, text, shown_status, shown = self.run_tools(svg=svg)
            self.assertEqual((status, shown_status), (0, 0), shown)
            self.assertIn('Chain of 6 sites; widest bond 2', shown)
            self.assertIn('Weight kept 1.0', shown)
            with open(svg) as page:
                drawn_page = page.read()
            self.assertEqual(drawn_page.count('fill="#bbccee"'), 5)
            self.assertEqual(drawn_page.count('fill="#ee7733" stroke'), 1)
            self.assertEqual(drawn_page.count('<line '), 5)
        lines = text.splitlines()
        self.assertEqual((lines[0], lines[-1]), ('chain 6', 'dropped 0'))
        self.assertIn('Weight kept 0.5, dropped 0.5', self.run_tools('--limit', '1')[3])
        status, text, shown_status, shown = self.run_tools('--limit', '0')
        self.assertEqual((status, text, shown_status), (1, 'refused 1 0\n', 0))
        self.assertIn('a size is out of range', shown)

    @unittest.skipUnless(os.path.exists(PROGRAM), 'the program is not built')
    def test_program(self):
        """chainprint prints what the tool prints, and refuses what is no cut file."""
        with tempfile.TemporaryDirectory() as folder:
            for cut in ['ghz', 'paper', 'product', 'refused-7', 'refused-8', 'refused-10']:
                shutil.copy(os.path.join(ROOT, 'examples', cut + '.cut'), os.path.join(folder, 'state.bin'))
                said = subprocess.run([os.path.join(ROOT, 'tools', 'start'), os.path.abspath(PROGRAM)], cwd=folder, capture_output=True, text=True, check=True).stdout
                self.assertEqual(said, self.run_tools(cut=cut)[1] or 'refused 10 0\n', cut)

    def test_broken_printouts(self):
        text = self.run_tools()[1]
        lines = text.splitlines()
        for broken in [lines[:-1], lines[:9] + lines[10:], lines + ['dropped 0'], ['chain 7'] + lines[1:], ['chain 13'],
                       [line.replace('site 1 2 2', 'site 1 2 3') for line in lines], [line.replace('cut 1 2', 'cut 1 1') for line in lines]]:
            shown = subprocess.run([sys.executable, os.path.join(ROOT, 'tools', 'read')], input='\n'.join(broken) + '\n', capture_output=True, text=True)
            self.assertEqual((shown.returncode, shown.stdout), (1, ''), broken[:3])
            self.assertTrue(shown.stderr.startswith('read: '))


if __name__ == '__main__':
    unittest.main()
