"""Random Clifford+T circuits (H, T, CNOT) of 4 to 9 qubits, cut in half: the Schmidt values that the program prints beside
those of numpy's singular value decomposition. It needs numpy and crates/cutprint/out/cutprint, or the program that CUTPRINT names."""
import os
import pathlib
import random
import struct
import subprocess
import tempfile
import unittest

import numpy

ROOT = pathlib.Path(__file__).resolve().parents[2]
START = ROOT / 'tools' / 'start'
PROGRAM = os.environ.get('CUTPRINT') or ROOT / 'crates' / 'cutprint' / 'out' / 'cutprint'
SEED = 20261116
CIRCUITS = 80       # of each width
NEAR = 1e-12


def axis(n, qubit):
    return n - 1 - qubit        # in a state of n axes of two, the highest qubit's comes first


def circuit(rng, n):
    """The state after a random circuit: bit q of an amplitude's number is qubit q."""
    state = numpy.zeros([2] * n, dtype='<c16')
    state[(0,) * n] = 1
    h = numpy.array([[1, 1], [1, -1]]) / numpy.sqrt(2)
    for _ in range(rng.randint(2 * n, 12 * n)):
        gate, qubits = rng.choice('HTC'), rng.sample(range(n), 2)
        first, second = (axis(n, qubit) for qubit in qubits)
        if gate == 'H':
            state = numpy.moveaxis(numpy.tensordot(h, state, (1, first)), 0, first)
        elif gate == 'T':
            numpy.moveaxis(state, first, 0)[1] *= numpy.exp(0.25j * numpy.pi)
        else:
            state = state.copy()
            cells = numpy.moveaxis(state, (first, second), (0, 1))
            cells[1] = cells[1, ::-1].copy()
    return numpy.ascontiguousarray(state).reshape(-1)


def expected(state, n, named):
    rows = [axis(n, qubit) for qubit in named]
    matrix = numpy.moveaxis(state.reshape([2] * n), rows, range(len(rows))).reshape(2 ** len(rows), -1)
    values = numpy.linalg.svd(matrix, compute_uv=False)
    return values / numpy.linalg.norm(values)


def printed(folder, state, n, named):
    """The values that the program prints of the state's cut file, and whether the sweeps grew quiet."""
    k = len(named)
    start = (24 + 4 * k + 7) // 8 * 8
    head = struct.pack('<4s5I%dI' % k, b'CUT1', n, k, 24, start, start + 16 * 2 ** n, *named)
    (folder / 'state.bin').write_bytes(head.ljust(start, b'\0') + state.astype('<c16').tobytes())
    lines = subprocess.run([START, PROGRAM], cwd=folder, capture_output=True, text=True, check=True).stdout.splitlines()
    values = [struct.unpack('>d', bytes.fromhex(line.split()[2]))[0] for line in lines if line.startswith('value ')]
    end, count, sweeps, quiet = lines[-1].split(' ')
    assert (end, count) == ('end', str(len(values))) and quiet in ('yes', 'no') and (quiet == 'yes' or sweeps == '100'), lines
    return values, quiet == 'yes'


class Circuits(unittest.TestCase):
    def test_half_cuts(self):
        rng = random.Random(SEED)
        far, most, gave_up = {}, 0.0, 0
        with tempfile.TemporaryDirectory() as folder:
            for n in range(4, 10):
                for _ in range(CIRCUITS):
                    state = circuit(rng, n)
                    named = rng.sample(range(n), rng.choice([n // 2, n - n // 2]))
                    want = expected(state, n, named)
                    got, quiet = printed(pathlib.Path(folder), state, n, named)
                    gave_up += not quiet
                    apart = abs(numpy.pad(got, (0, len(want) - len(got))) - want).max()
                    most = max(most, apart)
                    if not apart <= NEAR:
                        far[n] = far.get(n, 0) + 1
        print('circuits: %d of 4 to 9 qubits cut in half, seed %d, %d gave up, at most %.1e from numpy' % (6 * CIRCUITS, SEED, gave_up, most))
        self.assertEqual(far, {}, 'circuits by count of qubits with a value more than %g off' % NEAR)


if __name__ == '__main__':
    unittest.main()
