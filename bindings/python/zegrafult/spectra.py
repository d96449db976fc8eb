"""Schmidt values and spectra."""
import math
from fractions import Fraction
from typing import NamedTuple

import numpy as np

from ._arrays import CAP, area, ask_of_list, column_major, complex_zeros, in_order, power, square, state_of, whole
from ._arrays import values as real_values
from ._library import ask

__all__ = ['Values', 'CutValues', 'dense_schmidt_values', 'Profile', 'cut_profile', 'EntropyBand', 'entropy_band', 'finish_schmidt_values', 'hermitian_eigenvalues', 'schmidt_values_from_density',
           'Eigen', 'hermitian_eigen']


class Values(NamedTuple):
    """Values and the sweeps that gave them: `sweeps` were begun, the quiet one included; `quiet`: whether the last turned no pair;
    `turned`: how many pairs were turned in all. Where quiet is False the work was given up at its cap."""
    values: np.ndarray
    sweeps: int
    quiet: bool
    turned: int


class CutValues(NamedTuple):
    """Schmidt values of a cut, the sweeps as in Values, and `exact`: whether the root of every column's norm after the sweeps and the
    root of the final scale came out even (sqrt_marked)."""
    values: np.ndarray
    sweeps: int
    quiet: bool
    turned: int
    exact: bool


def dense_schmidt_values(state, qubits, n=None, cap=CAP, order='bits'):
    """The Schmidt values of the cut between the listed qubits and the rest, falling, their squares summing to 1; at most 100 sweeps.

    >>> import zegrafult as zg
    >>> ghz = [1, 0, 0, 0, 0, 0, 0, 1]
    >>> zg.dense_schmidt_values(ghz, [0, 2])
    CutValues(values=array([0.70710678, 0.70710678]), sweeps=1, quiet=True, turned=0, exact=False)
    """
    state, n = state_of(state, n)
    side = power(min(len(whole(qubits)), max(n - len(whole(qubits)), 0)))
    out, scratch = np.zeros(side), np.zeros(8 * power(n) + 2 * side)
    found = ask_of_list('zg_dense_schmidt_values', qubits, n, order, state=state, cap=cap, out=out, scratch=scratch)
    return CutValues(out[:found.count].copy(), found.sweeps, found.quiet, found.turned, found.exact)


class Profile(NamedTuple):
    """Of the cut of qubits 0..j against the rest, for each j: its values as dense_schmidt_values has them, the largest one and the rank."""
    cuts: list
    largest: np.ndarray
    ranks: list


def cut_profile(state, n=None, cap=CAP, order='bits'):
    """All cuts of a chain on one page: entry j is the cut of qubits 0..j against the rest, and reads the same as the cut asked for alone.

    >>> import zegrafult as zg
    >>> page = zg.cut_profile([1, 0, 0, 0, 0, 0, 0, 1])
    >>> page.ranks, page.largest
    ([2, 2], array([0.70710678, 0.70710678]))
    """
    state, n = state_of(state, n)
    state = in_order(state, n, order)
    cuts = n - 1 if 2 <= n <= 12 else 0
    header, ranks, marks = (np.zeros(length * cuts, dtype=np.uintp) for length in (2, 1, 4))
    values, largest = np.zeros(sum(power(min(k, n - k)) for k in range(1, cuts + 1))), np.zeros(cuts)
    ask('zg_cut_profile', state=state, n=n, cap=cap, header=header, values=values, largest=largest, ranks=ranks, marks=marks,
        scratch=np.zeros(8 * power(n) + 2 * power(n // 2)))
    rows = [[int(x) for x in row] for row in np.hstack([header.reshape(-1, 2), marks.reshape(-1, 4)])]
    found = [CutValues(values[at:at + count].copy(), sweeps, bool(quiet), turned, bool(exact)) for count, at, sweeps, quiet, turned, exact in rows]
    return Profile(found, largest, [int(rank) for rank in ranks])


class EntropyBand(NamedTuple):
    """The entropy of a cut in bits lies from low / whole to high / whole. `weights` are floors of the squared values times 2^24, the
    zeros dropped, falling; of weight w in their sum W 2^lo * w^4096 <= W^4096 <= 2^hi * w^4096, and hi - lo is at most 2. `low` and
    `high` are the sums of w * lo and w * hi, `whole` is 4096 * W; the sweeps are those of the cut's values."""
    weights: np.ndarray
    lo: np.ndarray
    hi: np.ndarray
    low: int
    high: int
    whole: int
    sweeps: int
    quiet: bool
    turned: int

    @property
    def bits(self):
        """The two ends of the band, rounded outward.

        >>> import zegrafult as zg
        >>> zg.entropy_band([1, 0, 0, 1], [0]).bits
        (1.0, 1.0)
        """
        def end(x, side):
            y, exact = x / self.whole, Fraction(x, self.whole)
            return y if Fraction(y) == exact or (Fraction(y) < exact) == (side < 0) else math.nextafter(y, side * math.inf)
        return end(self.low, -1), end(self.high, 1)


def entropy_band(state, qubits, n=None, cap=CAP, order='bits'):
    """The entropy of the cut between the listed qubits and the rest as a band of whole numbers, proved in whole numbers: no logarithm.

    >>> import zegrafult as zg
    >>> found = zg.entropy_band([1, 0, 0, 0, 0, 0, 0, 1], [0])
    >>> found.low, found.high, found.whole, found.weights.tolist()
    (68719468544, 68719468544, 68719468544, [8388607, 8388607])
    """
    state, n = state_of(state, n)
    side = power(min(len(whole(qubits)), max(n - len(whole(qubits)), 0)))
    bands, scratch = np.zeros(3 * side, dtype=np.uintp), np.zeros(8 * power(n) + 2 * side)
    found = ask_of_list('zg_entropy_band', qubits, n, order, state=state, cap=cap, bands=bands, scratch=scratch)
    weights, lo, hi = bands[:3 * found.count].reshape(-1, 3).T.copy()
    return EntropyBand(weights, lo, hi, found.low, found.high, found.whole, found.sweeps, found.quiet, found.turned)


def finish_schmidt_values(values):
    """Sorted downward, cut at the first one at or below 1e-14 times the first, scaled to unit length.

    >>> import zegrafult as zg
    >>> zg.finish_schmidt_values([3.0, 4.0, 0.0])
    array([0.8, 0.6])
    """
    values = real_values(values)
    out = np.zeros(values.size)
    found = ask('zg_finish_schmidt_values', values=values, out=out)
    return out[:found.count].copy()


def hermitian_eigenvalues(a):
    """The eigenvalues of a Hermitian matrix of side 1 to 64, as the sweeps, at most 60, leave them on the diagonal: not sorted.

    >>> import zegrafult as zg
    >>> zg.hermitian_eigenvalues([[2, 0], [0, -5]]).values
    array([ 2., -5.])
    """
    a, dim = square(a)
    k = dim if area(dim, dim) else 0
    out = np.zeros(k)
    found = ask('zg_hermitian_eigenvalues', a=a, dim=dim, out=out, scratch=complex_zeros(area(dim, dim)))
    return Values(out, found.sweeps, found.quiet, found.turned)


def schmidt_values_from_density(rho):
    """The Schmidt values that a density matrix gives: roots of its eigenvalues above the floor, finished; at most 60 sweeps.

    >>> import zegrafult as zg
    >>> zg.schmidt_values_from_density([[0.25, 0], [0, 0.75]]).values
    array([0.8660254, 0.5      ])
    """
    rho, dim = square(rho)
    k = dim if area(dim, dim) else 0
    out = np.zeros(k)
    found = ask('zg_schmidt_values_from_density', rho=rho, dim=dim, out=out, scratch=complex_zeros(area(dim, dim)))
    return Values(out[:found.count].copy(), found.sweeps, found.quiet, found.turned)


class Eigen(NamedTuple):
    """Eigenvalues, rising, and eigenvectors, one to a column; the sweeps as in Values."""
    values: np.ndarray
    vectors: np.ndarray
    sweeps: int
    quiet: bool
    turned: int


def hermitian_eigen(matrix):
    """The eigenvalues and eigenvectors of a Hermitian matrix of side 1 to 64.

    >>> import zegrafult as zg
    >>> found = zg.hermitian_eigen([[2, 0], [0, -5]])
    >>> found.values
    array([-5.,  2.])
    >>> found.vectors.real
    array([[0., 1.],
           [1., 0.]])
    """
    matrix, rows, dim = column_major(matrix)
    if rows != dim:
        raise ValueError('the matrix is not square: %s' % ((rows, dim),))
    k = dim if area(dim, dim) else 0
    values, vectors = np.zeros(k), complex_zeros(area(dim, dim))
    found = ask('zg_hermitian_eigen', matrix=matrix, dim=dim, values=values, vectors=vectors, scratch=np.zeros(6 * area(dim, dim) + 2 * k))
    return Eigen(values, vectors.reshape(k, k).T, found.sweeps, found.quiet, found.turned)
