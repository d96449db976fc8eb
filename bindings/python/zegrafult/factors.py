"""Factors of a matrix, and the countersign of someone else's."""
from typing import NamedTuple

import numpy as np

from ._arrays import area, cells, column_major, complex_zeros, values
from ._library import ask

__all__ = ['Svd', 'svd_jacobi', 'Qr', 'factorize_gram_schmidt', 'Finding', 'countersign']


class Svd(NamedTuple):
    """A = u @ diag(s) @ vt. `sweeps` were begun, the quiet one included; `quiet`: whether the last turned no pair; `turned`: how many
    pairs were turned in all. Where quiet is False the work was given up after 100 sweeps, and the factors are what these left."""
    u: np.ndarray
    s: np.ndarray
    vt: np.ndarray
    sweeps: int
    quiet: bool
    turned: int


def svd_jacobi(a):
    """The thin singular value decomposition of a matrix of at most 4,096 cells: u m by k, s falling, vt k by n, k = min(m, n).

    >>> import zegrafult as zg
    >>> found = zg.svd_jacobi([[3, 0], [0, 4]])
    >>> found.s
    array([4., 3.])
    >>> found.sweeps, found.quiet, found.turned
    (1, True, 0)
    """
    a, m, n = column_major(a)
    k = min(m, n) if area(m, n) else 0
    u, s, vt = complex_zeros(m * k), np.zeros(k), complex_zeros(k * n)
    scratch = np.zeros(6 * area(m, n) + 2 * k)
    found = ask('zg_svd_jacobi', a=a, m=m, n=n, u=u, s=s, vt=vt, scratch=scratch)
    return Svd(u.reshape(k, m).T, s, vt.reshape(k, n), found.sweeps, found.quiet, found.turned)


class Qr(NamedTuple):
    """A = q @ r with orthonormal columns of q, as many as the rank; columns of q and rows of r past it are zero."""
    q: np.ndarray
    r: np.ndarray
    rank: int


def factorize_gram_schmidt(a):
    """The thin QR decomposition by modified Gram-Schmidt of a matrix of at most 4,096 cells.

    >>> import zegrafult as zg
    >>> found = zg.factorize_gram_schmidt([[2, 4], [0, 0]])
    >>> found.rank
    1
    >>> (found.q @ found.r).real
    array([[2., 4.],
           [0., 0.]])
    """
    a, rows, cols = column_major(a)
    k = min(rows, cols) if area(rows, cols) else 0
    q, r = complex_zeros(rows * k), complex_zeros(k * cols)
    found = ask('zg_factorize_gram_schmidt', a=a, rows=rows, cols=cols, q=q, r=r, scratch=np.zeros(2 * rows if k else 0))
    return Qr(q.reshape(k, rows).T, r.reshape(k, cols), found.rank)


class Finding(NamedTuple):
    """What countersign found: yes, or the first test that fails, 'product', 'u', 'vt' or 's', and its first failing cell: of the
    product (row, column) in A, of u and vt in their k by k products, of s the index."""
    yes: bool
    test: str
    cell: object


def countersign(a, u, s, vt, tolerance=0):
    """Whether a is u @ diag(s) @ vt within the tolerance in each part, both sets of vectors are orthonormal within it, and s never
    rises and never goes below zero. Every number is a whole number of 2^-18 of magnitude at most 1 (else 11), min(m, n) at most 16,
    the tolerance a whole number of 2^-54. All sums are exact.

    >>> import numpy as np
    >>> import zegrafult as zg
    >>> a, unit = [[0.5, 0], [0, 0.25]], np.eye(2)
    >>> zg.countersign(a, unit, [0.5, 0.25], unit)
    Finding(yes=True, test='', cell=None)
    >>> zg.countersign(a, unit, [0.5, 0.5], unit, tolerance=1)
    Finding(yes=False, test='product', cell=(1, 1))
    """
    a, m, n = column_major(a)
    u, _, _ = column_major(u)
    vt = np.ascontiguousarray(cells(vt)).reshape(-1)
    found = ask('zg_countersign', a=a, m=m, n=n, u=u, s=values(s), vt=vt, tolerance=tolerance)
    if found.yes:
        return Finding(True, '', None)
    test = ('product', 'u', 'vt', 's')[found.test - 1]
    side = {'product': m, 'u': min(m, n), 'vt': min(m, n)}.get(test)
    return Finding(False, test, found.cell if side is None else (found.cell % side, found.cell // side))
