"""The chain of sites: a whole state taken apart."""
from typing import NamedTuple

import numpy as np

from ._arrays import complex_zeros, in_order, power, state_of
from ._library import ask

__all__ = ['Cut', 'Chain', 'chain_of_sites']


class Cut(NamedTuple):
    """Of a cut's SVD: the kept rank, the sweeps begun, whether the last turned no pair, and the turned pairs."""
    rank: int
    sweeps: int
    quiet: bool
    turned: int


class Chain(NamedTuple):
    """Site j holds qubit j and has the shape (left bond, 2, right bond); the last one holds the weight. `dropped`: how many cuts dropped
    a value that could be told from zero."""
    sites: list
    cuts: list
    dropped: int

    def state(self):
        """The sites contracted again: the state's amplitudes, qubit q being bit q of the index, as numpy rounds.

        >>> import zegrafult as zg
        >>> abs(zg.chain_of_sites([1, 0, 0, 1], 0.0, 2).state())
        array([1., 0., 0., 1.])
        """
        whole = np.ones((1, 1), dtype=np.complex128)
        for site in self.sites:
            whole = np.tensordot(whole, site, axes=(1, 0))
            whole = whole.transpose(1, 0, 2).reshape(-1, site.shape[2])
        return whole[:, 0]


def chain_of_sites(state, epsilon, limit, n=None, order='bits'):
    """The state taken apart from the left, qubit 0 first: each cut keeps the values above epsilon times its first, at least one and at
    most `limit`. Components are at most 2^190 in magnitude.

    >>> import zegrafult as zg
    >>> chain = zg.chain_of_sites([1, 0, 0, 0, 0, 0, 0, 1], 1e-12, 64)
    >>> [site.shape for site in chain.sites], chain.dropped
    ([(1, 2, 2), (2, 2, 2), (2, 2, 1)], 0)
    >>> chain.cuts[0]
    Cut(rank=2, sweeps=1, quiet=True, turned=0)
    """
    state, n = state_of(state, n)
    state = in_order(state, n, order)
    many = power(n)
    bond = [1 if j in (0, n) else min(limit, power(j), power(n - j)) for j in range(n + 1)] if many else [0]
    sites = complex_zeros(sum(2 * left * right for left, right in zip(bond, bond[1:])))
    bonds, starts, marks = (np.zeros(length, dtype=np.uintp) for length in (n + 1, n + 1, 3 * max(n - 1, 0)))
    matrix, u, vt = (complex_zeros(many) for _ in range(3))
    scratch = np.zeros(6 * many + 2 * power(n // 2))
    found = ask('zg_chain_of_sites', state=state, n=n, epsilon=epsilon, limit=limit, sites=sites, bonds=bonds, starts=starts, marks=marks,
                matrix=matrix, u=u, vt=vt, scratch=scratch)
    each = [sites[starts[j]:starts[j + 1]].reshape(int(bonds[j]), 2, int(bonds[j + 1])).copy() for j in range(n)]
    cuts = [Cut(int(bonds[j + 1]), int(marks[3 * j]), bool(marks[3 * j + 1]), int(marks[3 * j + 2])) for j in range(n - 1)]
    return Chain(each, cuts, found.dropped)
