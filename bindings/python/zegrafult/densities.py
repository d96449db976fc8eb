"""Density matrices. Each call gives a new array and leaves what it was given."""
import numpy as np

from ._arrays import CAP, area, ask_of_list, column_major, complex_zeros, power, square, state_of, whole
from ._library import ask

__all__ = ['dense_reduced_density', 'density_from_cut', 'pages_agree', 'mirror_lower_triangle', 'normalize_trace', 'multiply_block_factor']


def dense_reduced_density(state, qubits, n=None, cap=CAP, order='bits'):
    """The unscaled reduced density matrix of the listed qubits: of a row's number, bit i is listed qubit i; in QuTiP's order the first
    one listed is the highest bit, as state.ptrace(qubits) has it. A zero state and the whole register are taken.

    >>> import zegrafult as zg
    >>> zg.dense_reduced_density([3, 0, 0, 4], [0]).real
    array([[ 9.,  0.],
           [ 0., 16.]])
    """
    state, n = state_of(state, n)
    dim = power(len(whole(qubits)))
    out, scratch = complex_zeros(area(dim, dim)), complex_zeros(dim)
    ask_of_list('zg_dense_reduced_density', qubits, n, order, state=state, cap=cap, out=out, scratch=scratch)
    return out.reshape(dim, dim)


def density_from_cut(matrix, qubits, n=None, cap=CAP, order='bits'):
    """The same density matrix, bit for bit, from the cut matrix that cut_matrix gives for this list.

    >>> import numpy as np
    >>> import zegrafult as zg
    >>> state = np.arange(8) + 1j
    >>> same = zg.density_from_cut(zg.cut_matrix(state, [2, 0]), [2, 0]) == zg.dense_reduced_density(state, [2, 0])
    >>> bool(same.all())
    True
    """
    matrix, rows, columns = column_major(matrix)
    matrix, n = state_of(matrix, n)
    dim = power(len(whole(qubits)))
    out = complex_zeros(area(dim, dim))
    ask_of_list('zg_density_from_cut', qubits, n, order, matrix=matrix, cap=cap, out=out)
    return out.reshape(dim, dim)


def pages_agree(state, qubits, n=None, cap=CAP, order='bits'):
    """Whether the two calls above give the same bits: True for every state that is not refused.

    >>> import zegrafult as zg
    >>> zg.pages_agree([1, 2, 3, 4, 5, 6, 7, 8j], [2, 0])
    True
    """
    state, n = state_of(state, n)
    return ask_of_list('zg_pages_agree', qubits, n, order, state=state, cap=cap).yes


def mirror_lower_triangle(rho):
    """The upper half becomes the conjugate of the lower, the diagonal stays.

    >>> import zegrafult as zg
    >>> zg.mirror_lower_triangle([[1, 9], [2j, 3]])
    array([[1.+0.j, 0.-2.j],
           [0.+2.j, 3.+0.j]])
    """
    rho, dim = square(rho)
    ask('zg_mirror_lower_triangle', rho=rho, dim=dim)
    return rho.reshape(dim, dim)


def normalize_trace(rho):
    """Each cell times 1/trace. Refused by 8 where the trace is zero, by 9 where a result is not finite.

    >>> import zegrafult as zg
    >>> zg.normalize_trace([[1, 0], [0, 3]]).real
    array([[0.25, 0.  ],
           [0.  , 0.75]])
    """
    rho, dim = square(rho)
    ask('zg_normalize_trace', rho=rho, dim=dim)
    return rho.reshape(dim, dim)


def multiply_block_factor(rho, positions, factor):
    """Each cell times the factor's cell at the bits of its row and column that stand at the positions.

    >>> import zegrafult as zg
    >>> zg.multiply_block_factor([[1, 1], [1, 1]], [0], [[1, 0.5], [0.5, 1]]).real
    array([[1. , 0.5],
           [0.5, 1. ]])
    """
    rho, dim = square(rho)
    factor, side = square(factor)
    positions = np.array(whole(positions), dtype=np.uintp)
    ask('zg_multiply_block_factor', rho=rho, dim=dim, positions=positions, factor=factor, side=side)
    return rho.reshape(dim, dim)
