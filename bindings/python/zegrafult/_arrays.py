"""What callers hand in, as the arrays that the library takes."""
import operator
import os

import numpy as np

from ._library import ask
from .refusal import Refusal

CAP = 13
ORDERS = ('bits', 'qutip')


def loaded(x):
    """An array from an array, a list, the path of a .npy file, or what has .full() as QuTiP's Qobj."""
    if isinstance(x, (str, os.PathLike)):
        x = np.load(x, allow_pickle=False)
        if not isinstance(x, np.ndarray):
            raise TypeError('the file holds more than one array')
    elif hasattr(x, 'full'):
        x = x.full()
    return np.asarray(x)


def typed(x, kind):
    x = loaded(x)
    if not np.can_cast(x.dtype, kind):
        raise TypeError('%s cannot be taken as %s without loss' % (x.dtype, np.dtype(kind)))
    return x.astype(kind, copy=False)


def cells(x):
    """Complex numbers, of whatever shape."""
    return typed(x, np.complex128)


def column_major(x):
    """A matrix's cells column after column, and its two sizes."""
    x = cells(x)
    if x.ndim != 2:
        raise ValueError('a matrix has two dimensions, this has %d' % x.ndim)
    return np.ascontiguousarray(x.T).reshape(-1), *x.shape


def square(x):
    """A square matrix's cells row after row, in a copy, and its side."""
    x = cells(x)
    if x.ndim != 2 or x.shape[0] != x.shape[1]:
        raise ValueError('the matrix is not square: %s' % (x.shape,))
    return np.array(x, order='C').reshape(-1), x.shape[0]


def values(x):
    """Real numbers in a row."""
    x = typed(x, np.float64)
    if x.ndim != 1:
        raise ValueError('values stand in one row, this has %d dimensions' % x.ndim)
    return np.ascontiguousarray(x)


def state_of(x, n=None):
    """A state's amplitudes and its count of qubits, which is the length's where it is not given."""
    x = cells(x)
    if x.ndim == 2 and x.shape[1] == 1:
        x = x[:, 0]
    if x.ndim != 1:
        raise ValueError('a state is one row or one column of amplitudes, this has the shape %s' % (x.shape,))
    return np.ascontiguousarray(x), max(x.size.bit_length() - 1, 0) if n is None else operator.index(n)


def whole(x):
    """A list of whole numbers from 0."""
    x = [x] if isinstance(x, (int, np.integer)) else list(x)
    x = [operator.index(i) for i in x]
    if any(not 0 <= i < 1 << 64 for i in x):
        raise ValueError('a list holds whole numbers from 0: %s' % x)
    return x


def renamed(listed, n, order):
    """The list as the library has it, and back: in QuTiP's order qubit q is bit n - 1 - q, and the first one listed is the
    highest bit of a row and not the lowest."""
    if order not in ORDERS:
        raise ValueError('the order is %s, not %r' % (' or '.join(map(repr, ORDERS)), order))
    return listed if order == 'bits' else [n - 1 - q if q < n else q for q in reversed(listed)]


def in_order(state, n, order):
    """The state with qubit q as bit q, where it was in QuTiP's order; one of a wrong length is left for the library to refuse."""
    renamed([], n, order)
    if order == 'bits' or state.size != power(n):
        return state
    return np.ascontiguousarray(state.reshape([2] * n).transpose()).reshape(-1)


def ask_of_list(call, qubits, n, order, **given):
    """`ask` with a list of qubits of a register of n. The place of a refusal is the caller's."""
    listed = whole(qubits)
    named = np.array(renamed(listed, n, order), dtype=np.uintp)
    try:
        return ask(call, list=named, n=n, **given)
    except Refusal as refusal:
        if order == 'bits' or refusal.number not in (2, 3):
            raise
    ask('zg_validate_qubit_set', list=np.ascontiguousarray(named[::-1]), n=n)
    raise AssertionError('the list was refused and is not')


def power(q):
    """2^q where the library takes q at all; for any other it refuses by 1 before it looks at a slice."""
    return 1 << q if 0 <= q <= 12 else 0


def area(*sides):
    """The cells of a matrix or a site where the library takes that many, else none, as above."""
    cells = 1
    for side in sides:
        cells *= side
    return cells if 0 <= cells <= 4096 else 0


def complex_zeros(count):
    return np.zeros(count, dtype=np.complex128)
