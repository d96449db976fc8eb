"""Lists of qubits and the cut."""
import numpy as np

from ._arrays import CAP, ask_of_list, complex_zeros, power, renamed, state_of, whole

__all__ = ['validate_qubit_set', 'validate_subsystem', 'row_offsets', 'traced_base', 'smaller_side', 'cut_matrix']


def validate_qubit_set(qubits, n):
    """Refuses a list that is no set of qubits of a register of n, by 1 to 4; else gives nothing.

    >>> import zegrafult as zg
    >>> zg.validate_qubit_set([2, 0], 3)
    """
    ask_of_list('zg_validate_qubit_set', qubits, n, 'bits')


def validate_subsystem(qubits, n):
    """The same, and by 5 where the list names every qubit.

    >>> import zegrafult as zg
    >>> zg.validate_subsystem([1, 0], 2)
    Traceback (most recent call last):
        ...
    zegrafult.Refusal: refused 5 0: The list names every qubit, so nothing is cut off.
    """
    ask_of_list('zg_validate_subsystem', qubits, n, 'bits')


def row_offsets(qubits, n, cap=CAP, order='bits'):
    """Bit i of t on listed qubit i, for each t from 0 to 2^k - 1.

    >>> import zegrafult as zg
    >>> zg.row_offsets([2, 0], 3)
    array([0, 4, 1, 5], dtype=uint64)
    """
    out = np.zeros(power(len(whole(qubits))), dtype=np.uintp)
    ask_of_list('zg_row_offsets', qubits, n, order, cap=cap, out=out)
    return out


def traced_base(e, qubits, n, cap=CAP, order='bits'):
    """e spread over the qubits that are not listed, lowest bit first.

    >>> import zegrafult as zg
    >>> zg.traced_base(3, [1], 3)
    5
    """
    return ask_of_list('zg_traced_base', qubits, n, order, e=e, cap=cap).base


def smaller_side(qubits, n, cap=CAP, order='bits'):
    """The qubits of the cut's smaller side: the list where it is the smaller, else the others, rising.

    >>> import zegrafult as zg
    >>> zg.smaller_side([3, 0, 1], 4)
    [2]
    >>> zg.smaller_side([0], 4)
    [0]
    """
    listed = whole(qubits)
    others = np.zeros(max(n - len(listed), 0) if n <= 12 else 0, dtype=np.uintp)
    ask_of_list('zg_smaller_side', listed, n, order, cap=cap, others=others)
    return listed if len(listed) <= n - len(listed) else renamed([int(q) for q in others], n, order)


def cut_matrix(state, qubits, n=None, cap=CAP, order='bits'):
    """The cut matrix: the settings of the smaller side are its rows, those of the other qubits its columns, the lowest qubit being the
    lowest bit of either, whatever the list's order. In QuTiP's order, with the first k qubits listed, it is state.reshape(2**k, -1).

    >>> import numpy as np
    >>> import zegrafult as zg
    >>> zg.cut_matrix(np.arange(8), [2]).real
    array([[0., 1., 2., 3.],
           [4., 5., 6., 7.]])
    >>> bool((zg.cut_matrix(np.arange(8), [0], order='qutip') == np.arange(8).reshape(2, 4)).all())
    True
    """
    state, n = state_of(state, n)
    listed = whole(qubits)
    out = complex_zeros(power(n))
    ask_of_list('zg_cut_matrix', listed, n, order, state=state, cap=cap, out=out)
    side = min(len(listed), n - len(listed))
    return out.reshape(1 << (n - side), 1 << side).T
