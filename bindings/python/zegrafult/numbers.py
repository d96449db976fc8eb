"""Number helpers: nothing is refused. Each takes a number, or arrays, and then works on each of their numbers."""
from typing import NamedTuple

import numpy as np

from ._arrays import loaded
from ._library import ask

__all__ = ['sqrt', 'sqrt_bits', 'Marked', 'sqrt_marked', 'modulus', 'magnitude', 'sign', 'is_finite', 'component_allowed', 'total_less', 'total_order']


def each(call, kind, *rows):
    """The call on each of the numbers; `rows` are its arguments by name."""
    names = [name for name, _ in rows]
    arrays = np.broadcast_arrays(*(loaded(x) for _, x in rows))
    if arrays[0].ndim == 0:
        return ask(call, **{name: array.item() for name, array in zip(names, arrays)})
    out = np.empty(arrays[0].shape, dtype=kind)
    for at in np.ndindex(out.shape):
        out[at] = ask(call, **{name: array[at].item() for name, array in zip(names, arrays)})
    return out


def sqrt(x):
    """The float nearest to the exact square root.

    >>> import zegrafult as zg
    >>> zg.sqrt(2.0).hex()
    '0x1.6a09e667f3bcdp+0'
    >>> zg.sqrt([4.0, -1.0])
    array([ 2., nan])
    """
    return each('zg_sqrt', np.float64, ('x', x))


def sqrt_bits(bits):
    """The same on 64-bit patterns; a NaN is 7FF8000000000000.

    >>> import zegrafult as zg
    >>> hex(zg.sqrt_bits(0x4010000000000000))
    '0x4000000000000000'
    """
    return each('zg_sqrt_bits', np.uint64, ('b', bits))


class Marked(NamedTuple):
    """A square root, and whether its square, as real numbers, is the argument; of an array, arrays."""
    root: float
    exact: bool


def sqrt_marked(x):
    """The root of a number, and whether it came out even. Both zeros yes; an infinity, a NaN and a negative number no. Of an array, two
    arrays.

    >>> import zegrafult as zg
    >>> zg.sqrt_marked(2.25), zg.sqrt_marked(2.0).exact
    (Marked(root=1.5, exact=True), False)
    >>> zg.sqrt_marked([4.0, 2.0]).exact
    array([ True, False])
    """
    x = loaded(x)
    if x.ndim == 0:
        found = ask('zg_sqrt_marked', x=x.item())
        return Marked(found.result, found.exact)
    marked = [ask('zg_sqrt_marked', x=number.item()) for number in x.reshape(-1)]
    return Marked(*(np.array([getattr(m, part) for m in marked], dtype=kind).reshape(x.shape) for part, kind in (('result', np.float64), ('exact', np.bool_))))


def modulus(z):
    """The modulus of a complex number: both parts scaled first, so that tiny ones are not lost and huge ones do not overflow.

    >>> import zegrafult as zg
    >>> zg.modulus(3e-200 - 4e-200j)
    5e-200
    """
    z = loaded(z)
    return each('zg_modulus', np.float64, ('re', z.real), ('im', z.imag))


def magnitude(x):
    """The sign cleared, that of -0 too.

    >>> import zegrafult as zg
    >>> zg.magnitude([-0.0, -3.0])
    array([0., 3.])
    """
    return each('zg_magnitude', np.float64, ('x', x))


def sign(x):
    """1 for +0.0 and above, -1 for -0.0 and below, NaN for NaN.

    >>> import zegrafult as zg
    >>> zg.sign(-0.0)
    -1.0
    """
    return each('zg_sign', np.float64, ('x', x))


def is_finite(x):
    """Whether a number is neither infinite nor a NaN.

    >>> import zegrafult as zg
    >>> zg.is_finite(float('inf'))
    False
    """
    return each('zg_is_finite', np.bool_, ('x', x))


def component_allowed(x):
    """Finite and of magnitude at most 2^200.

    >>> import zegrafult as zg
    >>> zg.component_allowed([2.0 ** 200, 2.0 ** 201])
    array([ True, False])
    """
    return each('zg_component_allowed', np.bool_, ('x', x))


def total_less(x, y):
    """Whether x is below y in the total order: -0 is below +0, a NaN above all else.

    >>> import zegrafult as zg
    >>> zg.total_less(-0.0, 0.0)
    True
    """
    return each('zg_total_less', np.bool_, ('x', x), ('y', y))


def total_order(x, y):
    """-1 where x is below y in the total order, 0 where they are equal, 1 where it is above.

    >>> import zegrafult as zg
    >>> zg.total_order([0.0, 1.0, float('nan')], [-0.0, 1.0, float('inf')])
    array([1, 0, 1])
    """
    found = each('zg_total_order', np.int64, ('x', x), ('y', y))
    return found - 1
