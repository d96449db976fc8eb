"""The certificate's arithmetic of a source tester, proved in Rattle, on numpy arrays.

A state of n qubits is an array of 2^n complex numbers, qubit q being bit q of the index. Where a state was made by QuTiP or by
numpy.kron from the left, say order="qutip": then the first qubit is the highest bit, and lists and results are in that order.
Arrays, lists, QuTiP's Qobj (anything with .full()) and paths of .npy files are taken alike. The same input gives the same bits.

>>> import numpy as np
>>> import zegrafult as zg
>>> bell = np.array([1, 0, 0, 1]) / np.sqrt(2)
>>> found = zg.dense_schmidt_values(bell, [0])
>>> found.values
array([0.70710678, 0.70710678])
>>> found.sweeps, found.quiet
(1, True)

A call that is refused raises Refusal, with the number and the place of the library's table and its meaning in words:

>>> zg.dense_schmidt_values(bell, [0, 0])
Traceback (most recent call last):
    ...
zegrafult.Refusal: refused 3 1: The qubit at list position 1 is listed twice.

What is not a number, a whole number or an array at all is a TypeError, ValueError or OverflowError and never reaches the library.

The import asks once whether the thread rounds to nearest and keeps subnormals, which every promise is about, and warns (RuntimeWarning)
where it does not; `environment()` tells it of any thread.

The shared library is looked for beside this package, where $ZEGRAFULT_LIBRARY says (a file or a folder), and in the lib folder of
the prefix that tools/install put the package into.

How a call is added: `tools/faces --write-python` puts its signature into _table.py; then a function of a few lines in the module
where it belongs makes the arrays it needs and hands them to `ask` by the names that the arguments have in the table (the lengths
and the references are seen to by `ask`), with a docstring whose example runs. `tools/faces` says which call has none yet."""
from ._library import LIBRARY
from ._table import VERSION as __version__
from .certificates import *
from .chains import *
from .densities import *
from .environment import *
from .factors import *
from .lists import *
from .lots import *
from .numbers import *
from .plans import *
from .refusal import Refusal
from .sites import *
from .slab import *
from .spectra import *

Refusal.__module__ = __name__  # as it is written where it is caught

if not environment():
    import warnings
    warnings.warn('zegrafult: this thread does not round to nearest or drops subnormals, as a library built with -ffast-math or fesetround '
                  'leaves it; what the calls promise is about one that does', RuntimeWarning, stacklevel=2)
