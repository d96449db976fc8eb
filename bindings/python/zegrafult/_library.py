"""The shared library, and the one way to call it: `ask`."""
import ctypes
import operator
import os
import pathlib
import re
import types

import numpy as np

from ._table import CALLS, VERSION
from .refusal import Refusal

NAME = 'libzegrafult.so'
# The version as the library tells it: 10000 major + 100 minor + patch.
NUMBER = sum(weight * int(part) for weight, part in zip((10000, 100, 1), VERSION.split('.')))
# The element types of the table: C's, numpy's, and how many bits a whole number has.
TYPES = {
    'f64': (ctypes.c_double, np.dtype(np.float64), None),
    'usize': (ctypes.c_size_t, np.dtype(np.uintp), 8 * ctypes.sizeof(ctypes.c_size_t)),
    'u64': (ctypes.c_uint64, np.dtype(np.uint64), 64),
    'u32': (ctypes.c_uint32, np.dtype(np.uint32), 32),
    'u8': (ctypes.c_uint8, np.dtype(np.uint8), 8),
    'bool': (ctypes.c_bool, np.dtype(np.bool_), None),
}


def places():
    """Where the library may stand, in the order in which it is looked for."""
    here = pathlib.Path(__file__).resolve().parent
    yield here / NAME
    named = os.environ.get('ZEGRAFULT_LIBRARY')
    if named:
        yield pathlib.Path(named) / NAME if os.path.isdir(named) else pathlib.Path(named)
    yield from (above / 'lib' / NAME for above in here.parents[1:4])


def load():
    """The library that is found first, with every call of the table."""
    tried = []
    for path in places():
        if path.is_file():
            try:
                library = ctypes.CDLL(str(path))
            except OSError as error:
                raise ImportError('%s cannot be loaded: %s' % (path, error)) from None
            for name in CALLS:
                if not hasattr(library, name):
                    raise ImportError('%s lacks %s: it is of another version than this package (%s)' % (path, name, VERSION))
            if library.zg_version() != NUMBER:
                raise ImportError('%s is of version %d, this package is %s, that is %d' % (path, library.zg_version(), VERSION, NUMBER))
            return library, str(path)
        tried.append(str(path))
    raise ImportError('%s is not found; tools/install puts it beside the package, or ZEGRAFULT_LIBRARY names it. Looked for: %s'
                      % (NAME, ', '.join(tried)))


def plan(row):
    """What to do for each argument of a call: (what, name, element type, count). A slice takes the length behind it along."""
    names = {name for name, _ in row}
    steps = []
    for name, kind in row:
        match = re.fullmatch(r'\*(const|mut) (\w+)(?:\[(\d+)\])?', kind)
        if match and match.group(3):
            steps.append(('array', name, match.group(2), int(match.group(3))))
        elif match and name + '_len' in names:
            steps.append(('slice', name, match.group(2), None))
        elif match:
            steps.append(('stored', name, match.group(2), None))
        elif not (name.endswith('_len') and name[:-4] in names):
            steps.append(('number', name, kind, None))
    return steps


def prepared(library):
    """{call: (the C function, its plan)}."""
    calls = {}
    for name, (result, row) in CALLS.items():
        function = getattr(library, name)
        function.restype = TYPES[result][0]
        function.argtypes = [ctypes.c_void_p if kind.startswith('*') else TYPES[kind][0] for _, kind in row]
        calls[name] = function, plan(row)
    return calls


def number(value, kind, name):
    """The number as C takes it: a whole one is within its type, never cut to it."""
    bits = TYPES[kind][2]
    if bits is None:
        return float(value) if kind == 'f64' else bool(value)
    value = operator.index(value)
    if not 0 <= value < 1 << bits:
        raise OverflowError('%s is %d, and the library takes whole numbers from 0 to 2^%d - 1' % (name, value, bits))
    return value


def ask(call, **given):
    """Makes a call with its arguments by name: for slices and arrays numpy arrays, complex ones for the numbers of cells, for the rest
    numbers. Gives what the call stores by reference as attributes, with `result` where it cannot refuse, or, where it stores
    nothing, its result. Raises Refusal on every answer but 0."""
    function, steps = _calls[call]
    words, stored, kept = [], {}, []
    for what, name, kind, count in steps:
        if what == 'number':
            words.append(number(given.pop(name), kind, name))
        elif what == 'stored':
            stored[name] = TYPES[kind][0]()
            words.append(ctypes.addressof(stored[name]))
        else:
            array = given.pop(name)
            if array.dtype == np.complex128 and kind == 'f64':
                array = array.reshape(-1).view(np.float64)
            if array.dtype != TYPES[kind][1] or not array.flags.c_contiguous or (count is not None and array.size != count):
                raise TypeError('%s of %s: not an array of %s%s' % (name, call, kind, '' if count is None else ', %d long' % count))
            kept.append(array)
            words += [array.ctypes.data, array.size] if what == 'slice' else [array.ctypes.data]
    if given:
        raise TypeError('%s has no %s' % (call, ', '.join(given)))
    result = function(*words)
    if 'place' in stored and result != 0:
        raise Refusal(int(result), stored['place'].value)
    if not stored:
        return result
    return types.SimpleNamespace(result=result, **{name: cell.value for name, cell in stored.items()})


_loaded, LIBRARY = load()
_calls = prepared(_loaded)
