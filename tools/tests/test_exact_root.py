"""The mark of `zg_sqrt_marked` against whole numbers. Needs target/staticlib/libexports.a (tools/library) and a C compiler;
EXACT_ROOTS says how many floats are asked (100,000; a million take some six seconds)."""
import ctypes
import importlib.machinery
import importlib.util
import itertools
import math
import os
import random
import struct
import unittest

ROOT = os.path.join(os.path.dirname(os.path.abspath(__file__)), '..', '..')
ARCHIVE = os.path.join(ROOT, 'target', 'staticlib', 'libexports.a')
COUNT = int(os.environ.get('EXACT_ROOTS', '100000'))
INF = 0x7FF << 52
SIGN = 1 << 63


def tool():
    loader = importlib.machinery.SourceFileLoader('countersign_tool', os.path.join(ROOT, 'tools', 'countersign'))
    module = importlib.util.module_from_spec(importlib.util.spec_from_loader('countersign_tool', loader))
    loader.exec_module(module)
    return module


def float_of(bits):
    return struct.unpack('<d', struct.pack('<Q', bits))[0]


def bits_of(x):
    return struct.unpack('<Q', struct.pack('<d', x))[0]


def even(bits):
    """Whether the pattern's float is the square of a float. x is m * 2^k with m odd: its root is one exactly where k is even and m is
    a square, and then has half of m's digits. Nothing of the library and no float is consulted."""
    if bits in (0, SIGN):
        return True
    if bits >= INF:
        return False
    field, digits = bits >> 52, bits & (1 << 52) - 1
    if field:
        digits |= 1 << 52
    zeros = (digits & -digits).bit_length() - 1
    power = max(field, 1) - 1075 + zeros
    return power % 2 == 0 and math.isqrt(digits >> zeros) ** 2 == digits >> zeros


def patterns(draw):
    """Squares of up to 27 digits times powers of four, their neighbours, subnormal ones, any bits, and the edges."""
    yield from (0, 1, 2, 3, 4, 9, SIGN, SIGN + 1, SIGN + 4, INF - 1, INF, INF + 1, INF | SIGN, 0x7FF8 << 48, 1 << 52, (1 << 52) - 1)
    while True:
        root = draw.getrandbits(draw.choice([3, 9, 18, 26, 26, 26, 27]))
        square = bits_of(math.ldexp(root * root % 2 ** 53, 2 * draw.randint(-550, 480)))
        yield from (square, square + 1, max(square - 1, 0), square | SIGN)
        if root < 1 << 26:
            yield (root * root) % (1 << 52)
            yield (root * root + draw.choice([1, 4, 1 << 20])) % (1 << 52)
        yield draw.getrandbits(64)
        yield draw.getrandbits(63)


@unittest.skipUnless(os.path.exists(ARCHIVE), 'the static library is not built')
class ExactRoot(unittest.TestCase):
    def test_marks(self):
        call = tool().shared(ARCHIVE).zg_sqrt_marked
        plain = tool().shared(ARCHIVE).zg_sqrt
        call.restype = plain.restype = ctypes.c_double
        call.argtypes, plain.argtypes = [ctypes.c_double, ctypes.POINTER(ctypes.c_bool)], [ctypes.c_double]
        mark = ctypes.c_bool()
        asked = yes = 0
        for bits in itertools.islice(patterns(random.Random(12)), COUNT):
            x = float_of(bits)
            root = call(x, ctypes.byref(mark))
            self.assertEqual(mark.value, even(bits), '%016X' % bits)
            self.assertEqual(bits_of(root), bits_of(plain(x)), '%016X' % bits)
            if mark.value:
                self.assertEqual(root * root, x, '%016X' % bits)
            asked, yes = asked + 1, yes + mark.value
        self.assertTrue(asked / 8 < yes < asked / 2, (asked, yes))
        print('%d floats, %d of them even' % (asked, yes))


if __name__ == '__main__':
    unittest.main()
