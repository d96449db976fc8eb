"""The library's version, and the floating-point environment that the promises are about."""
import struct

from ._library import ask

__all__ = ['environment', 'version']


def version():
    """The version of the shared library, 10000 major + 100 minor + patch. It is that of the package (`__version__`), else the import fails.

    >>> import zegrafult as zg
    >>> zg.version()
    100
    """
    return ask('zg_version')


def environment():
    """Whether this thread rounds to nearest, ties to even, and keeps subnormals. The promises of every call are about such a thread;
    something linked with -ffast-math may have changed it. Ask once in each thread that calls the library, before its first call.

    >>> import zegrafult as zg
    >>> zg.environment()
    True
    """
    def of(bits):
        return struct.unpack('<d', struct.pack('<Q', bits))[0]

    def bits(x):
        return struct.unpack('<Q', struct.pack('<d', x))[0]

    one, tie, above = of(0x3FF0000000000000), of(0x3CA0000000000000), of(0x3CA8000000000000)
    least, subnormal = of(0x0010000000000000), of(0x0008000000000000)
    half, two = of(0x3FE0000000000000), of(0x4000000000000000)
    return (bits(one + tie) == bits(one) and bits(-one - tie) == bits(-one) and bits(one + above) == bits(one) + 1
            and bits(least * half) == 0x0008000000000000 and bits(subnormal * two) == 0x0010000000000000)
