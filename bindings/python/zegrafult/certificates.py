"""The certificate of a cut file as text: what `cutprint` and `pageprint` print, byte for byte."""
import os
from typing import NamedTuple

import numpy as np

from ._library import ask
from .refusal import Refusal

__all__ = ['Printout', 'certificate', 'certificate_pages']


class Printout(NamedTuple):
    """The text, and the file's answer with its place. A refused file (any answer but 0) has a text too, `refused NUMBER PLACE`; of both
    pages, 8 and 9 refuse page one alone, and the text has both."""
    text: str
    number: int
    place: int


def printed(call, file, room):
    if isinstance(file, (str, os.PathLike)):
        with open(file, 'rb') as opened:
            file = opened.read()
    text = np.zeros(room, dtype=np.uint8)
    number = place = 0
    try:
        ask(call, file=np.frombuffer(bytes(file), dtype=np.uint8), text=text)
    except Refusal as refused:
        number, place = refused.number, refused.place
    # no printout has a zero byte, and behind it the text stays as it was lent
    return Printout(bytes(text).split(b'\0', 1)[0].decode('ascii'), number, place)


def certificate(file):
    """Page one of the certificate of a cut file, given as bytes or by its path: the Schmidt values, as `cutprint` prints them.

    >>> import struct, zegrafult as zg
    >>> file = struct.pack('<4s5I2I8d', b'CUT1', 2, 1, 24, 32, 96, 0, 0, 3, 0, 0, 0, 0, 0, 4, 0)
    >>> print(zg.certificate(file).text, end='')
    cut 2 1 2 2
    side 0
    value 0 3FE999999999999A
    value 1 3FE3333333333334
    entropy 64776825755 64793602970 68719472640
    end 2 1 yes
    >>> zg.certificate(file[:-1])
    Printout(text='refused 10 0\\n', number=10, place=0)
    """
    return printed('zg_certificate', file, 2048)


def certificate_pages(file):
    """Both pages of the certificate of a cut file, given as bytes or by its path, as `pageprint` prints them: the values, then the
    reduced density matrix of the named qubits. docs/CONVENTIONS.md has the lines.

    >>> import struct, zegrafult as zg
    >>> file = struct.pack('<4s5I2I8d', b'CUT1', 2, 1, 24, 32, 96, 0, 0, 3, 0, 0, 0, 0, 0, 4, 0)
    >>> print(zg.certificate_pages(file).text.partition('page 2')[2], end='')
    <BLANKLINE>
    digest F481C72C9ED66E85
    list 0
    cell 0 0 4022000000000000 0000000000000000
    cell 0 1 0000000000000000 8000000000000000
    cell 1 0 0000000000000000 0000000000000000
    cell 1 1 4030000000000000 0000000000000000
    trace 4039000000000000
    kept 4039000000000000
    scaled 0 0 3FD70A3D70A3D70A 0000000000000000
    scaled 0 1 0000000000000000 8000000000000000
    scaled 1 0 0000000000000000 0000000000000000
    scaled 1 1 3FE47AE147AE147B 0000000000000000
    summed yes
    end pages
    """
    return printed('zg_certificate_pages', file, 102400)
