"""The night batch: the sheet of a lot of cut files."""
from typing import NamedTuple

import numpy as np

from ._library import ask

__all__ = ['LotSheet', 'lot_sheet']


class LotSheet(NamedTuple):
    """How many files gave each answer from 0 to 10, how many kept each rank from 1 to 16 (rank r at r - 1), the smallest and the
    largest rank with the first file that had it, counted from 1 (zeros where none was accepted), and the sum of the ranks."""
    answers: list
    ranks: list
    smallest: int
    smallest_file: int
    largest: int
    largest_file: int
    sum: int


def lot_sheet(lot):
    """The sheet of a lot: bytes of a u32 count of files, each one's u32 length, then the files, all little-endian.

    >>> import struct, zegrafult as zg
    >>> sheet = zg.lot_sheet(struct.pack('<III', 2, 3, 0) + b'abc')
    >>> sheet.answers[10], sheet.sum
    (2, 0)
    """
    sheet = np.zeros(32, dtype=np.uintp)
    ask('zg_lot_sheet', lot=np.frombuffer(bytes(lot), dtype=np.uint8), sheet=sheet)
    numbers = [int(x) for x in sheet]
    return LotSheet(numbers[:11], numbers[11:27], *numbers[27:])
