"""Up to 64 sites in one slab of 4,096 cells."""
from typing import NamedTuple

import numpy as np

from ._arrays import cells
from ._library import ask

__all__ = ['Held', 'Slab', 'SLAB_CELLS', 'SLAB_INDEX']

SLAB_CELLS = 4096
SLAB_INDEX = 193


class Held(NamedTuple):
    """A site that a slab holds: its number and its run of cells."""
    number: int
    start: int
    cells: int


class Slab:
    """A slab that owns its cells and its index. Data take any bits and are handed back bit for bit; a free cell is +0.0.

    >>> import zegrafult as zg
    >>> slab = zg.Slab()
    >>> slab.put(7, [1, 2])
    >>> slab.put(9, [3])
    >>> slab.drop(7)
    >>> slab.put(11, [4j])                  # the lowest run that fits: cell 0 again
    >>> slab.sites()
    [Held(number=9, start=2, cells=1), Held(number=11, start=0, cells=1)]
    >>> slab[9], 7 in slab
    (array([3.+0.j]), False)
    >>> slab.drop(7)
    Traceback (most recent call last):
        ...
    zegrafult.Refusal: refused 13 0: The site number is not held, or is held already.
    """

    def __init__(self, cells=None, index=None):
        """An empty slab, or one that was kept elsewhere: each call looks at it first and refuses by 1 where it is broken."""
        self.cells = np.zeros(SLAB_CELLS, dtype=np.complex128) if cells is None else np.array(cells, dtype=np.complex128)
        self.index = np.zeros(SLAB_INDEX, dtype=np.uint32) if index is None else np.array(index, dtype=np.uint32)

    def put(self, number, data):
        """Puts a new site into the lowest run of free cells that fits. Refused by 1, 13 (held already), 14, 15.

        >>> import zegrafult as zg
        >>> zg.Slab().put(1, [1j])
        """
        ask('zg_slab_put', cells=self.cells, index=self.index, site=number, data=np.ascontiguousarray(cells(data)).reshape(-1))

    def drop(self, number):
        """Takes a site out; its cells turn to +0.0. Refused by 1, 13.

        >>> import zegrafult as zg
        >>> slab = zg.Slab()
        >>> slab.put(1, [1j])
        >>> slab.drop(1)
        >>> slab.sites()
        []
        """
        ask('zg_slab_drop', cells=self.cells, index=self.index, site=number)

    def replace(self, number, data):
        """Gives a site new data, in the lowest run that fits where its old cells are free. Refused by 1, 13, 14.

        >>> import zegrafult as zg
        >>> slab = zg.Slab()
        >>> slab.put(1, [1j])
        >>> slab.replace(1, [2, 3])
        >>> slab[1]
        array([2.+0.j, 3.+0.j])
        """
        ask('zg_slab_replace', cells=self.cells, index=self.index, site=number, data=np.ascontiguousarray(cells(data)).reshape(-1))

    def sites(self):
        """The sites that are held, in the index's order.

        >>> import zegrafult as zg
        >>> zg.Slab().sites()
        []
        """
        held = min(int(self.index[0]), (SLAB_INDEX - 1) // 3)
        return [Held(*map(int, self.index[1 + 3 * i:4 + 3 * i])) for i in range(held)]

    def __contains__(self, number):
        return any(site.number == number for site in self.sites())

    def __getitem__(self, number):
        """A copy of a site's cells; KeyError where it is not held."""
        for site in self.sites():
            if site.number == number:
                return self.cells[site.start:site.start + site.cells].copy()
        raise KeyError(number)
