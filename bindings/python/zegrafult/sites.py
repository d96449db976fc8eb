"""Ranks and the sites of a chain. A fill takes a matrix, or cells in a row with the count of cells from one column (or row) to the next."""
import numpy as np

from ._arrays import area, cells, column_major, complex_zeros, values
from ._library import ask

__all__ = ['truncated_svd_rank', 'discards_resolvable_weight', 'cut_rank', 'widest_block_cut', 'fill_isometry_site_data',
           'fill_scaled_u_site_data', 'fill_vt_site_data', 'fill_scaled_vt_data']


def truncated_svd_rank(s, epsilon, max_bond_dim):
    """How many values are above epsilon times the first, at least 1, at most max_bond_dim. Any bits are taken.

    >>> import zegrafult as zg
    >>> zg.truncated_svd_rank([1.0, 0.5, 0.25], 0.3, 8)
    2
    """
    return ask('zg_truncated_svd_rank', values=values(s), epsilon=epsilon, max_bond_dim=max_bond_dim).rank


def discards_resolvable_weight(s, chi):
    """Whether keeping chi values drops one above 2^-50 times the first. Any bits are taken.

    >>> import zegrafult as zg
    >>> zg.discards_resolvable_weight([1.0, 1e-20], 1)
    False
    """
    return ask('zg_discards_resolvable_weight', values=values(s), chi=chi).yes


def cut_rank(bond_left, bond_mid, bond_right):
    """The rank of the cut between two sites; bonds 0 to 4,096.

    >>> import zegrafult as zg
    >>> zg.cut_rank(2, 8, 3)
    4
    """
    return ask('zg_cut_rank', bond_left=bond_left, bond_mid=bond_mid, bond_right=bond_right).rank


def widest_block_cut(bond_left, bond_right, n):
    """The widest cut inside a block of n sites (1 to 16); bonds 0 to 4,096.

    >>> import zegrafult as zg
    >>> zg.widest_block_cut(1, 1, 4)
    4
    """
    return ask('zg_widest_block_cut', bond_left=bond_left, bond_right=bond_right, n=n).rank


def columns_of(x, stride):
    """Cells column after column, and how many from one column to the next."""
    if stride is None:
        x, stride, _ = column_major(x)
        return x, stride
    return np.ascontiguousarray(cells(x)).reshape(-1), stride


def rows_of(x, row_len):
    """Cells row after row, and how many from one row to the next."""
    x = cells(x)
    if row_len is None:
        if x.ndim != 2:
            raise ValueError('a matrix has two dimensions, this has %d' % x.ndim)
        row_len = x.shape[1]
    return np.ascontiguousarray(x).reshape(-1), row_len


def filled(call, shape, **given):
    """The site that a fill writes."""
    out = complex_zeros(area(*shape))
    ask(call, out=out, **given)
    return out.reshape(shape)


def fill_isometry_site_data(columns, bond_left, chi, stride=None):
    """A site of shape (bond_left, 2, chi) from the first chi columns of an isometry.

    >>> import zegrafult as zg
    >>> zg.fill_isometry_site_data([[1, 0, 7], [0, 1, 7]], 1, 2).real
    array([[[1., 0.],
            [0., 1.]]])
    """
    columns, stride = columns_of(columns, stride)
    return filled('zg_fill_isometry_site_data', (bond_left, 2, chi), columns=columns, stride=stride, bond_left=bond_left, chi=chi)


def fill_scaled_u_site_data(u, s, bond_left, chi, stride=None):
    """The same from the columns of U, each times its singular value.

    >>> import zegrafult as zg
    >>> zg.fill_scaled_u_site_data([[1, 0], [0, 1]], [3, 2], 1, 2).real
    array([[[3., 0.],
            [0., 2.]]])
    """
    u, stride = columns_of(u, stride)
    return filled('zg_fill_scaled_u_site_data', (bond_left, 2, chi), u=u, s=values(s), stride=stride, bond_left=bond_left, chi=chi)


def fill_vt_site_data(vt, chi, physical_dim, bond_right, row_len=None):
    """A site of shape (chi, physical_dim, bond_right) from the first chi rows of V†.

    >>> import zegrafult as zg
    >>> zg.fill_vt_site_data([[1, 2], [3, 4]], 1, 2, 1).real
    array([[[1.],
            [2.]]])
    """
    vt, row_len = rows_of(vt, row_len)
    return filled('zg_fill_vt_site_data', (chi, physical_dim, bond_right), vt=vt, row_len=row_len, chi=chi, physical_dim=physical_dim,
                  bond_right=bond_right)


def fill_scaled_vt_data(s, vt, chi, physical_dim, bond_right, row_len=None):
    """The same with each row times its singular value.

    >>> import zegrafult as zg
    >>> zg.fill_scaled_vt_data([10, 1], [[1, 2], [3, 4]], 2, 2, 1).real
    array([[[10.],
            [20.]],
    <BLANKLINE>
           [[ 3.],
            [ 4.]]])
    """
    vt, row_len = rows_of(vt, row_len)
    return filled('zg_fill_scaled_vt_data', (chi, physical_dim, bond_right), s=values(s), vt=vt, row_len=row_len, chi=chi,
                  physical_dim=physical_dim, bond_right=bond_right)
