"""A cut kept: its masks, sizes, named list and smaller side's list, changed by one qubit at a time."""
import numpy as np

from ._arrays import CAP, area, complex_zeros, power, state_of, whole
from ._library import ask
from .spectra import CutValues

__all__ = ['Plan', 'PLAN_NUMBERS']

PLAN_NUMBERS = 30


class Plan:
    """A plan of a cut. A change gives a new plan, the one that Plan makes of the changed list, or raises Refusal; the plan it was
    asked of stays as it is.

    >>> import zegrafult as zg
    >>> plan = zg.Plan([4, 1], 5).added(0)          # 0 at the list's end
    >>> plan.named, plan.smaller                    # the others are fewer, so they are the rows
    ([4, 1, 0], [2, 3])
    >>> plan.row_mask, plan.column_mask, plan.rows, plan.columns
    (12, 19, 4, 8)
    >>> plan.dropped(4).named, plan.switched().switched().named
    ([1, 0], [0, 1, 4])
    >>> plan.added(1)
    Traceback (most recent call last):
        ...
    zegrafult.Refusal: refused 3 3: The qubit at list position 3 is listed twice.
    """

    def __init__(self, qubits, n, cap=CAP):
        """A plan of the list. Refused as a cut without its state, by 1 to 5."""
        self.numbers = np.zeros(PLAN_NUMBERS, dtype=np.uintp)
        ask('zg_cut_plan', list=np.array(whole(qubits), dtype=np.uintp), n=n, cap=cap, plan=self.numbers)

    @classmethod
    def of_numbers(cls, numbers):
        """A plan from its thirty numbers, as it was kept elsewhere: each call looks at it first and refuses by 1 where no list makes
        it.

        >>> import zegrafult as zg
        >>> plan = zg.Plan([1], 3)
        >>> zg.Plan.of_numbers(plan.numbers) == plan
        True
        >>> zg.Plan.of_numbers([0] * 30).switched()
        Traceback (most recent call last):
            ...
        zegrafult.Refusal: refused 1 0: A size is out of the range that the library takes.
        """
        plan = cls.__new__(cls)
        plan.numbers = np.array(numbers, dtype=np.uintp)
        return plan

    def added(self, qubit):
        """The plan with the qubit at its list's end. Refused by 1, then 2 and 3 at place k, then 5.

        >>> import zegrafult as zg
        >>> zg.Plan([2], 4).added(0).named
        [2, 0]
        """
        return self._changed('zg_plan_add', qubit=qubit)

    def dropped(self, qubit):
        """The plan without the qubit, the gap closed. Refused by 1, then 12, then 4.

        >>> import zegrafult as zg
        >>> zg.Plan([3, 0, 2], 5).dropped(3).named
        [0, 2]
        """
        return self._changed('zg_plan_drop', qubit=qubit)

    def switched(self):
        """The plan of the other side, rising. Refused by 1 alone.

        >>> import zegrafult as zg
        >>> zg.Plan([3, 0], 5).switched().named
        [1, 2, 4]
        """
        return self._changed('zg_plan_switch')

    def cut_matrix(self, state):
        """cut_matrix of the plan's list under cap 13, over the masks and sizes that the plan keeps. Refused by 1, then as there.

        >>> import numpy as np
        >>> import zegrafult as zg
        >>> zg.Plan([2], 3).cut_matrix(np.arange(8)).real
        array([[0., 1., 2., 3.],
               [4., 5., 6., 7.]])
        """
        state, _ = state_of(state, self.n)
        out = complex_zeros(power(self.n))
        ask('zg_planned_cut_matrix', state=state, plan=self.numbers, out=out)
        return out.reshape(self.columns, self.rows).T

    def schmidt_values(self, state):
        """dense_schmidt_values of the plan's list under cap 13. Refused by 1, then as there.

        >>> import zegrafult as zg
        >>> ghz = [1, 0, 0, 0, 0, 0, 0, 1]
        >>> zg.Plan([2], 3).added(0).schmidt_values(ghz).values
        array([0.70710678, 0.70710678])
        """
        state, n = state_of(state, self.n)
        side = power(max(min(self.k, n - self.k), 0))
        out, scratch = np.zeros(side), np.zeros(8 * power(n) + 2 * side)
        found = ask('zg_planned_schmidt_values', state=state, plan=self.numbers, out=out, scratch=scratch)
        return CutValues(out[:found.count].copy(), found.sweeps, found.quiet, found.turned, found.exact)

    def reduced_density(self, state):
        """dense_reduced_density of the plan's list under cap 13. Refused by 1, then as there: by 1 again where it names more than six
        qubits.

        >>> import zegrafult as zg
        >>> zg.Plan([0], 2).reduced_density([3, 0, 0, 4]).real
        array([[ 9.,  0.],
               [ 0., 16.]])
        """
        state, _ = state_of(state, self.n)
        dim = power(self.k)
        out, scratch = complex_zeros(area(dim, dim)), complex_zeros(dim)
        ask('zg_planned_reduced_density', state=state, plan=self.numbers, out=out, scratch=scratch)
        return out.reshape(dim, dim)

    def _changed(self, call, **given):
        plan = Plan.of_numbers(self.numbers)
        ask(call, plan=plan.numbers, **given)
        return plan

    n = property(lambda self: int(self.numbers[0]), doc='The register.')
    k = property(lambda self: int(self.numbers[1]), doc='How many qubits are named.')
    row_mask = property(lambda self: int(self.numbers[2]), doc="The mask of the rows' qubits.")
    column_mask = property(lambda self: int(self.numbers[3]), doc="The mask of the columns' qubits.")
    rows = property(lambda self: int(self.numbers[4]), doc='2^side, side being the smaller of k and n - k.')
    columns = property(lambda self: int(self.numbers[5]), doc='2^(n - side).')
    named = property(lambda self: [int(q) for q in self.numbers[6:18]][:self.k], doc='The named list in its order.')
    smaller = property(lambda self: [int(q) for q in self.numbers[18:]][:max(min(self.k, self.n - self.k), 0)],
                       doc="The smaller side's list: the named one in its order, or the others rising.")

    def __eq__(self, other):
        return isinstance(other, Plan) and bool((self.numbers == other.numbers).all())

    def __hash__(self):
        return hash(self.numbers.tobytes())

    def __repr__(self):
        return 'Plan(%r, %d)' % (self.named, self.n)
