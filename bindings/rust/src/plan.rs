//! A cut kept: its masks, sizes, named list and smaller side's list, changed by one qubit at a time.
use crate::{ffi, refusal::answered, Refusal};

/// The numbers of a plan.
const NUMBERS: usize = 30;
const _: () = assert!(size_of::<Plan>() == NUMBERS * size_of::<usize>());

/// A plan of a cut: a plain value. A change hands back the changed plan, which is what [`Plan::new`] makes of the changed list, or the
/// refusal; the plan it was asked of stays as it is.
///
/// ```
/// use zegrafult::Plan;
///
/// let plan = Plan::new(&[4, 1], 5, 13)?.with(0)?; // 0 at the list's end
/// assert_eq!(plan.list(), [4, 1, 0]);
/// assert_eq!(plan.smaller_list(), [2, 3]); // the others are fewer, so they are the rows
/// assert_eq!((plan.row_mask, plan.column_mask, plan.rows, plan.columns), (0b01100, 0b10011, 4, 8));
/// assert_eq!(plan.without(4)?.list(), [1, 0]);
/// assert_eq!(plan.switched()?.switched()?.list(), [0, 1, 4]);
/// assert_eq!(plan.with(1), Err(zegrafult::Refusal::Twice(3)));
/// # Ok::<(), zegrafult::Refusal>(())
/// ```
#[repr(C)]
#[derive(Clone, Copy, Debug, PartialEq, Eq, Hash)]
pub struct Plan {
    /// The register.
    pub n: usize,
    /// How many qubits are named.
    pub k: usize,
    /// The mask of the rows' qubits.
    pub row_mask: usize,
    /// The mask of the columns' qubits.
    pub column_mask: usize,
    /// 2^side, side being the smaller of k and n - k.
    pub rows: usize,
    /// 2^(n - side).
    pub columns: usize,
    /// The named list in its order; unused places hold 0.
    pub named: [usize; 12],
    /// The smaller side's list: the named one in its order, or the others rising; unused places hold 0.
    pub smaller: [usize; 12],
}

impl Plan {
    /// A plan of the list. Refused as a cut without its state, by 1 to 5.
    ///
    /// ```
    /// use zegrafult::{Plan, Refusal, CAP};
    ///
    /// assert_eq!(Plan::new(&[2], 3, CAP)?.row_mask, 0b100);
    /// assert_eq!(Plan::new(&[0, 1], 2, CAP), Err(Refusal::Whole));
    /// # Ok::<(), Refusal>(())
    /// ```
    pub fn new(list: &[usize], n: usize, cap: usize) -> Result<Plan, Refusal> {
        let mut plan =
            Plan { n: 0, k: 0, row_mask: 0, column_mask: 0, rows: 0, columns: 0, named: [0; 12], smaller: [0; 12] };
        let mut place = 0;
        // SAFETY: the list is borrowed for the call with its length; a plan is 30 numbers without padding, as the call wants.
        let answer =
            unsafe { ffi::zg_cut_plan(list.as_ptr(), list.len(), n, cap, plan.numbers(), &mut place) };
        answered(answer, place, plan)
    }

    /// The plan with the qubit at its list's end. Refused by 1 where no list makes the plan, then by 2 and 3 at place k, then by 5.
    ///
    /// ```
    /// use zegrafult::{Plan, Refusal, CAP};
    ///
    /// let plan = Plan::new(&[2], 3, CAP)?;
    /// assert_eq!(plan.with(0)?, Plan::new(&[2, 0], 3, CAP)?);
    /// assert_eq!(plan.with(3), Err(Refusal::OutOfRange(1)));
    /// # Ok::<(), Refusal>(())
    /// ```
    pub fn with(mut self, qubit: usize) -> Result<Plan, Refusal> {
        let mut place = 0;
        // SAFETY: a plan is 30 numbers without padding, as the call wants, and this one is owned.
        let answer = unsafe { ffi::zg_plan_add(self.numbers(), qubit, &mut place) };
        answered(answer, place, self)
    }

    /// The plan without the qubit, the gap closed. Refused by 1 where no list makes the plan, then by 12 (not listed), then by 4.
    ///
    /// ```
    /// use zegrafult::{Plan, Refusal, CAP};
    ///
    /// let plan = Plan::new(&[2, 0, 1], 4, CAP)?;
    /// assert_eq!(plan.without(0)?.list(), [2, 1]);
    /// assert_eq!(plan.without(3), Err(Refusal::NotListed));
    /// # Ok::<(), Refusal>(())
    /// ```
    pub fn without(mut self, qubit: usize) -> Result<Plan, Refusal> {
        let mut place = 0;
        // SAFETY: a plan is 30 numbers without padding, as the call wants, and this one is owned.
        let answer = unsafe { ffi::zg_plan_drop(self.numbers(), qubit, &mut place) };
        answered(answer, place, self)
    }

    /// The plan of the other side, rising. Refused by 1 where no list makes the plan, and by nothing else.
    ///
    /// ```
    /// use zegrafult::{Plan, CAP};
    ///
    /// assert_eq!(Plan::new(&[2, 0], 4, CAP)?.switched()?.list(), [1, 3]);
    /// # Ok::<(), zegrafult::Refusal>(())
    /// ```
    pub fn switched(mut self) -> Result<Plan, Refusal> {
        let mut place = 0;
        // SAFETY: a plan is 30 numbers without padding, as the call wants, and this one is owned.
        let answer = unsafe { ffi::zg_plan_switch(self.numbers(), &mut place) };
        answered(answer, place, self)
    }

    /// The named list; at most the twelve places.
    ///
    /// ```
    /// assert_eq!(zegrafult::Plan::new(&[2, 0], 4, 13)?.list(), [2, 0]);
    /// # Ok::<(), zegrafult::Refusal>(())
    /// ```
    pub fn list(&self) -> &[usize] {
        &self.named[..self.k.min(12)]
    }

    /// The smaller side's list; at most the twelve places.
    ///
    /// ```
    /// assert_eq!(zegrafult::Plan::new(&[2, 0, 3], 4, 13)?.smaller_list(), [1]);
    /// # Ok::<(), zegrafult::Refusal>(())
    /// ```
    pub fn smaller_list(&self) -> &[usize] {
        &self.smaller[..self.k.min(self.n.saturating_sub(self.k)).min(12)]
    }

    fn numbers(&mut self) -> *mut usize {
        (self as *mut Plan).cast()
    }
}
