//! The calls of a plan's list: what the list's own call gives under cap 13, over the masks and sizes that the plan keeps.
use crate::{
    cut_matrix_out_len, dense_reduced_density_out_len, dense_reduced_density_scratch_len, dense_schmidt_values_out_len,
    dense_schmidt_values_scratch_len, ffi, numbers_of, numbers_of_mut, refusal::answered, row_mut, Complex, Cut, CutValues, Plan, Refusal, Sweeps,
};

impl Plan {
    /// [`crate::cut_matrix`] of the plan's list. Refused by 1 where no list makes the plan, then as there.
    ///
    /// ```
    /// use zegrafult::{cut_matrix, Complex, Plan};
    ///
    /// let state: Vec<Complex> = (0..8).map(|i| Complex::real(i as f64)).collect();
    /// let plan = Plan::new(&[2], 3, 13)?;
    /// assert_eq!(plan.cut_matrix(&state)?, cut_matrix(&state, 3, &[2], 13)?);
    /// assert_eq!(plan.with(0)?.cut_matrix(&state)?, cut_matrix(&state, 3, &[2, 0], 13)?);
    /// # Ok::<(), zegrafult::Refusal>(())
    /// ```
    pub fn cut_matrix(&self, state: &[Complex]) -> Result<Cut, Refusal> {
        let mut cells = vec![Complex::default(); cut_matrix_out_len(self.n)];
        self.cut_matrix_into(state, &mut cells)?;
        Ok(Cut { rows: self.rows, columns: self.columns, cells })
    }

    /// [`Plan::cut_matrix`] into a lent buffer of [`cut_matrix_out_len`] cells. One that is too short is refused by 6 with its number:
    /// state 0, out 2.
    ///
    /// ```
    /// use zegrafult::{Complex, Plan, Refusal, CAP};
    ///
    /// let mut out = [Complex::default(); 4];
    /// let plan = Plan::new(&[1], 2, CAP)?;
    /// plan.cut_matrix_into(&[1.0, 2.0, 3.0, 4.0].map(Complex::real), &mut out)?;
    /// assert_eq!(out, [1.0, 3.0, 2.0, 4.0].map(Complex::real));
    /// # Ok::<(), Refusal>(())
    /// ```
    pub fn cut_matrix_into(&self, state: &[Complex], out: &mut [Complex]) -> Result<(), Refusal> {
        let mut place = 0;
        let (state, state_len) = numbers_of(state);
        let (out, out_len) = numbers_of_mut(out);
        // SAFETY: each pointer is to a borrowed slice of the length behind it, the plan is 30 numbers; what is written overlaps nothing
        // else that is lent.
        let number = unsafe { ffi::zg_planned_cut_matrix(state, state_len, self.as_numbers(), out, out_len, &mut place) };
        answered(number, place, ())
    }

    /// [`crate::dense_schmidt_values`] of the plan's list. Refused by 1 where no list makes the plan, then as there.
    ///
    /// ```
    /// use zegrafult::{dense_schmidt_values, Complex, Plan, CAP};
    ///
    /// let state: Vec<Complex> = (0..8).map(|i| Complex::new(i as f64, 1.0)).collect();
    /// let plan = Plan::new(&[2], 3, CAP)?;
    /// assert_eq!(plan.schmidt_values(&state)?, dense_schmidt_values(&state, 3, &[2], CAP)?);
    /// # Ok::<(), zegrafult::Refusal>(())
    /// ```
    pub fn schmidt_values(&self, state: &[Complex]) -> Result<CutValues, Refusal> {
        let mut out = vec![0.0; dense_schmidt_values_out_len(self.n, self.k)];
        let mut scratch = vec![0.0; dense_schmidt_values_scratch_len(self.n, self.k)];
        let (count, Sweeps { sweeps, quiet, turned }, exact) = self.schmidt_values_into(state, &mut out, &mut scratch)?;
        out.truncate(count);
        Ok(CutValues { values: out, sweeps, quiet, turned, exact })
    }

    /// [`Plan::schmidt_values`] into lent buffers of [`dense_schmidt_values_out_len`] and [`dense_schmidt_values_scratch_len`] numbers: how many
    /// values are left, the sweeps, and whether every root came out even. One that is too short is refused by 6 with its number: state 0, out
    /// 2, scratch 3.
    ///
    /// ```
    /// use zegrafult::*;
    ///
    /// let mut out = vec![0.0; dense_schmidt_values_out_len(2, 1)];
    /// let mut scratch = vec![0.0; dense_schmidt_values_scratch_len(2, 1)];
    /// let plan = Plan::new(&[0], 2, CAP)?;
    /// let (count, sweeps, _exact) = plan.schmidt_values_into(&[1.0, 0.0, 0.0, 1.0].map(Complex::real), &mut out, &mut scratch)?;
    /// assert_eq!((count, sweeps.quiet), (2, true));
    /// # Ok::<(), Refusal>(())
    /// ```
    pub fn schmidt_values_into(&self, state: &[Complex], out: &mut [f64], scratch: &mut [f64]) -> Result<(usize, Sweeps, bool), Refusal> {
        let (mut place, mut count, mut sweeps, mut quiet, mut turned, mut exact) = (0, 0, 0, false, 0, false);
        let (state, state_len) = numbers_of(state);
        let ((out, out_len), (scratch, scratch_len)) = (row_mut(out), row_mut(scratch));
        // SAFETY: each pointer is to a borrowed slice of the length behind it, the plan is 30 numbers; what is written overlaps nothing
        // else that is lent.
        let number = unsafe {
            ffi::zg_planned_schmidt_values(
                state, state_len, self.as_numbers(), out, out_len, scratch, scratch_len, &mut place, &mut count, &mut sweeps, &mut quiet,
                &mut turned, &mut exact,
            )
        };
        answered(number, place, (count, Sweeps { sweeps, quiet, turned }, exact))
    }

    /// [`crate::dense_reduced_density`] of the plan's list. Refused by 1 where no list makes the plan, then as there: by 1 again where it
    /// names more than six qubits.
    ///
    /// ```
    /// use zegrafult::{dense_reduced_density, Complex, Plan, CAP};
    ///
    /// let state: Vec<Complex> = (0..8).map(|i| Complex::new(i as f64, 1.0)).collect();
    /// let plan = Plan::new(&[2, 0], 3, CAP)?;
    /// assert_eq!(plan.reduced_density(&state)?, dense_reduced_density(&state, 3, &[2, 0], CAP)?);
    /// # Ok::<(), zegrafult::Refusal>(())
    /// ```
    pub fn reduced_density(&self, state: &[Complex]) -> Result<Vec<Complex>, Refusal> {
        let mut out = vec![Complex::default(); dense_reduced_density_out_len(self.k)];
        let mut scratch = vec![0.0; dense_reduced_density_scratch_len(self.k)];
        self.reduced_density_into(state, &mut out, &mut scratch)?;
        Ok(out)
    }

    /// [`Plan::reduced_density`] into lent buffers of [`dense_reduced_density_out_len`] cells and [`dense_reduced_density_scratch_len`] numbers.
    /// One that is too short is refused by 6 with its number: state 0, out 2, scratch 3.
    ///
    /// ```
    /// use zegrafult::{Complex, Plan, Refusal, CAP};
    ///
    /// let (mut out, mut scratch) = ([Complex::default(); 4], [0.0; 4]);
    /// Plan::new(&[0], 2, CAP)?.reduced_density_into(&[3.0, 0.0, 0.0, 4.0].map(Complex::real), &mut out, &mut scratch)?;
    /// assert_eq!(out, [9.0, 0.0, 0.0, 16.0].map(Complex::real));
    /// # Ok::<(), Refusal>(())
    /// ```
    pub fn reduced_density_into(&self, state: &[Complex], out: &mut [Complex], scratch: &mut [f64]) -> Result<(), Refusal> {
        let mut place = 0;
        let (state, state_len) = numbers_of(state);
        let ((out, out_len), (scratch, scratch_len)) = (numbers_of_mut(out), row_mut(scratch));
        // SAFETY: each pointer is to a borrowed slice of the length behind it, the plan is 30 numbers; what is written overlaps nothing
        // else that is lent.
        let number = unsafe {
            ffi::zg_planned_reduced_density(
                state, state_len, self.as_numbers(), out, out_len, scratch, scratch_len, &mut place,
            )
        };
        answered(number, place, ())
    }

    fn as_numbers(&self) -> *const usize {
        (self as *const Plan).cast()
    }
}
