//! Lists of qubits and the cut.
use crate::{cut_matrix_out_len, ffi, numbers_of, numbers_of_mut, refusal::answered, row, row_mut, row_offsets_out_len, smaller_side_others_len, Complex, Refusal};

/// Whether the list names distinct qubits of a register of n, and at least one. Refused by 1 to 4.
///
/// ```
/// use zegrafult::{validate_qubit_set, Refusal};
///
/// assert_eq!(validate_qubit_set(&[0, 1], 2), Ok(()));
/// assert_eq!(validate_qubit_set(&[0, 2], 2), Err(Refusal::OutOfRange(1)));
/// ```
pub fn validate_qubit_set(list: &[usize], n: usize) -> Result<(), Refusal> {
    let mut place = 0;
    // SAFETY: each pointer is to a borrowed slice of the length behind it; what is written overlaps nothing else that is lent.
    let number = unsafe { ffi::zg_validate_qubit_set(list.as_ptr(), list.len(), n, &mut place) };
    answered(number, place, ())
}

/// Whether the list names a part of a register of n that a cut can be made along. Refused by 1 to 5.
///
/// ```
/// use zegrafult::{validate_subsystem, Refusal};
///
/// assert_eq!(validate_subsystem(&[1], 2), Ok(()));
/// assert_eq!(validate_subsystem(&[0, 1], 2), Err(Refusal::Whole));
/// ```
pub fn validate_subsystem(list: &[usize], n: usize) -> Result<(), Refusal> {
    let mut place = 0;
    // SAFETY: each pointer is to a borrowed slice of the length behind it; what is written overlaps nothing else that is lent.
    let number = unsafe { ffi::zg_validate_subsystem(list.as_ptr(), list.len(), n, &mut place) };
    answered(number, place, ())
}

/// Bit i of t on listed qubit i, for each t.
///
/// ```
/// assert_eq!(zegrafult::row_offsets(&[2, 0], 3, 13)?, [0, 4, 1, 5]);
/// # Ok::<(), zegrafult::Refusal>(())
/// ```
pub fn row_offsets(list: &[usize], n: usize, cap: usize) -> Result<Vec<usize>, Refusal> {
    let mut out = vec![0; row_offsets_out_len(list.len())];
    row_offsets_into(list, n, cap, &mut out)?;
    Ok(out)
}

/// [`row_offsets`] into a lent buffer. One that is too short is refused by 6 with its number: list 0, out 1.
///
/// ```
/// use zegrafult::{row_offsets_into, row_offsets_out_len, CAP};
///
/// let mut out = vec![0; row_offsets_out_len(2)];
/// row_offsets_into(&[2, 0], 3, CAP, &mut out)?;
/// assert_eq!(out, [0, 4, 1, 5]);
/// # Ok::<(), zegrafult::Refusal>(())
/// ```
pub fn row_offsets_into(list: &[usize], n: usize, cap: usize, out: &mut [usize]) -> Result<(), Refusal> {
    let mut place = 0;
    let ((list, list_len), (out, out_len)) = (row(list), row_mut(out));
    // SAFETY: each pointer is to a borrowed slice of the length behind it; what is written overlaps nothing else that is lent.
    let number = unsafe { ffi::zg_row_offsets(list, list_len, n, cap, out, out_len, &mut place) };
    answered(number, place, ())
}

/// e spread over the qubits that are not listed, lowest first.
///
/// ```
/// assert_eq!(zegrafult::traced_base(0b11, &[1], 3, 13), Ok(0b101));
/// ```
pub fn traced_base(e: usize, list: &[usize], n: usize, cap: usize) -> Result<usize, Refusal> {
    let (mut place, mut base) = (0, 0);
    // SAFETY: each pointer is to a borrowed slice of the length behind it; what is written overlaps nothing else that is lent.
    let number = unsafe { ffi::zg_traced_base(e, list.as_ptr(), list.len(), n, cap, &mut place, &mut base) };
    answered(number, place, base)
}

/// The qubits of the cut's smaller side: the list where it is the smaller, else the others, rising.
///
/// ```
/// assert_eq!(zegrafult::smaller_side(&[3, 0, 1], 4, 13)?, [2]);
/// # Ok::<(), zegrafult::Refusal>(())
/// ```
pub fn smaller_side(list: &[usize], n: usize, cap: usize) -> Result<Vec<usize>, Refusal> {
    let mut others = vec![0; smaller_side_others_len(n, list.len())];
    Ok(if smaller_side_into(list, n, cap, &mut others)? { others } else { list.to_vec() })
}

/// [`smaller_side`] into a lent buffer: whether the others are the smaller side, and then `others` begins with its n − k qubits, rising;
/// else the list is, and nothing is written. A buffer that is too short is refused by 6 with its number: list 0, others 1.
///
/// ```
/// use zegrafult::{smaller_side_into, smaller_side_others_len, CAP};
///
/// let mut others = vec![0; smaller_side_others_len(4, 3)];
/// assert_eq!(smaller_side_into(&[3, 0, 1], 4, CAP, &mut others), Ok(true));
/// assert_eq!(others, [2]);
/// assert_eq!(smaller_side_into(&[3], 4, CAP, &mut []), Ok(false));
/// ```
pub fn smaller_side_into(list: &[usize], n: usize, cap: usize, others: &mut [usize]) -> Result<bool, Refusal> {
    let mut place = 0;
    let ((list, list_len), (others, others_len)) = (row(list), row_mut(others));
    // SAFETY: each pointer is to a borrowed slice of the length behind it; what is written overlaps nothing else that is lent.
    let number = unsafe { ffi::zg_smaller_side(list, list_len, n, cap, others, others_len, &mut place) };
    answered(number, place, n.saturating_sub(list_len) < list_len)
}

/// A matrix of cells, column after column.
///
/// ```
/// use zegrafult::{cut_matrix, Complex};
///
/// let cut = cut_matrix(&[1.0, 2.0, 3.0, 4.0].map(Complex::real), 2, &[0], 13)?;
/// let (row, column) = (1, 0);
/// assert_eq!(cut.cells[column * cut.rows + row], Complex::real(2.0));
/// # Ok::<(), zegrafult::Refusal>(())
/// ```
#[derive(Clone, Debug, PartialEq)]
pub struct Cut {
    /// 2^side, the settings of the smaller side.
    pub rows: usize,
    /// The settings of the rest.
    pub columns: usize,
    /// The rows·columns cells.
    pub cells: Vec<Complex>,
}

/// The cut matrix: the smaller side's settings are its rows.
///
/// ```
/// use zegrafult::{cut_matrix, Complex};
///
/// let state: Vec<Complex> = (0..8).map(|i| Complex::real(i as f64)).collect();
/// let cut = cut_matrix(&state, 3, &[2], 13)?;
/// assert_eq!((cut.rows, cut.columns), (2, 4));
/// assert_eq!(cut.cells.iter().map(|z| z.re).collect::<Vec<_>>(), [0.0, 4.0, 1.0, 5.0, 2.0, 6.0, 3.0, 7.0]);
/// # Ok::<(), zegrafult::Refusal>(())
/// ```
pub fn cut_matrix(state: &[Complex], n: usize, list: &[usize], cap: usize) -> Result<Cut, Refusal> {
    let mut cells = vec![Complex::default(); cut_matrix_out_len(n)];
    let (rows, columns) = cut_matrix_into(state, n, list, cap, &mut cells)?;
    Ok(Cut { rows, columns, cells })
}

/// [`cut_matrix`] into a lent buffer: its rows and columns. A buffer that is too short is refused by 6 with its number: state 0, list 1,
/// out 2.
///
/// ```
/// use zegrafult::{cut_matrix_into, cut_matrix_out_len, Complex, Refusal, CAP};
///
/// let state = [1.0, 2.0, 3.0, 4.0].map(Complex::real);
/// let mut out = vec![Complex::default(); cut_matrix_out_len(2)];
/// assert_eq!(cut_matrix_into(&state, 2, &[1], CAP, &mut out)?, (2, 2));
/// assert_eq!(out, [1.0, 3.0, 2.0, 4.0].map(Complex::real));
/// assert_eq!(cut_matrix_into(&state, 2, &[1], CAP, &mut out[1..]), Err(Refusal::Length(2)));
/// # Ok::<(), Refusal>(())
/// ```
pub fn cut_matrix_into(
    state: &[Complex],
    n: usize,
    list: &[usize],
    cap: usize,
    out: &mut [Complex],
) -> Result<(usize, usize), Refusal> {
    let mut place = 0;
    let (state, state_len) = numbers_of(state);
    let (list, list_len) = row(list);
    let (out, out_len) = numbers_of_mut(out);
    // SAFETY: each pointer is to a borrowed slice of the length behind it; what is written overlaps nothing else that is lent.
    let number = unsafe { ffi::zg_cut_matrix(state, state_len, n, list, list_len, cap, out, out_len, &mut place) };
    answered(number, place, ())?;
    let side = list_len.min(n - list_len);
    Ok((1 << side, 1 << (n - side)))
}
