//! Ranks and the sites of a chain.
use crate::{
    ffi, fill_isometry_site_data_out_len, fill_scaled_u_site_data_out_len, fill_scaled_vt_data_out_len, fill_vt_site_data_out_len, numbers_of,
    numbers_of_mut, refusal::answered, row, Complex, Refusal,
};

/// How many values are above `epsilon` times the first, at least 1, at most `max_bond_dim`. Any bits are taken.
///
/// ```
/// assert_eq!(zegrafult::truncated_svd_rank(&[1.0, 0.5, 0.25], 0.3, 8), 2);
/// ```
pub fn truncated_svd_rank(values: &[f64], epsilon: f64, max_bond_dim: usize) -> usize {
    let (mut place, mut rank) = (0, 0);
    // SAFETY: each pointer is to a borrowed slice of the length behind it; what is written overlaps nothing else that is lent.
    unsafe {
        ffi::zg_truncated_svd_rank(values.as_ptr(), values.len(), epsilon, max_bond_dim, &mut place, &mut rank);
    }
    rank
}

/// Whether keeping `chi` values drops one above the resolution, 2^-50 times the first. Any bits are taken.
///
/// ```
/// assert!(zegrafult::discards_resolvable_weight(&[1.0, 0.5], 1));
/// assert!(!zegrafult::discards_resolvable_weight(&[1.0, 1e-16], 1));
/// ```
pub fn discards_resolvable_weight(values: &[f64], chi: usize) -> bool {
    let (mut place, mut yes) = (0, false);
    // SAFETY: each pointer is to a borrowed slice of the length behind it; what is written overlaps nothing else that is lent.
    unsafe {
        ffi::zg_discards_resolvable_weight(values.as_ptr(), values.len(), chi, &mut place, &mut yes);
    }
    yes
}

/// The rank of the cut between two sites; bonds are 0 to 4,096.
///
/// ```
/// assert_eq!(zegrafult::cut_rank(1, 2, 4), Ok(2));
/// ```
pub fn cut_rank(bond_left: usize, bond_mid: usize, bond_right: usize) -> Result<u64, Refusal> {
    let (mut place, mut rank) = (0, 0);
    // SAFETY: each pointer is to a borrowed slice of the length behind it; what is written overlaps nothing else that is lent.
    let number = unsafe { ffi::zg_cut_rank(bond_left, bond_mid, bond_right, &mut place, &mut rank) };
    answered(number, place, rank)
}

/// The widest cut inside a block of `n` sites, 1 to 16; bonds are 0 to 4,096.
///
/// ```
/// assert_eq!(zegrafult::widest_block_cut(1, 1, 4), Ok(4));
/// ```
pub fn widest_block_cut(bond_left: usize, bond_right: usize, n: usize) -> Result<u64, Refusal> {
    let (mut place, mut rank) = (0, 0);
    // SAFETY: each pointer is to a borrowed slice of the length behind it; what is written overlaps nothing else that is lent.
    let number = unsafe { ffi::zg_widest_block_cut(bond_left, bond_right, n, &mut place, &mut rank) };
    answered(number, place, rank)
}

/// A site from the columns of an isometry, `stride` cells apart. Refused by 1, 6, 7.
///
/// ```
/// use zegrafult::{fill_isometry_site_data, Complex};
///
/// // two columns of two cells: the site's right bond is the column
/// let site = fill_isometry_site_data(&[1.0, 2.0, 3.0, 4.0].map(Complex::real), 2, 1, 2)?;
/// assert_eq!(site, [1.0, 3.0, 2.0, 4.0].map(Complex::real));
/// # Ok::<(), zegrafult::Refusal>(())
/// ```
pub fn fill_isometry_site_data(
    columns: &[Complex],
    stride: usize,
    bond_left: usize,
    chi: usize,
) -> Result<Vec<Complex>, Refusal> {
    let mut out = vec![Complex::default(); fill_isometry_site_data_out_len(bond_left, chi)];
    fill_isometry_site_data_into(columns, stride, bond_left, chi, &mut out)?;
    Ok(out)
}

/// [`fill_isometry_site_data`] into a lent buffer, of which the first cells are written. One that is too short is refused by 6 with its number: columns 0, out 1.
///
/// ```
/// use zegrafult::{fill_isometry_site_data, fill_isometry_site_data_into, Complex};
///
/// let columns = [1.0, 2.0, 3.0, 4.0].map(Complex::real);
/// let mut out = [Complex::default(); 4];
/// fill_isometry_site_data_into(&columns, 2, 1, 2, &mut out)?;
/// assert_eq!(out[..], fill_isometry_site_data(&columns, 2, 1, 2)?);
/// # Ok::<(), zegrafult::Refusal>(())
/// ```
pub fn fill_isometry_site_data_into(
    columns: &[Complex],
    stride: usize,
    bond_left: usize,
    chi: usize,
    out: &mut [Complex],
) -> Result<(), Refusal> {
    let mut place = 0;
    let (columns, columns_len) = numbers_of(columns);
    let (out, out_len) = numbers_of_mut(out);
    // SAFETY: each pointer is to a borrowed slice of the length behind it; what is written overlaps nothing else that is lent.
    let number = unsafe { ffi::zg_fill_isometry_site_data(columns, columns_len, stride, bond_left, chi, out, out_len, &mut place) };
    answered(number, place, ())
}

/// A site from the columns of U, `stride` cells apart, each times its singular value. Refused by 1, 6, 7.
///
/// ```
/// use zegrafult::{fill_scaled_u_site_data, Complex};
///
/// let site = fill_scaled_u_site_data(&[1.0, 2.0, 3.0, 4.0].map(Complex::real), &[2.0, 1.0], 2, 1, 2)?;
/// assert_eq!(site, [2.0, 3.0, 4.0, 4.0].map(Complex::real));
/// # Ok::<(), zegrafult::Refusal>(())
/// ```
pub fn fill_scaled_u_site_data(
    u: &[Complex],
    s: &[f64],
    stride: usize,
    bond_left: usize,
    chi: usize,
) -> Result<Vec<Complex>, Refusal> {
    let mut out = vec![Complex::default(); fill_scaled_u_site_data_out_len(bond_left, chi)];
    fill_scaled_u_site_data_into(u, s, stride, bond_left, chi, &mut out)?;
    Ok(out)
}

/// [`fill_scaled_u_site_data`] into a lent buffer, of which the first cells are written. One that is too short is refused by 6 with its number: u 0, s 1, out 2.
///
/// ```
/// use zegrafult::{fill_scaled_u_site_data, fill_scaled_u_site_data_into, Complex};
///
/// let u = [1.0, 2.0, 3.0, 4.0].map(Complex::real);
/// let mut out = [Complex::default(); 4];
/// fill_scaled_u_site_data_into(&u, &[2.0, 1.0], 2, 1, 2, &mut out)?;
/// assert_eq!(out[..], fill_scaled_u_site_data(&u, &[2.0, 1.0], 2, 1, 2)?);
/// # Ok::<(), zegrafult::Refusal>(())
/// ```
pub fn fill_scaled_u_site_data_into(
    u: &[Complex],
    s: &[f64],
    stride: usize,
    bond_left: usize,
    chi: usize,
    out: &mut [Complex],
) -> Result<(), Refusal> {
    let mut place = 0;
    let ((u, u_len), (s, s_len)) = (numbers_of(u), row(s));
    let (out, out_len) = numbers_of_mut(out);
    // SAFETY: each pointer is to a borrowed slice of the length behind it; what is written overlaps nothing else that is lent.
    let number = unsafe { ffi::zg_fill_scaled_u_site_data(u, u_len, s, s_len, stride, bond_left, chi, out, out_len, &mut place) };
    answered(number, place, ())
}

/// A site from the rows of V†, `row_len` cells apart. Refused by 1, 6, 7.
///
/// ```
/// use zegrafult::{fill_vt_site_data, Complex};
///
/// let vt = [1.0, 2.0, 3.0, 4.0].map(Complex::real);
/// assert_eq!(fill_vt_site_data(&vt, 2, 1, 2, 1)?, vt[..2]); // one of two rows
/// # Ok::<(), zegrafult::Refusal>(())
/// ```
pub fn fill_vt_site_data(
    vt: &[Complex],
    row_len: usize,
    chi: usize,
    physical_dim: usize,
    bond_right: usize,
) -> Result<Vec<Complex>, Refusal> {
    let mut out = vec![Complex::default(); fill_vt_site_data_out_len(chi, physical_dim, bond_right)];
    fill_vt_site_data_into(vt, row_len, chi, physical_dim, bond_right, &mut out)?;
    Ok(out)
}

/// [`fill_vt_site_data`] into a lent buffer, of which the first cells are written. One that is too short is refused by 6 with its number: vt 0, out 1.
///
/// ```
/// use zegrafult::{fill_vt_site_data, fill_vt_site_data_into, Complex};
///
/// let vt = [1.0, 2.0, 3.0, 4.0].map(Complex::real);
/// let mut out = [Complex::default(); 4];
/// fill_vt_site_data_into(&vt, 2, 2, 2, 1, &mut out)?;
/// assert_eq!(out[..], fill_vt_site_data(&vt, 2, 2, 2, 1)?);
/// # Ok::<(), zegrafult::Refusal>(())
/// ```
pub fn fill_vt_site_data_into(
    vt: &[Complex],
    row_len: usize,
    chi: usize,
    physical_dim: usize,
    bond_right: usize,
    out: &mut [Complex],
) -> Result<(), Refusal> {
    let mut place = 0;
    let (vt, vt_len) = numbers_of(vt);
    let (out, out_len) = numbers_of_mut(out);
    // SAFETY: each pointer is to a borrowed slice of the length behind it; what is written overlaps nothing else that is lent.
    let number = unsafe { ffi::zg_fill_vt_site_data(vt, vt_len, row_len, chi, physical_dim, bond_right, out, out_len, &mut place) };
    answered(number, place, ())
}

/// A site from the rows of V†, `row_len` cells apart, each times its singular value. Refused by 1, 6, 7.
///
/// ```
/// use zegrafult::{fill_scaled_vt_data, Complex};
///
/// let site = fill_scaled_vt_data(&[2.0, 1.0], &[1.0, 2.0, 3.0, 4.0].map(Complex::real), 2, 2, 2, 1)?;
/// assert_eq!(site, [2.0, 4.0, 3.0, 4.0].map(Complex::real));
/// # Ok::<(), zegrafult::Refusal>(())
/// ```
pub fn fill_scaled_vt_data(
    s: &[f64],
    vt: &[Complex],
    row_len: usize,
    chi: usize,
    physical_dim: usize,
    bond_right: usize,
) -> Result<Vec<Complex>, Refusal> {
    let mut out = vec![Complex::default(); fill_scaled_vt_data_out_len(chi, physical_dim, bond_right)];
    fill_scaled_vt_data_into(s, vt, row_len, chi, physical_dim, bond_right, &mut out)?;
    Ok(out)
}

/// [`fill_scaled_vt_data`] into a lent buffer, of which the first cells are written. One that is too short is refused by 6 with its number: s 0, vt 1, out 2.
///
/// ```
/// use zegrafult::{fill_scaled_vt_data, fill_scaled_vt_data_into, Complex};
///
/// let vt = [1.0, 2.0, 3.0, 4.0].map(Complex::real);
/// let mut out = [Complex::default(); 4];
/// fill_scaled_vt_data_into(&[2.0, 1.0], &vt, 2, 2, 2, 1, &mut out)?;
/// assert_eq!(out[..], fill_scaled_vt_data(&[2.0, 1.0], &vt, 2, 2, 2, 1)?);
/// # Ok::<(), zegrafult::Refusal>(())
/// ```
pub fn fill_scaled_vt_data_into(
    s: &[f64],
    vt: &[Complex],
    row_len: usize,
    chi: usize,
    physical_dim: usize,
    bond_right: usize,
    out: &mut [Complex],
) -> Result<(), Refusal> {
    let mut place = 0;
    let ((s, s_len), (vt, vt_len)) = (row(s), numbers_of(vt));
    let (out, out_len) = numbers_of_mut(out);
    // SAFETY: each pointer is to a borrowed slice of the length behind it; what is written overlaps nothing else that is lent.
    let number = unsafe { ffi::zg_fill_scaled_vt_data(s, s_len, vt, vt_len, row_len, chi, physical_dim, bond_right, out, out_len, &mut place) };
    answered(number, place, ())
}
