//! The night batch: the sheet of a lot of cut files.
use crate::{ffi, refusal::answered, Refusal};

/// The sheet of a lot, as [`lot_sheet`] gives it. A file's number counts from 1.
///
/// ```
/// let empty = zegrafult::lot_sheet(&0u32.to_le_bytes())?;
/// assert_eq!((empty.answers, empty.ranks), ([0; 11], [0; 16]));
/// assert_eq!((empty.smallest, empty.largest, empty.sum), (None, None, 0));
/// # Ok::<(), zegrafult::Refusal>(())
/// ```
#[derive(Clone, Copy, Debug, PartialEq, Eq)]
pub struct LotSheet {
    /// How many files gave each answer from 0 to 10; answer 0 is a certificate.
    pub answers: [usize; 11],
    /// How many files kept each rank from 1 to 16: rank r is at r - 1.
    pub ranks: [usize; 16],
    /// The smallest rank and the first file that had it; `None` where no file was accepted.
    pub smallest: Option<RankAt>,
    /// The largest rank and the first file that had it.
    pub largest: Option<RankAt>,
    /// The sum of the ranks.
    pub sum: usize,
}

/// A rank and the first file that had it.
///
/// ```
/// // a lot of one file: two qubits, both 0 or both 1, cut at qubit 0
/// let head: Vec<u8> = [1u32, 96, u32::from_le_bytes(*b"CUT1"), 2, 1, 24, 32, 96, 0, 0].into_iter().flat_map(u32::to_le_bytes).collect();
/// let state = [1.0f64, 0.0, 0.0, 0.0, 0.0, 0.0, 1.0, 0.0].map(f64::to_le_bytes).concat();
/// assert_eq!(zegrafult::lot_sheet(&[head, state].concat())?.smallest, Some(zegrafult::RankAt { rank: 2, file: 1 }));
/// # Ok::<(), zegrafult::Refusal>(())
/// ```
#[derive(Clone, Copy, Debug, PartialEq, Eq)]
pub struct RankAt {
    /// The rank.
    pub rank: usize,
    /// The file's number, from 1.
    pub file: usize,
}

/// The sheet of a lot: a u32 count of files, each one's u32 length, then the files, all little-endian. A refused file is counted and the
/// lot goes on. Refused by 16 where the count is over 1,000 or the header is cut short.
///
/// ```
/// use zegrafult::lot_sheet;
///
/// let lot = [2u32, 3, 0].map(u32::to_le_bytes).concat(); // two files: three bytes that are not there, and none
/// let sheet = lot_sheet(&lot)?;
/// assert_eq!((sheet.answers[10], sheet.smallest, sheet.sum), (2, None, 0));
/// assert_eq!(lot_sheet(&lot[..11]), Err(zegrafult::Refusal::BrokenLot));
/// # Ok::<(), zegrafult::Refusal>(())
/// ```
pub fn lot_sheet(lot: &[u8]) -> Result<LotSheet, Refusal> {
    let mut sheet = [0; 32];
    let mut place = 0;
    // SAFETY: each pointer is to a borrowed slice of the length behind it; what is written overlaps nothing else that is lent.
    let answer = unsafe { ffi::zg_lot_sheet(lot.as_ptr(), lot.len(), sheet.as_mut_ptr(), &mut place) };
    let at = |i: usize| (sheet[i] > 0).then(|| RankAt { rank: sheet[i], file: sheet[i + 1] });
    let made = LotSheet {
        answers: std::array::from_fn(|k| sheet[k]),
        ranks: std::array::from_fn(|r| sheet[11 + r]),
        smallest: at(27),
        largest: at(29),
        sum: sheet[31],
    };
    answered(answer, place, made)
}
