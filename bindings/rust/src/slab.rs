//! Up to 64 sites in one slab of 4,096 cells.
use crate::{ffi, numbers_of, refusal::answered, Complex, Refusal};

/// The cells of a slab.
///
/// ```
/// use zegrafult::{Complex, Refusal, Slab, SLAB_CELLS};
///
/// assert_eq!(Slab::new().put(1, &vec![Complex::default(); SLAB_CELLS]), Ok(()));
/// assert_eq!(Slab::new().put(1, &vec![Complex::default(); SLAB_CELLS + 1]), Err(Refusal::Size));
/// ```
pub const SLAB_CELLS: usize = 4096;
/// The numbers of a slab's index: how many sites are held, then three for each of 64.
///
/// ```
/// assert_eq!(zegrafult::SLAB_INDEX, 1 + 3 * 64);
/// ```
pub const SLAB_INDEX: usize = 193;

/// A site that a slab holds: its number and its run of cells.
///
/// ```
/// use zegrafult::{Complex, Held, Slab};
///
/// let mut slab = Slab::new();
/// slab.put(7, &[Complex::real(1.0)])?;
/// assert_eq!(slab.sites().next(), Some(Held { number: 7, start: 0, cells: 1 }));
/// # Ok::<(), zegrafult::Refusal>(())
/// ```
#[derive(Clone, Copy, Debug, PartialEq, Eq)]
pub struct Held {
    /// The site's number.
    pub number: u32,
    /// Its first cell.
    pub start: usize,
    /// How many cells it has.
    pub cells: usize,
}

/// A slab that owns its cells and its index. Data take any bits, and are handed back bit for bit; a free cell is +0.0.
///
/// ```
/// use zegrafult::{Complex, Slab};
///
/// let mut slab = Slab::new();
/// slab.put(7, &[Complex::real(1.0), Complex::real(2.0)])?;
/// slab.put(9, &[Complex::real(3.0)])?;
/// slab.drop(7)?;
/// slab.put(11, &[Complex::real(4.0)])?; // the lowest run that fits: cell 0 again
/// assert_eq!(slab.sites().map(|s| (s.number, s.start)).collect::<Vec<_>>(), [(9, 2), (11, 0)]);
/// assert_eq!(slab.get(9), Some(&[Complex::real(3.0)][..]));
/// assert_eq!(slab.drop(7), Err(zegrafult::Refusal::SiteNumber));
/// # Ok::<(), zegrafult::Refusal>(())
/// ```
#[derive(Clone, Debug)]
pub struct Slab {
    cells: Box<[Complex]>,
    index: [u32; SLAB_INDEX],
}

impl Default for Slab {
    fn default() -> Self {
        Slab::new()
    }
}

impl Slab {
    /// No site is held and every cell is free.
    ///
    /// ```
    /// assert_eq!(zegrafult::Slab::new().sites().count(), 0);
    /// ```
    pub fn new() -> Self {
        Slab { cells: vec![Complex::default(); SLAB_CELLS].into(), index: [0; SLAB_INDEX] }
    }

    /// A slab as it was kept elsewhere. Each call looks at it first and refuses by 1 where it is broken.
    ///
    /// ```
    /// use zegrafult::{Complex, Refusal, Slab, SLAB_CELLS, SLAB_INDEX};
    ///
    /// let mut index = [0; SLAB_INDEX];
    /// index[0] = 65; // more sites than there can be
    /// let mut broken = Slab::from_parts(&[Complex::default(); SLAB_CELLS], index);
    /// assert_eq!(broken.drop(0), Err(Refusal::Size));
    /// ```
    pub fn from_parts(cells: &[Complex; SLAB_CELLS], index: [u32; SLAB_INDEX]) -> Self {
        Slab { cells: cells[..].into(), index }
    }

    /// The cells and the index, for keeping them elsewhere.
    ///
    /// ```
    /// let slab = zegrafult::Slab::new();
    /// assert_eq!((slab.parts().0.len(), slab.parts().1[0]), (4096, 0));
    /// ```
    pub fn parts(&self) -> (&[Complex], &[u32; SLAB_INDEX]) {
        (&self.cells, &self.index)
    }

    /// Puts a new site into the lowest run of free cells that fits. Refused by 1, 13 (held already), 14, 15.
    ///
    /// ```
    /// use zegrafult::{Complex, Refusal, Slab};
    ///
    /// let mut slab = Slab::new();
    /// assert_eq!(slab.put(7, &[Complex::real(1.0)]), Ok(()));
    /// assert_eq!(slab.put(7, &[Complex::real(1.0)]), Err(Refusal::SiteNumber));
    /// ```
    pub fn put(&mut self, number: u32, data: &[Complex]) -> Result<(), Refusal> {
        let (d, d_len) = numbers_of(data);
        let mut place = 0;
        // SAFETY: the slab owns 8,192 numbers and an index of 193, as the call wants; data and place are borrowed for the call.
        let answer = unsafe {
            ffi::zg_slab_put(self.cells.as_mut_ptr().cast(), self.index.as_mut_ptr(), number, d, d_len, &mut place)
        };
        answered(answer, place, ())
    }

    /// Takes a site out; its cells turn to +0.0. Refused by 1, 13.
    ///
    /// ```
    /// use zegrafult::{Complex, Slab};
    ///
    /// let mut slab = Slab::new();
    /// slab.put(7, &[Complex::real(1.0)])?;
    /// slab.drop(7)?;
    /// assert_eq!(slab.parts().0[0], Complex::default());
    /// # Ok::<(), zegrafult::Refusal>(())
    /// ```
    pub fn drop(&mut self, number: u32) -> Result<(), Refusal> {
        let mut place = 0;
        // SAFETY: the slab owns 8,192 numbers and an index of 193, as the call wants; data and place are borrowed for the call.
        let answer = unsafe {
            ffi::zg_slab_drop(self.cells.as_mut_ptr().cast(), self.index.as_mut_ptr(), number, &mut place)
        };
        answered(answer, place, ())
    }

    /// Gives a site new data, in the lowest run that fits where its old cells are free. Refused by 1, 13, 14.
    ///
    /// ```
    /// use zegrafult::{Complex, Slab};
    ///
    /// let mut slab = Slab::new();
    /// slab.put(7, &[Complex::real(1.0)])?;
    /// slab.replace(7, &[Complex::real(2.0), Complex::real(3.0)])?;
    /// assert_eq!(slab.get(7), Some(&[Complex::real(2.0), Complex::real(3.0)][..]));
    /// # Ok::<(), zegrafult::Refusal>(())
    /// ```
    pub fn replace(&mut self, number: u32, data: &[Complex]) -> Result<(), Refusal> {
        let (d, d_len) = numbers_of(data);
        let mut place = 0;
        // SAFETY: the slab owns 8,192 numbers and an index of 193, as the call wants; data and place are borrowed for the call.
        let answer = unsafe {
            ffi::zg_slab_replace(self.cells.as_mut_ptr().cast(), self.index.as_mut_ptr(), number, d, d_len, &mut place)
        };
        answered(answer, place, ())
    }

    /// The sites that are held, in the index's order.
    ///
    /// ```
    /// use zegrafult::{Complex, Slab};
    ///
    /// let mut slab = Slab::new();
    /// slab.put(9, &[Complex::real(1.0)])?;
    /// slab.put(2, &[Complex::real(1.0)])?;
    /// assert_eq!(slab.sites().map(|s| s.number).collect::<Vec<_>>(), [9, 2]);
    /// # Ok::<(), zegrafult::Refusal>(())
    /// ```
    pub fn sites(&self) -> impl Iterator<Item = Held> + '_ {
        self.index[1..].chunks_exact(3).take(self.index[0] as usize).map(|entry| Held {
            number: entry[0],
            start: entry[1] as usize,
            cells: entry[2] as usize,
        })
    }

    /// The cells of a site, where it is held.
    ///
    /// ```
    /// assert_eq!(zegrafult::Slab::new().get(7), None);
    /// ```
    pub fn get(&self, number: u32) -> Option<&[Complex]> {
        let site = self.sites().find(|site| site.number == number)?;
        self.cells.get(site.start..site.start.checked_add(site.cells)?)
    }
}
