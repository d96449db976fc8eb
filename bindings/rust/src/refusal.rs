//! What a call answers when it does not do its work.

/// Why a call did not do its work: one case for each answer of the paper's table, under the name that `crates/answers` has for it.
/// [`number`](Refusal::number) and [`place`](Refusal::place) are what the certificate prints as `refused N P`.
///
/// ```
/// use zegrafult::{validate_subsystem, Refusal};
///
/// let refusal = validate_subsystem(&[0, 5], 3).unwrap_err();
/// assert_eq!(refusal, Refusal::OutOfRange(1));
/// assert_eq!((refusal.number(), refusal.place()), (2, 1));
/// assert_eq!(refusal.to_string(), "refused 2 1: The qubit at list position 1 is not in the register.");
/// ```
#[derive(Clone, Copy, Debug, PartialEq, Eq, Hash)]
#[non_exhaustive]
pub enum Refusal {
    /// 1: a size is out of the range that the library takes.
    Size,
    /// 2: the qubit at this list position is not in the register.
    OutOfRange(usize),
    /// 3: the qubit at this list position stood earlier.
    Twice(usize),
    /// 4: the list is empty.
    Empty,
    /// 5: a cut's list names every qubit.
    Whole,
    /// 6: this slice has a wrong length; slices are numbered in the order of the arguments, from 0.
    Length(usize),
    /// 7: this cell is not finite or above 2^200 in magnitude.
    Component(usize),
    /// 8: nothing is left above a floor, or a trace is zero.
    NoWeight,
    /// 9: a result is not finite.
    NotFinite,
    /// 10: the file is not a cut file.
    Malformed,
    /// 11: this cell is not a whole number of 2^-18 of magnitude at most 1.
    OffGrid(usize),
    /// 12: the qubit is not listed.
    NotListed,
    /// 13: the site number is not held, or is held already.
    SiteNumber,
    /// 14: no run of free cells is long enough.
    NoRun,
    /// 15: sixty-four sites are held.
    Full,
    /// 16: the lot's header is broken.
    BrokenLot,
    /// An answer that this crate has no name for: the library is of another version.
    Other {
        /// The answer.
        number: u32,
        /// Its place.
        place: usize,
    },
}

impl Refusal {
    /// The refusal of an answer and its place; none for 0, which is "done".
    ///
    /// ```
    /// use zegrafult::Refusal;
    ///
    /// assert_eq!(Refusal::of(6, 2), Some(Refusal::Length(2)));
    /// assert_eq!(Refusal::of(0, 0), None);
    /// assert_eq!(Refusal::of(99, 1), Some(Refusal::Other { number: 99, place: 1 }));
    /// ```
    pub fn of(number: u32, place: usize) -> Option<Self> {
        Some(match (number, place) {
            (0, _) => return None,
            (1, 0) => Refusal::Size,
            (2, place) => Refusal::OutOfRange(place),
            (3, place) => Refusal::Twice(place),
            (4, 0) => Refusal::Empty,
            (5, 0) => Refusal::Whole,
            (6, place) => Refusal::Length(place),
            (7, place) => Refusal::Component(place),
            (8, 0) => Refusal::NoWeight,
            (9, 0) => Refusal::NotFinite,
            (10, 0) => Refusal::Malformed,
            (11, place) => Refusal::OffGrid(place),
            (12, 0) => Refusal::NotListed,
            (13, 0) => Refusal::SiteNumber,
            (14, 0) => Refusal::NoRun,
            (15, 0) => Refusal::Full,
            (16, 0) => Refusal::BrokenLot,
            (number, place) => Refusal::Other { number, place },
        })
    }

    /// The answer's number, 1 to 16, as the table in `include/zegrafult.h` has it.
    ///
    /// ```
    /// assert_eq!(zegrafult::Refusal::NoWeight.number(), 8);
    /// ```
    pub fn number(&self) -> u32 {
        match *self {
            Refusal::Size => 1,
            Refusal::OutOfRange(_) => 2,
            Refusal::Twice(_) => 3,
            Refusal::Empty => 4,
            Refusal::Whole => 5,
            Refusal::Length(_) => 6,
            Refusal::Component(_) => 7,
            Refusal::NoWeight => 8,
            Refusal::NotFinite => 9,
            Refusal::Malformed => 10,
            Refusal::OffGrid(_) => 11,
            Refusal::NotListed => 12,
            Refusal::SiteNumber => 13,
            Refusal::NoRun => 14,
            Refusal::Full => 15,
            Refusal::BrokenLot => 16,
            Refusal::Other { number, .. } => number,
        }
    }

    /// Its place, from 0: a list position (2, 3), a slice (6) or a cell (7, 11); otherwise 0.
    ///
    /// ```
    /// use zegrafult::Refusal;
    ///
    /// assert_eq!((Refusal::Twice(3).place(), Refusal::Empty.place()), (3, 0));
    /// ```
    pub fn place(&self) -> usize {
        match *self {
            Refusal::OutOfRange(place)
            | Refusal::Twice(place)
            | Refusal::Length(place)
            | Refusal::Component(place)
            | Refusal::OffGrid(place)
            | Refusal::Other { place, .. } => place,
            _ => 0,
        }
    }

    /// A sentence for the operator.
    ///
    /// ```
    /// assert_eq!(zegrafult::Refusal::Empty.sentence(), "The list of qubits is empty.");
    /// ```
    pub fn sentence(&self) -> String {
        match *self {
            Refusal::Size => "A size is out of the range that the library takes.".into(),
            Refusal::OutOfRange(place) => format!("The qubit at list position {place} is not in the register."),
            Refusal::Twice(place) => format!("The qubit at list position {place} is listed twice."),
            Refusal::Empty => "The list of qubits is empty.".into(),
            Refusal::Whole => "The list names every qubit, so nothing is cut off.".into(),
            Refusal::Length(place) => format!("Argument slice {place} has a wrong length."),
            Refusal::Component(place) => format!("Cell {place} is not a number, infinite or above 2^200 in magnitude (2^190 for a chain)."),
            Refusal::NoWeight => "The data have no weight: nothing is left above the floor, or the trace is zero.".into(),
            Refusal::NotFinite => "The arithmetic gave a number that is not finite.".into(),
            Refusal::Malformed => "The file is not a cut file.".into(),
            Refusal::OffGrid(place) => format!("Cell {place} is not a whole number of 2^-18 of magnitude at most 1."),
            Refusal::NotListed => "The qubit is not listed.".into(),
            Refusal::SiteNumber => "The site number is not held, or is held already.".into(),
            Refusal::NoRun => "No run of free cells is long enough.".into(),
            Refusal::Full => "Sixty-four sites are held.".into(),
            Refusal::BrokenLot => "The lot's header is broken.".into(),
            Refusal::Other { number, .. } => format!("The answer {number} is not in the table."),
        }
    }
}

impl std::fmt::Display for Refusal {
    fn fmt(&self, f: &mut std::fmt::Formatter<'_>) -> std::fmt::Result {
        write!(f, "refused {} {}: {}", self.number(), self.place(), self.sentence())
    }
}

impl std::error::Error for Refusal {}

/// `Ok` on answer 0. The first call of a thread asks for its floating-point environment on the way.
pub(crate) fn answered<T>(number: u32, place: usize, value: T) -> Result<T, Refusal> {
    crate::environment::ask();
    match Refusal::of(number, place) {
        None => Ok(value),
        Some(refusal) => Err(refusal),
    }
}
