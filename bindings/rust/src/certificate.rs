//! The certificate of a cut file as text: what `cutprint` and `pageprint` print, byte for byte, with no folder and no process.
use crate::{ffi, Refusal};

/// A printout, and the file's answer where it is not 0. A refused file has a printout too: the line `refused N P`.
///
/// ```
/// use zegrafult::{certificate, Printout, Refusal};
///
/// assert_eq!(certificate(b"CUT1"), Printout { text: "refused 10 0\n".into(), refusal: Some(Refusal::Malformed) });
/// ```
#[derive(Clone, Debug, PartialEq, Eq)]
pub struct Printout {
    /// What is printed.
    pub text: String,
    /// Of both pages, 8 and 9 refuse page one alone, and the text has both.
    pub refusal: Option<Refusal>,
}

/// How many bytes the calls ask to be lent for text.
const ONE: usize = 2048;
const BOTH: usize = 102400;

fn printout(room: usize, call: impl FnOnce(&mut [u8], &mut usize, &mut usize) -> u32) -> Printout {
    let mut text = vec![0; room];
    let (mut place, mut length) = (0, 0);
    let number = call(&mut text, &mut place, &mut length);
    text.truncate(length);
    crate::environment::ask();
    let refusal = Refusal::of(number, place);
    Printout { text: String::from_utf8_lossy(&text).into_owned(), refusal }
}

/// Page one of the certificate of a cut file's bytes: the Schmidt values, as `cutprint` prints them.
///
/// ```
/// use zegrafult::certificate;
///
/// let file = std::fs::read("../../examples/circuit.cut").unwrap();
/// let page = certificate(&file);
/// assert!(page.text.starts_with("cut 6 3 8 8\nside 4 1 2\nvalue 0 3FE3E4BFCCE0479C\n"));
/// assert_eq!(certificate(b"CUT1").text, "refused 10 0\n");
/// ```
pub fn certificate(file: &[u8]) -> Printout {
    printout(ONE, |text, place, length| {
        // SAFETY: each pointer is to a borrowed slice of the length behind it; what is written overlaps nothing else that is lent.
        unsafe { ffi::zg_certificate(file.as_ptr(), file.len(), text.as_mut_ptr(), text.len(), place, length) }
    })
}

/// Both pages of the certificate of a cut file's bytes, as `pageprint` prints them: the values, then the reduced density matrix of the
/// named qubits. The lines stand in `docs/CONVENTIONS.md`.
///
/// ```
/// use zegrafult::{certificate, certificate_pages};
///
/// let file = std::fs::read("../../examples/circuit.cut").unwrap();
/// let pages = certificate_pages(&file);
/// assert_eq!(pages.text, std::fs::read_to_string("../../examples/circuit.pages.txt").unwrap());
/// assert!(pages.text.contains(&certificate(&file).text));
/// assert_eq!(pages.refusal, None);
/// ```
pub fn certificate_pages(file: &[u8]) -> Printout {
    printout(BOTH, |text, place, length| {
        // SAFETY: each pointer is to a borrowed slice of the length behind it; what is written overlaps nothing else that is lent.
        unsafe { ffi::zg_certificate_pages(file.as_ptr(), file.len(), text.as_mut_ptr(), text.len(), place, length) }
    })
}
