//! The accept list.

use std::iter::FusedIterator;
use std::ops::Range;

use crate::answer::answered;
use crate::raw;
use crate::refusal::Refusal;

/// A checked accept list: the caller's file, and how many entries it has.
///
/// ```
/// use tasgilfrem::List;
///
/// let file = b"\x01\x05\0\x03\0MIT";
/// let list = List::check(file)?;
/// assert_eq!(list.entries().collect::<Vec<_>>(), [b"MIT"]);
/// # Ok::<(), tasgilfrem::Refusal>(())
/// ```
#[derive(Clone, Copy, Debug, PartialEq, Eq, Hash)]
pub struct List<'f> {
    file: &'f [u8],
    count: usize,
}

impl<'f> List<'f> {
    /// Checks a list file; refusal 17 says what is wrong with it.
    pub fn check(file: &'f [u8]) -> Result<List<'f>, Refusal> {
        let count = answered(raw::list(file), 0)?.value;
        Ok(List { file, count })
    }

    /// How many entries it has, at most 64.
    pub fn len(self) -> usize {
        self.count
    }

    /// Whether it has no entry.
    pub fn is_empty(self) -> bool {
        self.count == 0
    }

    /// An entry, from 0, as a part of the caller's file.
    pub fn entry(self, index: usize) -> Option<&'f [u8]> {
        entry(self.file, index)
    }

    /// All its entries, each a part of the caller's file.
    pub fn entries(self) -> Entries<'f> {
        Entries { list: self, rest: 0..self.count }
    }

    /// The file.
    pub fn file(self) -> &'f [u8] {
        self.file
    }
}

impl AsRef<[u8]> for List<'_> {
    fn as_ref(&self) -> &[u8] {
        self.file
    }
}

impl<'f> IntoIterator for List<'f> {
    type Item = &'f [u8];
    type IntoIter = Entries<'f>;

    fn into_iter(self) -> Entries<'f> {
        self.entries()
    }
}

/// The entries of a list, in its order.
#[derive(Clone, Debug)]
pub struct Entries<'f> {
    list: List<'f>,
    rest: Range<usize>,
}

impl<'f> Iterator for Entries<'f> {
    type Item = &'f [u8];

    fn next(&mut self) -> Option<&'f [u8]> {
        self.list.entry(self.rest.next()?)
    }

    fn size_hint(&self) -> (usize, Option<usize>) {
        self.rest.size_hint()
    }
}

impl ExactSizeIterator for Entries<'_> {}
impl FusedIterator for Entries<'_> {}

/// An entry of a file that need not be checked: none where the file is wrong or has no such entry.
pub fn entry(file: &[u8], index: usize) -> Option<&[u8]> {
    let number = raw::entry(file, index);
    if number == 0 {
        return None;
    }
    let (start, length) = ((number >> 16 & 0xff_ffff) as usize, (number >> 40) as usize);
    file.get(start..start + length)
}

/// Makes the list file of these bodies and checks it. Refusal 17 says which body is wrong, or that there are over 64.
///
/// ```
/// let file = tasgilfrem::make_list(&["MIT"])?;
/// assert_eq!(file, b"\x01\x05\0\x03\0MIT");
/// # Ok::<(), tasgilfrem::Refusal>(())
/// ```
pub fn make_list<B: AsRef<[u8]>>(bodies: &[B]) -> Result<Vec<u8>, Refusal> {
    // A number that does not fit is written as the largest, which no valid file has.
    let mut file = vec![u8::try_from(bodies.len()).unwrap_or(u8::MAX)];
    let mut offset = 1 + 4 * bodies.len();
    for body in bodies.iter().map(AsRef::as_ref) {
        for number in [offset, body.len()] {
            file.extend(u16::try_from(number).unwrap_or(u16::MAX).to_le_bytes());
        }
        offset += body.len();
    }
    bodies.iter().for_each(|body| file.extend(body.as_ref()));
    List::check(&file)?;
    Ok(file)
}
