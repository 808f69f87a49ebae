//! The canonical text.

use std::borrow::Cow;
use std::str;

use crate::answer::answered;
use crate::raw;
use crate::refusal::Refusal;

const ASCII: &str = "a canonical text is ASCII";

/// What [`canonical_into`] answers.
#[derive(Clone, Copy, Debug, PartialEq, Eq, Hash)]
pub enum Canonical {
    /// The text is canonical; nothing was written.
    Unchanged,
    /// So many bytes were written to the front of the buffer; those behind them stayed as they were.
    Written(usize),
}

/// Writes the canonical text of a text into the buffer. Unless it is written, the buffer stays as it was.
///
/// ```
/// use tasgilfrem::{canonical_into, Canonical, Refusal};
///
/// let mut buffer = *b"....";
/// assert_eq!(canonical_into(b"mit", &mut buffer), Ok(Canonical::Written(3)));
/// assert_eq!(&buffer, b"MIT.");
/// assert_eq!(canonical_into(b"mit", &mut buffer[..2]), Err(Refusal::BufferTooSmall(3)));
/// ```
pub fn canonical_into(text: &[u8], buffer: &mut [u8]) -> Result<Canonical, Refusal> {
    let answer = answered(raw::canonical(text, buffer), 0)?;
    Ok(if answer.form == 0 { Canonical::Unchanged } else { Canonical::Written(answer.value) })
}

/// The canonical text of a text: the text itself where it is canonical.
///
/// ```
/// let text = b"apache with LLVM-exception/gpl-3.0+ and gplv2";
/// let canonical = tasgilfrem::canonical(text)?;
/// assert_eq!(canonical, "Apache-2.0 WITH LLVM-exception OR GPL-3.0-or-later AND GPL-2.0-only");
/// # Ok::<(), tasgilfrem::Refusal>(())
/// ```
pub fn canonical(text: &[u8]) -> Result<Cow<'_, str>, Refusal> {
    let mut buffer = vec![0; text.len()];
    loop {
        match canonical_into(text, &mut buffer) {
            Ok(Canonical::Unchanged) => return Ok(Cow::Borrowed(str::from_utf8(text).expect(ASCII))),
            Ok(Canonical::Written(length)) => {
                buffer.truncate(length);
                return Ok(Cow::Owned(String::from_utf8(buffer).expect(ASCII)));
            }
            Err(Refusal::BufferTooSmall(length)) => buffer.resize(length, 0),
            Err(refusal) => return Err(refusal),
        }
    }
}
