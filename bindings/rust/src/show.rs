//! A refusal below the text that it is about.

use std::cmp::min;
use std::fmt::{self, Display, Formatter, Write};
use std::str;

use crate::refusal::Refusal;
use crate::span::Span;
use crate::width;

/// A refusal with its text, as [`Refusal::show`] gives it. It is written as three lines, of which the last has no line
/// end: the text, a mark of carets under the exact place, and the refusal. Where the refusal has no place in the text
/// (16 to 21), or the text is too long (2), it is the refusal alone.
///
/// Columns are those of a terminal: a wide character has two, and a combining mark is in the column of what it stands
/// on. What would move the text (a control character, a line end, a mark of direction) is written as a sign of one
/// column, and so is each ill-formed sequence of bytes.
///
/// ```
/// use tasgilfrem::{parse, Mode};
///
/// let text = "MIT é".as_bytes();
/// let refusal = parse(text, Mode::STRICT).unwrap_err();
/// assert_eq!(refusal.show(text).to_string(), "MIT é\n    ^\n3 at 4..6: no token begins here");
/// ```
#[derive(Clone, Copy, Debug)]
pub struct Shown<'t> {
    refusal: Refusal,
    text: &'t [u8],
}

impl<'t> Shown<'t> {
    pub(crate) const fn new(refusal: Refusal, text: &'t [u8]) -> Shown<'t> {
        Shown { refusal, text }
    }

    fn place(&self) -> Option<Span> {
        match self.refusal {
            Refusal::TooLong(_) => None,
            refusal => refusal.span(),
        }
    }
}

impl Display for Shown<'_> {
    fn fmt(&self, f: &mut Formatter<'_>) -> fmt::Result {
        if let Some(span) = self.place() {
            pieces(self.text).try_for_each(|piece| f.write_char(piece.shown))?;
            let mark = Mark::under(self.text, span);
            write!(f, "\n{:before$}{:^<carets$}\n", "", "", before = mark.before, carets = mark.carets)?;
        }
        self.refusal.fmt(f)
    }
}

/// Where the carets stand.
struct Mark {
    before: usize,
    carets: usize,
}

impl Mark {
    /// At least one caret, also where the span is empty.
    fn under(text: &[u8], span: Span) -> Mark {
        let mut mark = Mark { before: 0, carets: 0 };
        for piece in pieces(text) {
            let columns = width::columns(piece.shown);
            if piece.end <= span.start {
                mark.before += columns;
            } else if piece.start < span.end {
                // A combining mark that the span begins with is in the column before.
                let drawn_back = piece.start <= span.start && columns == 0 && mark.before > 0;
                mark.before -= usize::from(drawn_back);
                mark.carets += columns + usize::from(drawn_back);
            }
        }
        Mark { carets: mark.carets.max(1), ..mark }
    }
}

/// What is shown for some bytes of the text: a character, or one sign for an ill-formed sequence.
struct Piece {
    start: usize,
    end: usize,
    shown: char,
}

fn pieces(text: &[u8]) -> impl Iterator<Item = Piece> + '_ {
    let mut start = 0;
    std::iter::from_fn(move || {
        let (length, shown) = first_of(text.get(start..)?)?;
        let piece = Piece { start, end: start + length, shown };
        start = piece.end;
        Some(piece)
    })
}

/// How long the first piece is and how it is shown; none where there is no byte.
fn first_of(text: &[u8]) -> Option<(usize, char)> {
    // No character is longer than four bytes.
    let front = &text[..min(text.len(), 4)];
    let (well_formed, ill_formed) = match str::from_utf8(front) {
        Ok(all) => (all, 0),
        Err(error) => {
            let well_formed = str::from_utf8(&front[..error.valid_up_to()]).unwrap_or_default();
            (well_formed, error.error_len().unwrap_or(front.len() - error.valid_up_to()))
        }
    };
    match well_formed.chars().next() {
        Some(first) => Some((first.len_utf8(), visible(first))),
        None if ill_formed > 0 => Some((ill_formed, char::REPLACEMENT_CHARACTER)),
        None => None,
    }
}

/// The character itself, or a sign for one that is not seen or moves what is.
fn visible(character: char) -> char {
    match character {
        '\0'..='\x1f' => char::from_u32(0x2400 + u32::from(character)).unwrap_or(char::REPLACEMENT_CHARACTER),
        '\x7f' => '\u{2421}',
        // line ends
        '\u{85}' | '\u{2028}' | '\u{2029}' => '\u{2424}',
        // controls, then characters of no width that join, part, order or tag others
        '\u{80}'..='\u{9f}' | '\u{ad}' | '\u{61c}' | '\u{180e}' | '\u{200b}'..='\u{200f}' | '\u{202a}'..='\u{202e}' => {
            '\u{2426}'
        }
        '\u{2060}'..='\u{206f}' | '\u{feff}' | '\u{fff9}'..='\u{fffb}' | '\u{1d173}'..='\u{1d17a}' => '\u{2426}',
        '\u{e0000}'..='\u{e007f}' => '\u{2426}',
        _ => character,
    }
}
