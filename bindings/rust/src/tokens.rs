//! From bytes to tokens.

use std::iter::FusedIterator;

use crate::answer::answered;
use crate::mode::Mode;
use crate::names::{ExceptionId, LicenceId};
use crate::raw;
use crate::refusal::Refusal;
use crate::span::Span;

/// The byte ranges of a reference's two names, each without its prefix.
#[derive(Clone, Copy, Debug, PartialEq, Eq, Hash)]
pub struct Reference {
    /// The name after `DocumentRef-`; none where there is no document part, which is not the same as an empty one.
    pub document: Option<Span>,
    /// The name after `LicenseRef-` or `AdditionRef-`.
    pub name: Span,
}

/// A word or sign of a text.
#[derive(Clone, Copy, Debug, PartialEq, Eq, Hash)]
pub enum Token {
    /// `AND` or `and`.
    And,
    /// `OR` or `or`, or `/` where the mode allows it.
    Or,
    /// `WITH` or `with`.
    With,
    /// `+`.
    Plus,
    /// `(`.
    Open,
    /// `)`.
    Close,
    /// A listed licence, also where an imprecise name stands for it.
    Licence(LicenceId),
    /// A listed exception.
    Exception(ExceptionId),
    /// A reference to a licence.
    LicenseRef(Reference),
    /// A reference to an addition.
    AdditionRef(Reference),
    /// An unknown term, where the mode allows it; the whole run.
    Unknown(Span),
}

/// What one step over a text answers.
#[derive(Clone, Copy, Debug, PartialEq, Eq, Hash)]
pub enum Step {
    /// A token.
    Token {
        /// Which.
        token: Token,
        /// Where it stands.
        span: Span,
        /// The place to go on from.
        next: usize,
    },
    /// There is none up to the end of the text.
    Done,
}

/// The token that stands at a place of the text or, after white space, behind it.
///
/// ```
/// use tasgilfrem::{step, Mode, Span, Step, Token};
///
/// let text = b"MIT OR ISC";
/// assert_eq!(step(text, Mode::STRICT, 3)?, Step::Token { token: Token::Or, span: Span::new(4, 6), next: 6 });
/// assert_eq!(step(text, Mode::STRICT, 10)?, Step::Done);
/// # Ok::<(), tasgilfrem::Refusal>(())
/// ```
pub fn step(text: &[u8], mode: Mode, place: usize) -> Result<Step, Refusal> {
    let mut cells = [0; 10];
    let answer = answered(raw::step(text, mode.bits(), place, &mut cells), place as u64)?;
    Ok(if answer.form == 0 { Step::Done } else { token_step(&cells) })
}

fn token_step(cells: &[u16; 10]) -> Step {
    let [kind, listed, has_document, document, document_end, name, name_end, start, end, next] = *cells;
    let name = Span::of_cells(name, name_end);
    let document = if has_document == 0 { None } else { Some(Span::of_cells(document, document_end)) };
    let token = match kind {
        1 => Token::And,
        2 => Token::Or,
        3 => Token::With,
        4 => Token::Plus,
        5 => Token::Open,
        6 => Token::Close,
        7 => Token::Licence(LicenceId(listed)),
        8 => Token::Exception(ExceptionId(listed)),
        9 => Token::LicenseRef(Reference { document, name }),
        10 => Token::AdditionRef(Reference { document, name }),
        11 => Token::Unknown(name),
        kind => unreachable!("the library has no kind of token {}", kind),
    };
    Step::Token { token, span: Span::of_cells(start, end), next: usize::from(next) }
}

/// All tokens of a text with their places: the iterator ends at the end of the text or after a refusal.
///
/// ```
/// use tasgilfrem::{tokens, Mode};
///
/// let all: Result<Vec<_>, _> = tokens(b"MIT OR ISC", Mode::STRICT).collect();
/// assert_eq!(all?[2].1.range(), 7..10);
/// # Ok::<(), tasgilfrem::Refusal>(())
/// ```
pub fn tokens(text: &[u8], mode: Mode) -> Tokens<'_> {
    Tokens { text, mode, place: Some(0) }
}

/// The iterator that [`tokens`] gives.
#[derive(Clone, Debug)]
pub struct Tokens<'t> {
    text: &'t [u8],
    mode: Mode,
    /// Where it goes on; none once it has ended.
    place: Option<usize>,
}

impl Iterator for Tokens<'_> {
    type Item = Result<(Token, Span), Refusal>;

    fn next(&mut self) -> Option<Self::Item> {
        match step(self.text, self.mode, self.place.take()?) {
            Ok(Step::Token { token, span, next }) => {
                self.place = Some(next);
                Some(Ok((token, span)))
            }
            Ok(Step::Done) => None,
            Err(refusal) => Some(Err(refusal)),
        }
    }
}

impl FusedIterator for Tokens<'_> {}
