//! The numbered refusals, with what document 01's table says that each carries.

use std::error::Error;
use std::fmt::{self, Display, Formatter};
use std::ops::BitOr;

use crate::show::Shown;
use crate::span::Span;

/// Why a call was refused. A variant carries the span or number of document 01's table and nothing else.
#[derive(Clone, Copy, Debug, PartialEq, Eq, Hash)]
#[non_exhaustive]
pub enum Refusal {
    /// 1: the text is not UTF-8; the first byte of the first ill-formed sequence.
    NotUtf8(Span),
    /// 2: the text has over 1,024 bytes; 0..0.
    TooLong(Span),
    /// 3: no run begins here; from here to the end of the text.
    InvalidCharacters(Span),
    /// 4: a run that is not known; the run.
    UnknownTerm(Span),
    /// 5: white space before `+`; that white space.
    SeparatedPlus(Span),
    /// 6: a token that may not follow, or a text that may not end; the token or the end, and what may stand there.
    Unexpected(Span, Expected),
    /// 7: a `)` without its `(`; the `)`.
    UnopenedParens(Span),
    /// 8: a parenthesis is open at the end; the innermost open `(`.
    UnclosedParens(Span),
    /// 9: there is no token; the whole text.
    Empty(Span),
    /// 10: a deprecated name that the mode does not allow; the name.
    DeprecatedLicenseId(Span),
    /// 11: `+` after a GNU name that the mode does not allow; the `+`.
    GnuNoPlus(Span),
    /// 12: `+` after a name that ends in "-or-later"; the `+`.
    GnuPlusWithSuffix(Span),
    /// 13: `+` after a GNU name that has no "-or-later" name; the `+`.
    UnknownLicense(Span),
    /// 14: the 65th leaf; its token.
    TooManyLeaves(Span),
    /// 15: the 33rd open parenthesis; its token.
    TooDeep(Span),
    /// 16: the canonical text is longer than the buffer; its length.
    BufferTooSmall(usize),
    /// 17: the list file is wrong; what of it.
    WrongList(ListFault),
    /// 18: over 30 licensees are found; how many.
    TooManyRequirements(u64),
    /// 19: all found licensees together do not satisfy the expression.
    RequirementsUnmet,
    /// 20: a cursor that is not one of the listing's, or a place past the end or inside a character; the cursor or
    /// place given.
    NoSuchPlace(u64),
    /// 21: the budget is 0.
    NoBudget,
}

impl Refusal {
    /// Document 01's number.
    pub const fn number(self) -> u8 {
        match self {
            Refusal::NotUtf8(_) => 1,
            Refusal::TooLong(_) => 2,
            Refusal::InvalidCharacters(_) => 3,
            Refusal::UnknownTerm(_) => 4,
            Refusal::SeparatedPlus(_) => 5,
            Refusal::Unexpected(..) => 6,
            Refusal::UnopenedParens(_) => 7,
            Refusal::UnclosedParens(_) => 8,
            Refusal::Empty(_) => 9,
            Refusal::DeprecatedLicenseId(_) => 10,
            Refusal::GnuNoPlus(_) => 11,
            Refusal::GnuPlusWithSuffix(_) => 12,
            Refusal::UnknownLicense(_) => 13,
            Refusal::TooManyLeaves(_) => 14,
            Refusal::TooDeep(_) => 15,
            Refusal::BufferTooSmall(_) => 16,
            Refusal::WrongList(_) => 17,
            Refusal::TooManyRequirements(_) => 18,
            Refusal::RequirementsUnmet => 19,
            Refusal::NoSuchPlace(_) => 20,
            Refusal::NoBudget => 21,
        }
    }

    /// The place in the text, of refusals 1 to 15.
    pub const fn span(self) -> Option<Span> {
        match self {
            Refusal::NotUtf8(span)
            | Refusal::TooLong(span)
            | Refusal::InvalidCharacters(span)
            | Refusal::UnknownTerm(span)
            | Refusal::SeparatedPlus(span)
            | Refusal::Unexpected(span, _)
            | Refusal::UnopenedParens(span)
            | Refusal::UnclosedParens(span)
            | Refusal::Empty(span)
            | Refusal::DeprecatedLicenseId(span)
            | Refusal::GnuNoPlus(span)
            | Refusal::GnuPlusWithSuffix(span)
            | Refusal::UnknownLicense(span)
            | Refusal::TooManyLeaves(span)
            | Refusal::TooDeep(span) => Some(span),
            _ => None,
        }
    }

    /// What may stand at the place instead, of refusal 6.
    pub const fn expected(self) -> Option<Expected> {
        match self {
            Refusal::Unexpected(_, expected) => Some(expected),
            _ => None,
        }
    }

    /// The number that refusals 16, 17, 18 and 20 carry, as document 01 numbers it.
    pub const fn value(self) -> Option<u64> {
        match self {
            Refusal::BufferTooSmall(length) => Some(length as u64),
            Refusal::WrongList(fault) => Some(fault.number()),
            Refusal::TooManyRequirements(found) => Some(found),
            Refusal::NoSuchPlace(given) => Some(given),
            _ => None,
        }
    }

    /// The refusal below its text, with a mark under the place: see [`Shown`].
    pub const fn show(self, text: &[u8]) -> Shown<'_> {
        Shown::new(self, text)
    }

    /// A sentence without the place, and without what was expected.
    fn sentence(self) -> &'static str {
        match self {
            Refusal::NotUtf8(_) => "the text is not UTF-8",
            Refusal::TooLong(_) => "the text has over 1,024 bytes",
            Refusal::InvalidCharacters(_) => "no token begins here",
            Refusal::UnknownTerm(_) => "this is not a known name",
            Refusal::SeparatedPlus(_) => "white space stands before the `+`",
            Refusal::Unexpected(span, _) if span.is_empty() => "the text may not end here",
            Refusal::Unexpected(..) => "this may not stand here",
            Refusal::UnopenedParens(_) => "this `)` has no `(`",
            Refusal::UnclosedParens(_) => "this `(` is not closed",
            Refusal::Empty(_) => "there is no licence in the text",
            Refusal::DeprecatedLicenseId(_) => "this name is deprecated",
            Refusal::GnuNoPlus(_) => "a GNU name may not have a `+` here",
            Refusal::GnuPlusWithSuffix(_) => "this `+` follows a name that ends in \"-or-later\"",
            Refusal::UnknownLicense(_) => "no \"-or-later\" name is listed for this `+`",
            Refusal::TooManyLeaves(_) => "this is the 65th licence, and 64 are the most",
            Refusal::TooDeep(_) => "this is the 33rd open parenthesis, and 32 are the most",
            Refusal::BufferTooSmall(_) => "the buffer is too small for the canonical text, which needs so many bytes",
            Refusal::WrongList(_) => "the list file is wrong",
            Refusal::TooManyRequirements(_) => {
                "too many of the accepted licences are asked for: 30 are the most, and found are"
            }
            Refusal::RequirementsUnmet => "the accepted licences together do not satisfy the expression",
            Refusal::NoSuchPlace(_) => "there is no such place or cursor",
            Refusal::NoBudget => "the budget is 0",
        }
    }
}

impl Display for Refusal {
    fn fmt(&self, f: &mut Formatter<'_>) -> fmt::Result {
        write!(f, "{}", self.number())?;
        if let Some(span) = self.span() {
            write!(f, " at {}", span)?;
        }
        write!(f, ": {}", self.sentence())?;
        match *self {
            Refusal::Unexpected(_, expected) => write!(f, "; expected: {}", expected),
            Refusal::WrongList(fault) => write!(f, ": {}", fault),
            _ => self.value().map_or(Ok(()), |value| write!(f, ": {}", value)),
        }
    }
}

impl Error for Refusal {}

/// What is wrong with a list file.
#[derive(Clone, Copy, Debug, PartialEq, Eq, Hash)]
pub enum ListFault {
    /// An entry, from 0: its offset, its length, its end or its body.
    Entry(u8),
    /// There is something after the last body.
    BytesAfterTheEnd,
    /// The count, or the contents do not fit the file.
    Contents,
}

impl ListFault {
    /// Document 01's number: the entry, 254 or 255.
    pub const fn number(self) -> u64 {
        match self {
            ListFault::Entry(index) => index as u64,
            ListFault::BytesAfterTheEnd => 254,
            ListFault::Contents => 255,
        }
    }
}

impl From<u64> for ListFault {
    fn from(number: u64) -> ListFault {
        match number {
            254 => ListFault::BytesAfterTheEnd,
            255 => ListFault::Contents,
            entry => ListFault::Entry(entry as u8),
        }
    }
}

impl Display for ListFault {
    fn fmt(&self, f: &mut Formatter<'_>) -> fmt::Result {
        match self {
            ListFault::Entry(index) => write!(f, "entry {}", index),
            ListFault::BytesAfterTheEnd => write!(f, "bytes after the end"),
            ListFault::Contents => write!(f, "its count or contents"),
        }
    }
}

/// What may stand at a place: a set of eight members, which are joined with `|`.
///
/// ```
/// use tasgilfrem::{parse, Expected, Mode};
///
/// let expected = parse(b"+", Mode::STRICT).unwrap_err().expected().unwrap();
/// assert_eq!(expected, Expected::LICENCE | Expected::OPEN);
/// assert_eq!(expected.to_string(), "licence, (");
/// ```
#[derive(Clone, Copy, Debug, PartialEq, Eq, Hash)]
pub struct Expected(u8);

impl Expected {
    /// A licence.
    pub const LICENCE: Expected = Expected(1);
    /// `(`.
    pub const OPEN: Expected = Expected(2);
    /// AND.
    pub const AND: Expected = Expected(4);
    /// OR.
    pub const OR: Expected = Expected(8);
    /// WITH.
    pub const WITH: Expected = Expected(16);
    /// `)`.
    pub const CLOSE: Expected = Expected(32);
    /// `+`.
    pub const PLUS: Expected = Expected(64);
    /// An addition.
    pub const ADDITION: Expected = Expected(128);

    /// The set of these bits, as the members above number them.
    pub const fn from_bits(bits: u8) -> Expected {
        Expected(bits)
    }

    /// Its bits.
    pub const fn bits(self) -> u8 {
        self.0
    }

    /// Whether it has every member of the other.
    pub const fn contains(self, other: Expected) -> bool {
        self.0 & other.0 == other.0
    }

    /// Its members by name, in document 01's order.
    pub fn names(self) -> impl Iterator<Item = &'static str> {
        const NAMES: [&str; 8] = ["licence", "(", "AND", "OR", "WITH", ")", "+", "addition"];
        NAMES.iter().enumerate().filter(move |(bit, _)| self.0 >> bit & 1 == 1).map(|(_, name)| *name)
    }
}

impl BitOr for Expected {
    type Output = Expected;

    fn bitor(self, other: Expected) -> Expected {
        Expected(self.0 | other.0)
    }
}

impl Display for Expected {
    fn fmt(&self, f: &mut Formatter<'_>) -> fmt::Result {
        for (place, name) in self.names().enumerate() {
            write!(f, "{}{}", if place == 0 { "" } else { ", " }, name)?;
        }
        Ok(())
    }
}
