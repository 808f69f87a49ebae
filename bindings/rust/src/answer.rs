//! The number that every function of the library answers, taken apart.

use crate::refusal::{Expected, Refusal};
use crate::span::Span;

/// The status where what was lent is too small.
const TOO_SMALL: u8 = 255;

/// An answer with status 0: which one of the function's answers it is, and a number.
pub(crate) struct Answer {
    pub form: u8,
    pub value: usize,
}

/// What the library answers where it does not refuse.
pub(crate) enum Told {
    Answered(Answer),
    /// How many records or bytes are needed.
    TooSmall(usize),
}

/// `bits(n, from, to)`: bits `from` up to, and without, `to`.
const fn bits(number: u64, from: u32, to: u32) -> u64 {
    number >> from & ((1 << (to - from)) - 1)
}

/// `given` is the cursor or the place that refusal 20 carries: the library's number has no room for the largest.
fn refused(number: u64, given: u64) -> Refusal {
    let span = Span::new(bits(number, 16, 40) as usize, bits(number, 40, 64) as usize);
    let set = Expected::from_bits(bits(number, 8, 16) as u8);
    let carried = number >> 8;
    match number as u8 {
        1 => Refusal::NotUtf8(span),
        2 => Refusal::TooLong(span),
        3 => Refusal::InvalidCharacters(span),
        4 => Refusal::UnknownTerm(span),
        5 => Refusal::SeparatedPlus(span),
        6 => Refusal::Unexpected(span, set),
        7 => Refusal::UnopenedParens(span),
        8 => Refusal::UnclosedParens(span),
        9 => Refusal::Empty(span),
        10 => Refusal::DeprecatedLicenseId(span),
        11 => Refusal::GnuNoPlus(span),
        12 => Refusal::GnuPlusWithSuffix(span),
        13 => Refusal::UnknownLicense(span),
        14 => Refusal::TooManyLeaves(span),
        15 => Refusal::TooDeep(span),
        16 => Refusal::BufferTooSmall(carried as usize),
        17 => Refusal::WrongList(carried.into()),
        18 => Refusal::TooManyRequirements(carried),
        19 => Refusal::RequirementsUnmet,
        20 => Refusal::NoSuchPlace(given),
        21 => Refusal::NoBudget,
        status => unreachable!("the library has no status {}", status),
    }
}

pub(crate) fn told(number: u64, given: u64) -> Result<Told, Refusal> {
    match number as u8 {
        0 => Ok(Told::Answered(Answer { form: bits(number, 8, 16) as u8, value: (number >> 16) as usize })),
        TOO_SMALL => Ok(Told::TooSmall((number >> 8) as usize)),
        _ => Err(refused(number, given)),
    }
}

/// The answer of a function that is lent as much as it can ever need.
pub(crate) fn answered(number: u64, given: u64) -> Result<Answer, Refusal> {
    match told(number, given)? {
        Told::Answered(answer) => Ok(answer),
        Told::TooSmall(needed) => unreachable!("{} were needed, more than there can be", needed),
    }
}
