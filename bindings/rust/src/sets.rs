//! The choice and the listing: which sets of accepted licences satisfy an expression.
//!
//! A set is a mask over the found licensees: those entries of the list that some leaf asks for. Bit 0 is the first of
//! them. A list may be handed over as a checked [`List`](crate::List) or as the bytes of a file, which are then
//! checked.

use std::iter::FusedIterator;

use crate::answer::answered;
use crate::mode::Mode;
use crate::raw;
use crate::refusal::Refusal;

/// How many licensees may be found.
const MOST_FOUND: usize = 30;

/// What [`choice`] answers.
#[derive(Clone, Copy, Debug, PartialEq, Eq, Hash)]
pub enum Choice {
    /// The numerically least set that satisfies the expression.
    Mask(u64),
    /// The budget does not reach it; the first mask that was not examined.
    Paused(u64),
}

/// What [`listing`] answers.
#[derive(Clone, Copy, Debug, PartialEq, Eq, Hash)]
pub enum Listing {
    /// A set that satisfies the expression, and would not without any one of its members.
    Found {
        /// The set.
        mask: u64,
        /// The cursor to go on from.
        next: u64,
    },
    /// The budget is used up; the cursor to go on from.
    Paused(u64),
    /// There is none from the cursor on; the last cursor there is.
    Finished(u64),
}

impl Listing {
    /// The cursor behind the masks that were examined.
    pub const fn next(self) -> u64 {
        match self {
            Listing::Found { next, .. } | Listing::Paused(next) | Listing::Finished(next) => next,
        }
    }
}

/// The least set of found licensees that satisfies the expression, of the first `budget` sets.
///
/// ```
/// use tasgilfrem::{choice, make_list, Choice, Mode};
///
/// let file = make_list(&["MIT", "ISC", "0BSD"])?;
/// assert_eq!(choice(b"(MIT AND ISC) OR 0BSD", Mode::STRICT, &file, 8)?, Choice::Mask(3));
/// assert_eq!(choice(b"(MIT AND ISC) OR 0BSD", Mode::STRICT, &file, 2)?, Choice::Paused(3));
/// # Ok::<(), tasgilfrem::Refusal>(())
/// ```
pub fn choice(text: &[u8], mode: Mode, list: impl AsRef<[u8]>, budget: u64) -> Result<Choice, Refusal> {
    let mut out = 0;
    let answer = answered(raw::choice(text, mode.bits(), list.as_ref(), budget, &mut out), 0)?;
    Ok(if answer.form == 0 { Choice::Mask(out) } else { Choice::Paused(out) })
}

/// Looks for the next set that satisfies the expression with every member needed, at the cursor and above, and examines
/// at most `budget` sets.
pub fn listing(text: &[u8], mode: Mode, list: impl AsRef<[u8]>, cursor: u64, budget: u64) -> Result<Listing, Refusal> {
    let mut out = [0; 2];
    let answer = answered(raw::listing(text, mode.bits(), list.as_ref(), cursor, budget, &mut out), cursor)?;
    let [mask, next] = out;
    Ok(match answer.form {
        0 => Listing::Found { mask, next },
        1 => Listing::Paused(next),
        _ => Listing::Finished(next),
    })
}

/// The found licensees: which entry of the list each bit of a mask stands for.
#[derive(Clone, Copy, Debug, PartialEq, Eq, Hash)]
pub struct Found {
    entries: [u8; MOST_FOUND],
    count: usize,
}

impl Found {
    /// How many there are: bits 0 up to, and without, this one.
    pub const fn len(self) -> usize {
        self.count
    }

    /// Whether there is none.
    pub const fn is_empty(self) -> bool {
        self.count == 0
    }

    /// The list entry that a bit stands for.
    pub fn entry(self, bit: usize) -> Option<usize> {
        self.entries[..self.count].get(bit).map(|entry| usize::from(*entry))
    }

    /// The list entries of a set, from bit 0 on.
    ///
    /// ```
    /// use tasgilfrem::{found, make_list, Mode};
    ///
    /// let file = make_list(&["MPL-2.0", "MIT", "ISC", "0BSD"])?;
    /// let found = found(b"(MIT AND ISC) OR 0BSD", Mode::STRICT, &file)?;
    /// assert_eq!(found.len(), 3);
    /// assert_eq!(found.members(3).collect::<Vec<_>>(), [1, 2]);
    /// # Ok::<(), tasgilfrem::Refusal>(())
    /// ```
    pub fn members(self, mask: u64) -> impl Iterator<Item = usize> {
        (0..self.count).filter(move |bit| mask >> bit & 1 == 1).map(move |bit| usize::from(self.entries[bit]))
    }
}

/// Which entries of the list the expression asks for.
pub fn found(text: &[u8], mode: Mode, list: impl AsRef<[u8]>) -> Result<Found, Refusal> {
    let mut entries = [0; MOST_FOUND];
    let count = answered(raw::found(text, mode.bits(), list.as_ref(), &mut entries), 0)?.value;
    Ok(Found { entries, count })
}

/// All sets that satisfy the expression with every member needed, ascending. Each call of the library examines at most
/// `budget` sets.
///
/// ```
/// use tasgilfrem::{make_list, sets, List, Mode};
///
/// let file = make_list(&["MIT", "ISC", "0BSD"])?;
/// let list = List::check(&file)?;
/// let all: Result<Vec<u64>, _> = sets(b"(MIT AND ISC) OR 0BSD", Mode::STRICT, &list, 2).collect();
/// assert_eq!(all?, [3, 4]);
/// # Ok::<(), tasgilfrem::Refusal>(())
/// ```
pub fn sets<'a, L: AsRef<[u8]> + ?Sized>(text: &'a [u8], mode: Mode, list: &'a L, budget: u64) -> Sets<'a> {
    Sets { text, mode, file: list.as_ref(), budget, cursor: 1, ended: false }
}

/// The iterator that [`sets`] gives. It may be stopped after any item or call, and gone on with from its cursor, in
/// another one too.
#[derive(Clone, Debug)]
pub struct Sets<'a> {
    text: &'a [u8],
    mode: Mode,
    file: &'a [u8],
    budget: u64,
    cursor: u64,
    ended: bool,
}

impl Sets<'_> {
    /// The cursor that it goes on from.
    pub fn cursor(&self) -> u64 {
        self.cursor
    }

    /// The same, from this cursor on.
    pub fn resumed_at(self, cursor: u64) -> Self {
        Sets { cursor, ended: false, ..self }
    }

    /// One call of the library, which examines at most the budget's number of sets: for who must not wait longer.
    pub fn advance(&mut self) -> Result<Listing, Refusal> {
        let listing = listing(self.text, self.mode, self.file, self.cursor, self.budget)?;
        self.cursor = listing.next();
        Ok(listing)
    }

    fn next_set(&mut self) -> Result<Option<u64>, Refusal> {
        loop {
            match self.advance()? {
                Listing::Found { mask, .. } => return Ok(Some(mask)),
                Listing::Paused(_) => {}
                Listing::Finished(_) => return Ok(None),
            }
        }
    }
}

impl Iterator for Sets<'_> {
    type Item = Result<u64, Refusal>;

    /// Goes on, call by call, until there is a set or the listing is finished.
    fn next(&mut self) -> Option<Self::Item> {
        if self.ended {
            return None;
        }
        let item = self.next_set().transpose();
        self.ended = !matches!(item, Some(Ok(_)));
        item
    }
}

impl FusedIterator for Sets<'_> {}
