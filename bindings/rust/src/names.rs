//! The names that the terminal knows.

use crate::answer::{Answer, Told, told};
use crate::raw;

/// The part of the library's table that a name stands in.
#[derive(Clone, Copy)]
enum Part {
    Licences = 0,
    Exceptions = 1,
}

/// Room for most names; a longer one is asked for again.
const ROOM: usize = 16;

/// The name at a place, or an empty one where there is none.
fn name(part: Part, place: usize) -> String {
    let mut room = vec![0; ROOM];
    loop {
        match told(raw::name(part as u8, place, &mut room), 0) {
            Ok(Told::Answered(Answer { value, .. })) => {
                room.truncate(value);
                return String::from_utf8(room).expect("a listed name is ASCII");
            }
            Ok(Told::TooSmall(needed)) => room.resize(needed, 0),
            Err(refusal) => unreachable!("a name is not refused: {}", refusal),
        }
    }
}

/// The places of a part, from 0 up to the first that has no name.
fn places(part: Part) -> impl Iterator<Item = u16> {
    (0..=u16::MAX).take_while(move |place| !name(part, usize::from(*place)).is_empty())
}

/// A licence that the terminal lists, by its place in its order.
#[derive(Clone, Copy, Debug, PartialEq, Eq, PartialOrd, Ord, Hash)]
pub struct LicenceId(pub(crate) u16);

impl LicenceId {
    /// All listed licences, ascending by the bytes of their names.
    ///
    /// ```
    /// use tasgilfrem::LicenceId;
    ///
    /// assert!(LicenceId::all().any(|licence| licence.name() == "MIT"));
    /// ```
    pub fn all() -> impl Iterator<Item = LicenceId> {
        places(Part::Licences).map(LicenceId)
    }

    /// Its place among the licences, from 0.
    pub fn place(self) -> usize {
        usize::from(self.0)
    }

    /// Its name.
    pub fn name(self) -> String {
        name(Part::Licences, self.place())
    }
}

/// An exception that the terminal lists, by its place in its order.
#[derive(Clone, Copy, Debug, PartialEq, Eq, PartialOrd, Ord, Hash)]
pub struct ExceptionId(pub(crate) u16);

impl ExceptionId {
    /// All listed exceptions, ascending by the bytes of their names.
    pub fn all() -> impl Iterator<Item = ExceptionId> {
        places(Part::Exceptions).map(ExceptionId)
    }

    /// Its place among the exceptions, from 0.
    pub fn place(self) -> usize {
        usize::from(self.0)
    }

    /// Its name.
    pub fn name(self) -> String {
        name(Part::Exceptions, self.place())
    }
}
