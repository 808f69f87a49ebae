//! What a reading allows.

use std::ops::{BitOr, BitOrAssign};

/// Five flags, each of which allows something. They are joined with `|`.
///
/// ```
/// use tasgilfrem::Mode;
///
/// let mode = Mode::SLASH_AS_OR | Mode::UNKNOWN;
/// assert!(mode.allows(Mode::UNKNOWN));
/// assert!(!mode.allows(Mode::LAX));
/// ```
#[derive(Clone, Copy, Debug, Default, PartialEq, Eq, Hash)]
pub struct Mode(u8);

impl Mode {
    /// Nothing is allowed.
    pub const STRICT: Mode = Mode(0);
    /// `/` is read as OR.
    pub const SLASH_AS_OR: Mode = Mode(1);
    /// Imprecise names: `apache2` for Apache-2.0.
    pub const IMPRECISE: Mode = Mode(2);
    /// `+` after a GNU name.
    pub const GNU_PLUS: Mode = Mode(4);
    /// Deprecated names.
    pub const DEPRECATED: Mode = Mode(8);
    /// Unknown terms, which are read as references.
    pub const UNKNOWN: Mode = Mode(16);
    /// All but unknown terms.
    pub const LAX: Mode = Mode(15);
    /// All five flags.
    pub const ALL: Mode = Mode(31);

    /// The mode of these bits, as the flags above number them; none where there is another bit.
    pub const fn from_bits(bits: u8) -> Option<Mode> {
        if bits <= Mode::ALL.0 { Some(Mode(bits)) } else { None }
    }

    /// Its bits.
    pub const fn bits(self) -> u8 {
        self.0
    }

    /// Whether it has every flag of the other.
    pub const fn allows(self, other: Mode) -> bool {
        self.0 & other.0 == other.0
    }

    /// This mode without the flags of the other.
    pub const fn without(self, other: Mode) -> Mode {
        Mode(self.0 & !other.0)
    }
}

impl BitOr for Mode {
    type Output = Mode;

    fn bitor(self, other: Mode) -> Mode {
        Mode(self.0 | other.0)
    }
}

impl BitOrAssign for Mode {
    fn bitor_assign(&mut self, other: Mode) {
        *self = *self | other;
    }
}
