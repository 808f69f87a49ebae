//! The small pieces that texts are made of: names, white space, characters and ill-formed bytes.

use spdx::flags::IS_DEPRECATED;
use spdx::identifiers::{EXCEPTIONS, IMPRECISE_NAMES, LICENSES};

use crate::given::{LARGEST_MODE, LAX, STRICT};

/// The five flags of a mode.
pub const SLASH: u8 = 1;
pub const IMPRECISE: u8 = 2;
pub const GNU_PLUS: u8 = 4;
pub const DEPRECATED: u8 = 8;
pub const UNKNOWN: u8 = 16;

/// STRICT, LAX, and LAX with unknown terms.
pub const MODES: [u8; 3] = [STRICT, LAX, LARGEST_MODE];

/// Document 01's white space, all 25 code points.
pub const WHITE: [u32; 25] = [
    0x09, 0x0a, 0x0b, 0x0c, 0x0d, 0x20, 0x85, 0xa0, 0x1680, 0x2000, 0x2001, 0x2002, 0x2003, 0x2004, 0x2005, 0x2006,
    0x2007, 0x2008, 0x2009, 0x200a, 0x2028, 0x2029, 0x202f, 0x205f, 0x3000,
];

/// The first and last characters of each width, and some from the middle.
pub const CHARACTERS: [u32; 16] = [
    0x00, 0x7f, 0x80, 0xe9, 0x3b1, 0x7ff, 0x800, 0x20ac, 0xd7ff, 0xe000, 0xfeff, 0xfffd, 0xffff, 0x10000, 0x1f600,
    0x10ffff,
];

/// At least one of every kind of ill-formed sequence.
pub const ILL_FORMED: [&[u8]; 41] = [
    // Continuation bytes on their own.
    b"\x80",
    b"\xbf",
    b"\x80\x80",
    // Cut short, at the end of a text or before another byte.
    b"\xc2",
    b"\xdf",
    b"\xe9",
    b"\xe0\xa0",
    b"\xe2\x82",
    b"\xef\xbf",
    b"\xf0\x90",
    b"\xf0\x9f\x98",
    b"\xf4\x8f\xbf",
    b"\xc3A",
    b"\xe2\x82A",
    b"\xf0\x9f\x98A",
    b"\xc3\xc3",
    b"\xe2\xe2\x82\xac",
    b"\xf0\x9f\xf0\x9f\x98\x80",
    // A second byte that is no continuation byte.
    b"\xc2\x7f",
    b"\xc2\xc0",
    b"\xe1\x7f\x80",
    b"\xf1\xc0\x80\x80",
    // Longer than need be.
    b"\xc0\x80",
    b"\xc0\xaf",
    b"\xc1\xbf",
    b"\xe0\x80\x80",
    b"\xe0\x9f\xbf",
    b"\xf0\x80\x80\x80",
    b"\xf0\x8f\xbf\xbf",
    // Surrogates.
    b"\xed\xa0\x80",
    b"\xed\xaf\xbf",
    b"\xed\xb0\x80",
    b"\xed\xbf\xbf",
    b"\xed\xa0\x80\xed\xb0\x80",
    // Above 10FFFF.
    b"\xf4\x90\x80\x80",
    b"\xf4\xbf\xbf\xbf",
    // Bytes that begin nothing.
    b"\xf5\x80\x80\x80",
    b"\xf8\x88\x80\x80\x80",
    b"\xfc\x84\x80\x80\x80\x80",
    b"\xfe",
    b"\xff",
];

pub const OPERATORS: [&str; 6] = ["AND", "OR", "and", "or", "WITH", "with"];
/// Spellings that look like operators and are none.
pub const FALSE_OPERATORS: [&str; 9] = ["And", "Or", "With", "oR", "aND", "WiTH", "ANDOR", "AN", "NOT"];
pub const UNKNOWN_RUNS: [&str; 14] =
    ["foo", "GPL", "MITx", "Mit", "APACHE", "x-y.z", ":", ":a", "a:", "-", ".", "LicenseRef", "DocumentRef-a", "MIT-"];
pub const LICENSE_REFS: [&str; 9] = [
    "LicenseRef-a",
    "LicenseRef-b.c-1",
    "LicenseRef-",
    "LicenseRef-MIT",
    "LicenseRef-LicenseRef-a",
    "DocumentRef-d:LicenseRef-a",
    "DocumentRef-:LicenseRef-a",
    "DocumentRef-d:LicenseRef-",
    "DocumentRef-:LicenseRef-",
];
pub const ADDITION_REFS: [&str; 7] = [
    "AdditionRef-a",
    "AdditionRef-b.c-1",
    "AdditionRef-",
    "DocumentRef-d:AdditionRef-a",
    "DocumentRef-:AdditionRef-a",
    "DocumentRef-d:AdditionRef-",
    "DocumentRef-:AdditionRef-",
];

/// The character's bytes; the caller names no surrogate.
pub fn encoded(code: u32) -> Vec<u8> {
    char::from_u32(code).expect("a character").to_string().into_bytes()
}

/// Every white space character and its neighbours, each once.
pub fn white_and_neighbours() -> Vec<u32> {
    let mut codes: Vec<u32> = WHITE.iter().flat_map(|code| [code - 1, *code, code + 1]).collect();
    codes.sort_unstable();
    codes.dedup();
    codes
}

pub fn licences() -> impl Iterator<Item = &'static str> {
    LICENSES.iter().map(|licence| licence.name)
}

/// The licences that are not deprecated.
pub fn current_licences() -> impl Iterator<Item = &'static str> {
    LICENSES.iter().filter(|licence| licence.flags & IS_DEPRECATED == 0).map(|licence| licence.name)
}

pub fn exceptions() -> impl Iterator<Item = &'static str> {
    EXCEPTIONS.iter().map(|exception| exception.name)
}

pub fn imprecise_names() -> impl Iterator<Item = &'static str> {
    IMPRECISE_NAMES.iter().map(|(name, _)| *name)
}

/// Every listed and imprecise name.
pub fn all_names() -> impl Iterator<Item = &'static str> {
    licences().chain(exceptions()).chain(imprecise_names())
}
