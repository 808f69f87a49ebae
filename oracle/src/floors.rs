//! Questions of the lower floors, beside those of the protocol: UTF-8, white space and names.
//!
//!     utf8 TEXT           well, or ill P
//!     char PLACE TEXT     char CODE WIDTH white, char CODE WIDTH -, or none
//!     past PLACE TEXT     at P
//!     inside PLACE TEXT   yes, or no
//!     licence TEXT        listed NAME FLAGS LATER ONLY, or none
//!     exception TEXT      listed NAME, or none
//!     imprecise TEXT      stands NAME LEN, or none

use std::str;

use spdx::LicenseId;

use crate::forms::{Answer, Side};
use crate::protocol::{bytes, number};

/// None where the fields are no question of the lower floors.
pub fn respond(fields: &[&[u8]]) -> Option<Answer> {
    let line = match *fields {
        [b"utf8", text] => utf8(&bytes(text)?),
        [b"char", place, text] => character(number(place)?, &bytes(text)?),
        [b"past", place, text] => past(number(place)?, &bytes(text)?),
        [b"inside", place, text] => inside(number(place)?, &bytes(text)?),
        [b"licence", text] => licence(&bytes(text)?),
        [b"exception", text] => exception(&bytes(text)?),
        [b"imprecise", text] => imprecise(&bytes(text)?),
        _ => return None,
    };
    // The lookup of imprecise names is document 01's own; the rest is the given crate's or its language's.
    let side = if fields[0] == b"imprecise" { Side::Document } else { Side::Rust };
    Some(Answer { side, line })
}

fn utf8(text: &[u8]) -> String {
    match str::from_utf8(text) {
        Ok(_) => "well".to_owned(),
        Err(error) => format!("ill {}", error.valid_up_to()),
    }
}

fn character(place: u64, text: &[u8]) -> String {
    match character_at(place, text) {
        Some(c) => {
            let white = if c.is_whitespace() { "white" } else { "-" };
            format!("char {} {} {white}", u32::from(c), c.len_utf8())
        }
        None => "none".to_owned(),
    }
}

/// The character that the bytes from a place on begin with, whatever follows it.
fn character_at(place: u64, text: &[u8]) -> Option<char> {
    let rest = text.get(usize::try_from(place).ok()?..)?;
    (1..=rest.len().min(4)).find_map(|width| str::from_utf8(&rest[..width]).ok()?.chars().next())
}

fn past(place: u64, text: &[u8]) -> String {
    let mut end = place;
    while let Some(c) = character_at(end, text).filter(|c| c.is_whitespace()) {
        end += c.len_utf8() as u64;
    }
    format!("at {end}")
}

fn inside(place: u64, text: &[u8]) -> String {
    let byte = usize::try_from(place).ok().and_then(|place| text.get(place));
    let inside = matches!(byte, Some(0x80..=0xbf));
    if let (Some(_), Ok(well)) = (byte, str::from_utf8(text)) {
        assert_eq!(inside, !well.is_char_boundary(place as usize), "a continuation byte is no boundary");
    }
    if inside { "yes".to_owned() } else { "no".to_owned() }
}

fn licence(run: &[u8]) -> String {
    let Some(id) = as_run(run).and_then(spdx::license_id) else { return "none".to_owned() };
    let flags = match (id.is_deprecated(), id.is_gnu()) {
        (false, false) => "-",
        (true, false) => "d",
        (false, true) => "g",
        (true, true) => "dg",
    };
    let name = |id: Option<LicenseId>| id.map_or("-", |id| id.name);
    format!("listed {} {flags} {} {}", id.name, name(or_later(id)), name(only(id)))
}

fn or_later(id: LicenseId) -> Option<LicenseId> {
    if !id.is_gnu() || id.name.ends_with("-or-later") {
        return None;
    }
    spdx::gnu_license_id(id.name.strip_suffix("-only").unwrap_or(id.name), true)
}

fn only(id: LicenseId) -> Option<LicenseId> {
    if !id.is_gnu() || id.name.ends_with("-or-later") || id.name.ends_with("-only") {
        return None;
    }
    spdx::gnu_license_id(id.name, false)
}

fn exception(run: &[u8]) -> String {
    match as_run(run).and_then(spdx::exception_id) {
        Some(id) => format!("listed {}", id.name),
        None => "none".to_owned(),
    }
}

/// The given lookup cuts off `+` first, which no run holds; so what is no run is not looked up.
fn as_run(text: &[u8]) -> Option<&str> {
    let may_stand = |byte: &u8| byte.is_ascii_alphanumeric() || b"-.:".contains(byte);
    if text.iter().all(may_stand) { str::from_utf8(text).ok() } else { None }
}

fn imprecise(text: &[u8]) -> String {
    // The names are ASCII, so what follows the first ill-formed byte cannot matter.
    let well = match str::from_utf8(text) {
        Ok(well) => well,
        Err(error) => str::from_utf8(&text[..error.valid_up_to()]).expect("the well-formed front"),
    };
    match spdx::imprecise_license_id(well) {
        Some((id, length)) => format!("stands {} {length}", id.name),
        None => "none".to_owned(),
    }
}
