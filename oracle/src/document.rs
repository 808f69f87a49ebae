//! What document 01 decides without the given Rust: the limits of a text, and the list file.

use std::str;

use crate::forms::{Refusal, Span, Term, Token, Word, with_before};
use crate::given;

pub const LONGEST_TEXT: usize = 1_024;
pub const MOST_LEAVES: usize = 64;
pub const MOST_OPEN: usize = 32;
pub const MOST_ENTRIES: usize = 64;
pub const LONGEST_BODY: usize = 200;

/// Refusals 2 and 1, in that order.
pub fn checked_text(text: &[u8]) -> Result<&str, Refusal> {
    if text.len() > LONGEST_TEXT {
        return Err(Refusal::with_span(2, 0..0));
    }
    str::from_utf8(text).map_err(|error| {
        let place = error.valid_up_to();
        Refusal::with_span(1, place..place + 1)
    })
}

/// The first word that passes a limit: the 65th leaf (14) or the 33rd parenthesis open at once (15).
pub fn first_past_limit(words: &[Word]) -> Option<Refusal> {
    let mut leaves = 0;
    let mut open: usize = 0;
    for (before, word) in with_before(words) {
        match word.token {
            _ if word.begins_leaf(before) => leaves += 1,
            Token::Open => open += 1,
            Token::Close => open = open.saturating_sub(1),
            _ => {}
        }
        if leaves > MOST_LEAVES {
            return Some(Refusal::with_span(14, word.span.clone()));
        }
        if open > MOST_OPEN {
            return Some(Refusal::with_span(15, word.span.clone()));
        }
    }
    None
}

const COUNT_OR_CONTENTS: u64 = 255;
const AFTER_THE_END: u64 = 254;

/// The bodies' places in a list file, or refusal 17.
pub fn list(file: &[u8]) -> Result<Vec<Span>, Refusal> {
    let wrong = |value| Refusal::with_number(17, value);
    let Some(&count) = file.first() else { return Err(wrong(COUNT_OR_CONTENTS)) };
    let count = usize::from(count);
    let mut end = 1 + 4 * count;
    if count > MOST_ENTRIES || file.len() < end {
        return Err(wrong(COUNT_OR_CONTENTS));
    }
    let mut bodies = Vec::new();
    for (index, entry) in file[1..end].chunks_exact(4).enumerate() {
        let body = body(file, entry, end).ok_or(wrong(index as u64))?;
        end = body.end;
        bodies.push(body);
    }
    if file.len() > end {
        return Err(wrong(AFTER_THE_END));
    }
    Ok(bodies)
}

/// The place of an entry's body, which must begin at `expected`; none where anything is wrong with it.
fn body(file: &[u8], entry: &[u8], expected: usize) -> Option<Span> {
    let offset = usize::from(u16::from_le_bytes([entry[0], entry[1]]));
    let length = usize::from(u16::from_le_bytes([entry[2], entry[3]]));
    if offset != expected || length == 0 || length > LONGEST_BODY {
        return None;
    }
    let part = file.get(offset..offset + length)?;
    licensee(part).map(|_| offset..offset + length)
}

/// What a leaf asks for or a licensee offers, as the bytes that are compared.
#[derive(Clone, Debug, PartialEq)]
pub struct Terms<'t> {
    pub licence: Meaning<'t>,
    pub addition: Option<Meaning<'t>>,
}

#[derive(Clone, Debug, PartialEq)]
pub enum Meaning<'t> {
    Listed(&'static str),
    Reference { document: Option<&'t str>, name: &'t str },
}

impl<'t> Meaning<'t> {
    pub fn of(text: &'t str, term: &Term) -> Meaning<'t> {
        match term {
            Term::Listed(name) => Meaning::Listed(name),
            Term::Reference(reference) => Meaning::Reference {
                document: reference.document.clone().map(|range| &text[range]),
                name: &text[reference.name.clone()],
            },
        }
    }
}

/// A body is STRICT text of one licence, optionally WITH an addition, and nothing after.
pub fn licensee(body: &[u8]) -> Option<Terms<'_>> {
    let text = checked_text(body).ok()?;
    let (words, None) = given::words(text, given::STRICT) else { return None };
    let tokens: Vec<&Token> = words.iter().map(|word| &word.token).collect();
    let (licence, addition) = match tokens[..] {
        [licence] => (licence, None),
        [licence, Token::With, addition] => (licence, Some(addition)),
        _ => return None,
    };
    let licence = match licence {
        Token::Licence(name) if !is_deprecated(name) => Meaning::Listed(name),
        Token::LicenseRef(reference) => Meaning::of(text, &Term::Reference(reference.clone())),
        _ => return None,
    };
    let addition = match addition {
        None => None,
        Some(Token::Exception(name)) => Some(Meaning::Listed(name)),
        Some(Token::AdditionRef(reference)) => Some(Meaning::of(text, &Term::Reference(reference.clone()))),
        Some(_) => return None,
    };
    Some(Terms { licence, addition })
}

fn is_deprecated(name: &str) -> bool {
    spdx::license_id(name).is_some_and(|id| id.is_deprecated())
}
