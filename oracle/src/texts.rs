//! Random texts: made by the grammar for a mode, and damaged copies of them.

use crate::boundaries::Text;
use crate::document::LONGEST_TEXT;
use crate::given::LARGEST_MODE;
use crate::pieces::{
    ADDITION_REFS, CHARACTERS, DEPRECATED, FALSE_OPERATORS, GNU_PLUS, ILL_FORMED, IMPRECISE, LICENSE_REFS, OPERATORS,
    SLASH, UNKNOWN, UNKNOWN_RUNS, WHITE, current_licences, encoded, exceptions, imprecise_names, licences,
};
use crate::random::Random;

/// One leaf in so many goes against its mode, so that refusals 4, 10 and 11 come up too.
const STRAY: usize = 24;

/// Writes one leaf for a mode.
type LeafWriter = dyn Fn(&mut Random, u8, &mut String);

/// A text that the mode reads, but for a stray leaf now and then.
pub fn grammatical(random: &mut Random, flags: u8) -> String {
    let (leaves, leaf): (usize, &LeafWriter) = match random.below(40) {
        0 => (60 + random.below(8), &short_leaf),
        1..=3 => (10 + random.below(20), &leaf),
        _ => (1 + random.below(6), &leaf),
    };
    let mut text = joined(random, flags, leaves, leaf);
    if !random.one_in(4) {
        while text.len() > LONGEST_TEXT {
            text.pop();
        }
    }
    text
}

/// So many leaves joined by operators, some of them in parentheses.
pub fn joined(random: &mut Random, flags: u8, leaves: usize, leaf: &LeafWriter) -> String {
    let mut text = String::new();
    level(random, flags, leaves, leaf, &mut text);
    text
}

fn level(random: &mut Random, flags: u8, leaves: usize, leaf: &LeafWriter, text: &mut String) {
    // Mostly one leaf at a time, so that the precedence of operators counts.
    let first = if leaves > 1 && random.one_in(3) { 1 + random.below(leaves - 1) } else { 1 };
    group(random, flags, first, leaf, text);
    if leaves > first {
        operator(random, flags, text);
        level(random, flags, leaves - first, leaf, text);
    }
}

fn group(random: &mut Random, flags: u8, leaves: usize, leaf: &LeafWriter, text: &mut String) {
    if leaves == 1 && !random.one_in(12) {
        return leaf(random, flags, text);
    }
    let depth = if random.one_in(60) { 30 + random.below(5) } else { 1 };
    text.push_str(&"(".repeat(depth));
    level(random, flags, leaves, leaf, text);
    text.push_str(&")".repeat(depth));
}

fn operator(random: &mut Random, flags: u8, text: &mut String) {
    if flags & SLASH != 0 && random.one_in(3) {
        return text.push('/');
    }
    white(random, text);
    text.push_str(random.pick(&OPERATORS[..4]));
    white(random, text);
}

fn white(random: &mut Random, text: &mut String) {
    match random.below(12) {
        0 => text.push_str("  "),
        1 => text.push(char::from_u32(random.pick(&WHITE)).expect("a character")),
        _ => text.push(' '),
    }
}

/// A leaf for the mode, but for a stray one now and then.
pub fn leaf(random: &mut Random, flags: u8, text: &mut String) {
    let flags = if random.one_in(STRAY) { LARGEST_MODE } else { flags };
    let (name, listed) = licence(random, flags);
    text.push_str(name);
    let gnu = name.to_lowercase().contains("gpl");
    if listed && random.one_in(4) && (flags & GNU_PLUS != 0 || !gnu) {
        text.push('+');
    }
    while random.one_in(5) {
        white(random, text);
        text.push_str(random.pick(&OPERATORS[4..]));
        white(random, text);
        let (name, unknown) = addition(random, flags);
        text.push_str(name);
        if !unknown {
            return;
        }
    }
}

/// Of leaves as short as these more than 64 fit into a text.
fn short_leaf(random: &mut Random, _: u8, text: &mut String) {
    text.push_str(random.pick(&["MIT", "ISC", "0BSD", "MIT+", "LicenseRef-"]));
}

/// A licence, and whether it is a listed or imprecise name, which `+` may follow.
fn licence(random: &mut Random, flags: u8) -> (&'static str, bool) {
    match random.below(8) {
        0 => (random.pick(&LICENSE_REFS), false),
        1 if flags & UNKNOWN != 0 => (random.pick(&UNKNOWN_RUNS), false),
        2 if flags & IMPRECISE != 0 && flags & DEPRECATED != 0 => (pick_of(random, imprecise_names()), true),
        3 if flags & DEPRECATED != 0 => (pick_of(random, licences()), true),
        _ => (pick_of(random, current_licences()), true),
    }
}

/// An addition, and whether it is an unknown one, which another WITH may follow.
fn addition(random: &mut Random, flags: u8) -> (&'static str, bool) {
    match random.below(4) {
        0 if flags & UNKNOWN != 0 => (random.pick(&UNKNOWN_RUNS), true),
        1 => (random.pick(&ADDITION_REFS), false),
        _ => (pick_of(random, exceptions()), false),
    }
}

fn pick_of(random: &mut Random, names: impl Iterator<Item = &'static str>) -> &'static str {
    let names: Vec<&str> = names.collect();
    random.pick(&names)
}

/// Any sequence of tokens, most of it against the grammar.
pub fn token_soup(random: &mut Random) -> Text {
    let mut text = Text::new();
    for _ in 0..1 + random.below(7) {
        text.extend(piece(random));
        if !random.one_in(4) {
            text.push(b' ');
        }
    }
    text
}

/// A text with one to three damages.
pub fn damaged(random: &mut Random, mut text: Text) -> Text {
    for _ in 0..1 + random.below(3) {
        let place = random.below(text.len() + 1);
        let end = (place + random.below(6)).min(text.len());
        match random.below(6) {
            0 => drop(text.drain(place..end)),
            1 => text.truncate(place),
            2 if place < text.len() => text[place] = random.below(256) as u8,
            3 if place < text.len() => text[place] ^= 1 << random.below(8),
            4 => {
                let copy = text[place..end].to_vec();
                text.splice(place..place, copy);
            }
            _ => {
                let piece = piece(random);
                text.splice(place..place, piece);
            }
        }
    }
    text
}

fn piece(random: &mut Random) -> Text {
    let string = match random.below(14) {
        0 => return encoded(random.pick(&WHITE)),
        1 if random.one_in(3) => return encoded(random.pick(&CHARACTERS)),
        1 if random.one_in(3) => return random.pick(&ILL_FORMED).to_vec(),
        2 => "+",
        3 => random.pick(&["(", ")"]),
        4 => random.pick(&["/", ":"]),
        5 | 6 => random.pick(&OPERATORS),
        7 => random.pick(&FALSE_OPERATORS),
        8 => random.pick(&LICENSE_REFS),
        9 => random.pick(&ADDITION_REFS),
        10 => random.pick(&UNKNOWN_RUNS),
        11 => pick_of(random, exceptions()),
        12 => pick_of(random, imprecise_names()),
        _ => pick_of(random, licences()),
    };
    string.as_bytes().to_vec()
}
