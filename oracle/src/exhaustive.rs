//! Every sequence of up to so many tokens, over an alphabet that has each kind of token.

use crate::pieces::MODES;
use crate::protocol::hex;

pub const TOKENS: usize = 5;

const ALPHABET: [&str; 13] = [
    "AND",
    "OR",
    "WITH",
    "+",
    "(",
    ")",
    "MIT",
    "GPL-2.0",
    "GPL-2.0-or-later",
    "LLVM-exception",
    "LicenseRef-a",
    "AdditionRef-b",
    "foo",
];

/// Hands every question to `write`, the shortest sequences first.
pub fn questions<E>(most: usize, mut write: impl FnMut(String) -> Result<(), E>) -> Result<(), E> {
    for length in 0..=most as u32 {
        for number in 0..ALPHABET.len().pow(length) {
            let text = hex(sequence(number, length).as_bytes());
            for mode in MODES {
                write(format!("parse {mode} {text}"))?;
            }
        }
    }
    Ok(())
}

/// The number's digits choose the tokens. One space stands between them, but none before `+`, which would be refused.
fn sequence(mut number: usize, length: u32) -> String {
    let mut text = String::new();
    for _ in 0..length {
        let token = ALPHABET[number % ALPHABET.len()];
        number /= ALPHABET.len();
        if !text.is_empty() && token != "+" {
            text.push(' ');
        }
        text.push_str(token);
    }
    text
}
