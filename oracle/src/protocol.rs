//! Lines, fields, numbers and hex of the line protocol.

use std::io::{self, BufRead, Write};

use crate::answer::answer;
use crate::forms::Side;

pub const LONGEST_LINE: usize = 65_535;

/// Answers every line of the input; `marked` puts the side in front of each answer.
pub fn answer_all(mut input: impl BufRead, mut output: impl Write, marked: bool) -> io::Result<()> {
    let mut line = Vec::new();
    loop {
        line.clear();
        if input.read_until(b'\n', &mut line)? == 0 {
            return output.flush();
        }
        if line.last() == Some(&b'\n') {
            line.pop();
        }
        let answer = answer(&line);
        if marked {
            let side = match answer.side {
                Side::Rust => "rust ",
                Side::Document => "document ",
            };
            output.write_all(side.as_bytes())?;
        }
        output.write_all(answer.line.as_bytes())?;
        output.write_all(b"\n")?;
    }
}

/// The fields of a line, or none where the line is too long. Two spaces together make an empty field.
pub fn fields(line: &[u8]) -> Option<Vec<&[u8]>> {
    (line.len() <= LONGEST_LINE).then(|| line.split(|byte| *byte == b' ').collect())
}

/// Decimal digits and nothing else. Leading zeros are accepted, since the protocol rules out only what is too large.
pub fn number(field: &[u8]) -> Option<u64> {
    if field.is_empty() {
        return None;
    }
    field.iter().try_fold(0u64, |value, digit| {
        if !digit.is_ascii_digit() {
            return None;
        }
        value.checked_mul(10)?.checked_add(u64::from(digit - b'0'))
    })
}

/// A number that is no larger than `most`.
pub fn number_up_to(field: &[u8], most: u64) -> Option<u64> {
    number(field).filter(|value| *value <= most)
}

/// Lower-case hex, two digits a byte, or `-` for no bytes.
pub fn bytes(field: &[u8]) -> Option<Vec<u8>> {
    if field == b"-" {
        return Some(Vec::new());
    }
    if field.is_empty() || !field.len().is_multiple_of(2) {
        return None;
    }
    field.chunks_exact(2).map(|pair| Some(digit(pair[0])? << 4 | digit(pair[1])?)).collect()
}

fn digit(byte: u8) -> Option<u8> {
    match byte {
        b'0'..=b'9' => Some(byte - b'0'),
        b'a'..=b'f' => Some(byte - b'a' + 10),
        _ => None,
    }
}

/// The field that stands for these bytes.
pub fn hex(bytes: &[u8]) -> String {
    const DIGITS: &[u8; 16] = b"0123456789abcdef";
    if bytes.is_empty() {
        return "-".to_owned();
    }
    let mut field = String::with_capacity(bytes.len() * 2);
    for byte in bytes {
        field.push(char::from(DIGITS[usize::from(byte >> 4)]));
        field.push(char::from(DIGITS[usize::from(byte & 15)]));
    }
    field
}
