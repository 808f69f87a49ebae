//! Answers the line protocol through the binding, so that the static library can be compared with the oracle: questions
//! on standard input, one a line, and one line on standard output for each; `?` where a line is no question.

use std::io::{self, BufRead, ErrorKind, Write};
use std::process::ExitCode;

use tasgilfrem::{
    Addition, Canonical, Choice, ExceptionId, Leaf, Licence, LicenceId, List, Listing, Mode, Node, Reference, Refusal,
    Step, Token,
};

const LONGEST_LINE: usize = 65_535;
/// `listing` has the most fields.
const MOST_FIELDS: usize = 6;
const LARGEST_BUFFER: u64 = 4_096;
/// What every byte of the buffer lent to `canonical` holds before the call.
const BLANK: u8 = 0xaa;
/// Answers are written out once there are so many bytes of them.
const ENOUGH: usize = 1 << 16;

fn main() -> ExitCode {
    match answer_all(io::stdin().lock(), io::stdout().lock()) {
        Ok(()) => ExitCode::SUCCESS,
        // Whoever reads has seen enough, as `head` does.
        Err(error) if error.kind() == ErrorKind::BrokenPipe => ExitCode::SUCCESS,
        Err(error) => {
            eprintln!("answers: {}", error);
            ExitCode::FAILURE
        }
    }
}

fn answer_all(mut input: impl BufRead, mut output: impl Write) -> io::Result<()> {
    let names = Names::all();
    let mut lent = Lent::default();
    let (mut line, mut out) = (Vec::new(), Vec::new());
    while input.read_until(b'\n', &mut line)? > 0 {
        if line.last() == Some(&b'\n') {
            line.pop();
        }
        match question(&line, &mut lent) {
            Some(question) => answer(question, &mut lent, &names, &mut out)?,
            None => out.push(b'?'),
        }
        out.push(b'\n');
        line.clear();
        if out.len() >= ENOUGH {
            output.write_all(&out)?;
            out.clear();
        }
    }
    output.write_all(&out)
}

/// Every listed name by its place, asked for once.
struct Names {
    licences: Vec<String>,
    exceptions: Vec<String>,
}

impl Names {
    fn all() -> Names {
        Names {
            licences: LicenceId::all().map(LicenceId::name).collect(),
            exceptions: ExceptionId::all().map(ExceptionId::name).collect(),
        }
    }

    fn licence(&self, licence: LicenceId) -> &str {
        &self.licences[licence.place()]
    }

    fn exception(&self, exception: ExceptionId) -> &str {
        &self.exceptions[exception.place()]
    }
}

/// The bytes of a question, which are used again for the next one.
#[derive(Default)]
struct Lent {
    text: Vec<u8>,
    file: Vec<u8>,
    buffer: Vec<u8>,
}

/// A question but for its bytes.
enum Question {
    Step(Mode, usize),
    Parse(Mode),
    Canonical,
    List,
    Entry(usize),
    Choice(Mode, u64),
    Listing(Mode, u64, u64),
}

/// None where the line is no question.
fn question(line: &[u8], lent: &mut Lent) -> Option<Question> {
    let mut fields: [&[u8]; MOST_FIELDS] = [b""; MOST_FIELDS];
    let count = split(line, &mut fields)?;
    let Lent { text, file, buffer } = lent;
    let question = match fields[..count] {
        [b"step", mode, place, bytes] => {
            unhex(bytes, text)?;
            Question::Step(flags(mode)?, number(place)? as usize)
        }
        [b"parse", mode, bytes] => {
            unhex(bytes, text)?;
            Question::Parse(flags(mode)?)
        }
        [b"canonical", size, bytes] => {
            unhex(bytes, text)?;
            buffer.clear();
            buffer.resize(number_up_to(size, LARGEST_BUFFER)? as usize, BLANK);
            Question::Canonical
        }
        [b"list", bytes] => {
            unhex(bytes, file)?;
            Question::List
        }
        [b"entry", index, bytes] => {
            unhex(bytes, file)?;
            Question::Entry(number(index)? as usize)
        }
        [b"choice", mode, budget, bytes, accepted] => {
            unhex(bytes, text)?;
            unhex(accepted, file)?;
            Question::Choice(flags(mode)?, number(budget)?)
        }
        [b"listing", mode, cursor, budget, bytes, accepted] => {
            unhex(bytes, text)?;
            unhex(accepted, file)?;
            Question::Listing(flags(mode)?, number(cursor)?, number(budget)?)
        }
        _ => return None,
    };
    Some(question)
}

/// Parts the line at each space, and says how many fields it has; none where there are too many, or the line is too
/// long.
fn split<'l>(line: &'l [u8], fields: &mut [&'l [u8]; MOST_FIELDS]) -> Option<usize> {
    if line.len() > LONGEST_LINE {
        return None;
    }
    let mut count = 0;
    for field in line.split(|byte| *byte == b' ') {
        *fields.get_mut(count)? = field;
        count += 1;
    }
    Some(count)
}

/// Decimal digits and nothing else; leading zeros are accepted.
fn number(field: &[u8]) -> Option<u64> {
    if field.is_empty() {
        return None;
    }
    field.iter().try_fold(0u64, |value, digit| {
        if !digit.is_ascii_digit() {
            return None;
        }
        value.checked_mul(10)?.checked_add(u64::from(digit - b'0'))
    })
}

fn number_up_to(field: &[u8], most: u64) -> Option<u64> {
    number(field).filter(|value| *value <= most)
}

fn flags(field: &[u8]) -> Option<Mode> {
    Mode::from_bits(number_up_to(field, u64::from(Mode::ALL.bits()))? as u8)
}

/// Lower-case hex, two digits a byte, or `-` for no bytes.
fn unhex(field: &[u8], into: &mut Vec<u8>) -> Option<()> {
    into.clear();
    if field == b"-" {
        return Some(());
    }
    if field.is_empty() || field.len() % 2 != 0 {
        return None;
    }
    for pair in field.chunks_exact(2) {
        into.push(digit(pair[0])? << 4 | digit(pair[1])?);
    }
    Some(())
}

fn digit(byte: u8) -> Option<u8> {
    match byte {
        b'0'..=b'9' => Some(byte - b'0'),
        b'a'..=b'f' => Some(byte - b'a' + 10),
        _ => None,
    }
}

fn answer(question: Question, lent: &mut Lent, names: &Names, out: &mut Vec<u8>) -> io::Result<()> {
    let Lent { text, file, buffer } = lent;
    match question {
        Question::Step(mode, place) => {
            or_refused(tasgilfrem::step(text, mode, place), out, |step, out| write_step(step, names, out))
        }
        Question::Parse(mode) => {
            or_refused(tasgilfrem::parse(text, mode), out, |tree, out| write_nodes(tree.nodes(), names, out))
        }
        Question::Canonical => {
            or_refused(tasgilfrem::canonical_into(text, buffer), out, write_canonical)?;
            out.push(b' ');
            write_hex(buffer, out);
            Ok(())
        }
        Question::List => or_refused(List::check(file), out, |list, out| write!(out, "valid {}", list.len())),
        Question::Entry(index) => write_entry(tasgilfrem::entry(file, index), file, out),
        Question::Choice(mode, budget) => or_refused(tasgilfrem::choice(text, mode, file, budget), out, write_choice),
        Question::Listing(mode, cursor, budget) => {
            or_refused(tasgilfrem::listing(text, mode, file, cursor, budget), out, write_listing)
        }
    }
}

/// Writes what was answered, or the refusal.
fn or_refused<T>(
    told: Result<T, Refusal>,
    out: &mut Vec<u8>,
    write: impl Fn(T, &mut Vec<u8>) -> io::Result<()>,
) -> io::Result<()> {
    match told {
        Ok(answer) => write(answer, out),
        Err(refusal) => write_refusal(refusal, out),
    }
}

fn write_refusal(refusal: Refusal, out: &mut Vec<u8>) -> io::Result<()> {
    write!(out, "refused {}", refusal.number())?;
    if let Some(span) = refusal.span() {
        write!(out, " {}", span)?;
    }
    if let Some(expected) = refusal.expected() {
        for (place, name) in expected.names().enumerate() {
            write!(out, "{}{}", if place == 0 { ' ' } else { ',' }, name)?;
        }
    }
    match refusal.value() {
        Some(value) => write!(out, " {}", value),
        None => Ok(()),
    }
}

fn write_step(step: Step, names: &Names, out: &mut Vec<u8>) -> io::Result<()> {
    match step {
        Step::Token { token, span, next } => {
            out.extend(b"token ");
            write_token(token, names, out)?;
            write!(out, " {} next {}", span, next)
        }
        Step::Done => out.write_all(b"done"),
    }
}

fn write_token(token: Token, names: &Names, out: &mut Vec<u8>) -> io::Result<()> {
    match token {
        Token::And => out.write_all(b"AND"),
        Token::Or => out.write_all(b"OR"),
        Token::With => out.write_all(b"WITH"),
        Token::Plus => out.write_all(b"+"),
        Token::Open => out.write_all(b"("),
        Token::Close => out.write_all(b")"),
        Token::Licence(licence) => write!(out, "licence {}", names.licence(licence)),
        Token::Exception(exception) => write!(out, "exception {}", names.exception(exception)),
        Token::LicenseRef(reference) => write_reference("licenseref", reference, out),
        Token::AdditionRef(reference) => write_reference("additionref", reference, out),
        Token::Unknown(span) => write!(out, "unknown {}", span),
    }
}

fn write_reference(word: &str, reference: Reference, out: &mut Vec<u8>) -> io::Result<()> {
    match reference.document {
        Some(document) => write!(out, "{} {} {}", word, document, reference.name),
        None => write!(out, "{} - {}", word, reference.name),
    }
}

fn write_nodes(nodes: &[Node], names: &Names, out: &mut Vec<u8>) -> io::Result<()> {
    write!(out, "read {}", nodes.len())?;
    for node in nodes {
        out.extend(b" | ");
        match node {
            Node::Leaf(leaf) => write_leaf(leaf, names, out)?,
            Node::And => out.extend(b"AND"),
            Node::Or => out.extend(b"OR"),
        }
    }
    Ok(())
}

fn write_leaf(leaf: &Leaf, names: &Names, out: &mut Vec<u8>) -> io::Result<()> {
    out.extend(b"leaf ");
    match leaf.licence {
        Licence::Listed(licence) => write!(out, "listed {}", names.licence(licence))?,
        Licence::Reference(reference) => write_reference("ref", reference, out)?,
    }
    out.extend(if leaf.plus { b" + " } else { b" - " });
    match leaf.addition {
        None => out.extend(b"none"),
        Some(Addition::Listed(exception)) => write!(out, "listed {}", names.exception(exception))?,
        Some(Addition::Reference(reference)) => write_reference("ref", reference, out)?,
    }
    write!(out, " {}", leaf.span)
}

fn write_canonical(answer: Canonical, out: &mut Vec<u8>) -> io::Result<()> {
    match answer {
        Canonical::Unchanged => out.write_all(b"unchanged"),
        Canonical::Written(length) => write!(out, "written {}", length),
    }
}

/// The offset is that of the part within the file, as their addresses have it.
fn write_entry(body: Option<&[u8]>, file: &[u8], out: &mut Vec<u8>) -> io::Result<()> {
    match body {
        Some(body) => {
            write!(out, "part {} ", body.as_ptr() as usize - file.as_ptr() as usize)?;
            write_hex(body, out);
            Ok(())
        }
        None => out.write_all(b"empty"),
    }
}

fn write_choice(choice: Choice, out: &mut Vec<u8>) -> io::Result<()> {
    match choice {
        Choice::Mask(mask) => write!(out, "mask {}", mask),
        Choice::Paused(next) => write!(out, "paused {}", next),
    }
}

fn write_listing(listing: Listing, out: &mut Vec<u8>) -> io::Result<()> {
    match listing {
        Listing::Found { mask, next } => write!(out, "found {} next {}", mask, next),
        Listing::Paused(next) => write!(out, "paused {}", next),
        Listing::Finished(next) => write!(out, "finished {}", next),
    }
}

fn write_hex(bytes: &[u8], out: &mut Vec<u8>) {
    const DIGITS: &[u8; 16] = b"0123456789abcdef";
    if bytes.is_empty() {
        out.push(b'-');
    }
    for byte in bytes {
        out.extend([DIGITS[usize::from(byte >> 4)], DIGITS[usize::from(byte & 15)]]);
    }
}
