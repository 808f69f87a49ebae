//! The answer to one question: document 01's order of refusals, and the written form of each answer.

use std::fmt::Write;

use spdx::Expression;

use crate::choice::{Chosen, Listed, Problem};
use crate::document::{self, Terms};
use crate::floors;
use crate::forms::{Answer, Carries, Node, Refusal, Side, Span};
use crate::given;
use crate::protocol::{bytes, fields, hex, number, number_up_to};

pub const LARGEST_BUFFER: usize = 4_096;
/// What every byte of the buffer lent to `canonical` holds before the call.
const BLANK: u8 = 0xaa;
/// The given minimizer is asked only where it comes to its answer within so many masks.
const RUST_PATIENCE: u64 = 1 << 20;

type Outcome = Result<Answer, Refusal>;

pub fn answer(line: &[u8]) -> Answer {
    respond(line).unwrap_or_else(|| from_document("?".to_owned()))
}

fn from_document(line: String) -> Answer {
    Answer { side: Side::Document, line }
}

fn from_rust(line: String) -> Answer {
    Answer { side: Side::Rust, line }
}

/// None where the line is no question.
fn respond(line: &[u8]) -> Option<Answer> {
    let fields = fields(line)?;
    let outcome = match fields[..] {
        [b"step", mode, place, text] => step(flags(mode)?, number(place)?, &bytes(text)?),
        [b"parse", mode, text] => parse(flags(mode)?, &bytes(text)?),
        [b"canonical", size, text] => {
            return Some(canonical(number_up_to(size, LARGEST_BUFFER as u64)? as usize, &bytes(text)?));
        }
        [b"list", file] => list(&bytes(file)?),
        [b"entry", index, file] => Ok(entry(number(index)?, &bytes(file)?)),
        [b"choice", mode, budget, text, file] => choice(flags(mode)?, number(budget)?, &bytes(text)?, &bytes(file)?),
        [b"listing", mode, cursor, budget, text, file] => {
            listing(flags(mode)?, number(cursor)?, number(budget)?, &bytes(text)?, &bytes(file)?)
        }
        _ => return floors::respond(&fields),
    };
    Some(outcome.unwrap_or_else(|refusal| refused(&refusal)))
}

fn flags(field: &[u8]) -> Option<u8> {
    number_up_to(field, u64::from(given::LARGEST_MODE)).map(|flags| flags as u8)
}

fn refused(refusal: &Refusal) -> Answer {
    Answer { side: refusal.side(), line: refusal.to_string() }
}

fn step(flags: u8, place: u64, text: &[u8]) -> Outcome {
    let text = document::checked_text(text)?;
    let outside = Refusal::with_number(20, place);
    let place = usize::try_from(place).map_err(|_| outside.clone())?;
    // The end of the text counts as a boundary, a place past it does not.
    if !text.is_char_boundary(place) {
        return Err(outside);
    }
    Ok(from_rust(match given::step(text, place, flags)? {
        Some(word) => format!("token {} {:?} next {}", word.token, word.span, word.span.end),
        None => "done".to_owned(),
    }))
}

fn parse(flags: u8, text: &[u8]) -> Outcome {
    let read = read(flags, text)?;
    let mut line = format!("read {}", read.nodes.len());
    for node in &read.nodes {
        write!(line, " | {node}").expect("a string takes all");
    }
    Ok(from_rust(line))
}

struct Read<'t> {
    text: &'t str,
    expression: Expression,
    nodes: Vec<Node>,
}

/// The nodes of a text, or the first refusal by document 01's order.
fn read(flags: u8, text: &[u8]) -> Result<Read<'_>, Refusal> {
    let text = document::checked_text(text)?;
    let (words, _) = given::words(text, flags);
    let parsed = given::parse(text, flags);
    let expression = match (parsed, document::first_past_limit(&words)) {
        (parsed, None) => parsed?,
        // What the Rust refuses at the same token (6 or 10) goes before 14 and 15.
        (Err(refusal), Some(limit)) if stopped_at(&refusal, text.len()) <= stopped_at(&limit, text.len()) => {
            return Err(refusal);
        }
        (_, Some(limit)) => return Err(limit),
    };
    let nodes = given::nodes(text, &expression, &words);
    Ok(Read { text, expression, nodes })
}

/// How far the reading of a text had come when it was refused.
fn stopped_at(refusal: &Refusal, end: usize) -> usize {
    match (&refusal.carries, refusal.number) {
        // An open parenthesis and an empty text are found only at the end, whatever their spans.
        (_, 8 | 9) => end,
        (Carries::Span(span) | Carries::SpanAndSet(span, _), _) => span.start,
        (Carries::Nothing | Carries::Number(_), _) => unreachable!("each refusal of a parse has a span"),
    }
}

fn canonical(size: usize, text: &[u8]) -> Answer {
    let mut buffer = vec![BLANK; size];
    let answer = canonical_into(&mut buffer, text).unwrap_or_else(|refusal| refused(&refusal));
    Answer { line: format!("{} {}", answer.line, hex(&buffer)), ..answer }
}

fn canonical_into(buffer: &mut [u8], text: &[u8]) -> Outcome {
    let text = document::checked_text(text)?;
    let Some(canonical) = given::canonical(text)? else { return Ok(from_rust("unchanged".to_owned())) };
    let Some(front) = buffer.get_mut(..canonical.len()) else {
        return Err(Refusal::with_number(16, canonical.len() as u64));
    };
    front.copy_from_slice(canonical.as_bytes());
    Ok(from_rust(format!("written {}", canonical.len())))
}

fn list(file: &[u8]) -> Outcome {
    let bodies = document::list(file)?;
    Ok(from_document(format!("valid {}", bodies.len())))
}

fn entry(index: u64, file: &[u8]) -> Answer {
    let bodies = document::list(file).unwrap_or_default();
    let body = usize::try_from(index).ok().and_then(|index| bodies.get(index));
    from_document(match body {
        Some(body) => format!("part {} {}", body.start, hex(&file[body.clone()])),
        None => "empty".to_owned(),
    })
}

/// A text and a list, both read, up to and with refusal 18.
pub struct Posed<'t> {
    expression: Expression,
    bodies: Vec<&'t str>,
    pub problem: Problem,
}

pub fn pose<'t>(flags: u8, text: &'t [u8], file: &'t [u8]) -> Result<Posed<'t>, Refusal> {
    let Read { text, expression, nodes } = read(flags, text)?;
    let part = |body: Span| &file[body];
    let bodies: Vec<&[u8]> = document::list(file)?.into_iter().map(part).collect();
    let accepted: Vec<Terms<'_>> =
        bodies.iter().map(|body| document::licensee(body).expect("a checked body")).collect();
    let problem = Problem::new(text, &nodes, &accepted)?;
    let bodies = bodies.iter().map(|body| document::checked_text(body).expect("a checked body")).collect();
    Ok(Posed { expression, bodies, problem })
}

fn choice(flags: u8, budget: u64, text: &[u8], file: &[u8]) -> Outcome {
    let Posed { expression, bodies, problem } = pose(flags, text, file)?;
    let by_rust = || given::minimized(&expression, &bodies, &problem.found);
    if !problem.all_satisfy() {
        let mask = by_rust()?;
        panic!("the given Rust chooses {mask} where all found together fail");
    }
    if budget == 0 {
        return Err(Refusal::bare(21));
    }
    let chosen = problem.choose(budget);
    let side = if budget >= problem.end() && problem.least() < RUST_PATIENCE {
        assert_eq!(by_rust().map(Chosen::Mask).as_ref(), Ok(&chosen), "the given Rust and document 01 must agree");
        Side::Rust
    } else {
        Side::Document
    };
    let line = match chosen {
        Chosen::Mask(mask) => format!("mask {mask}"),
        Chosen::Paused(next) => format!("paused {next}"),
    };
    Ok(Answer { side, line })
}

fn listing(flags: u8, cursor: u64, budget: u64, text: &[u8], file: &[u8]) -> Outcome {
    let problem = pose(flags, text, file)?.problem;
    if cursor == 0 || cursor > problem.end() {
        return Err(Refusal::with_number(20, cursor));
    }
    if budget == 0 {
        return Err(Refusal::bare(21));
    }
    Ok(from_document(match problem.list(cursor, budget) {
        Listed::Found(mask) => format!("found {mask} next {}", mask + 1),
        Listed::Paused(next) => format!("paused {next}"),
        Listed::Finished(next) => format!("finished {next}"),
    }))
}
