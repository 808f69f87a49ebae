//! The canonical text read again, of texts that read in LAX: STRICT must read it to the same tree, spans aside, references by
//! their bytes and bare GNU names taken as "-only", and its own canonical text must be itself.

use std::fs;
use std::io;

use crate::boundaries::{self, Text};
use crate::document::LONGEST_TEXT;
use crate::generate;
use crate::given::LAX;
use crate::measured;
use crate::protocol::{bytes, hex};
use crate::random::Random;

const SHOWN: usize = 10;

/// Two questions for each of `count` texts that read in LAX: those of the boundaries, then random ones.
pub fn ask<E>(seed: u64, count: u64, mut write: impl FnMut(String) -> Result<(), E>) -> Result<(), E> {
    let mut random = Random::new(seed);
    let random_texts = std::iter::from_fn(|| Some(generate::random_text(&mut random, LAX)));
    let texts = boundaries::texts().into_iter().chain(random_texts).filter(|text| measured::reads(text));
    for text in texts.take(count as usize) {
        write(format!("parse {LAX} {}", hex(&text)))?;
        write(format!("canonical 4096 {}", hex(&text)))?;
    }
    Ok(())
}

/// A text, its tree and its canonical text, as they were answered.
struct Answered {
    text: Text,
    nodes: String,
    canonical: Text,
}

/// Two questions for each canonical text that is no longer than a text may be.
pub fn again<E: From<io::Error>>(
    questions: &str,
    answers: &str,
    mut write: impl FnMut(String) -> Result<(), E>,
) -> Result<(), E> {
    for answered in short(questions, answers)? {
        write(format!("parse 0 {}", hex(&answered.canonical)))?;
        write(format!("canonical 0 {}", hex(&answered.canonical)))?;
    }
    Ok(())
}

/// How many of the texts differ once they are read again.
pub fn compare(questions: &str, answers: &str, second: &str) -> io::Result<usize> {
    let texts = short(questions, answers)?;
    let second = fs::read_to_string(second)?;
    let mut second = second.lines();
    let mut differ = 0;
    for answered in &texts {
        let (nodes, same) = (second.next().unwrap_or("(no line)"), second.next().unwrap_or("(no line)"));
        let before = tree(&answered.text, &answered.nodes);
        let after = tree(&answered.canonical, nodes);
        if before.is_some() && before == after && same == "unchanged -" {
            continue;
        }
        differ += 1;
        if differ <= SHOWN {
            println!("{}: {}", String::from_utf8_lossy(&answered.text), answered.nodes);
            println!("  {}: {nodes}; {same}", String::from_utf8_lossy(&answered.canonical));
        }
    }
    println!("reread: {} canonical texts of at most {LONGEST_TEXT} bytes, {differ} differ", texts.len());
    Ok(if texts.is_empty() { 1 } else { differ })
}

fn short(questions: &str, answers: &str) -> io::Result<Vec<Answered>> {
    let (questions, answers) = (fs::read_to_string(questions)?, fs::read_to_string(answers)?);
    let (questions, answers): (Vec<&str>, Vec<&str>) = (questions.lines().collect(), answers.lines().collect());
    let pairs = questions.chunks_exact(2).zip(answers.chunks_exact(2));
    let all = pairs.map(|(asked, got)| answered(asked, got)).collect::<Option<Vec<Answered>>>();
    let all = all.ok_or_else(|| io::Error::other("an answer is no tree or no canonical text"))?;
    Ok(all.into_iter().filter(|answered| answered.canonical.len() <= LONGEST_TEXT).collect())
}

fn answered(asked: &[&str], got: &[&str]) -> Option<Answered> {
    let text = bytes(asked[0].rsplit(' ').next()?.as_bytes())?;
    let canonical = match got[1].split(' ').collect::<Vec<&str>>()[..] {
        ["unchanged", _] => text.clone(),
        ["written", length, buffer] => {
            let mut buffer = bytes(buffer.as_bytes())?;
            buffer.truncate(length.parse().ok()?);
            buffer
        }
        _ => return None,
    };
    Some(Answered { text, nodes: got[0].to_owned(), canonical })
}

/// The nodes of an answer to `parse`, with no spans.
fn tree(text: &[u8], answer: &str) -> Option<Vec<String>> {
    let mut parts = answer.split(" | ");
    parts.next()?.strip_prefix("read ")?;
    parts.map(|node| if node.starts_with("leaf ") { leaf(text, node) } else { Some(node.to_owned()) }).collect()
}

fn leaf(text: &[u8], node: &str) -> Option<String> {
    let mut fields = node.split(' ').skip(1);
    let licence = named(text, &mut fields)?;
    let bare = is_gnu(&licence) && !licence.ends_with("-only") && !licence.ends_with("-or-later");
    let suffix = if bare { "-only" } else { "" };
    let plus = fields.next()?;
    Some(format!("{licence}{suffix} {plus} {}", named(text, &mut fields)?))
}

fn is_gnu(licence: &str) -> bool {
    licence.starts_with("listed GPL-") || licence.starts_with("listed LGPL-")
}

/// A name, or a reference by its bytes.
fn named<'a>(text: &[u8], fields: &mut impl Iterator<Item = &'a str>) -> Option<String> {
    match fields.next()? {
        "none" => Some("none".to_owned()),
        "listed" => Some(format!("listed {}", fields.next()?)),
        "ref" => {
            let document = fields.next()?;
            let document = if document == "-" { "-".to_owned() } else { range(text, document)? };
            Some(format!("ref {document} {}", range(text, fields.next()?)?))
        }
        _ => None,
    }
}

/// The bytes of a range, between quotes, so that an absent part is none of them.
fn range(text: &[u8], range: &str) -> Option<String> {
    let (start, end) = range.split_once("..")?;
    let part = text.get(start.parse().ok()?..end.parse().ok()?)?;
    Some(format!("`{}`", String::from_utf8_lossy(part)))
}
