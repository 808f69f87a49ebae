//! Questions from a seed. Each kind begins with its boundary cases and goes on with random ones.

use crate::answer::LARGEST_BUFFER;
use crate::boundaries::{self, Text};
use crate::document;
use crate::given::{self, LARGEST_MODE, LAX};
use crate::lists;
use crate::names_and_bytes;
use crate::pieces::MODES;
use crate::posed;
use crate::protocol::hex;
use crate::random::Random;
use crate::texts::{damaged, grammatical, token_soup};

/// A kind of question: its name, its boundary cases, and a random one.
struct Kind {
    name: &'static str,
    boundaries: fn() -> Vec<String>,
    random: fn(&mut Random) -> String,
}

const KINDS: [Kind; 8] = [
    Kind { name: "step", boundaries: step_boundaries, random: random_step },
    Kind { name: "parse", boundaries: parse_boundaries, random: random_parse },
    Kind { name: "canonical", boundaries: canonical_boundaries, random: random_canonical },
    Kind { name: "list", boundaries: list_boundaries, random: random_list },
    Kind { name: "entry", boundaries: entry_boundaries, random: random_entry },
    Kind { name: "choice", boundaries: posed::choice_boundaries, random: posed::random_choice },
    Kind { name: "listing", boundaries: posed::listing_boundaries, random: posed::random_listing },
    Kind { name: "floors", boundaries: names_and_bytes::boundaries, random: names_and_bytes::random },
];

pub fn kind_names() -> Vec<&'static str> {
    KINDS.iter().map(|kind| kind.name).chain(["all"]).collect()
}

/// Which questions of a kind are made: all, or only random ones.
#[derive(Clone, Copy)]
pub enum From {
    Boundaries,
    Random,
}

/// The questions of a kind without end, or of all kinds in turn; none where there is no such kind.
pub fn questions(kind: &str, seed: u64, from: From) -> Option<Box<dyn Iterator<Item = String>>> {
    if let Some(kind) = KINDS.iter().find(|known| known.name == kind) {
        return Some(Box::new(stream(kind, seed, from)));
    }
    if kind != "all" {
        return None;
    }
    let mut streams: Vec<_> = KINDS.iter().map(|kind| stream(kind, seed, from)).collect();
    let mut turn = 0;
    Some(Box::new(std::iter::from_fn(move || {
        turn = (turn + 1) % streams.len();
        streams[turn].next()
    })))
}

fn stream(kind: &Kind, seed: u64, from: From) -> impl Iterator<Item = String> + use<> {
    let mut random = Random::new(seed);
    let further = kind.random;
    let first = match from {
        From::Boundaries => (kind.boundaries)(),
        From::Random => Vec::new(),
    };
    first.into_iter().chain(std::iter::from_fn(move || Some(further(&mut random))))
}

/// A text by the grammar in the mode, a damaged one, a sequence of tokens, or one of nearly the longest.
pub fn random_text(random: &mut Random, flags: u8) -> Text {
    let text = grammatical(random, flags).into_bytes();
    match random.below(8) {
        0..=3 => text,
        4 | 5 => damaged(random, text),
        6 => token_soup(random),
        _ => filled_to_the_limit(random, text),
    }
}

/// The text, now and then with as much white space somewhere as brings it to within two bytes of the longest.
fn filled_to_the_limit(random: &mut Random, mut text: Text) -> Text {
    if random.one_in(8) {
        let length = document::LONGEST_TEXT - 2 + random.below(5);
        let place = random.below(text.len() + 1);
        text.splice(place..place, vec![b' '; length.saturating_sub(text.len())]);
    }
    text
}

pub fn random_flags(random: &mut Random) -> u8 {
    random.below(usize::from(LARGEST_MODE) + 1) as u8
}

fn step_question(flags: u8, place: u64, text: &[u8]) -> String {
    format!("step {flags} {place} {}", hex(text))
}

fn step_boundaries() -> Vec<String> {
    let mut questions = Vec::new();
    for text in boundaries::texts() {
        questions.extend(MODES.map(|flags| step_question(flags, 0, &text)));
        questions.push(step_question(LAX, text.len() as u64, &text));
        questions.push(step_question(LAX, text.len() as u64 + 1, &text));
        questions.extend(resumed(&text, LARGEST_MODE).map(|place| step_question(LARGEST_MODE, place, &text)));
    }
    // Every place in a text with characters of every width, and places that fit no memory.
    let mixed = "MIT\u{a0}+ \u{2003}é€😀 DocumentRef-a:LicenseRef-b:c".as_bytes();
    for place in (0..=mixed.len() as u64 + 1).chain([1 << 16, 1 << 32, u64::MAX - 1, u64::MAX]) {
        questions.push(step_question(LARGEST_MODE, place, mixed));
    }
    questions
}

/// Where the second and the third step begin, and one byte further, which is likely to be in white space.
fn resumed(text: &[u8], flags: u8) -> impl Iterator<Item = u64> + use<> {
    let words = document::checked_text(text).map_or(Vec::new(), |text| given::words(text, flags).0);
    words.into_iter().take(2).flat_map(|word| [word.span.end as u64, word.span.end as u64 + 1])
}

fn random_step(random: &mut Random) -> String {
    let flags = random_flags(random);
    let text = random_text(random, flags);
    // Where a token ends is the likeliest place of a next step.
    let place = match (document::checked_text(&text), random.below(4)) {
        (_, 0) => random.below(text.len() + 2),
        (Ok(text), _) => {
            let (words, _) = given::words(text, flags);
            words.get(random.below(words.len() + 1)).map_or(0, |word| word.span.end)
        }
        (Err(_), _) => 0,
    };
    step_question(flags, place as u64, &text)
}

fn parse_question(flags: u8, text: &[u8]) -> String {
    format!("parse {flags} {}", hex(text))
}

fn parse_boundaries() -> Vec<String> {
    let texts = boundaries::texts();
    texts.iter().flat_map(|text| MODES.map(|flags| parse_question(flags, text))).collect()
}

fn random_parse(random: &mut Random) -> String {
    let flags = random_flags(random);
    let text = random_text(random, flags);
    parse_question(flags, &text)
}

fn canonical_question(size: usize, text: &[u8]) -> String {
    format!("canonical {size} {}", hex(text))
}

/// The length of the canonical text, or of the text where there is none.
fn canonical_length(text: &[u8]) -> usize {
    let canonical = document::checked_text(text).ok().and_then(|text| given::canonical(text).ok().flatten());
    canonical.map_or(text.len(), |canonical| canonical.len())
}

fn canonical_boundaries() -> Vec<String> {
    let mut questions = Vec::new();
    for text in boundaries::texts() {
        let length = canonical_length(&text);
        for size in [length, length + 1, length.saturating_sub(1)] {
            questions.push(canonical_question(size.min(LARGEST_BUFFER), &text));
        }
    }
    for text in ["", "mit", "MIT", " ", "GPL-3.0-or-later+", "gplv2 AND", "+"] {
        questions.extend([0, 1, LARGEST_BUFFER].map(|size| canonical_question(size, text.as_bytes())));
    }
    questions
}

fn random_canonical(random: &mut Random) -> String {
    // Only what LAX lexes has a canonical text, so most texts are made for it.
    let flags = if random.one_in(6) { random_flags(random) } else { LAX };
    let text = random_text(random, flags);
    let length = canonical_length(&text);
    let size = match random.below(6) {
        0 => random.below(length + 1),
        1 => length.saturating_sub(1),
        2 => length + random.below(20),
        _ => length,
    };
    canonical_question(size.min(LARGEST_BUFFER), &text)
}

fn list_boundaries() -> Vec<String> {
    lists::boundaries().iter().map(|file| format!("list {}", hex(file))).collect()
}

fn random_list(random: &mut Random) -> String {
    format!("list {}", hex(&lists::random(random)))
}

fn entry_boundaries() -> Vec<String> {
    let mut questions = Vec::new();
    for file in lists::boundaries() {
        let count = u64::from(file.first().copied().unwrap_or(0));
        for index in [0, count.saturating_sub(1), count, count + 1, u64::MAX] {
            questions.push(format!("entry {index} {}", hex(&file)));
        }
    }
    questions
}

fn random_entry(random: &mut Random) -> String {
    let file = lists::random(random);
    let count = usize::from(file.first().copied().unwrap_or(0));
    format!("entry {} {}", random.below(count + 2), hex(&file))
}
