//! Questions of the lower floors.

use crate::boundaries;
use crate::given::LARGEST_MODE;
use crate::pieces::{CHARACTERS, ILL_FORMED, WHITE, all_names, encoded, white_and_neighbours};
use crate::protocol::hex;
use crate::random::Random;
use crate::texts::{damaged, grammatical, token_soup};

/// First bytes at the edges of the classes of table 3-7, and second bytes at the edges of their ranges.
const LEADS: [u8; 26] = [
    0x00, 0x7f, 0x80, 0xbf, 0xc0, 0xc1, 0xc2, 0xc3, 0xde, 0xdf, 0xe0, 0xe1, 0xe2, 0xec, 0xed, 0xee, 0xef, 0xf0, 0xf1,
    0xf2, 0xf3, 0xf4, 0xf5, 0xf7, 0xf8, 0xff,
];
const SECONDS: [u8; 14] = [0x00, 0x41, 0x7f, 0x80, 0x81, 0x8f, 0x90, 0x91, 0x9f, 0xa0, 0xa1, 0xbf, 0xc0, 0xff];
/// What may stand after a first and a second byte.
const TAILS: [&[u8]; 8] = [b"", b"\x80", b"\xbf", b"\x7f", b"\xc0", b"\x80\x80", b"\xbf\xbf", b"\x80\xc0"];

const NAME_WORDS: [&str; 3] = ["licence", "exception", "imprecise"];
const PLACE_WORDS: [&str; 3] = ["char", "past", "inside"];

pub fn boundaries() -> Vec<String> {
    let mut questions = about_name(b"");
    questions.extend(all_names().flat_map(|name| about_name(name.as_bytes())));
    questions.extend(ILL_FORMED.iter().flat_map(|bytes| about_bytes(bytes)));
    for code in white_and_neighbours().into_iter().chain(CHARACTERS) {
        questions.extend(about_bytes(&encoded(code)));
        questions.extend(about_bytes(&[&encoded(code)[..], b"A"].concat()));
    }
    questions.extend((0..=255).flat_map(|byte| about_bytes(&[byte])));
    for name in all_names() {
        questions.extend(near_misses(name.as_bytes()).iter().flat_map(|miss| about_name(miss)));
    }
    for (lead, second) in LEADS.iter().flat_map(|lead| SECONDS.map(|second| (*lead, second))) {
        questions.extend(TAILS.iter().flat_map(|tail| about_front(&[&[lead, second], *tail].concat())));
    }
    for text in boundaries::texts() {
        questions.extend(["utf8", "past 3", "imprecise"].map(|question| format!("{question} {}", hex(&text))));
    }
    questions
}

/// Whether the bytes are well-formed, and what stands at each place of them, and just past their end, and far past.
fn about_bytes(bytes: &[u8]) -> Vec<String> {
    let mut questions = vec![format!("utf8 {}", hex(bytes))];
    for place in (0..=bytes.len() as u64 + 1).chain([u64::MAX]) {
        questions.extend(PLACE_WORDS.map(|word| format!("{word} {place} {}", hex(bytes))));
    }
    questions
}

/// Whether the bytes are well-formed, and what they begin with.
fn about_front(bytes: &[u8]) -> [String; 2] {
    ["utf8", "char 0"].map(|question| format!("{question} {}", hex(bytes)))
}

fn about_name(name: &[u8]) -> Vec<String> {
    NAME_WORDS.map(|word| format!("{word} {}", hex(name))).to_vec()
}

/// The name with one byte changed, cut, put in, or its case changed, at every place, and with bytes after it.
fn near_misses(name: &[u8]) -> Vec<Vec<u8>> {
    let mut misses = vec![name.to_ascii_lowercase(), name.to_ascii_uppercase()];
    for place in 0..name.len() {
        let (front, back) = name.split_at(place);
        for changed in [back[0].wrapping_add(1), back[0].wrapping_sub(1), back[0] ^ 0x20, back[0] ^ 0x80] {
            misses.push([front, &[changed], &back[1..]].concat());
        }
        misses.extend([front.to_vec(), back.to_vec(), [front, &back[1..]].concat(), [front, b"-", back].concat()]);
    }
    for after in ["+", "++", "-", "2", "-only", "-or-later", ":", " ", "\0", "é"] {
        misses.push([name, after.as_bytes()].concat());
    }
    misses.extend([[b" ", name].concat(), [name, b"\xff"].concat(), [name, name].concat()]);
    misses
}

pub fn random(random: &mut Random) -> String {
    if random.one_in(3) {
        let names: Vec<&str> = all_names().collect();
        let name = random.pick(&names).as_bytes().to_vec();
        let name = if random.one_in(4) { name } else { damaged(random, name) };
        return format!("{} {}", random.pick(&NAME_WORDS), hex(&name));
    }
    let text = random_bytes(random);
    if random.one_in(3) {
        return format!("utf8 {}", hex(&text));
    }
    format!("{} {} {}", random.pick(&PLACE_WORDS), random.below(text.len() + 2), hex(&text))
}

/// Runs of white space, characters of every width, ill-formed bytes, and any bytes at all.
fn random_bytes(random: &mut Random) -> Vec<u8> {
    match random.below(6) {
        0 => (0..random.below(12)).map(|_| random.below(256) as u8).collect(),
        1 => token_soup(random),
        2 => {
            let text = grammatical(random, LARGEST_MODE).into_bytes();
            damaged(random, text)
        }
        _ => (0..1 + random.below(8)).flat_map(|_| one_piece(random)).collect(),
    }
}

fn one_piece(random: &mut Random) -> Vec<u8> {
    match random.below(8) {
        0 => random.pick(&ILL_FORMED).to_vec(),
        1 => encoded(random.pick(&CHARACTERS)),
        2 => {
            let code = random.below(0x11_0000) as u32;
            char::from_u32(code).map_or_else(Vec::new, |c| c.to_string().into_bytes())
        }
        3 => {
            let neighbours = white_and_neighbours();
            encoded(random.pick(&neighbours))
        }
        _ => encoded(random.pick(&WHITE)),
    }
}
