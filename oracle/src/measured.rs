//! The texts of the benchmark, in LAX: as many that read, of 10 to 1,000 bytes, as damaged copies of them that do not.

use crate::boundaries::Text;
use crate::document;
use crate::given::{self, LAX};
use crate::protocol::hex;
use crate::random::Random;
use crate::texts::{damaged, joined, leaf};

const SHORTEST: usize = 10;
const LONGEST: usize = 1000;

/// A leaf and its operator are about so long.
const LEAF: usize = 19;

/// Hands `count` lines of each sort to `write`.
pub fn lines<E>(seed: u64, count: u64, mut write: impl FnMut(String) -> Result<(), E>) -> Result<(), E> {
    let mut random = Random::new(seed);
    for _ in 0..count {
        let text = wanted(&mut random, true, |random| {
            let length = SHORTEST + random.below(LONGEST - SHORTEST + 1);
            joined(random, LAX, 1 + length / LEAF, &leaf).into_bytes()
        });
        let broken = wanted(&mut random, false, |random| damaged(random, text.clone()));
        write(format!("valid {}", hex(&text)))?;
        write(format!("damaged {}", hex(&broken)))?;
    }
    Ok(())
}

/// The first text that is made of the right length, and reads or does not.
fn wanted(random: &mut Random, reads: bool, make: impl Fn(&mut Random) -> Text) -> Text {
    loop {
        let text = make(random);
        if (SHORTEST..=LONGEST).contains(&text.len()) && self::reads(&text) == reads {
            return text;
        }
    }
}

/// Does a text read in LAX, within the limits?
pub fn reads(text: &[u8]) -> bool {
    document::checked_text(text).is_ok_and(|text| {
        let (words, _) = given::words(text, LAX);
        document::first_past_limit(&words).is_none() && given::parse(text, LAX).is_ok()
    })
}
