//! Questions of the choice and the listing.

use crate::answer::pose;
use crate::boundaries::Text;
use crate::choice::{Listed, MOST_FOUND};
use crate::generate::random_flags;
use crate::given::{LARGEST_MODE, LAX, STRICT};
use crate::lists::{self, File, padded};
use crate::protocol::hex;
use crate::random::Random;
use crate::texts::joined;

/// Whoever answers walks over the masks one by one, so no question asks for more of them than this.
const MOST_MASKS: u64 = 1 << 16;

/// 64 characters that a reference's name may hold, one for each of as many licensees.
const LETTERS: &[u8; 64] = b"0123456789ABCDEFGHIJKLMNOPQRSTUVWXYZabcdefghijklmnopqrstuvwxyz-.";

/// A text, its mode and a list.
pub struct Case {
    pub flags: u8,
    pub text: Text,
    pub file: File,
}

impl Case {
    fn new(flags: u8, text: &str, accepted: &[&str]) -> Case {
        Case { flags, text: text.as_bytes().to_vec(), file: lists::file(accepted) }
    }

    fn choice(&self, budget: u64) -> Option<String> {
        let quick = match pose(self.flags, &self.text, &self.file) {
            Ok(posed) => !posed.problem.all_satisfy() || budget.min(posed.problem.least()) <= MOST_MASKS,
            Err(_) => true,
        };
        quick.then(|| format!("choice {} {budget} {} {}", self.flags, hex(&self.text), hex(&self.file)))
    }

    fn listing(&self, cursor: u64, budget: u64) -> Option<String> {
        let quick = match pose(self.flags, &self.text, &self.file) {
            Ok(posed) if cursor >= 1 && cursor <= posed.problem.end() && budget > MOST_MASKS => {
                !matches!(posed.problem.list(cursor, MOST_MASKS), Listed::Paused(_))
            }
            _ => true,
        };
        quick.then(|| format!("listing {} {cursor} {budget} {} {}", self.flags, hex(&self.text), hex(&self.file)))
    }

    /// Numbers at which the answers turn: around each of the masks that the listing finds, and around 2^k.
    fn turns(&self) -> Vec<u64> {
        let mut turns = vec![0, 1, 2, u64::MAX - 1, u64::MAX];
        let Ok(posed) = pose(self.flags, &self.text, &self.file) else { return turns };
        let problem = posed.problem;
        let mut cursor = 1;
        while let Listed::Found(mask) = problem.list(cursor, MOST_MASKS) {
            turns.extend([mask - 1, mask, mask + 1]);
            cursor = mask + 1;
            if turns.len() > 24 {
                break;
            }
        }
        if problem.all_satisfy() {
            turns.extend([problem.least() - 1, problem.least(), problem.least() + 1]);
        }
        turns.extend([problem.end() - 1, problem.end(), problem.end() + 1]);
        turns.sort_unstable();
        turns.dedup();
        turns
    }
}

pub fn choice_boundaries() -> Vec<String> {
    boundary_cases().iter().flat_map(|case| case.turns().into_iter().filter_map(|budget| case.choice(budget))).collect()
}

pub fn listing_boundaries() -> Vec<String> {
    let mut questions = Vec::new();
    for case in boundary_cases() {
        let turns = case.turns();
        for cursor in &turns {
            questions.extend([0, 1, 2, 8, u64::MAX].iter().filter_map(|budget| case.listing(*cursor, *budget)));
        }
        questions.extend(turns.iter().filter_map(|budget| case.listing(1, *budget)));
    }
    questions
}

fn boundary_cases() -> Vec<Case> {
    let mut cases = vec![
        Case::new(STRICT, "(MIT AND ISC) OR 0BSD", &["MIT", "ISC", "0BSD"]),
        Case::new(STRICT, "MIT", &["MIT"]),
        Case::new(STRICT, "MIT", &[]),
        Case::new(STRICT, "MIT", &["ISC"]),
        Case::new(STRICT, "MIT AND ISC", &["MIT"]),
        Case::new(STRICT, "MIT OR ISC", &["ISC", "MIT"]),
        // Equal licensees count once, however they are written.
        Case::new(STRICT, "MIT AND ISC", &["MIT", " MIT", "0BSD", "ISC", "MIT ", "ISC"]),
        // The plus flag is not looked at; a GNU name with `+` becomes another name.
        Case::new(LAX, "MPL-1.1+", &["MPL-1.1"]),
        Case::new(LAX, "MPL-1.1+", &["MPL-2.0"]),
        Case::new(LAX, "GPL-2.0+", &["GPL-2.0-or-later", "GPL-2.0-only"]),
        Case::new(LAX, "GPL-2.0", &["GPL-2.0-only", "GPL-2.0-or-later"]),
        // An unknown term is a reference with no document part; absent is not empty.
        Case::new(LARGEST_MODE, "foo", &["LicenseRef-foo"]),
        Case::new(LARGEST_MODE, "MIT WITH foo", &["MIT WITH AdditionRef-foo"]),
        Case::new(STRICT, "DocumentRef-:LicenseRef-a", &["LicenseRef-a", "DocumentRef-:LicenseRef-a"]),
        Case::new(STRICT, "LicenseRef-a", &["DocumentRef-:LicenseRef-a", "LicenseRef-a"]),
        Case::new(STRICT, "LicenseRef-", &["LicenseRef-"]),
        // Additions are compared too.
        Case::new(STRICT, "MIT WITH LLVM-exception", &["MIT", "MIT WITH LLVM-exception"]),
        Case::new(STRICT, "MIT", &["MIT WITH LLVM-exception", "MIT"]),
        Case::new(STRICT, "MIT WITH AdditionRef-LLVM-exception", &["MIT WITH LLVM-exception"]),
        // Each refusal of the text goes before one of the list.
        Case::new(STRICT, "MIT +", &["MIT+"]),
        Case::new(STRICT, "", &["MIT"]),
        Case::new(STRICT, "MIT", &["MIT", "MIT+"]),
        Case { flags: STRICT, text: b"MIT".to_vec(), file: vec![] },
        Case { flags: STRICT, text: b"MIT".to_vec(), file: vec![0, 0] },
        Case { flags: STRICT, text: b"\xff".to_vec(), file: vec![] },
        Case { flags: STRICT, text: vec![b' '; 1_025], file: vec![] },
    ];
    for count in [1, 2, 3, 4, 8, 16, MOST_FOUND - 1, MOST_FOUND, MOST_FOUND + 1, 32, 33, 63, 64] {
        cases.extend(counted(count));
    }
    cases
}

/// Expressions in which so many licensees are found, with different least masks.
fn counted(count: usize) -> Vec<Case> {
    let names: Vec<String> =
        LETTERS[..count].iter().map(|letter| format!("LicenseRef-{}", char::from(*letter))).collect();
    let accepted: Vec<&str> = names.iter().map(String::as_str).collect();
    let reversed: Vec<&str> = accepted.iter().rev().copied().collect();
    let all_of = accepted.join(" AND ");
    let any_of = accepted.join("/");
    let (first, rest) = (accepted[0], accepted[1..].join(" AND "));
    let pairs = accepted.chunks(2).map(|pair| format!("({})", pair.join("/"))).collect::<Vec<_>>().join("AND");
    let texts = [any_of, format!("{first}/{rest}"), format!("{rest}/{first}"), all_of, pairs];
    let fitting = texts.iter().filter(|text| text.len() <= 1_024 && !text.starts_with('/') && !text.ends_with('/'));
    fitting.flat_map(|text| [Case::new(LAX, text, &accepted), Case::new(LAX, text, &reversed)]).collect()
}

/// Leaves that are easily taken for one another, and the bodies that satisfy them.
const OFFERS: [(&str, &str); 14] = [
    ("MIT", "MIT"),
    ("ISC+", "ISC"),
    ("0BSD", "0BSD"),
    ("MPL-1.1+", "MPL-1.1"),
    ("MPL-2.0", "MPL-2.0"),
    ("GPL-2.0-only+", "GPL-2.0-or-later"),
    ("GPL-2.0-only", "GPL-2.0-only"),
    ("GPL-3.0", "GPL-3.0-only"),
    ("MIT WITH LLVM-exception", "MIT WITH LLVM-exception"),
    ("MIT WITH AdditionRef-a", "MIT with AdditionRef-a"),
    ("foo", "LicenseRef-foo"),
    ("LicenseRef-a", "LicenseRef-a"),
    ("DocumentRef-:LicenseRef-a", "DocumentRef-:LicenseRef-a"),
    ("DocumentRef-d:LicenseRef-a", "DocumentRef-d:LicenseRef-a"),
];

pub fn random_case(random: &mut Random) -> Case {
    let flags = if random.one_in(8) { random_flags(random) } else { LARGEST_MODE };
    let known = 1 + random.below(OFFERS.len());
    let leaf = move |random: &mut Random, _: u8, text: &mut String| text.push_str(OFFERS[random.below(known)].0);
    let most = if random.one_in(10) { 40 } else { 9 };
    let leaves = 1 + random.below(most);
    let text = joined(random, flags, leaves, &leaf).into_bytes();
    let mut accepted: Vec<File> = OFFERS.iter().map(|(_, body)| padded(random, body.as_bytes())).collect();
    for _ in 0..random.below(3) {
        accepted.push(random.pick(&OFFERS).1.as_bytes().to_vec());
    }
    random.shuffle(&mut accepted);
    if random.one_in(3) {
        accepted.truncate(random.below(accepted.len()));
    }
    let file = if random.one_in(20) { lists::random(random) } else { lists::file(&accepted) };
    Case { flags, text, file }
}

/// A number at which the answer turns, or near one of them.
fn random_turn(random: &mut Random, case: &Case) -> u64 {
    let turns = case.turns();
    let turn = random.pick(&turns);
    if random.one_in(4) { turn.saturating_add(random.below(5) as u64).saturating_sub(2) } else { turn }
}

/// Mostly one in 1 to 2^k, which are all that the listing takes.
fn random_cursor(random: &mut Random, case: &Case) -> u64 {
    match pose(case.flags, &case.text, &case.file) {
        Ok(posed) if !random.one_in(3) => 1 + random.next() % posed.problem.end(),
        _ => random_turn(random, case),
    }
}

pub fn random_choice(random: &mut Random) -> String {
    loop {
        let case = random_case(random);
        let budget = if random.one_in(3) { u64::MAX } else { random_turn(random, &case) };
        if let Some(question) = case.choice(budget) {
            return question;
        }
    }
}

pub fn random_listing(random: &mut Random) -> String {
    loop {
        let case = random_case(random);
        let cursor = random_cursor(random, &case);
        let budget = match random.below(3) {
            0 => u64::MAX,
            1 => random.below(20) as u64,
            _ => random_turn(random, &case),
        };
        if let Some(question) = case.listing(cursor, budget) {
            return question;
        }
    }
}
