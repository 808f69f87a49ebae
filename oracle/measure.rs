//! The benchmark of parse, canonical text, choice and listing: what C and Rust link beside the given Rust on the same texts, in turn, each answer used.
//! Lines of standard input are `valid HEX` or `damaged HEX`; texts and lists for choice and listing are made here. Fails where the library is the
//! slower of the two on what reads.

use std::cell::RefCell;
use std::hint::black_box;
use std::io::{self, BufRead};
use std::process::ExitCode;
use std::time::{Duration, Instant};

use spdx::{Expression, Licensee, ParseMode};

const LAX: u8 = 15;
const ROUNDS: usize = 41;

unsafe extern "C" {
    fn tasgilfrem_parse(text: *const u8, length: usize, mode: u8, cells: *mut u16, count: usize) -> u64;
    fn tasgilfrem_canonical(text: *const u8, length: usize, buffer: *mut u8, size: usize) -> u64;
    fn tasgilfrem_choice(
        text: *const u8,
        length: usize,
        mode: u8,
        file: *const u8,
        size: usize,
        budget: u64,
        out: *mut u64,
    ) -> u64;
    fn tasgilfrem_listing(
        text: *const u8,
        length: usize,
        mode: u8,
        file: *const u8,
        size: usize,
        cursor: u64,
        budget: u64,
        out: *mut u64,
    ) -> u64;
}

/// 127 nodes of 16 cells.
const CELLS: usize = 127 * 16;

/// A text is handed over with a number that says which part of the answer is used.
type Function = fn(&[u8], usize) -> u64;

/// What is measured: the proved function beside the given one.
const MEASURED: [(&str, Function, Function); 2] =
    [("parse", proved_parse, given_parse), ("canonical text", proved_canonical, given_canonical)];

thread_local! {
    /// As long as a canonical text may be, and made once, as a caller would.
    static BUFFER: RefCell<[u8; 4096]> = const { RefCell::new([0; 4096]) };
    /// As many cells as the nodes of a text may take, made once, too.
    static NODES: RefCell<[u16; CELLS]> = const { RefCell::new([0; CELLS]) };
}

fn proved_parse(text: &[u8], pick: usize) -> u64 {
    NODES.with_borrow_mut(|cells| {
        // Both ranges are whole, and neither stands in the other.
        let answer = unsafe { tasgilfrem_parse(text.as_ptr(), text.len(), LAX, cells.as_mut_ptr(), cells.len()) };
        black_box(cells[pick % cells.len()]);
        answer
    })
}

fn proved_canonical(text: &[u8], pick: usize) -> u64 {
    BUFFER.with_borrow_mut(|buffer| {
        // Both ranges are whole, and neither stands in the other.
        let answer = unsafe { tasgilfrem_canonical(text.as_ptr(), text.len(), buffer.as_mut_ptr(), buffer.len()) };
        black_box(buffer[pick % buffer.len()]);
        answer
    })
}

/// The given crate takes a checked string, so its check of UTF-8 counts, as the library's does.
fn given_canonical(text: &[u8], pick: usize) -> u64 {
    let Ok(text) = str::from_utf8(text) else { return 1 };
    match Expression::canonicalize(text) {
        Ok(Some(canonical)) => {
            black_box(canonical.as_bytes().get(pick % 4096));
            canonical.len() as u64
        }
        Ok(None) => 0,
        Err(error) => error.span.end as u64,
    }
}

fn given_parse(text: &[u8], pick: usize) -> u64 {
    let Ok(text) = str::from_utf8(text) else { return 1 };
    match Expression::parse_mode(text, ParseMode::LAX) {
        Ok(expression) => {
            let nodes = expression.iter().count();
            black_box(expression.iter().nth(pick % nodes));
            nodes as u64
        }
        Err(error) => error.span.end as u64,
    }
}

fn time(texts: &[Vec<u8>], round: usize, measured: Function) -> Duration {
    let start = Instant::now();
    for (index, text) in texts.iter().enumerate() {
        black_box(measured(black_box(text), index + round));
    }
    start.elapsed()
}

fn median(mut times: Vec<Duration>) -> f64 {
    times.sort();
    times[times.len() / 2].as_secs_f64()
}

/// The ratio of the two, and the mean time of each for one text, in nanoseconds.
fn compare(texts: &[Vec<u8>], proved: Function, given: Function) -> (f64, f64, f64) {
    let mut times = (Vec::new(), Vec::new());
    for round in 0..ROUNDS {
        times.0.push(time(texts, round, proved));
        times.1.push(time(texts, round, given));
    }
    let (ours, theirs) = (median(times.0), median(times.1));
    let each = 1e9 / texts.len() as f64;
    (ours / theirs, ours * each, theirs * each)
}

/// As many licensees as are found at most, each a listed name.
const LICENSEES: [&str; 20] = [
    "0BSD",
    "Apache-2.0",
    "BSD-2-Clause",
    "BSD-3-Clause",
    "BSL-1.0",
    "CC-BY-4.0",
    "CC0-1.0",
    "GPL-2.0-only",
    "GPL-2.0-or-later",
    "GPL-3.0-only",
    "GPL-3.0-or-later",
    "ISC",
    "LGPL-2.1-only",
    "LGPL-2.1-or-later",
    "LGPL-3.0-only",
    "MIT",
    "MPL-2.0",
    "OFL-1.1",
    "Unicode-3.0",
    "Unlicense",
];

/// The list file of these bodies.
fn list_file(bodies: &[&str]) -> Vec<u8> {
    let mut file = vec![bodies.len() as u8];
    let mut offset = 1 + 4 * bodies.len();
    for body in bodies {
        file.extend((offset as u16).to_le_bytes());
        file.extend((body.len() as u16).to_le_bytes());
        offset += body.len();
    }
    file.extend(bodies.concat().as_bytes());
    file
}

fn proved_choice(text: &[u8], file: &[u8]) -> u64 {
    let mut mask = 0;
    // Both ranges are whole, and only read.
    unsafe { tasgilfrem_choice(text.as_ptr(), text.len(), 0, file.as_ptr(), file.len(), u64::MAX, &mut mask) };
    mask
}

/// The first set that is listed, which is the choice.
fn proved_listing(text: &[u8], file: &[u8]) -> u64 {
    let mut found = [0; 2];
    let (cursor, budget, out) = (1, u64::MAX, found.as_mut_ptr());
    // Both ranges are whole, and only read.
    unsafe { tasgilfrem_listing(text.as_ptr(), text.len(), 0, file.as_ptr(), file.len(), cursor, budget, out) };
    found[0]
}

/// From the same bytes: the text and the bodies are read here too.
fn given_choice(text: &[u8], bodies: &[&str]) -> u64 {
    let text = str::from_utf8(text).expect("a text of ASCII");
    let expression = Expression::parse(text).expect("a text that reads");
    let licensees: Vec<Licensee> = bodies.iter().map(|body| Licensee::parse(body).expect("a licensee")).collect();
    expression.minimized_requirements(&licensees).expect("a text that is met").len() as u64
}

fn repeated(times: u32, mut call: impl FnMut() -> u64) -> Duration {
    let start = Instant::now();
    for _ in 0..times {
        black_box(call());
    }
    start.elapsed()
}

/// What is measured with a list: its name, and the proved function. The given one is the same for both: it has no listing.
const LISTED: [(&str, fn(&[u8], &[u8]) -> u64); 2] = [("choice", proved_choice), ("first set listed", proved_listing)];

/// How the time is to the Rust's for its choice, where k licensees are found in a text of so many leaves that is joined so: with AND all of them are
/// needed, with OR the first.
fn listed_ratio(name: &str, proved: fn(&[u8], &[u8]) -> u64, k: usize, leaves: usize, joint: &str) -> f64 {
    let bodies = &LICENSEES[..k];
    let text = (0..leaves).map(|leaf| bodies[leaf % k]).collect::<Vec<_>>().join(joint).into_bytes();
    let file = list_file(bodies);
    let masks = if joint == " AND " { 1u32 << k } else { 1 };
    let rounds = if masks > 1 << 16 {
        3
    } else if masks > 1 << 12 {
        5
    } else {
        ROUNDS
    };
    let times = (1 << 11) / masks + 1;
    let mut both = (Vec::new(), Vec::new());
    for _ in 0..rounds {
        both.0.push(repeated(times, || proved(black_box(&text), black_box(&file))));
        both.1.push(repeated(times, || given_choice(black_box(&text), black_box(bodies))));
    }
    let (ours, theirs) = (median(both.0), median(both.1));
    let each = 1e9 / f64::from(times);
    println!(
        "{name}, {k} found, {leaves} leaves joined by{joint}: {:.3} of the Rust's time ({:.0} ns, {:.0} ns)",
        ours / theirs,
        ours * each,
        theirs * each
    );
    ours / theirs
}

fn main() -> ExitCode {
    let lines: Vec<String> = io::stdin().lock().lines().map(|line| line.expect("a line")).collect();
    println!(
        "For a parse the library is lent 127 records, for a canonical text 4,096 bytes, each made once and lent to every call; for a choice a number,"
    );
    println!(
        "for a listing two. The Rust makes its vector and its string at each call. Texts and lists are in memory before the clock starts."
    );
    let mut slower = false;
    for (name, proved, given) in MEASURED {
        for sort in ["valid", "damaged"] {
            let texts: Vec<Vec<u8>> = lines.iter().filter_map(|line| line.strip_prefix(sort)).map(bytes).collect();
            for (from, to) in [(10, 100), (101, 1000), (10, 1000)] {
                let some: Vec<Vec<u8>> =
                    texts.iter().filter(|text| (from..=to).contains(&text.len())).cloned().collect();
                let (ratio, ours, theirs) = compare(&some, proved, given);
                println!(
                    "{name}, {} {sort} texts of {from} to {to} bytes: {ratio:.2} of the Rust's time ({ours:.0} ns, {theirs:.0} ns)",
                    some.len()
                );
                slower |= sort == "valid" && (from, to) == (10, 1000) && ratio > 1.0;
            }
        }
    }
    for (name, proved) in LISTED {
        for k in 1..=LICENSEES.len() {
            for joint in [" OR ", " AND "] {
                slower |= listed_ratio(name, proved, k, LICENSEES.len(), joint) > 1.0;
            }
        }
        // For the reader alone: the shortest texts, where what a parse costs at least counts most.
        for k in 1..=8 {
            for joint in [" OR ", " AND "] {
                listed_ratio(name, proved, k, k, joint);
            }
        }
    }
    if slower { ExitCode::FAILURE } else { ExitCode::SUCCESS }
}

fn bytes(hex: &str) -> Vec<u8> {
    let digits = hex.trim().as_bytes();
    digits.chunks(2).map(|pair| u8::from_str_radix(str::from_utf8(pair).expect("ASCII"), 16).expect("hex")).collect()
}
