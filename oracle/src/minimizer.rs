//! The given minimizer at and beyond 30 found licensees: what it answers where its count of sets overflows.

use std::panic::{self, AssertUnwindSafe};
use std::time::Instant;

use spdx::flags::IS_DEPRECATED;
use spdx::identifiers::{EXCEPTIONS, LICENSES};
use spdx::{Expression, Licensee};

// 20 stands for the counts whose whole search is quick.
const FOUND: [usize; 6] = [20, 30, 31, 32, 33, 64];
const LEAST: [&str; 4] = ["1", "2", "3", "all"];

/// Prints a line for each count and least mask. Those that walk over 2^30 masks and more are left out unless `slow`.
pub fn run(slow: bool) {
    let build = if cfg!(debug_assertions) { "debug" } else { "release" };
    // A panic is an answer here, printed with the others.
    panic::set_hook(Box::new(|_| {}));
    for found in FOUND {
        for least in LEAST {
            if least == "all" && (30..32).contains(&found) && !slow {
                println!("{build}: {found} found, least mask {least}: left out, walks over 2^{found} masks (--slow)");
                continue;
            }
            let start = Instant::now();
            let answer = answer(found, least);
            println!("{build}: {found} found, least mask {least}: {answer} ({} s)", start.elapsed().as_secs());
        }
    }
}

fn answer(found: usize, least: &str) -> String {
    let names: Vec<String> = (0..found).map(name).collect();
    let expression = Expression::parse(&text(&names, least)).expect("a valid expression");
    let accepted: Vec<Licensee> = names.iter().map(|name| Licensee::parse(name).expect("a licensee")).collect();
    match panic::catch_unwind(AssertUnwindSafe(|| expression.minimized_requirements(&accepted))) {
        Ok(Ok(chosen)) if chosen.len() == found => format!("all {found}"),
        Ok(Ok(chosen)) => {
            let members = chosen.iter().map(|asked| accepted.iter().position(|offer| offer.as_ref() == asked));
            let mask = members.fold(0u64, |mask, bit| mask | 1 << bit.expect("the choice is among the accepted"));
            format!("mask {mask}")
        }
        Ok(Err(error)) => format!("refused: {error}"),
        Err(message) => format!("panic: {}", panic_message(&*message)),
    }
}

/// Listed names, alone and with each exception: telling those apart is one comparison of numbers, so that the long searches end.
fn name(place: usize) -> String {
    let current: Vec<_> = LICENSES.iter().filter(|licence| licence.flags & IS_DEPRECATED == 0).collect();
    let licence = current[place % current.len()].name;
    match place / current.len() {
        0 => licence.to_owned(),
        n => format!("{licence} WITH {}", EXCEPTIONS[n - 1].name),
    }
}

/// An expression in which every name occurs and the least mask is the one asked for.
fn text(names: &[String], least: &str) -> String {
    // Nested to the left, so that the evaluation's stack stays short and the long searches end.
    let all_of = |names: &[&String]| {
        let joined = |left: String, right: &&String| {
            if left.is_empty() { right.to_string() } else { format!("({left}) AND {right}") }
        };
        names.iter().fold(String::new(), joined)
    };
    let chosen: &[usize] = match least {
        "1" => &[0],
        "2" => &[1],
        "3" => &[0, 1],
        _ => return all_of(&names.iter().collect::<Vec<_>>()),
    };
    let (inside, outside): (Vec<_>, Vec<_>) = names.iter().enumerate().partition(|(place, _)| chosen.contains(place));
    let side = |members: Vec<(usize, &String)>| all_of(&members.into_iter().map(|(_, name)| name).collect::<Vec<_>>());
    format!("({}) OR ({})", side(inside), side(outside))
}

fn panic_message(message: &(dyn std::any::Any + Send)) -> String {
    let text = message.downcast_ref::<&str>().map(|text| (*text).to_owned());
    text.or_else(|| message.downcast_ref::<String>().cloned()).unwrap_or_else(|| "no message".to_owned())
}
