//! Whole runs of the listing: from cursor 1, each call from the cursor that the last one gave, until it is finished. What each call must answer is
//! told from the table of all sets, by trying every set with every member taken out.

use std::io;

use crate::answer::pose;
use crate::choice::Problem;
use crate::posed::random_case;
use crate::protocol::hex;
use crate::random::Random;

/// So many licensees are found at most: all sets of them are tried.
const MOST_FOUND: usize = 12;

/// Writes the calls of so many runs, each a line `QUESTION => ANSWER`.
pub fn lines(seed: u64, count: u64, mut write: impl FnMut(String) -> io::Result<()>) -> io::Result<()> {
    let mut random = Random::new(seed);
    let mut runs = 0;
    while runs < count {
        let case = random_case(&mut random);
        let Ok(posed) = pose(case.flags, &case.text, &case.file) else { continue };
        if posed.problem.found.len() > MOST_FOUND {
            continue;
        }
        runs += 1;
        let asked = format!("{} {}", hex(&case.text), hex(&case.file));
        for (cursor, budget, answer) in run(&mut random, &posed.problem) {
            write(format!("listing {} {cursor} {budget} {asked} => {answer}", case.flags))?;
        }
    }
    Ok(())
}

/// Cursor, budget and answer of each call.
fn run(random: &mut Random, problem: &Problem) -> Vec<(u64, u64, String)> {
    let end = problem.end();
    let wanted = admissible(problem);
    let mut calls = Vec::new();
    let mut cursor: u64 = 1;
    loop {
        let budget = if random.one_in(4) { u64::MAX } else { 1 + random.next() % end };
        let limit = cursor.saturating_add(budget).min(end);
        let (next, answer) = match wanted.iter().find(|mask| (cursor..limit).contains(*mask)) {
            Some(mask) => (mask + 1, format!("found {mask} next {}", mask + 1)),
            None if limit == end => (end, format!("finished {end}")),
            None => (limit, format!("paused {limit}")),
        };
        let finished = answer.starts_with("finished");
        calls.push((cursor, budget, answer));
        if finished {
            return calls;
        }
        cursor = next;
    }
}

/// Every set that satisfies, and does not with any one of its members taken out.
fn admissible(problem: &Problem) -> Vec<u64> {
    let satisfies: Vec<bool> = (0..problem.end()).map(|mask| problem.satisfies(mask)).collect();
    let members = |mask: u64| (0..u64::BITS).filter(move |bit| mask >> bit & 1 == 1);
    let needed = |mask: u64| members(mask).all(|bit| !satisfies[(mask ^ 1 << bit) as usize]);
    (1..problem.end()).filter(|mask| satisfies[*mask as usize] && needed(*mask)).collect()
}
