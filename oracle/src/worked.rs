//! Document 01's worked texts: lines `QUESTION => ANSWER`, with comments that begin with `#`.

use std::fs;
use std::io;

use crate::answer::answer;

/// Prints one line for each failure and a count; answers how many failed.
pub fn run(path: &str) -> io::Result<usize> {
    let (mut passed, mut failed) = (0, 0);
    for (number, line) in fs::read_to_string(path)?.lines().enumerate() {
        if line.is_empty() || line.starts_with('#') {
            continue;
        }
        match failure(line) {
            None => passed += 1,
            Some(message) => {
                failed += 1;
                println!("line {}: {message}", number + 1);
            }
        }
    }
    println!("{passed} passed, {failed} failed");
    Ok(failed)
}

fn failure(line: &str) -> Option<String> {
    let Some((question, expected)) = line.split_once(" => ") else { return Some("no `QUESTION => ANSWER`".to_owned()) };
    let got = answer(question.as_bytes()).line;
    (got != expected).then(|| format!("{question}: expected `{expected}`, got `{got}`"))
}
