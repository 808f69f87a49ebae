//! Two files of answers, line by line, beside their questions.

use std::fs;
use std::io;

const SHOWN: usize = 20;

/// Prints the first differences and a count; answers how many there were.
pub fn compare(first: &str, second: &str, questions: &str) -> io::Result<usize> {
    let (first, second, questions) = (fs::read(first)?, fs::read(second)?, fs::read(questions)?);
    let (first, second, questions) = (lines(&first), lines(&second), lines(&questions));
    let count = first.len().max(second.len()).max(questions.len());
    let mut differences = 0;
    for place in 0..count {
        // A file that ends early differs from one that goes on.
        if first.get(place) == second.get(place) && place < first.len() {
            continue;
        }
        differences += 1;
        if differences <= SHOWN {
            println!("line {}: {}", place + 1, shown(questions.get(place)));
            println!("  {}", shown(first.get(place)));
            println!("  {}", shown(second.get(place)));
        }
    }
    println!("compared {count} lines, {differences} differences");
    Ok(differences)
}

fn lines(file: &[u8]) -> Vec<&[u8]> {
    let mut lines: Vec<&[u8]> = file.split(|byte| *byte == b'\n').collect();
    // The last line ends with a newline too, and nothing stands after it.
    if lines.last() == Some(&&b""[..]) {
        lines.pop();
    }
    lines
}

fn shown(line: Option<&&[u8]>) -> String {
    line.map_or("(no line)".to_owned(), |line| String::from_utf8_lossy(line).into_owned())
}
