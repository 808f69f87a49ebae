//! The oracle: answers the line protocol from the given Rust and from document 01, and generates questions.

mod answer;
mod boundaries;
mod choice;
mod compare;
mod differences;
mod document;
mod exhaustive;
mod floors;
mod forms;
mod generate;
mod given;
mod lists;
mod measured;
mod minimizer;
mod names_and_bytes;
mod pieces;
mod posed;
mod protocol;
mod random;
mod reread;
mod sweep;
mod texts;
mod worked;

use std::env;
use std::io::{self, BufWriter, Write};
use std::process::ExitCode;

const USAGE: &str = "usage:
  oracle answer [--from]                       answers the questions on standard input
  oracle generate KIND --seed N --count K      writes K questions of a kind
  oracle fresh KIND --seed N --count K         writes K random questions of a kind, none of its boundary cases
  oracle exhaustive [N]                        writes parse questions for all sequences of up to N tokens
  oracle measured --seed N --count K           writes K texts that read for the benchmark, and K that do not
  oracle reread ask --seed N --count K         writes questions on K texts that read in LAX
  oracle reread again QUESTIONS ANSWERS        writes questions on their canonical texts
  oracle reread compare QUESTIONS ANSWERS ANSWERS
                                               shows where a canonical text reads otherwise
  oracle sweep --seed N --count K              writes the calls of K whole runs of the listing, QUESTION => ANSWER
  oracle compare ANSWERS ANSWERS QUESTIONS     shows where two files of answers differ
  oracle worked FILE                           runs lines QUESTION => ANSWER
  oracle minimizer [--slow]                    runs the given minimizer beyond 30 found licensees
  oracle differences                           shows where the given Rust and document 01 differ";

fn main() -> ExitCode {
    let arguments: Vec<String> = env::args().skip(1).collect();
    let arguments: Vec<&str> = arguments.iter().map(String::as_str).collect();
    match run(&arguments) {
        Ok(true) => ExitCode::SUCCESS,
        Ok(false) => ExitCode::FAILURE,
        // Whoever reads has seen enough, as `head` does.
        Err(error) if error.kind() == io::ErrorKind::BrokenPipe => ExitCode::SUCCESS,
        Err(error) => {
            eprintln!("oracle: {error}");
            ExitCode::from(2)
        }
    }
}

/// Whether all went well, for the exit status.
fn run(arguments: &[&str]) -> io::Result<bool> {
    match *arguments {
        ["answer"] => answer_input(false),
        ["answer", "--from"] => answer_input(true),
        ["generate", kind, "--seed", seed, "--count", count] => {
            generate(kind, numeric(seed)?, numeric(count)?, generate::From::Boundaries)
        }
        ["fresh", kind, "--seed", seed, "--count", count] => {
            generate(kind, numeric(seed)?, numeric(count)?, generate::From::Random)
        }
        ["exhaustive"] => exhaustive(exhaustive::TOKENS),
        ["exhaustive", tokens] => exhaustive(numeric(tokens)? as usize),
        ["measured", "--seed", seed, "--count", count] => measured(numeric(seed)?, numeric(count)?),
        ["reread", "ask", "--seed", seed, "--count", count] => reread_ask(numeric(seed)?, numeric(count)?),
        ["reread", "again", questions, answers] => reread_again(questions, answers),
        ["reread", "compare", questions, answers, second] => Ok(reread::compare(questions, answers, second)? == 0),
        ["sweep", "--seed", seed, "--count", count] => sweep(numeric(seed)?, numeric(count)?),
        ["compare", first, second, questions] => Ok(compare::compare(first, second, questions)? == 0),
        ["worked", path] => Ok(worked::run(path)? == 0),
        ["minimizer"] => {
            minimizer::run(false);
            Ok(true)
        }
        ["minimizer", "--slow"] => {
            minimizer::run(true);
            Ok(true)
        }
        ["differences"] => {
            differences::run();
            Ok(true)
        }
        _ => Err(io::Error::other(USAGE)),
    }
}

fn answer_input(marked: bool) -> io::Result<bool> {
    protocol::answer_all(io::stdin().lock(), BufWriter::new(io::stdout().lock()), marked)?;
    Ok(true)
}

fn generate(kind: &str, seed: u64, count: u64, from: generate::From) -> io::Result<bool> {
    let Some(questions) = generate::questions(kind, seed, from) else {
        let kinds = generate::kind_names().join(", ");
        return Err(io::Error::other(format!("no kind `{kind}`; the kinds are {kinds}")));
    };
    let mut output = BufWriter::new(io::stdout().lock());
    for question in questions.take(count as usize) {
        writeln!(output, "{question}")?;
    }
    output.flush()?;
    Ok(true)
}

fn exhaustive(tokens: usize) -> io::Result<bool> {
    let mut output = BufWriter::new(io::stdout().lock());
    exhaustive::questions(tokens, |question| writeln!(output, "{question}"))?;
    output.flush()?;
    Ok(true)
}

fn measured(seed: u64, count: u64) -> io::Result<bool> {
    let mut output = BufWriter::new(io::stdout().lock());
    measured::lines(seed, count, |line| writeln!(output, "{line}"))?;
    output.flush()?;
    Ok(true)
}

fn reread_ask(seed: u64, count: u64) -> io::Result<bool> {
    let mut output = BufWriter::new(io::stdout().lock());
    reread::ask(seed, count, |line| writeln!(output, "{line}"))?;
    output.flush()?;
    Ok(true)
}

fn reread_again(questions: &str, answers: &str) -> io::Result<bool> {
    let mut output = BufWriter::new(io::stdout().lock());
    reread::again(questions, answers, |line| writeln!(output, "{line}"))?;
    output.flush()?;
    Ok(true)
}

fn sweep(seed: u64, count: u64) -> io::Result<bool> {
    let mut output = BufWriter::new(io::stdout().lock());
    sweep::lines(seed, count, |line| writeln!(output, "{line}"))?;
    output.flush()?;
    Ok(true)
}

fn numeric(argument: &str) -> io::Result<u64> {
    protocol::number(argument.as_bytes()).ok_or_else(|| io::Error::other(format!("`{argument}` is no number")))
}
