//! Copies the given crate and puts document 01's replacements into the copy.
//!
//!     prepare SOURCE TARGET NAMES [--as-given]
//!
//! SOURCE is the crate's folder, TARGET the folder of the copy, NAMES the file with document 01's names.
//! Items are found by their names and their bodies replaced whole, so no line of the given text stands in this project.
//! With --as-given only the names are put in, for the trial of the differences.

use std::{env, fs, path::Path, process::exit};

const FILES: [&str; 7] = [
    "lib.rs",
    "error.rs",
    "expression.rs",
    "expression/minimize.rs",
    "expression/parser.rs",
    "lexer.rs",
    "licensee.rs",
];

fn main() {
    let arguments: Vec<String> = env::args().skip(1).collect();
    let (paths, as_given) = match arguments.iter().map(String::as_str).collect::<Vec<_>>()[..] {
        [source, target, names] => ([source, target, names], false),
        [source, target, names, "--as-given"] => ([source, target, names], true),
        _ => fail("usage: prepare SOURCE TARGET NAMES [--as-given]"),
    };
    let [source, target, names] = paths.map(Path::new);

    make_folder(&target.join("expression"));
    for file in FILES {
        let text = read(&source.join(file));
        write(&target.join(file), &prepared(file, text, as_given));
    }
    write(&target.join("identifiers.rs"), &read(names));
}

fn prepared(file: &str, text: String, as_given: bool) -> String {
    match file {
        // The attribute reads a file that was not given.
        "lib.rs" if as_given => without_attribute(text, "doc"),
        "lib.rs" => with_body(
            without_attribute(text, "doc"),
            "imprecise_license_id",
            include_str!("replacements/imprecise_license_id.rs"),
        ),
        "licensee.rs" if !as_given => with_body(text, "satisfies", include_str!("replacements/satisfies.rs")),
        _ => text,
    }
}

/// The text with the whole body of the public function of that name replaced.
fn with_body(text: String, name: &str, replacement: &str) -> String {
    let header = only_place(&text, &format!("pub fn {name}("));
    let Some(gap) = text[header..].find('{') else { fail(&format!("the function {name} has no body")) };
    let start = header + gap;
    let end = closing(&text, start, '{', '}');
    format!("{}{}{}", &text[..start], replacement.trim_end(), &text[end + 1..])
}

/// The text without the crate's own attribute of that name.
fn without_attribute(text: String, name: &str) -> String {
    let start = only_place(&text, &format!("#![{name} "));
    let end = closing(&text, start + 2, '[', ']');
    format!("{}{}", &text[..start], &text[end + 1..])
}

fn only_place(text: &str, sought: &str) -> usize {
    let places: Vec<usize> = text.match_indices(sought).map(|(place, _)| place).collect();
    match places[..] {
        [place] => place,
        _ => fail(&format!("expected `{sought}` once in the given source, found it {} times", places.len())),
    }
}

/// The place of the bracket that closes the one at `start`; brackets in comments, strings and characters do not count.
fn closing(text: &str, start: usize, open: char, close: char) -> usize {
    let mut depth = 0;
    let mut place = start;
    while let Some(c) = text[place..].chars().next() {
        if c == open {
            depth += 1;
        } else if c == close {
            depth -= 1;
            if depth == 0 {
                return place;
            }
        }
        place += width_of_piece(&text[place..], c);
    }
    fail(&format!("no `{close}` closes the `{open}` at byte {start}"))
}

/// How many bytes to step over: one character, or a whole comment, string or character literal.
fn width_of_piece(rest: &str, first: char) -> usize {
    match first {
        '/' if rest.starts_with("//") => rest.find('\n').unwrap_or(rest.len()),
        '"' => literal_width(rest, '"'),
        '\'' if is_character_literal(rest) => literal_width(rest, '\''),
        _ => first.len_utf8(),
    }
}

/// A quote may begin a lifetime instead, which no second quote follows at once.
fn is_character_literal(rest: &str) -> bool {
    let mut after = rest.chars().skip(1);
    after.next() == Some('\\') || after.next() == Some('\'')
}

fn literal_width(rest: &str, quote: char) -> usize {
    let mut escaped = false;
    for (place, c) in rest.char_indices().skip(1) {
        if c == quote && !escaped {
            return place + 1;
        }
        escaped = c == '\\' && !escaped;
    }
    rest.len()
}

fn read(path: &Path) -> String {
    fs::read_to_string(path).unwrap_or_else(|error| fail(&format!("cannot read {}: {error}", path.display())))
}

fn write(path: &Path, text: &str) {
    fs::write(path, text).unwrap_or_else(|error| fail(&format!("cannot write {}: {error}", path.display())))
}

fn make_folder(path: &Path) {
    fs::create_dir_all(path).unwrap_or_else(|error| fail(&format!("cannot make {}: {error}", path.display())))
}

fn fail(message: &str) -> ! {
    eprintln!("prepare: {message}");
    exit(1)
}
