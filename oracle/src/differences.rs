//! Where the given Rust, with nothing replaced but its names, and document 01 go different ways: the smallest inputs.

use spdx_as_given::lexer::Lexer;
use spdx_as_given::{Expression, Licensee, ParseError, ParseMode};

use crate::answer::answer;
use crate::given::{LAX, STRICT};
use crate::lists;
use crate::pieces::UNKNOWN;
use crate::protocol::hex;

/// What the endless iterator of a refused text is asked for.
const ITEMS: usize = 4;

/// Prints a table in Markdown.
pub fn run() {
    println!("| input | the given Rust | document 01 |");
    println!("|---|---|---|");
    different_answers();
    limits_of_our_own();
    same_answers();
}

fn different_answers() {
    for text in ["MIT +", "é", "foo"] {
        row(&format!("`{text}`, the lexer asked {ITEMS} times"), &items(text), &our_nodes(STRICT, text));
    }
    let body = "MIT WITH LLVM-exception )";
    row(&format!("`{body}` as a licensee"), &licensee(body), &ours(&format!("list {}", hex(&lists::file(&[body])))));
    for text in ["Mit", "apache2"] {
        row(&format!("`{text}`, LAX"), &nodes(text, ParseMode::LAX), &our_nodes(LAX, text));
    }
    row("`MPL-1.1+`, list MPL-2.0", &chosen("MPL-1.1+", "MPL-2.0"), &our_choice("MPL-1.1+", "MPL-2.0"));
    row("`MIT+` looked up as a licence", &lookup("MIT+"), &ours(&format!("licence {}", quoted("MIT+"))));
}

fn limits_of_our_own() {
    for text in [" ".repeat(1_022) + "MIT", vec!["MIT"; 65].join(" OR "), "(".repeat(33) + "MIT" + &")".repeat(33)] {
        let shown = format!("`{}` and so on, {} bytes", &text[..9], text.len());
        row(&shown, &node_count(&text), &our_nodes(STRICT, &text));
    }
}

/// Where both say the same, and it is Annex D or the crate's own words that say otherwise.
fn same_answers() {
    let operators = ["MIT Or ISC", "MIT or ISC", "(MIT)AND(ISC)"];
    let references = ["LicenseRef-", "MIT WITH AdditionRef-a"];
    let parentheses = ["(MIT) MIT", "((MIT))"];
    let gnu = ["GPL-2.0", "GPL-2.0-only+"];
    for text in operators.into_iter().chain(references).chain(parentheses).chain(gnu) {
        row(&format!("`{text}`"), &nodes(text, ParseMode::STRICT), &our_nodes(STRICT, text));
    }
    let unknown = ParseMode { allow_unknown: true, ..ParseMode::STRICT };
    for text in ["foo", "foo+", "MIT WITH a WITH b"] {
        row(&format!("`{text}`, unknown terms allowed"), &nodes(text, unknown), &our_nodes(UNKNOWN, text));
    }
    for text in ["GPL-2.0", "GPL-2.0-only+", "GPL-2.0-or-later+", "LicenseRef- MIT"] {
        row(&format!("`{text}`, LAX"), &nodes(text, ParseMode::LAX), &our_nodes(LAX, text));
    }
    for text in ["GPL-3.0-or-later+", "GPL-3.0-only+", "MIT MIT", " ", "LicenseRef- MIT"] {
        row(&format!("`{text}`, canonical"), &canonical(text), &our_canonical(text));
    }
}

fn row(input: &str, given: &str, document: &str) {
    // A bar would end the cell.
    println!("| {input} | {} | {} |", given.replace('|', "\\|"), document.replace('|', "\\|"));
}

fn quoted(text: &str) -> String {
    hex(text.as_bytes())
}

fn ours(question: &str) -> String {
    answer(question.as_bytes()).line
}

fn our_nodes(flags: u8, text: &str) -> String {
    ours(&format!("parse {flags} {}", quoted(text)))
}

fn our_choice(text: &str, body: &str) -> String {
    ours(&format!("choice 0 2 {} {}", quoted(text), hex(&lists::file(&[body]))))
}

fn our_canonical(text: &str) -> String {
    let length = Expression::canonicalize(text).ok().flatten().map_or(0, |canonical| canonical.len());
    ours(&format!("canonical {length} {}", quoted(text)))
}

fn refused(error: &ParseError) -> String {
    format!("{:?} {:?}", error.reason, error.span)
}

fn items(text: &str) -> String {
    let mut lexer = Lexer::new(text);
    let mut next = || match lexer.next() {
        None => "end".to_owned(),
        Some(Ok(lexed)) => format!("{:?} {:?}", lexed.token, lexed.span),
        Some(Err(error)) => refused(&error),
    };
    (0..ITEMS).map(|_| next()).collect::<Vec<_>>().join("; ")
}

fn nodes(text: &str, mode: ParseMode) -> String {
    match Expression::parse_mode(text, mode) {
        Ok(expression) => format!("{expression:?}"),
        Err(error) => refused(&error),
    }
}

fn node_count(text: &str) -> String {
    match Expression::parse(text) {
        Ok(expression) => format!("{} nodes", expression.iter().count()),
        Err(error) => refused(&error),
    }
}

fn licensee(text: &str) -> String {
    match Licensee::parse(text) {
        Ok(licensee) => format!("the licensee `{licensee}`"),
        Err(error) => refused(&error),
    }
}

fn chosen(text: &str, body: &str) -> String {
    let expression = Expression::parse(text).expect("a valid expression");
    let accepted = [Licensee::parse(body).expect("a licensee")];
    match expression.minimized_requirements(&accepted) {
        Ok(chosen) => format!("chosen: {}", chosen.iter().map(ToString::to_string).collect::<Vec<_>>().join(", ")),
        Err(error) => format!("{error:?}"),
    }
}

fn lookup(name: &str) -> String {
    spdx_as_given::license_id(name).map_or("none".to_owned(), |id| format!("{id:?}"))
}

fn canonical(text: &str) -> String {
    match Expression::canonicalize(text) {
        Ok(Some(canonical)) => format!("`{canonical}`"),
        Ok(None) => "unchanged".to_owned(),
        Err(error) => refused(&error),
    }
}
