//! Refusals below their texts: the carets stand under the exact place, in a terminal's columns.

use tasgilfrem::*;

/// The lines of a refused text.
fn lines(text: &[u8], mode: Mode) -> Vec<String> {
    let refusal = parse(text, mode).expect_err("a text that does not read");
    refusal.show(text).to_string().split('\n').map(str::to_owned).collect()
}

/// The text and the carets alone.
fn marked(text: &[u8]) -> [String; 2] {
    let lines = lines(text, Mode::STRICT);
    assert_eq!(lines.len(), 3);
    [lines[0].clone(), lines[1].clone()]
}

#[test]
fn three_lines() {
    assert_eq!(lines(b"MIT +", Mode::STRICT), ["MIT +", "   ^", "5 at 3..4: white space stands before the `+`"]);
    assert_eq!(lines(b"+", Mode::STRICT), ["+", "^", "6 at 0..1: this may not stand here; expected: licence, ("]);
    assert_eq!(lines(b"((MIT", Mode::STRICT), ["((MIT", " ^", "8 at 1..2: this `(` is not closed"]);
}

#[test]
fn the_end_of_the_text() {
    let said = "6 at 7..7: the text may not end here; expected: licence, (";
    assert_eq!(lines(b"MIT AND", Mode::STRICT), ["MIT AND", "       ^", said]);
    assert_eq!(lines(b"", Mode::STRICT), ["", "^", "9 at 0..0: there is no licence in the text"]);
}

#[test]
fn a_caret_for_each_column_of_the_place() {
    assert_eq!(marked(b"MIT OR foo AND"), ["MIT OR foo AND", "       ^^^"]);
    assert_eq!(marked(b"  "), ["  ", "^^"]);
}

#[test]
fn a_letter_with_its_accent_is_one_column() {
    assert_eq!(marked("MIT é".as_bytes()), ["MIT é", "    ^"]);
    assert_eq!(marked("éé".as_bytes()), ["éé", "^^"]);
}

#[test]
fn a_wide_character_is_two_columns() {
    assert_eq!(marked("MIT 日本".as_bytes()), ["MIT 日本", "    ^^^^"]);
    // White space of three bytes and two columns, before the place and as the place.
    assert_eq!(marked("MIT\u{3000}MIT".as_bytes()), ["MIT\u{3000}MIT", "     ^^^"]);
    assert_eq!(marked("MIT\u{3000}+".as_bytes()), ["MIT\u{3000}+", "   ^^"]);
    assert_eq!(marked("MIT 😀".as_bytes()), ["MIT 😀", "    ^^"]);
}

#[test]
fn a_combining_mark_is_in_the_column_of_its_letter() {
    assert_eq!(marked("MIT e\u{301}".as_bytes()), ["MIT e\u{301}", "    ^"]);
    assert_eq!(marked("MIT\u{301}".as_bytes()), ["MIT\u{301}", "  ^"]);
    assert_eq!(marked("MIT\u{301}é".as_bytes()), ["MIT\u{301}é", "  ^^"]);
    assert_eq!(marked("\u{301}".as_bytes()), ["\u{301}", "^"]);
}

#[test]
fn bytes_that_are_not_utf_8() {
    assert_eq!(marked(b"MIT \xe9"), ["MIT \u{fffd}", "    ^"]);
    // 日 stands before the lone byte, and text after it; the second ill-formed sequence is no part of the place.
    assert_eq!(marked(b"\xe6\x97\xa5 \xe9 MIT\xff"), ["日 \u{fffd} MIT\u{fffd}", "   ^"]);
    // A sequence that breaks off is one sign, though its place is one byte.
    assert_eq!(marked(b"MIT \xe2\x82 OR"), ["MIT \u{fffd} OR", "    ^"]);
    assert_eq!(marked(b"MIT \xf0\x9f\x98"), ["MIT \u{fffd}", "    ^"]);
    assert_eq!(lines(b"\xff", Mode::STRICT)[2], "1 at 0..1: the text is not UTF-8");
}

#[test]
fn control_characters_are_seen() {
    assert_eq!(marked(b"MIT\t\n+"), ["MIT\u{2409}\u{240a}+", "   ^^"]);
    assert_eq!(marked(b"MIT\x1b[2J"), ["MIT\u{241b}[2J", "   ^^^^"]);
    assert_eq!(marked(b"\0\x7f"), ["\u{2400}\u{2421}", "^^"]);
    // A line end of two bytes, and marks that would turn the text round.
    assert_eq!(marked("MIT\u{85}MIT".as_bytes()), ["MIT\u{2424}MIT", "    ^^^"]);
    assert_eq!(marked("\u{202e}é\u{200b}".as_bytes()), ["\u{2426}é\u{2426}", "^^^"]);
}

#[test]
fn no_text_where_there_is_no_place() {
    let refusal = Refusal::TooLong(Span::new(0, 0));
    assert_eq!(refusal.show(&[b' '; 1025]).to_string(), "2 at 0..0: the text has over 1,024 bytes");
    assert_eq!(Refusal::RequirementsUnmet.show(b"MIT").to_string(), Refusal::RequirementsUnmet.to_string());
}

#[test]
fn numbers_are_told() {
    assert!(Refusal::BufferTooSmall(67).to_string().ends_with(": 67"));
    assert!(Refusal::TooManyRequirements(31).to_string().ends_with(": 31"));
    assert_eq!(Refusal::NoSuchPlace(9).to_string(), "20: there is no such place or cursor: 9");
    assert_eq!(Refusal::WrongList(ListFault::Entry(2)).to_string(), "17: the list file is wrong: entry 2");
    assert_eq!(Refusal::NoBudget.to_string(), "21: the budget is 0");
}

/// A place that is not of this text does no harm.
#[test]
fn another_text() {
    let refusal = Refusal::UnknownTerm(Span::new(40, 43));
    assert_eq!(refusal.show(b"MIT").to_string(), "MIT\n   ^\n4 at 40..43: this is not a known name");
}
