//! Every refusal that can be reached, with what it carries.

use tasgilfrem::*;

fn refused(text: &[u8], mode: Mode) -> Refusal {
    parse(text, mode).expect_err("a text that does not read")
}

fn at(start: usize, end: usize) -> Span {
    Span::new(start, end)
}

const AFTER_A_NAME: u8 = 4 | 8 | 16 | 32 | 64;

#[test]
fn refusal_1() {
    let refusal = refused(b"MIT \xe9", Mode::STRICT);
    assert_eq!(refusal, Refusal::NotUtf8(at(4, 5)));
    assert_eq!((refusal.number(), refusal.span()), (1, Some(at(4, 5))));
    assert_eq!(refused(b"\xe2\x82", Mode::STRICT), Refusal::NotUtf8(at(0, 1)));
}

#[test]
fn refusal_2() {
    let mut text = vec![b' '; 1025];
    text[0] = 0xff;
    assert_eq!(refused(&text, Mode::STRICT), Refusal::TooLong(at(0, 0)));
    assert_eq!(refused(&vec![b' '; 1 << 25], Mode::STRICT).number(), 2);
    assert_eq!(canonical(&text), Err(Refusal::TooLong(at(0, 0))));
}

#[test]
fn refusal_3() {
    assert_eq!(refused("MIT é".as_bytes(), Mode::STRICT), Refusal::InvalidCharacters(at(4, 6)));
    assert_eq!(refused(b"MIT/ISC", Mode::STRICT), Refusal::InvalidCharacters(at(3, 7)));
}

#[test]
fn refusal_4() {
    assert_eq!(refused(b"MIT Or ISC", Mode::LAX), Refusal::UnknownTerm(at(4, 6)));
}

#[test]
fn refusal_5() {
    assert_eq!(refused(b"MIT +", Mode::STRICT), Refusal::SeparatedPlus(at(3, 4)));
    assert_eq!(refused("MIT\u{3000} +".as_bytes(), Mode::STRICT), Refusal::SeparatedPlus(at(3, 7)));
}

#[test]
fn refusal_6_with_every_set() {
    let sets: [(&str, Mode, Span, u8); 12] = [
        ("+", Mode::STRICT, at(0, 1), 1 | 2),
        ("MIT AND AND", Mode::STRICT, at(8, 11), 1 | 2),
        ("MIT OR )", Mode::STRICT, at(7, 8), 1 | 2),
        ("()", Mode::STRICT, at(1, 2), 1 | 2),
        ("MIT AND", Mode::STRICT, at(7, 7), 1 | 2),
        ("(MIT) MIT", Mode::STRICT, at(6, 9), 4 | 8),
        ("MIT WITH LLVM-exception MIT", Mode::STRICT, at(24, 27), 4 | 8 | 32),
        ("mitMIT", Mode::LAX, at(3, 6), AFTER_A_NAME),
        ("foo bar", Mode::UNKNOWN, at(4, 7), AFTER_A_NAME),
        ("LicenseRef-a+", Mode::STRICT, at(12, 13), 4 | 8 | 16 | 32),
        ("MIT++", Mode::STRICT, at(4, 5), 4 | 8 | 16 | 32),
        ("MIT WITH MIT", Mode::STRICT, at(9, 12), 128),
    ];
    for (text, mode, span, set) in sets {
        let expected = Refusal::Unexpected(span, Expected::from_bits(set));
        assert_eq!(refused(text.as_bytes(), mode), expected, "{}", text);
    }
    let canonical = canonical(b"LicenseRef-a+").unwrap_err();
    assert_eq!(canonical, Refusal::Unexpected(at(12, 13), Expected::LICENCE));
}

#[test]
fn the_members_of_a_set() {
    let set = refused(b"MIT MIT", Mode::STRICT).expected().unwrap();
    assert_eq!(set.names().collect::<Vec<_>>(), ["AND", "OR", "WITH", ")", "+"]);
    assert_eq!(set, Expected::AND | Expected::OR | Expected::WITH | Expected::CLOSE | Expected::PLUS);
    assert!(set.contains(Expected::OR) && !set.contains(Expected::LICENCE));
    assert_eq!(refused(b"MIT WITH", Mode::STRICT).expected(), Some(Expected::ADDITION));
    assert_eq!(refused(b"", Mode::STRICT).expected(), None);
}

#[test]
fn refusals_7_and_8() {
    assert_eq!(refused(b"MIT)", Mode::STRICT), Refusal::UnopenedParens(at(3, 4)));
    assert_eq!(refused(b"((MIT", Mode::STRICT), Refusal::UnclosedParens(at(1, 2)));
}

#[test]
fn refusal_9() {
    assert_eq!(refused(b"", Mode::STRICT), Refusal::Empty(at(0, 0)));
    assert_eq!(refused(b"  ", Mode::STRICT), Refusal::Empty(at(0, 2)));
}

#[test]
fn refusals_10_to_12() {
    assert_eq!(refused(b"MIT AND GPL-2.0", Mode::STRICT), Refusal::DeprecatedLicenseId(at(8, 15)));
    assert_eq!(refused(b"GPL-2.0-only+", Mode::STRICT), Refusal::GnuNoPlus(at(12, 13)));
    assert_eq!(refused(b"GPL-2.0-or-later+", Mode::GNU_PLUS), Refusal::GnuPlusWithSuffix(at(16, 17)));
}

#[test]
fn refusals_14_and_15() {
    let leaves = vec!["MIT"; 65].join(" OR ");
    assert_eq!(refused(leaves.as_bytes(), Mode::STRICT), Refusal::TooManyLeaves(at(448, 451)));
    assert_eq!(refused(&[b'('; 33], Mode::STRICT), Refusal::TooDeep(at(32, 33)));
}

#[test]
fn refusal_16() {
    let refusal = canonical_into(b"mit", &mut [0; 2]).unwrap_err();
    assert_eq!((refusal, refusal.number(), refusal.value()), (Refusal::BufferTooSmall(3), 16, Some(3)));
    assert_eq!(refusal.span(), None);
}

#[test]
fn refusal_17() {
    let faults: [(&[u8], ListFault, u64); 6] = [
        (b"", ListFault::Contents, 255),
        (b"\x41", ListFault::Contents, 255),
        (b"\x01\x05\0\x03", ListFault::Contents, 255),
        (b"\0\0", ListFault::BytesAfterTheEnd, 254),
        (b"\x01\x06\0\x03\0MIT", ListFault::Entry(0), 0),
        (b"\x02\x09\0\x03\0\x0c\0\x04\0MITMIT+", ListFault::Entry(1), 1),
    ];
    for (file, fault, number) in faults {
        let refusal = List::check(file).unwrap_err();
        assert_eq!((refusal, refusal.number(), refusal.value()), (Refusal::WrongList(fault), 17, Some(number)));
        assert_eq!(choice(b"MIT", Mode::STRICT, file, 0), Err(refusal), "it goes before 19 and 21");
        assert_eq!(found(b"MIT", Mode::STRICT, file), Err(refusal));
        assert_eq!(choice(b"+", Mode::STRICT, file, 1).unwrap_err().number(), 6, "the text goes first");
    }
}

/// So many references, and a list that accepts them all.
fn references(count: usize) -> (Vec<String>, Vec<u8>) {
    let names: Vec<String> = (0..count).map(|i| format!("LicenseRef-{}", i)).collect();
    let file = make_list(&names).unwrap();
    (names, file)
}

#[test]
fn refusal_18() {
    let (names, file) = references(31);
    let text = names.join(" OR ");
    let refusal = choice(text.as_bytes(), Mode::STRICT, &file, 0).unwrap_err();
    assert_eq!((refusal, refusal.number(), refusal.value()), (Refusal::TooManyRequirements(31), 18, Some(31)));
    assert_eq!(listing(text.as_bytes(), Mode::STRICT, &file, 0, 0), Err(refusal));
    assert_eq!(found(text.as_bytes(), Mode::STRICT, &file), Err(refusal));
    let (names, file) = references(30);
    assert_eq!(choice(names.join(" OR ").as_bytes(), Mode::STRICT, &file, 1), Ok(Choice::Mask(1)));
}

#[test]
fn refusals_19_and_21() {
    let file = make_list(&["ISC"]).unwrap();
    let unmet = choice(b"MIT", Mode::STRICT, &file, 0).unwrap_err();
    assert_eq!((unmet, unmet.number(), unmet.value(), unmet.span()), (Refusal::RequirementsUnmet, 19, None, None));
    let spent = choice(b"ISC", Mode::STRICT, &file, 0).unwrap_err();
    assert_eq!((spent, spent.number(), spent.value()), (Refusal::NoBudget, 21, None));
    assert_eq!(listing(b"ISC", Mode::STRICT, &file, 1, 0), Err(Refusal::NoBudget));
}

#[test]
fn refusal_20_carries_what_was_given() {
    for place in [4, 1 << 56, usize::MAX] {
        let refusal = step(b"MIT", Mode::STRICT, place).unwrap_err();
        assert_eq!((refusal.number(), refusal.value()), (20, Some(place as u64)));
    }
    assert_eq!(step("é".as_bytes(), Mode::STRICT, 1), Err(Refusal::NoSuchPlace(1)));
    let file = make_list(&["MIT"]).unwrap();
    for cursor in [0, 3, (1 << 56) - 1, 1 << 56, u64::MAX] {
        assert_eq!(listing(b"MIT", Mode::STRICT, &file, cursor, 1), Err(Refusal::NoSuchPlace(cursor)));
    }
}

#[test]
fn a_refusal_is_an_error() {
    let error: Box<dyn std::error::Error> = refused(b"MIT +", Mode::STRICT).into();
    assert_eq!(error.to_string(), "5 at 3..4: white space stands before the `+`");
}
