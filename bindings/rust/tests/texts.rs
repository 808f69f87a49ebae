//! Tokens, nodes and canonical texts: document 01's worked texts and rules, through the binding.

use tasgilfrem::*;

fn names(text: &[u8], mode: Mode) -> String {
    let tree = parse(text, mode).expect("a text that reads");
    let words: Vec<String> = tree.nodes().iter().map(|node| word(node, text)).collect();
    words.join(" ")
}

/// A node as document 01 writes it: the name, what follows it, or the operator.
fn word(node: &Node, text: &[u8]) -> String {
    match node {
        Node::And => "AND".to_owned(),
        Node::Or => "OR".to_owned(),
        Node::Leaf(leaf) => {
            let licence = match leaf.licence {
                Licence::Listed(licence) => licence.name(),
                Licence::Reference(reference) => spelled(reference, text),
            };
            let addition = match leaf.addition {
                None => String::new(),
                Some(Addition::Listed(exception)) => format!("~{}", exception.name()),
                Some(Addition::Reference(reference)) => format!("~{}", spelled(reference, text)),
            };
            format!("{}{}{}", licence, if leaf.plus { "+" } else { "" }, addition)
        }
    }
}

fn spelled(reference: Reference, text: &[u8]) -> String {
    let part = |span: Span| String::from_utf8_lossy(span.of(text)).into_owned();
    match reference.document {
        Some(document) => format!("<{}:{}>", part(document), part(reference.name)),
        None => format!("<{}>", part(reference.name)),
    }
}

fn licence_named(name: &str) -> LicenceId {
    LicenceId::all().find(|licence| licence.name() == name).expect("a listed name")
}

#[test]
fn equal_operators_nest_right() {
    assert_eq!(names(b"MIT OR ISC OR 0BSD", Mode::STRICT), "MIT ISC 0BSD OR OR");
}

#[test]
fn and_binds_before_or() {
    assert_eq!(names(b"MIT OR ISC AND 0BSD OR MPL-2.0", Mode::STRICT), "MIT ISC 0BSD AND MPL-2.0 OR OR");
}

#[test]
fn parentheses_group() {
    assert_eq!(names(b"(MIT OR ISC) AND 0BSD", Mode::STRICT), "MIT ISC OR 0BSD AND");
}

#[test]
fn additions_and_plus() {
    assert_eq!(names(b"MPL-1.1+ with LLVM-exception", Mode::STRICT), "MPL-1.1+~LLVM-exception");
    assert_eq!(names(b"LGPL-2.1+ WITH GCC-exception-3.1", Mode::LAX), "LGPL-2.1-or-later~GCC-exception-3.1");
    assert_eq!(names(b"gplv2+", Mode::LAX), "GPL-2.0-or-later");
}

#[test]
fn references_are_ranges_of_the_text() {
    let text = b"DocumentRef-d:LicenseRef-a WITH DocumentRef-e:AdditionRef-";
    assert_eq!(names(text, Mode::STRICT), "<d:a>~<e:>");
    assert_eq!(names(b"MIT WITH a WITH b", Mode::UNKNOWN), "MIT~<b>");
}

#[test]
fn a_reference_may_have_an_empty_name() {
    let tree = parse(b"LicenseRef-", Mode::STRICT).unwrap();
    let licence = Licence::Reference(Reference { document: None, name: Span::new(11, 11) });
    let leaf = Leaf { licence, plus: false, addition: None, span: Span::new(0, 11) };
    assert_eq!(tree.nodes(), [Node::Leaf(leaf)]);
}

#[test]
fn a_span_does_not_take_in_the_plus() {
    let tree = parse(b" MIT+", Mode::STRICT).unwrap();
    let leaf = tree.leaves().next().unwrap();
    assert_eq!((leaf.plus, leaf.span), (true, Span::new(1, 4)));
}

#[test]
fn the_most_leaves_and_parentheses() {
    let leaves = vec!["MIT"; 64].join(" OR ");
    assert_eq!(parse(leaves.as_bytes(), Mode::STRICT).unwrap().nodes().len(), 127);
    let deep = format!("{}MIT{}", "(".repeat(32), ")".repeat(32));
    assert_eq!(parse(deep.as_bytes(), Mode::STRICT).unwrap().nodes().len(), 1);
    let long = format!("MIT{}", " ".repeat(1021));
    assert_eq!(parse(long.as_bytes(), Mode::STRICT).unwrap().nodes().len(), 1);
}

#[test]
fn a_tree_by_its_branches() {
    let tree = parse(b"(MIT AND ISC) OR 0BSD OR MPL-2.0", Mode::STRICT).unwrap();
    let (left, right) = sides(tree.root(), false);
    assert_eq!((left.nodes().len(), right.nodes().len()), (3, 3));
    let (mit, isc) = sides(left.branch(), true);
    assert_eq!([leaf_of(mit).span, leaf_of(isc).span], [Span::new(1, 4), Span::new(9, 12)]);
    let (zero, mpl) = sides(right.branch(), false);
    assert_eq!([leaf_of(zero).span, leaf_of(mpl).span], [Span::new(17, 21), Span::new(25, 32)]);
}

fn sides(branch: Branch<'_>, and: bool) -> (Subtree<'_>, Subtree<'_>) {
    match branch {
        Branch::And(left, right) if and => (left, right),
        Branch::Or(left, right) if !and => (left, right),
        other => panic!("{:?}", other),
    }
}

fn leaf_of(tree: Subtree<'_>) -> &Leaf {
    match tree.branch() {
        Branch::Leaf(leaf) => leaf,
        other => panic!("{:?}", other),
    }
}

#[test]
fn every_kind_of_token() {
    let text = b"AND or WITH+() MIT LLVM-exception LicenseRef-a DocumentRef-d:AdditionRef-b foo/";
    let all: Result<Vec<(Token, Span)>, Refusal> = tokens(text, Mode::ALL).collect();
    let llvm = ExceptionId::all().find(|exception| exception.name() == "LLVM-exception").unwrap();
    let span = Span::new;
    assert_eq!(
        all.unwrap(),
        [
            (Token::And, span(0, 3)),
            (Token::Or, span(4, 6)),
            (Token::With, span(7, 11)),
            (Token::Plus, span(11, 12)),
            (Token::Open, span(12, 13)),
            (Token::Close, span(13, 14)),
            (Token::Licence(licence_named("MIT")), span(15, 18)),
            (Token::Exception(llvm), span(19, 33)),
            (Token::LicenseRef(Reference { document: None, name: span(45, 46) }), span(34, 46)),
            (Token::AdditionRef(Reference { document: Some(span(59, 60)), name: span(73, 74) }), span(47, 74)),
            (Token::Unknown(span(75, 78)), span(75, 78)),
            (Token::Or, span(78, 79)),
        ]
    );
}

#[test]
fn an_absent_document_part_is_not_an_empty_one() {
    let empty = Token::LicenseRef(Reference { document: Some(Span::new(12, 12)), name: Span::new(24, 25) });
    let token = Step::Token { token: empty, span: Span::new(0, 25), next: 25 };
    assert_eq!(step(b"DocumentRef-:LicenseRef-a", Mode::STRICT, 0), Ok(token));
}

#[test]
fn imprecise_names_stop_where_they_end() {
    let mit = Token::Licence(licence_named("MIT"));
    let text = b"mitMIT";
    assert_eq!(step(text, Mode::LAX, 0), Ok(Step::Token { token: mit, span: Span::new(0, 3), next: 3 }));
    assert_eq!(tokens(text, Mode::LAX).count(), 2);
}

#[test]
fn tokens_end_after_a_refusal() {
    let mut all = tokens(b"MIT + ISC", Mode::STRICT);
    assert!(matches!(all.next(), Some(Ok((Token::Licence(_), _)))));
    assert_eq!(all.next(), Some(Err(Refusal::SeparatedPlus(Span::new(3, 4)))));
    assert_eq!((all.next(), all.next()), (None, None));
}

#[test]
fn tokens_end_at_the_end() {
    let mut all = tokens(" \u{3000}MIT\u{a0}".as_bytes(), Mode::STRICT);
    assert_eq!(all.next().unwrap().unwrap().1, Span::new(4, 7));
    assert_eq!((all.next(), all.next()), (None, None));
    assert_eq!(tokens(b"", Mode::STRICT).next(), None);
    assert_eq!(step(b"", Mode::STRICT, 0), Ok(Step::Done));
}

#[test]
fn canonical_texts() {
    let long = "Apache-2.0 WITH LLVM-exception OR GPL-3.0-or-later AND GPL-2.0-only";
    assert_eq!(canonical(b"apache with LLVM-exception/gpl-3.0+ and gplv2").unwrap(), long);
    assert_eq!(canonical(b"GPL-3.0-or-later+").unwrap(), "GPL-3.0-or-later-or-later");
    assert_eq!(canonical(b"MIT MIT").unwrap(), "MITMIT");
    assert_eq!(canonical(b" ").unwrap(), "");
}

#[test]
fn a_canonical_text_is_lent_back() {
    let text = b"MIT OR ISC";
    match canonical(text).unwrap() {
        std::borrow::Cow::Borrowed(same) => assert_eq!(same.as_ptr(), text.as_ptr()),
        std::borrow::Cow::Owned(other) => panic!("{}", other),
    }
}

/// Four times as long as the text, the most there can be: the first buffer is too small.
#[test]
fn the_longest_canonical_text() {
    let text = vec![b'/'; 1024];
    assert_eq!(canonical(&text).unwrap(), " OR ".repeat(1024));
}

#[test]
fn a_lent_buffer_keeps_what_is_not_written() {
    let mut buffer = [0xaa; 4];
    assert_eq!(canonical_into(b"mit", &mut buffer), Ok(Canonical::Written(3)));
    assert_eq!(buffer, *b"MIT\xaa");
    assert_eq!(canonical_into(b"0BSD", &mut buffer), Ok(Canonical::Unchanged));
    assert_eq!(canonical_into(b"mit/mit", &mut buffer), Err(Refusal::BufferTooSmall(10)));
    assert_eq!(canonical_into(b"foo", &mut buffer), Err(Refusal::UnknownTerm(Span::new(0, 3))));
    assert_eq!(buffer, *b"MIT\xaa");
    assert_eq!(canonical_into(b" ", &mut []), Ok(Canonical::Written(0)));
}

#[test]
fn the_names() {
    let licences: Vec<String> = LicenceId::all().map(LicenceId::name).collect();
    let exceptions: Vec<String> = ExceptionId::all().map(ExceptionId::name).collect();
    assert!(licences.windows(2).all(|pair| pair[0] < pair[1]), "licences ascend");
    assert!(exceptions.windows(2).all(|pair| pair[0] < pair[1]), "exceptions ascend");
    assert!(["0BSD", "GPL-2.0-only", "MIT", "Unlicense"].iter().all(|name| licences.iter().any(|other| other == name)));
    assert!(exceptions.iter().any(|name| name == "Classpath-exception-2.0"));
    for (place, licence) in LicenceId::all().enumerate() {
        assert_eq!(licence.place(), place);
        let read = step(licence.name().as_bytes(), Mode::STRICT, 0);
        assert!(matches!(read, Ok(Step::Token { token: Token::Licence(same), .. }) if same == licence));
    }
}

#[test]
fn modes() {
    assert_eq!(Mode::from_bits(31), Some(Mode::ALL));
    assert_eq!(Mode::from_bits(32), None);
    let lax = Mode::SLASH_AS_OR | Mode::IMPRECISE | Mode::GNU_PLUS | Mode::DEPRECATED;
    assert_eq!(lax, Mode::LAX);
    assert_eq!(Mode::ALL.without(Mode::UNKNOWN), Mode::LAX);
    assert!(Mode::LAX.allows(Mode::STRICT) && !Mode::LAX.allows(Mode::UNKNOWN));
    assert!(parse(b"MIT/ISC", Mode::SLASH_AS_OR).is_ok() && parse(b"MIT/ISC", Mode::STRICT).is_err());
}
