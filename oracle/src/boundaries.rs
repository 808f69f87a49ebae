//! The texts on both sides of every boundary of document 01, most telling first.

use crate::document::{LONGEST_TEXT, MOST_LEAVES, MOST_OPEN};
use crate::pieces::{
    ADDITION_REFS, CHARACTERS, FALSE_OPERATORS, ILL_FORMED, LICENSE_REFS, UNKNOWN_RUNS, all_names, encoded, exceptions,
    imprecise_names, licences, white_and_neighbours,
};

pub type Text = Vec<u8>;

pub fn texts() -> Vec<Text> {
    let mut texts = Vec::new();
    texts.extend(worked());
    texts.extend(lengths());
    texts.extend(leaves());
    texts.extend(depths());
    texts.extend(ill_formed());
    texts.extend(characters());
    texts.extend(white_space());
    texts.extend(references());
    texts.extend(imprecise());
    texts.extend(with_piece_everywhere("+"));
    texts.extend(with_piece_everywhere(" +"));
    texts.extend(with_piece_everywhere("/"));
    texts.extend(terms());
    texts
}

fn from_strings<S: AsRef<str>>(strings: impl IntoIterator<Item = S>) -> Vec<Text> {
    strings.into_iter().map(|string| string.as_ref().as_bytes().to_vec()).collect()
}

fn worked() -> Vec<Text> {
    from_strings([
        "",
        "MIT OR ISC OR 0BSD",
        "MIT OR ISC AND 0BSD OR MPL-2.0",
        "MIT +",
        "+",
        "((MIT",
        "LicenseRef-",
        "mitMIT",
        "MIT é",
        "GPL-3.0-or-later+",
        "(MIT AND ISC) OR 0BSD",
        "apache with LLVM-exception/gpl-3.0+ and gplv2",
        "MIT MIT",
        " ",
        "MIT Or ISC",
        "MIT WITH foo WITH bar",
        "MIT WITH LLVM-exception )",
        "(MIT) MIT",
        "foo+",
        "MIT  +",
        "MIT AND",
        "(MIT AND",
        ")",
        "MIT)",
        "()",
        "GPL-2.0+",
        "GPL-2.0-only+",
    ])
}

fn lengths() -> Vec<Text> {
    let mut texts = Vec::new();
    for length in [LONGEST_TEXT - 1, LONGEST_TEXT, LONGEST_TEXT + 1] {
        for piece in [" ", "/", "a", "(", "+", ":"] {
            texts.push(piece.repeat(length).into_bytes());
        }
        texts.push(filled(b"MIT", b" ", b"", length));
        texts.push(filled(b"", b" ", b"MIT", length));
        texts.push(filled(b"MIT", b" ", b"+", length));
        texts.push(filled(b"LicenseRef-", b"a", b"", length));
        texts.push(filled(b"DocumentRef-", b"a", b":LicenseRef-", length));
        texts.push(filled(b"MIT WITH AdditionRef-", b"a", b"", length));
        texts.push(filled(b"\xff", b" ", b"", length));
        texts.push(filled(b"MIT", b" ", b"\xff", length));
        texts.push(filled(b"MIT", b" ", "\u{3000}".as_bytes(), length));
        texts.push(filled(b"MIT", b" ", "\u{1f600}".as_bytes(), length));
    }
    // Canonical text longer than a text may be.
    texts.push(vec!["gplv2+"; 52].join("/").into_bytes());
    texts
}

/// The front, as many fillers as make up the length, and the back.
fn filled(front: &[u8], filler: &[u8], back: &[u8], length: usize) -> Text {
    [front, &filler.repeat(length - front.len() - back.len()), back].concat()
}

fn leaves() -> Vec<Text> {
    let mut texts = Vec::new();
    for count in [MOST_LEAVES - 1, MOST_LEAVES, MOST_LEAVES + 1, MOST_LEAVES + 2] {
        for (term, operator) in [
            ("MIT", " OR "),
            ("ISC", " AND "),
            ("MIT", "/"),
            ("GPL-2.0", "/"),
            ("foo", "/"),
            ("MIT WITH x", "/"),
            ("LicenseRef-", " OR "),
            ("(MIT)", "AND"),
            ("mit+", "/"),
        ] {
            texts.push(vec![term; count].join(operator).into_bytes());
        }
    }
    // What stands at the 65th leaf, after 64 good ones and an operator.
    let full = vec!["MIT"; MOST_LEAVES].join(" OR ");
    for last in ["GPL-2.0", "foo", "LLVM-exception", "AND", "(", "(MIT", ")", "é", " +", "MIT+", "LicenseRef-a", ""] {
        texts.push(format!("{full} AND {last}").into_bytes());
        texts.push(format!("({full}/{last}").into_bytes());
    }
    // What stands there without an operator.
    for last in ["MIT", "foo", "GPL-2.0", "(MIT)"] {
        texts.push(format!("{full} {last}").into_bytes());
    }
    texts
}

fn depths() -> Vec<Text> {
    let mut texts = Vec::new();
    for depth in [MOST_OPEN - 1, MOST_OPEN, MOST_OPEN + 1, MOST_OPEN + 2] {
        let open = "(".repeat(depth);
        let close = ")".repeat(depth);
        texts.extend(from_strings([
            format!("{open}MIT{close}"),
            format!("{open}MIT"),
            format!("{open}MIT{close})"),
            open.clone(),
            format!("{open})"),
            format!("{open}é"),
            format!("{open}foo"),
            format!("MIT{open}"),
            format!("MIT OR {open}ISC AND 0BSD{close}"),
            format!("{}(MIT{close} AND {open}ISC{close}", &open[1..]),
            vec!["(MIT)"; depth].join(" AND "),
        ]));
    }
    let open = "(".repeat(MOST_OPEN);
    texts.extend(from_strings([format!("{open}MIT("), format!("{open}MIT OR ("), format!("{open}MIT) OR (ISC")]));
    texts
}

fn ill_formed() -> Vec<Text> {
    let mut texts = Vec::new();
    for bytes in ILL_FORMED {
        texts.push(bytes.to_vec());
        texts.push([b"MIT ", bytes].concat());
        texts.push([bytes, b" MIT"].concat());
        texts.push([b"LicenseRef-", bytes, b" OR MIT"].concat());
    }
    texts
}

fn characters() -> Vec<Text> {
    let mut texts = Vec::new();
    for bytes in CHARACTERS.map(encoded) {
        texts.push(bytes.clone());
        texts.push([b"MIT ", &bytes[..]].concat());
        texts.push([b"MIT", &bytes[..], b"OR ISC"].concat());
        texts.push([&bytes[..], b"MIT"].concat());
    }
    texts
}

fn white_space() -> Vec<Text> {
    let mut texts = Vec::new();
    for bytes in white_and_neighbours().into_iter().map(encoded) {
        texts.push(bytes.clone());
        texts.push([b"MIT", &bytes[..], b"OR", &bytes[..], b"ISC"].concat());
        texts.push([b"MIT", &bytes[..], b"+"].concat());
        texts.push([&bytes[..], &bytes[..], b"mit+", &bytes[..]].concat());
    }
    texts
}

/// References with a colon put in, a byte cut out, and an end cut off, at every place.
fn references() -> Vec<Text> {
    let mut texts = from_strings(LICENSE_REFS);
    texts.extend(from_strings(ADDITION_REFS.map(|addition| format!("MIT WITH {addition}"))));
    for whole in ["DocumentRef-a:LicenseRef-b", "LicenseRef-ab", "DocumentRef-a:AdditionRef-b", "AdditionRef-ab"] {
        for place in 0..=whole.len() {
            let (front, back) = whole.split_at(place);
            texts.push(format!("{front}:{back}").into_bytes());
            texts.push(front.as_bytes().to_vec());
            texts.push(format!("MIT WITH {front}").into_bytes());
            if place > 0 {
                texts.push(format!("{}{back}", &front[..place - 1]).into_bytes());
            }
        }
    }
    texts
}

/// Imprecise names run together with what may stand before and after them, in other cases too.
fn imprecise() -> Vec<Text> {
    let after = ["", "2", "-", ".0", "+", "++", "/", "x", ":", "MIT", "mit", "é", "(", ")", "-only", "AND", " and mit"];
    let before = ["", "MIT", "x", ":", "-", "(", "+", "é", "mit", "gplv2", "apache", "LicenseRef-"];
    let mut texts = Vec::new();
    for name in imprecise_names() {
        texts.extend(from_strings(after.map(|after| format!("{name}{after}"))));
        texts.extend(from_strings(before.map(|before| format!("{before}{name}"))));
        texts.push(name.to_uppercase().into_bytes());
        texts.push(format!("{}{}", name[..1].to_uppercase(), &name[1..]).into_bytes());
        texts.push(name.as_bytes()[..name.len() - 1].to_vec());
    }
    texts
}

fn with_piece_everywhere(piece: &str) -> Vec<Text> {
    let mut texts = Vec::new();
    for whole in ["MIT OR GPL-2.0-only WITH LLVM-exception AND (ISC)", "gplv2/LicenseRef-a or foo with bar"] {
        texts.extend((0..=whole.len()).map(|place| {
            let (front, back) = whole.split_at(place);
            format!("{front}{piece}{back}").into_bytes()
        }));
    }
    texts
}

/// Every name and every kind of term, bare, with `+`, with additions, and where it may not stand.
fn terms() -> Vec<Text> {
    let mut texts = Vec::new();
    for name in licences() {
        texts.extend(from_strings([
            name.to_owned(),
            format!("{name}+"),
            format!("({name}+)/{name}"),
            format!("{name} +"),
        ]));
    }
    for name in exceptions() {
        texts.extend(from_strings([name.to_owned(), format!("MIT WITH {name}"), format!("ISC+ with {name}+")]));
    }
    for name in all_names() {
        texts.extend(from_strings([
            name.to_lowercase(),
            format!("{name}x"),
            format!("{name}:"),
            format!("{name}{name}"),
        ]));
    }
    for operator in FALSE_OPERATORS {
        texts.push(format!("MIT {operator} ISC").into_bytes());
    }
    for run in UNKNOWN_RUNS {
        texts.extend(from_strings([
            run.to_owned(),
            format!("MIT WITH {run}"),
            format!("{run}+"),
            format!("MIT {run}"),
        ]));
    }
    texts
}
