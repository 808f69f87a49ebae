//! The accept list: entries are parts of the caller's file.

use tasgilfrem::*;

/// Where a part stands in the file, by its address.
fn offset(file: &[u8], part: &[u8]) -> usize {
    let range = file.as_ptr_range();
    assert!(range.contains(&part.as_ptr()), "the part is in the file");
    part.as_ptr() as usize - range.start as usize
}

#[test]
fn the_smallest_files() {
    assert_eq!(make_list(&["MIT"]).unwrap(), [1, 5, 0, 3, 0, b'M', b'I', b'T']);
    let none: [&str; 0] = [];
    assert_eq!(make_list(&none).unwrap(), [0]);
    assert!(List::check(&[0]).unwrap().is_empty());
}

#[test]
fn entries_are_parts_of_the_file() {
    let bodies = ["MIT", " ISC WITH\tLLVM-exception", "LicenseRef-"];
    let file = make_list(&bodies).unwrap();
    let list = List::check(&file).unwrap();
    assert_eq!((list.len(), list.entries().len(), list.file()), (3, 3, &file[..]));
    let mut expected = 13;
    for (index, body) in list.entries().enumerate() {
        assert_eq!((body, Some(body)), (bodies[index].as_bytes(), list.entry(index)));
        assert_eq!(offset(&file, body), expected);
        expected += body.len();
    }
    assert_eq!(expected, file.len());
    assert_eq!([list.entry(3), list.entry(usize::MAX)], [None, None]);
}

/// The parts live as long as the file, not only as long as the list.
#[test]
fn entries_outlive_the_list() {
    let file = make_list(&["MIT", "0BSD"]).unwrap();
    let last = List::check(&file).unwrap().into_iter().last();
    assert_eq!(last, Some(&b"0BSD"[..]));
}

#[test]
fn a_wrong_file_has_no_entries() {
    assert_eq!(entry(b"\x01\x05\0\x03\0MIT", 0), Some(&b"MIT"[..]));
    assert_eq!(entry(b"\x01\x05\0\x03\0MIT ", 0), None);
    assert_eq!(entry(b"", 0), None);
}

#[test]
fn the_most_entries() {
    assert_eq!(List::check(&make_list(&["MIT"; 64]).unwrap()).unwrap().len(), 64);
    let contents = Err(Refusal::WrongList(ListFault::Contents));
    assert_eq!(
        [make_list(&["MIT"; 65]), make_list(&["MIT"; 256]), make_list(&["MIT"; 257])],
        [contents.clone(), contents.clone(), contents]
    );
}

#[test]
fn the_longest_bodies() {
    let body = |length: usize| format!("LicenseRef-{}", "a".repeat(length - 11));
    assert!(make_list(&vec![body(200); 64]).is_ok());
    for length in [201, 65_535, 65_536 + 3] {
        let refusal = make_list(&["MIT".to_owned(), body(length)]).unwrap_err();
        assert_eq!(refusal, Refusal::WrongList(ListFault::Entry(1)));
    }
}

#[test]
fn wrong_bodies() {
    for body in ["", " ", "MIT+", "(MIT)", "GPL-2.0", "mit", "MIT ISC", "MIT WITH", "MIT WITH LLVM-exception )", "é"] {
        assert_eq!(make_list(&["MIT", body]), Err(Refusal::WrongList(ListFault::Entry(1))), "{}", body);
    }
    let not_utf_8: [&[u8]; 1] = [b"MIT \xff"];
    assert_eq!(make_list(&not_utf_8), Err(Refusal::WrongList(ListFault::Entry(0))));
}
