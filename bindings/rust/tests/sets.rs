//! The choice, the listing and the iterator over all sets.

use tasgilfrem::*;

const TEXT: &[u8] = b"(MIT AND ISC) OR 0BSD";

fn file() -> Vec<u8> {
    make_list(&["MIT", "ISC", "0BSD"]).unwrap()
}

#[test]
fn the_least_mask_is_chosen() {
    assert_eq!(choice(TEXT, Mode::STRICT, file(), 8), Ok(Choice::Mask(3)));
    assert_eq!(choice(TEXT, Mode::STRICT, file(), 3), Ok(Choice::Mask(3)));
    assert_eq!(choice(TEXT, Mode::STRICT, file(), 2), Ok(Choice::Paused(3)));
    assert_eq!(choice(TEXT, Mode::STRICT, List::check(&file()).unwrap(), u64::MAX), Ok(Choice::Mask(3)));
}

#[test]
fn the_listing_goes_on_from_its_cursor() {
    let list = |cursor, budget| listing(TEXT, Mode::STRICT, file(), cursor, budget).unwrap();
    assert_eq!(list(1, 8), Listing::Found { mask: 3, next: 4 });
    assert_eq!(list(4, 8), Listing::Found { mask: 4, next: 5 });
    assert_eq!(list(5, 8), Listing::Finished(8));
    assert_eq!(list(1, 2), Listing::Paused(3));
    assert_eq!(list(5, 2), Listing::Paused(7));
    assert_eq!(list(8, u64::MAX), Listing::Finished(8));
    assert_eq!(list(5, 3).next(), 8);
}

#[test]
fn all_sets_with_any_budget() {
    for budget in [1, 2, 3, 8, u64::MAX] {
        let all: Result<Vec<u64>, Refusal> = sets(TEXT, Mode::STRICT, &file(), budget).collect();
        assert_eq!(all, Ok(vec![3, 4]), "budget {}", budget);
    }
}

#[test]
fn a_listing_is_stopped_and_resumed() {
    let file = file();
    let mut first = sets(TEXT, Mode::STRICT, &file, 2);
    assert_eq!((first.cursor(), first.next(), first.cursor()), (1, Some(Ok(3)), 4));
    let cursor = first.cursor();
    let mut second = sets(TEXT, Mode::STRICT, &file, 2).resumed_at(cursor);
    assert_eq!((second.next(), second.cursor()), (Some(Ok(4)), 5));
    assert_eq!((second.next(), second.cursor(), second.next()), (None, 8, None));
}

/// Each call examines at most the budget, and the cursors say how many.
#[test]
fn call_by_call() {
    let file = file();
    let mut calls = sets(TEXT, Mode::STRICT, &file, 2);
    let mut answers = Vec::new();
    while !matches!(answers.last(), Some(Listing::Finished(_))) {
        let before = calls.cursor();
        answers.push(calls.advance().unwrap());
        assert!(calls.cursor() - before <= 2);
    }
    let found = |mask| Listing::Found { mask, next: mask + 1 };
    assert_eq!(answers, [Listing::Paused(3), found(3), found(4), Listing::Paused(7), Listing::Finished(8)]);
    assert_eq!(calls.advance(), Ok(Listing::Finished(8)));
    assert_eq!(calls.next(), None);
}

#[test]
fn sets_end_after_a_refusal() {
    let file = file();
    let mut refused = sets(b"MIT +", Mode::STRICT, &file, 2);
    assert_eq!(refused.next(), Some(Err(Refusal::SeparatedPlus(Span::new(3, 4)))));
    assert_eq!(refused.next(), None);
    let mut spent = sets(TEXT, Mode::STRICT, &file, 0);
    assert_eq!((spent.next(), spent.next()), (Some(Err(Refusal::NoBudget)), None));
    let mut past = sets(TEXT, Mode::STRICT, &file, 1).resumed_at(9);
    assert_eq!((past.next(), past.next()), (Some(Err(Refusal::NoSuchPlace(9))), None));
}

#[test]
fn none_found() {
    let list = make_list(&["MPL-2.0"]).unwrap();
    assert_eq!(sets(TEXT, Mode::STRICT, &list, 1).next(), None);
    assert!(found(TEXT, Mode::STRICT, &list).unwrap().is_empty());
    assert_eq!(choice(TEXT, Mode::STRICT, &list, 1), Err(Refusal::RequirementsUnmet));
}

#[test]
fn found_licensees_are_entries_of_the_list() {
    // Entry 0 is not asked for, entry 3 is entry 1 again with white space.
    let list = make_list(&["MPL-2.0", "ISC", "MIT", " ISC", "0BSD"]).unwrap();
    let found = found(TEXT, Mode::STRICT, &list).unwrap();
    assert_eq!((found.len(), found.is_empty()), (3, false));
    assert_eq!([found.entry(0), found.entry(1), found.entry(2), found.entry(3)], [Some(1), Some(2), Some(4), None]);
    let mask = match choice(TEXT, Mode::STRICT, &list, 8) {
        Ok(Choice::Mask(mask)) => mask,
        other => panic!("{:?}", other),
    };
    let list = List::check(&list).unwrap();
    let chosen: Vec<&[u8]> = found.members(mask).filter_map(|index| list.entry(index)).collect();
    assert_eq!(chosen, [&b"ISC"[..], b"MIT"]);
    assert_eq!(found.members(u64::MAX).collect::<Vec<_>>(), [1, 2, 4]);
}

#[test]
fn thirty_found() {
    let names: Vec<String> = (0..30).map(|i| format!("LicenseRef-{}", i)).collect();
    let list = make_list(&names).unwrap();
    let text = names.join(" AND ");
    let found = found(text.as_bytes(), Mode::STRICT, &list).unwrap();
    assert_eq!((found.len(), found.entry(29), found.entry(30)), (30, Some(29), None));
    let all = (1 << 30) - 1;
    let mut last = sets(text.as_bytes(), Mode::STRICT, &list, 1).resumed_at(all);
    assert_eq!((last.next(), last.next(), last.cursor()), (Some(Ok(all)), None, 1 << 30));
    assert_eq!(choice(text.as_bytes(), Mode::STRICT, &list, 5), Ok(Choice::Paused(6)));
}

#[test]
fn unknown_terms_are_met_by_references() {
    let list = make_list(&["LicenseRef-foo", "MIT WITH AdditionRef-bar"]).unwrap();
    assert_eq!(choice(b"foo", Mode::UNKNOWN, &list, 2), Ok(Choice::Mask(1)));
    assert_eq!(choice(b"foo AND MIT WITH bar", Mode::UNKNOWN, &list, 4), Ok(Choice::Mask(3)));
}
