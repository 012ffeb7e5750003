//! Every rule of Well-formed broken alone answers 65; tables that no request makes can be well-formed.

use reference::answers::{six_words, Answer};
use reference::boot::boot;
use reference::cases::{asks, list_of, state_p};
use reference::request::request;
use reference::rules::{well_formed, Rule, RULES};
use reference::tables::{table_length, Row, Tables, NONE};

/// P with an Endpoint in row 5 and a Notification in row 6, copied to row 7: list 0 1 6 7 5 3 4 2.
fn with_endpoint() -> Tables {
    let mut tables = state_p();
    asks(&mut tables, &[8, 1, 2, 0, 0, 0, 0, 5, 1], &[0, 1]).unwrap();
    asks(&mut tables, &[8, 1, 3, 0, 0, 0, 0, 6, 1], &[0, 1]).unwrap();
    asks(&mut tables, &[1, 0, 7, 32, 0, 6, 32, 7], &[0, 1]).unwrap();
    assert_eq!(list_of(&tables), [0, 1, 6, 7, 5, 3, 4, 2]);
    tables
}

/// m=13, r=4, with a Frame in row 6 and a TCB in row 7. Rows 1 to 5 hold untypeds of 2^8 to 2^12.
fn with_frame() -> Tables {
    let mut tables = Tables { words: vec![0; table_length(13)], control: [0; 4] };
    assert_eq!(boot(&mut tables, 13, 4), Answer::Success { count: 0 });
    asks(&mut tables, &[8, 5, 5, 0, 0, 0, 0, 6, 1], &[0, 1]).unwrap();
    asks(&mut tables, &[8, 4, 1, 0, 0, 0, 0, 7, 1], &[0, 1]).unwrap();
    assert_eq!(tables.row(Row(6)), [6, 4096, 12, 0, 3, NONE, 5, 1]);
    assert_eq!(tables.row(Row(7)), [2, 2048, 10, 0, 0, 5, 4, 1]);
    tables
}

/// Tables with words of rows changed: (row, word, value).
fn changed(tables: &Tables, changes: &[(u32, usize, u32)]) -> Tables {
    let mut new = tables.clone();
    for &(row, word, value) in changes {
        new.words[row as usize * 8 + word] = value;
    }
    new
}

/// Tables with a control word changed.
fn controlled(tables: &Tables, word: usize, value: u32) -> Tables {
    let mut new = tables.clone();
    new.control[word] = value;
    new
}

/// Tables of another length.
fn resized(tables: &Tables, length: usize) -> Tables {
    let mut new = tables.clone();
    new.words.resize(length, 0);
    new
}

/// All broken tables, each with the rule it breaks.
fn broken() -> Vec<(Rule, Tables)> {
    let p = state_p();
    let e = with_endpoint();
    let f = with_frame();
    let mut all = Vec::new();
    for value in [0, 9, 17, NONE] {
        all.push((Rule::MemoryRange, controlled(&p, 0, value)));
    }
    for value in [0, 3, 6, 9, NONE] {
        all.push((Rule::RadixRange, controlled(&p, 1, value)));
    }
    all.push((Rule::RadixRange, controlled(&f, 1, 9)));
    for length in [0, 8, 504, 511, 513, 520, 1024] {
        all.push((Rule::TableLength, resized(&p, length)));
    }
    all.push((Rule::TableLength, controlled(&p, 0, 11)));
    for count in [0, 4, 6, NONE] {
        all.push((Rule::Count, controlled(&p, 3, count)));
    }
    all.push((Rule::ListInTable, controlled(&p, 2, 64)));
    all.push((Rule::ListOccupied, controlled(&p, 2, 9)));
    all.push((Rule::ListWhole, controlled(&p, 2, NONE)));
    all.push((Rule::PreviousLink, controlled(&p, 2, 1)));
    for word in 1..8 {
        all.push((Rule::EmptyRowZero, changed(&p, &[(9, word, 1)])));
        all.push((Rule::EmptyRowZero, changed(&p, &[(63, word, NONE)])));
    }
    // One word of one row of P.
    for (rule, row, word, value) in [
        (Rule::KindRange, 4, 0, 7),
        (Rule::KindRange, 9, 0, NONE),
        (Rule::ZeroWord4, 1, 4, 1),
        (Rule::ZeroWord4, 2, 4, NONE),
        (Rule::ListInTable, 2, 5, 64),
        (Rule::ListInTable, 2, 5, NONE - 1),
        (Rule::ListOccupied, 2, 5, 9),
        (Rule::ListOnce, 2, 5, 0),
        (Rule::ListOnce, 2, 5, 3),
        (Rule::ListOnce, 2, 5, 2),
        (Rule::ListOnce, 0, 5, 0),
        (Rule::ListWhole, 4, 5, NONE),
        (Rule::ListWhole, 0, 5, NONE),
        (Rule::PreviousLink, 4, 6, 1),
        (Rule::PreviousLink, 0, 6, 0),
        (Rule::PreviousLink, 2, 6, NONE),
        (Rule::PreviousLink, 0, 5, 3),
        (Rule::FirstDepth, 0, 7, 1),
        (Rule::FirstDepth, 0, 7, NONE),
        (Rule::DepthStep, 3, 7, 2),
        (Rule::DepthStep, 2, 7, 3),
        (Rule::DepthStep, 2, 7, NONE),
        (Rule::SizeOfType, 3, 2, 0),
        (Rule::SizeOfType, 1, 2, 3),
        (Rule::UntypedAtMostHalf, 2, 2, 10),
        (Rule::UntypedAtMostHalf, 2, 2, 32),
        (Rule::UntypedAtMostHalf, 2, 2, NONE),
        (Rule::WithinMemory, 2, 1, 1024),
        (Rule::WithinMemory, 2, 1, NONE - 511),
        (Rule::WithinMemory, 4, 1, NONE - 63),
        (Rule::WithinMemory, 4, 2, 7),
        (Rule::WithinMemory, 4, 2, 28),
        (Rule::WithinMemory, 4, 2, 60),
        (Rule::WithinMemory, 4, 2, NONE),
        (Rule::Aligned, 2, 1, 256),
        (Rule::Aligned, 4, 1, 336),
        (Rule::Aligned, 4, 1, 321),
        (Rule::GuardSizeAndRadix, 0, 4, 29),
        (Rule::GuardSizeAndRadix, 3, 4, 31),
        (Rule::GuardSizeAndRadix, 3, 4, NONE),
        (Rule::GuardRange, 3, 3, 1),
        (Rule::GuardRange, 0, 3, 1 << 18),
        (Rule::WatermarkMultiple, 1, 3, 136),
        (Rule::WatermarkMultiple, 2, 3, 1),
        (Rule::WatermarkRange, 1, 3, 272),
        (Rule::WatermarkRange, 2, 3, 528),
        (Rule::WatermarkRange, 2, 3, NONE - 15),
        (Rule::ChildInsideUntyped, 4, 1, 512),
        (Rule::ChildInsideUntyped, 4, 1, 192),
        (Rule::ChildBelowWatermark, 1, 3, 112),
        (Rule::ChildBelowWatermark, 1, 3, 0),
        (Rule::ChildOfTyped, 4, 7, 2),
        (Rule::DepthZeroDisjoint, 4, 7, 0),
        (Rule::DepthZeroDisjoint, 2, 1, 0),
        (Rule::ChildrenDisjoint, 3, 2, 3),
    ] {
        all.push((rule, changed(&p, &[(row, word, value)])));
    }
    // One word of a row with an Endpoint or Notification.
    for (rule, row, word, value) in [
        (Rule::SizeOfType, 5, 2, 3),
        (Rule::SizeOfType, 5, 2, 5),
        (Rule::SizeOfType, 6, 2, 5),
        (Rule::BadgeRange, 5, 3, 1 << 28),
        (Rule::BadgeRange, 6, 3, 1 << 28),
        (Rule::EndpointRights, 5, 4, 8),
        (Rule::NotificationRights, 6, 4, 4),
        (Rule::ChildOfTyped, 7, 0, 3),
        (Rule::ChildOfTyped, 7, 1, 384),
        (Rule::ChildrenDisjoint, 5, 1, 400),
        (Rule::ChildrenDisjoint, 5, 1, 256),
    ] {
        all.push((rule, changed(&e, &[(row, word, value)])));
    }
    // One word of a row with a Frame or TCB.
    for (rule, row, word, value) in [
        (Rule::ZeroWord3, 6, 3, 1),
        (Rule::ZeroWord3, 7, 3, 16),
        (Rule::ZeroWord4, 7, 4, 3),
        (Rule::SizeOfType, 6, 2, 11),
        (Rule::SizeOfType, 6, 2, 13),
        (Rule::SizeOfType, 7, 2, 9),
        (Rule::SizeOfType, 7, 2, 11),
        (Rule::FrameRights, 6, 4, 4),
        (Rule::Aligned, 7, 1, 2560),
    ] {
        all.push((rule, changed(&f, &[(row, word, value)])));
    }
    // Row 4 moved to row 40, which lies in no CNode.
    let mut outside = changed(&p, &[(3, 5, 40), (2, 6, 40)]);
    outside.set_row(Row(40), p.row(Row(4)));
    outside.set_row(Row(4), [0; 8]);
    all.push((Rule::InsideCNode, outside));
    // A child of a CNode with another radix.
    let mut copied = state_p();
    asks(&mut copied, &[1, 0, 5, 32, 0, 4, 32, 7], &[0, 1]).unwrap();
    all.push((Rule::ChildOfTyped, changed(&copied, &[(5, 2, 1)])));
    // Guards at their bounds.
    all.push((Rule::GuardRange, changed(&p, &[(3, 3, 4), (3, 4, 2)])));
    all.push((Rule::GuardRange, changed(&p, &[(3, 3, 1 << 18), (3, 4, 30)])));
    // Two untypeds of depth 0 at the same place.
    all.push((Rule::DepthZeroDisjoint, changed(&p, &[(2, 1, 256), (2, 2, 8)])));
    // Two untypeds that are children of one and name the same.
    let mut twins = state_p();
    asks(&mut twins, &[8, 1, 0, 4, 0, 0, 0, 5, 2], &[0, 2]).unwrap();
    all.push((Rule::ChildrenDisjoint, changed(&twins, &[(6, 1, 384)])));
    all
}

#[test]
fn each_rule_broken_alone_answers_65() {
    let all = broken();
    for (number, (rule, tables)) in all.iter().enumerate() {
        assert_eq!(well_formed(tables).err(), Some(*rule), "table {}", number);
        for message in [&[][..], &[5, 0, 6, 32], &[8, 1, 2, 0, 0, 0, 0, 9, 1]] {
            let mut asked = tables.clone();
            assert_eq!(six_words(request(&mut asked, 0, message)), [65, 0, 0, 0, 0, 0], "{:?}", rule);
            assert_eq!(&asked, tables, "{:?}", rule);
        }
    }
    for rule in RULES {
        assert!(all.iter().any(|(broken, _)| *broken == rule), "{:?} is not tried", rule);
    }
    println!("{} broken tables", all.len());
}

#[test]
fn values_at_the_bounds_are_well_formed() {
    let p = state_p();
    let e = with_endpoint();
    let f = with_frame();
    for tables in [
        p.clone(),
        e.clone(),
        f.clone(),
        controlled(&p, 1, 5),
        changed(&p, &[(3, 3, 3), (3, 4, 2)]),
        changed(&p, &[(3, 3, (1 << 18) - 1), (3, 4, 30)]),
        changed(&p, &[(0, 3, (1 << 18) - 1)]),
        changed(&p, &[(1, 3, 256)]),
        changed(&p, &[(2, 3, 512)]),
        changed(&p, &[(2, 3, 16)]),
        changed(&e, &[(5, 3, (1 << 28) - 1), (5, 4, 0)]),
        changed(&e, &[(6, 4, 0), (7, 4, 3)]),
        changed(&f, &[(6, 4, 0)]),
    ] {
        assert_eq!(well_formed(&tables).err(), None);
    }
}

#[test]
fn the_empty_table_is_well_formed() {
    let mut tables = Tables { words: vec![0; table_length(10)], control: [10, 4, NONE, 0] };
    assert!(well_formed(&tables).is_ok());
    assert_eq!(six_words(request(&mut tables, 0, &[])), [7, 0, 0, 0, 0, 0]);
    assert_eq!(six_words(request(&mut tables, 0, &[5, 0])), [64, 1, 1, 0, 0, 0]);
    assert_eq!(well_formed(&controlled(&tables, 2, 0)).err(), Some(Rule::ListOccupied));
    assert_eq!(well_formed(&controlled(&tables, 3, 1)).err(), Some(Rule::Count));
}

#[test]
fn siblings_far_apart_may_name_the_same_typed_object() {
    // P with row 5 as a third child of the untyped: list 0 1 3 4 5 2; row 5 names what row 3 names.
    let mut tables = changed(&state_p(), &[(4, 5, 5), (2, 6, 5)]);
    tables.set_row(Row(5), [5, 256, 2, 0, 0, 2, 4, 1]);
    tables.control[3] = 6;
    assert!(well_formed(&tables).is_ok());
    // Its slot stays alive when row 3 goes.
    asks(&mut tables, &[8, 2, 2, 0, 0, 3, 32, 1, 1], &[0, 1]).unwrap();
    assert_eq!(tables.row(Row(17))[0], 3);
    asks(&mut tables, &[5, 0, 3, 32], &[0, 1]).unwrap();
    assert_eq!(list_of(&tables), [0, 1, 4, 5, 2, 17]);
    asks(&mut tables, &[5, 0, 5, 32], &[0, 2]).unwrap();
    assert_eq!(list_of(&tables), [0, 1, 4, 2]);
}

#[test]
fn rows_of_depth_zero_may_name_the_same_typed_object() {
    // Row 5, last in the list, names the boot CNode as row 0 does; both of depth 0.
    let mut tables = changed(&state_p(), &[(2, 5, 5)]);
    tables.set_row(Row(5), [5, 0, 4, 0, 28, NONE, 2, 0]);
    tables.control[3] = 6;
    assert!(well_formed(&tables).is_ok());
    // Row 0 may go; row 5 still names the boot CNode, and its caller goes on.
    asks(&mut tables, &[5, 0, 0, 32], &[0, 1]).unwrap();
    assert_eq!(tables.control, [10, 4, 1, 5]);
    assert_eq!(list_of(&tables), [1, 3, 4, 2, 5]);
    assert_eq!(six_words(request(&mut tables, 0, &[5, 5, 3, 32])), [64, 1, 1, 0, 0, 0]);
    // Removing the last name of the boot CNode takes all rows: every one lies in it.
    assert_eq!(six_words(request(&mut tables, 5, &[5, 5, 5, 32])), [0, 5, 0, 0, 0, 0]);
    assert_eq!(tables.control, [10, 4, NONE, 0]);
    assert!(tables.words.iter().all(|&word| word == 0));
}
