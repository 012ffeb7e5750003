//! What the paper says of single operations, with values worked out by hand.

use reference::answers::{six_words, Answer};
use reference::boot::boot;
use reference::cases::{asks, booted, list_of, state_p};
use reference::request::request;
use reference::tables::{table_length, Row, Tables, NONE};

/// The depths in list order.
fn depths(tables: &Tables) -> Vec<u32> {
    list_of(tables).into_iter().map(|row| tables.row(Row(row))[7]).collect()
}

/// Asks from row 0 and expects the answer.
fn ask(tables: &mut Tables, message: &[u32], stated: &[u32]) {
    asks(tables, message, stated).unwrap();
}

#[test]
fn boot_refusals() {
    let old = Tables { words: vec![3; 512], control: [1, 2, 3, 4] };
    for (m, r, stated) in [
        (9, 0, [4, 10, 16, 0, 0, 0]),
        (17, 4, [4, 10, 16, 0, 0, 0]),
        (NONE, 4, [4, 10, 16, 0, 0, 0]),
        (10, 3, [4, 4, 5, 0, 0, 0]),
        (10, 6, [4, 4, 5, 0, 0, 0]),
        (11, 7, [4, 4, 6, 0, 0, 0]),
        (12, 8, [4, 4, 7, 0, 0, 0]),
        (13, 9, [4, 4, 8, 0, 0, 0]),
        (16, NONE, [4, 4, 8, 0, 0, 0]),
        (11, 4, [65, 0, 0, 0, 0, 0]),
    ] {
        let mut tables = old.clone();
        assert_eq!(six_words(boot(&mut tables, m, r)), stated);
        assert_eq!(tables, old);
    }
}

#[test]
fn boot_of_every_size() {
    for m in 10..=16 {
        for r in 4..=8.min(m - 5) {
            let mut tables = Tables { words: vec![1; table_length(m)], control: [0; 4] };
            assert_eq!(boot(&mut tables, m, r), Answer::Success { count: 0 });
            assert_eq!(tables.control, [m, r, 0, m - r - 3]);
            assert_eq!(tables.row(Row(0)), [5, 0, r, 0, 32 - r, 1, NONE, 0]);
            for row in 1..=m - r - 4 {
                let next = if row == m - r - 4 { NONE } else { row + 1 };
                let exponent = r + 3 + row;
                assert_eq!(tables.row(Row(row)), [1, 1 << exponent, exponent, 0, 0, next, row - 1, 0]);
            }
            assert!(tables.words[(m - r - 3) as usize * 8..].iter().all(|&word| word == 0));
            ask(&mut tables, &[5, 0, 15, 32], &[0, 0]);
        }
    }
}

#[test]
fn the_common_order() {
    for (caller, message, stated) in [
        (0, &[][..], [7, 0, 0, 0, 0, 0]),
        (0, &[5], [7, 0, 0, 0, 0, 0]),
        (64, &[5], [7, 0, 0, 0, 0, 0]),
        (64, &[5, 0], [64, 1, 1, 0, 0, 0]),
        (NONE, &[5, 0], [64, 1, 1, 0, 0, 0]),
        (1, &[5, 0], [64, 1, 1, 0, 0, 0]),
        (9, &[99, 0], [64, 1, 1, 0, 0, 0]),
        (0, &[99, 16], [64, 1, 4, 32, 0, 28]),
        (3, &[5, 0], [64, 1, 3, 30, 0, 0]),
        (0, &[99, 9], [2, 0, 0, 0, 0, 0]),
        (0, &[0, 0], [3, 0, 0, 0, 0, 0]),
        (0, &[9, 0], [3, 0, 0, 0, 0, 0]),
        (0, &[8, 0], [3, 0, 0, 0, 0, 0]),
        (0, &[5, 1], [3, 0, 0, 0, 0, 0]),
        (0, &[8, 1], [7, 0, 0, 0, 0, 0]),
        (0, &[1, 0, 6, 32, 0, 3, 32], [7, 0, 0, 0, 0, 0]),
        (0, &[2, 0, 6, 32, 0, 3, 32, 7], [7, 0, 0, 0, 0, 0]),
        (0, &[3, 0, 6, 32, 0, 3], [7, 0, 0, 0, 0, 0]),
        (0, &[4, 0, 6, 32, 0, 3, 32], [7, 0, 0, 0, 0, 0]),
        (0, &[5, 0, 3], [7, 0, 0, 0, 0, 0]),
        (0, &[6, 0, 3], [7, 0, 0, 0, 0, 0]),
        (0, &[7, 0, 6, 32, 0, 0, 3, 32, 0, 0, 4], [7, 0, 0, 0, 0, 0]),
        (0, &[8, 1, 2, 0, 0, 0, 0, 5], [7, 0, 0, 0, 0, 0]),
        // Roots before the indexes, in message order.
        (0, &[1, 0, 6, 0, 16, 1, 32, 7], [64, 4, 4, 32, 0, 28]),
        (0, &[7, 0, 6, 0, 0, 16, 0, 0, 0, 17, 0, 0], [64, 5, 4, 32, 0, 28]),
        (0, &[7, 0, 6, 0, 0, 0, 0, 0, 0, 17, 0, 0], [64, 9, 4, 32, 0, 28]),
        (0, &[8, 1, 9, 99, 16, 0, 0, 5, 1], [64, 4, 4, 32, 0, 28]),
        // Destination, occupied, source, empty.
        (0, &[1, 0, 6, 33, 1, 3, 0, 7], [4, 1, 32, 0, 0, 0]),
        (0, &[1, 0, 3, 32, 1, 3, 0, 7], [8, 0, 0, 0, 0, 0]),
        (0, &[1, 0, 6, 32, 1, 3, 0, 7], [6, 1, 1, 0, 0, 0]),
        (0, &[1, 0, 6, 32, 9, 3, 0, 7], [6, 1, 1, 0, 0, 0]),
        (0, &[1, 0, 6, 32, 0, 3, 0, 7], [4, 1, 32, 0, 0, 0]),
        (0, &[1, 0, 6, 32, 0, 16, 32, 7], [6, 1, 4, 32, 0, 28]),
        (0, &[1, 0, 6, 32, 0, 6, 32, 7], [6, 1, 2, 32, 0, 0]),
        (0, &[3, 0, 3, 32, 0, 3, 32], [8, 0, 0, 0, 0, 0]),
        (0, &[4, 0, 6, 32, 0, 3, 32, 31], [3, 0, 0, 0, 0, 0]),
        (0, &[2, 0, 6, 32, 0, 1, 32, 7, 31], [9, 0, 0, 0, 0, 0]),
        // The guard is tested before the depth.
        (0, &[5, 0, 3, 27], [6, 0, 4, 27, 0, 28]),
        (0, &[5, 0, 3, 28], [6, 0, 4, 28, 0, 28]),
        // Only the low depth bits count.
        (0, &[5, 3, 0xfffffffc, 2], [0, 0, 0, 0, 0, 0]),
        (0, &[5, 3, 1, 1], [6, 0, 3, 1, 2, 0]),
    ] {
        let mut tables = state_p();
        let before = tables.clone();
        assert_eq!(six_words(request(&mut tables, caller, message)), stated, "{} {:?}", caller, message);
        assert_eq!(tables, before);
    }
}

#[test]
fn the_order_of_rotate() {
    // Words: 7 service, dest index depth data, pivot root index depth data, src root index depth.
    for (message, stated) in [
        ([7, 0, 6, 0, 0, 1, 3, 0, 0, 1, 4, 0], [4, 1, 32, 0, 0, 0]),
        ([7, 0, 6, 32, 0, 1, 3, 0, 0, 1, 4, 0], [6, 1, 1, 0, 0, 0]),
        ([7, 0, 6, 32, 0, 1, 3, 0, 0, 0, 4, 33], [4, 1, 32, 0, 0, 0]),
        ([7, 0, 6, 32, 0, 1, 3, 0, 0, 0, 4, 32], [6, 0, 1, 0, 0, 0]),
        ([7, 0, 6, 32, 0, 0, 6, 32, 0, 0, 9, 32], [3, 0, 0, 0, 0, 0]),
        ([7, 0, 6, 32, 0, 0, 9, 32, 0, 0, 9, 32], [3, 0, 0, 0, 0, 0]),
        ([7, 0, 3, 32, 0, 0, 9, 32, 0, 0, 8, 32], [8, 0, 0, 0, 0, 0]),
        ([7, 0, 6, 32, 0, 0, 9, 32, 0, 0, 8, 32], [6, 1, 2, 32, 0, 0]),
        ([7, 0, 6, 32, 0, 0, 9, 32, 0, 0, 4, 32], [6, 0, 2, 32, 0, 0]),
        ([7, 0, 6, 32, 31, 0, 3, 32, 0, 0, 4, 32], [3, 0, 0, 0, 0, 0]),
        ([7, 0, 6, 32, 0, 0, 3, 32, 31, 0, 4, 32], [3, 0, 0, 0, 0, 0]),
    ] {
        let mut tables = state_p();
        let before = tables.clone();
        ask(&mut tables, &message, &stated);
        assert_eq!(tables, before);
    }
}

#[test]
fn rotate_with_destination_equal_to_source() {
    let mut tables = state_p();
    // The pivot 4 goes to 3 with guard 1 of size 2, the source 3 to 4 with guard 5 of size 3.
    ask(&mut tables, &[7, 0, 3, 32, 34, 0, 4, 32, 163, 0, 3, 32], &[0, 0]);
    assert_eq!(tables.row(Row(4)), [5, 256, 2, 5, 3, 3, 1, 1]);
    assert_eq!(tables.row(Row(3)), [5, 320, 2, 1, 2, 2, 4, 1]);
    assert_eq!(list_of(&tables), [0, 1, 4, 3, 2]);
}

#[test]
fn rotate_with_another_destination() {
    let mut tables = state_p();
    ask(&mut tables, &[7, 0, 6, 32, 34, 0, 4, 32, 163, 0, 3, 32], &[0, 0]);
    assert_eq!(tables.row(Row(4)), [5, 256, 2, 5, 3, 6, 1, 1]);
    assert_eq!(tables.row(Row(6)), [5, 320, 2, 1, 2, 2, 4, 1]);
    assert_eq!(tables.row(Row(3)), [0; 8]);
    assert_eq!(list_of(&tables), [0, 1, 4, 6, 2]);
}

#[test]
fn the_order_of_retype() {
    // Words: 8 service, type, size, root, node index, node depth, offset, window.
    for (message, stated) in [
        ([8, 1, 6, 31, 1, 0, 0, 99, 0], [1, 0, 0, 0, 0, 0]),
        ([8, 1, 4, 31, 1, 0, 0, 99, 0], [4, 0, 30, 0, 0, 0]),
        ([8, 1, 1, 31, 1, 0, 0, 99, 0], [4, 0, 30, 0, 0, 0]),
        ([8, 1, 4, 0, 1, 0, 0, 99, 0], [1, 1, 0, 0, 0, 0]),
        ([8, 1, 0, 3, 1, 0, 0, 99, 0], [1, 1, 0, 0, 0, 0]),
        ([8, 1, 2, 0, 1, 0, 0, 99, 0], [6, 0, 2, 0, 0, 0]),
        ([8, 1, 2, 0, 1, 0, 33, 99, 0], [6, 0, 1, 0, 0, 0]),
        ([8, 1, 2, 0, 0, 0, 33, 99, 0], [4, 1, 32, 0, 0, 0]),
        ([8, 1, 2, 0, 0, 9, 32, 99, 0], [6, 0, 2, 32, 0, 0]),
        ([8, 1, 2, 0, 0, 1, 32, 99, 0], [6, 0, 2, 32, 0, 0]),
        ([8, 1, 2, 0, 0, 0, 0, 16, 0], [4, 0, 15, 0, 0, 0]),
        ([8, 1, 2, 0, 0, 3, 32, 4, 0], [4, 0, 3, 0, 0, 0]),
        ([8, 1, 2, 0, 0, 0, 0, 15, 0], [4, 1, 256, 0, 0, 0]),
        ([8, 1, 2, 0, 0, 0, 0, 15, 257], [4, 1, 256, 0, 0, 0]),
        ([8, 1, 2, 0, 0, 0, 0, 5, 12], [4, 1, 11, 0, 0, 0]),
        ([8, 1, 5, 0, 0, 0, 0, 4, 12], [8, 0, 0, 0, 0, 0]),
        ([8, 1, 5, 0, 0, 0, 0, 5, 11], [10, 128, 0, 0, 0, 0]),
        ([8, 1, 4, 30, 0, 0, 0, 5, 1], [10, 128, 0, 0, 0, 0]),
        ([8, 2, 0, 10, 0, 0, 0, 5, 1], [10, 512, 0, 0, 0, 0]),
    ] {
        let mut tables = state_p();
        let before = tables.clone();
        ask(&mut tables, &message, &stated);
        assert_eq!(tables, before);
    }
}

#[test]
fn a_copied_untyped_is_full() {
    let mut tables = booted();
    ask(&mut tables, &[1, 0, 6, 32, 0, 2, 32, 0], &[0, 1]);
    assert_eq!(tables.row(Row(2)), [1, 512, 9, 512, 0, 6, 1, 0]);
    assert_eq!(tables.row(Row(6)), [1, 512, 9, 0, 0, NONE, 2, 1]);
    ask(&mut tables, &[8, 2, 2, 0, 0, 0, 0, 7, 1], &[10, 0]);
    ask(&mut tables, &[1, 0, 7, 32, 0, 2, 32, 0], &[9]);
    ask(&mut tables, &[8, 6, 2, 0, 0, 0, 0, 7, 1], &[0, 1]);
    // The copy goes, its child hangs from the source, which stays full.
    ask(&mut tables, &[5, 0, 6, 32], &[0, 1]);
    assert_eq!(list_of(&tables), [0, 1, 2, 7]);
    assert_eq!(depths(&tables), [0, 0, 0, 1]);
    ask(&mut tables, &[8, 2, 2, 0, 0, 0, 0, 8, 1], &[10, 0]);
    // Without children it starts from 0 again.
    ask(&mut tables, &[5, 0, 7, 32], &[0, 1]);
    assert_eq!(tables.row(Row(2))[3], 512);
    ask(&mut tables, &[8, 2, 2, 0, 0, 0, 0, 8, 1], &[0, 1]);
    assert_eq!(tables.row(Row(2))[3], 16);
    assert_eq!(tables.row(Row(8)), [3, 512, 4, 0, 7, NONE, 2, 1]);
}

#[test]
fn the_watermark_stays_while_a_child_lives() {
    let mut tables = state_p();
    ask(&mut tables, &[5, 0, 4, 32], &[0, 1]);
    assert_eq!(tables.row(Row(1))[3], 128);
    ask(&mut tables, &[8, 1, 2, 0, 0, 0, 0, 5, 9], &[10, 128]);
    ask(&mut tables, &[5, 0, 3, 32], &[0, 1]);
    ask(&mut tables, &[8, 1, 2, 0, 0, 0, 0, 4, 17], &[4, 1, 12]);
    ask(&mut tables, &[8, 1, 0, 8, 0, 0, 0, 4, 2], &[10, 256]);
    assert_eq!(tables.row(Row(1))[3], 128);
    ask(&mut tables, &[8, 1, 0, 8, 0, 0, 0, 4, 1], &[0, 1]);
    assert_eq!(tables.row(Row(1))[3], 256);
}

#[test]
fn rights_badges_and_copies_of_copies() {
    let mut tables = state_p();
    ask(&mut tables, &[8, 1, 2, 0, 0, 0, 0, 5, 1], &[0, 1]);
    ask(&mut tables, &[2, 0, 6, 32, 0, 5, 32, 0xfffffffd, 0xf0000007], &[0, 1]);
    assert_eq!(tables.row(Row(6)), [3, 384, 4, 7, 5, 3, 5, 2]);
    ask(&mut tables, &[2, 0, 7, 32, 0, 6, 32, 7, 0], &[3]);
    ask(&mut tables, &[1, 0, 7, 32, 0, 6, 32, 3], &[0, 1]);
    assert_eq!(tables.row(Row(7)), [3, 384, 4, 7, 1, 3, 6, 3]);
    ask(&mut tables, &[2, 0, 8, 32, 0, 5, 32, 0, 1 << 28], &[0, 1]);
    assert_eq!(tables.row(Row(8)), [3, 384, 4, 0, 0, 6, 5, 2]);
    assert_eq!(list_of(&tables), [0, 1, 5, 8, 6, 7, 3, 4, 2]);
    ask(&mut tables, &[4, 0, 9, 32, 0, 5, 32, 0], &[3]);
    ask(&mut tables, &[3, 0, 9, 32, 0, 5, 32], &[0, 0]);
    // The middle goes: its copy hangs from the first.
    ask(&mut tables, &[5, 0, 6, 32], &[0, 1]);
    assert_eq!(list_of(&tables), [0, 1, 9, 8, 7, 3, 4, 2]);
    assert_eq!(depths(&tables), [0, 0, 1, 2, 2, 1, 1, 0]);
    ask(&mut tables, &[6, 0, 9, 32], &[0, 2]);
    assert_eq!(list_of(&tables), [0, 1, 9, 3, 4, 2]);
}

#[test]
fn a_guard_is_cut_to_its_size() {
    let mut tables = state_p();
    // Guard size 3, guard bits 0b1101 of which the low three stay; bits 23 to 31 are ignored.
    ask(&mut tables, &[4, 0, 6, 32, 0, 3, 32, 0xff800000 | 13 << 5 | 3], &[0, 0]);
    assert_eq!(tables.row(Row(6)), [5, 256, 2, 5, 3, 4, 1, 1]);
    ask(&mut tables, &[5, 6, 0b10100, 5], &[0, 0]);
    ask(&mut tables, &[5, 6, 0b10000, 5], &[6, 0, 4, 5, 5, 3]);
    ask(&mut tables, &[5, 6, 0b1010, 4], &[6, 0, 3, 4, 5]);
    // Size + radix of exactly 32 is allowed, 33 is not.
    ask(&mut tables, &[2, 0, 7, 32, 0, 4, 32, 0, 30 | 1 << 5], &[0, 1]);
    ask(&mut tables, &[2, 0, 8, 32, 0, 4, 32, 0, 31], &[3]);
    // Datum 0 takes the guard away.
    ask(&mut tables, &[4, 0, 3, 32, 0, 6, 32, 0], &[0, 0]);
    assert_eq!(tables.row(Row(3)), [5, 256, 2, 0, 0, 4, 1, 1]);
}

#[test]
fn a_cnode_in_itself_survives() {
    let mut tables = state_p();
    ask(&mut tables, &[1, 0, 6, 32, 0, 3, 32, 0], &[0, 1]);
    ask(&mut tables, &[3, 3, 0, 2, 0, 3, 32], &[0, 0]);
    assert_eq!(list_of(&tables), [0, 1, 16, 6, 4, 2]);
    ask(&mut tables, &[5, 0, 6, 32], &[0, 1]);
    assert_eq!(list_of(&tables), [0, 1, 16, 4, 2]);
    ask(&mut tables, &[6, 0, 1, 32], &[0, 2]);
    assert_eq!(list_of(&tables), [0, 1, 2]);
}

#[test]
fn a_ring_of_two_cnodes_survives() {
    let mut tables = state_p();
    ask(&mut tables, &[1, 0, 6, 32, 0, 4, 32, 0], &[0, 1]);
    ask(&mut tables, &[3, 3, 0, 2, 0, 4, 32], &[0, 0]);
    ask(&mut tables, &[3, 6, 1, 2, 0, 3, 32], &[0, 0]);
    assert_eq!(list_of(&tables), [0, 1, 21, 16, 6, 2]);
    ask(&mut tables, &[5, 0, 6, 32], &[0, 1]);
    assert_eq!(list_of(&tables), [0, 1, 21, 16, 2]);
    assert_eq!(depths(&tables), [0, 0, 1, 1, 0]);
    ask(&mut tables, &[6, 0, 1, 32], &[0, 2]);
    assert_eq!(list_of(&tables), [0, 1, 2]);
}

#[test]
fn revoke_removes_its_own_target() {
    let mut tables = state_p();
    ask(&mut tables, &[3, 3, 0, 2, 0, 1, 32], &[0, 0]);
    assert_eq!(list_of(&tables), [0, 16, 3, 4, 2]);
    ask(&mut tables, &[6, 3, 0, 2], &[0, 3]);
    assert_eq!(list_of(&tables), [0, 2]);
    assert_eq!(tables.control, [10, 4, 0, 2]);
}

#[test]
fn children_of_a_deleted_untyped_live_on() {
    let mut tables = state_p();
    ask(&mut tables, &[5, 0, 1, 32], &[0, 1]);
    assert_eq!(list_of(&tables), [0, 3, 4, 2]);
    assert_eq!(depths(&tables), [0, 0, 0, 0]);
    ask(&mut tables, &[8, 2, 2, 0, 0, 3, 32, 0, 4], &[0, 4]);
    // Deleting a node does not take the copies of it, deleting the last name takes its rows.
    ask(&mut tables, &[1, 0, 6, 32, 0, 3, 32, 0], &[0, 1]);
    ask(&mut tables, &[5, 0, 3, 32], &[0, 1]);
    ask(&mut tables, &[5, 0, 6, 32], &[0, 5]);
    assert_eq!(list_of(&tables), [0, 4, 2]);
}

#[test]
fn nested_lookups_at_depth_32() {
    let mut tables = state_p();
    // Two names of CNode 3 and one of CNode 4, each taking 16 bits: guard size 14, radix 2.
    ask(&mut tables, &[2, 0, 6, 32, 0, 3, 32, 0, 14], &[0, 1]);
    ask(&mut tables, &[2, 3, 1, 2, 0, 4, 32, 0, 14 | 1 << 5], &[0, 1]);
    assert_eq!(tables.row(Row(17)), [5, 320, 2, 1, 14, 2, 4, 2]);
    // From caller row 6: 16 bits pick slot 1 of CNode 3, 16 bits with guard 1 pick slot 0 of CNode 4, which is empty.
    assert_eq!(six_words(request(&mut tables, 6, &[5, 1 << 16 | 1 << 2])), [2, 0, 0, 0, 0, 0]);
    assert_eq!(six_words(request(&mut tables, 6, &[5, 1 << 16])), [64, 1, 4, 16, 1, 14]);
    assert_eq!(six_words(request(&mut tables, 6, &[5, 2 << 16])), [64, 1, 3, 16, 0, 0]);
    // Put the boot CNode's copy into that slot; it is then the service.
    ask(&mut tables, &[1, 4, 0, 2, 0, 0, 32, 0], &[0, 1]);
    assert_eq!(six_words(request(&mut tables, 6, &[5, 1 << 16 | 1 << 2, 4, 32])), [0, 1, 0, 0, 0, 0]);
    assert_eq!(tables.row(Row(4)), [0; 8]);
}
