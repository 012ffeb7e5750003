//! Boot.

use crate::answers::Answer;
use crate::tables::{table_length, Address, Cap, Kind, Object, Place, Row, State, Tables};
use std::collections::BTreeMap;

/// m is from 10 to 16.
pub fn m_in_range(m: u32) -> bool {
    (10..=16).contains(&m)
}

/// The greatest r for an m in range: 8, and r+5 <= m.
pub fn greatest_r(m: u32) -> u32 {
    8.min(m - 5)
}

/// The state after Boot: the boot CNode in row 0, then untypeds at 2^(r+4) .. 2^(m-1), all of depth 0, listed by row.
fn booted(m: u32, r: u32) -> State {
    let boot_cnode = Object { kind: Kind::CNode, address: Address(0), size: r };
    let mut caps = BTreeMap::new();
    caps.insert(Row(0), Cap { object: boot_cnode, word3: 0, word4: 32 - r });
    for row in 1..=m - r - 4 {
        let exponent = r + 3 + row;
        let untyped = Object { kind: Kind::Untyped, address: Address(1 << exponent), size: exponent };
        caps.insert(Row(row), Cap { object: untyped, word3: 0, word4: 0 });
    }
    let list = caps.keys().map(|&row| Place { row, depth: 0 }).collect();
    State { m, r, caps, list }
}

/// Boot: m, then r, then the length of the table; a refusal leaves everything.
pub fn boot(tables: &mut Tables, m: u32, r: u32) -> Answer {
    if !m_in_range(m) {
        return Answer::RangeError { least: 10, greatest: 16 };
    }
    if !(4..=greatest_r(m)).contains(&r) {
        return Answer::RangeError { least: 4, greatest: greatest_r(m) };
    }
    if tables.words.len() != table_length(m) {
        return Answer::BadTables;
    }
    tables.write(&booted(m, r));
    Answer::Success { count: 0 }
}
