//! Estates.

use crate::tables::{Kind, Row, State};
use std::collections::BTreeSet;

/// What one row brings into an estate: every slot of a CNode it names, its descendants, and every row naming the same
/// typed object.
fn brought_by(state: &State, row: Row) -> Vec<Row> {
    let cap = match state.caps.get(&row) {
        Some(cap) => cap,
        None => return Vec::new(),
    };
    let mut rows = state.descendants(row);
    if cap.kind() == Kind::CNode {
        rows.extend(cap.object.slots().map(Row));
    }
    if cap.object.typed() {
        rows.extend(state.naming(cap.object));
    }
    rows
}

/// A tenant's estate: the smallest set of rows with its root row, and with each row also what that brings.
pub fn estate(state: &State, root: Row) -> BTreeSet<Row> {
    let mut set = BTreeSet::from([root]);
    let mut fresh = vec![root];
    while let Some(row) = fresh.pop() {
        for brought in brought_by(state, row) {
            if set.insert(brought) {
                fresh.push(brought);
            }
        }
    }
    set
}
