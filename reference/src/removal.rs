//! Delete and Revoke.

use crate::tables::{Kind, Object, Place, Row, State};
use std::collections::{BTreeMap, BTreeSet};

/// The CNodes that occupied rows name, each with the rows naming it.
fn named_cnodes(state: &State) -> BTreeMap<Object, Vec<Row>> {
    let mut named: BTreeMap<Object, Vec<Row>> = BTreeMap::new();
    for (&row, cap) in &state.caps {
        if cap.kind() == Kind::CNode {
            named.entry(cap.object).or_default().push(row);
        }
    }
    named
}

/// Removed: the smallest set that holds `start` and, whenever a CNode is named and every row naming it is in the set,
/// all occupied rows of that CNode.
pub fn removed(state: &State, start: &BTreeSet<Row>) -> BTreeSet<Row> {
    let named = named_cnodes(state);
    let mut set = start.clone();
    loop {
        let size_before = set.len();
        for (&cnode, naming) in &named {
            if naming.iter().all(|row| set.contains(row)) {
                set.extend(state.occupied_rows_of(cnode));
            }
        }
        if set.len() == size_before {
            return set;
        }
    }
}

/// The list without the removed rows: survivors hang from their nearest surviving ancestor in unchanged order.
fn survivors(state: &State, gone: &BTreeSet<Row>) -> Vec<Place> {
    let survives = |position: &usize| !gone.contains(&state.list[*position].row);
    (0..state.list.len())
        .filter(survives)
        .map(|position| {
            let above = state.ancestors(position).iter().filter(|ancestor| survives(ancestor)).count();
            Place { row: state.list[position].row, depth: above as u32 }
        })
        .collect()
}

/// Takes away what `start` removes; gives the number of capabilities removed.
fn remove(state: &mut State, start: BTreeSet<Row>) -> u32 {
    let gone = removed(state, &start);
    state.list = survivors(state, &gone);
    state.caps.retain(|row, _| !gone.contains(row));
    gone.len() as u32
}

/// Delete starts from one occupied row; an empty slot is success with count 0.
pub fn delete(state: &mut State, target: Row) -> u32 {
    if !state.occupied(target) {
        return 0;
    }
    remove(state, BTreeSet::from([target]))
}

/// Revoke starts from all descendants; an empty slot is success with count 0.
pub fn revoke(state: &mut State, target: Row) -> u32 {
    if !state.occupied(target) {
        return 0;
    }
    let start = state.descendants(target).into_iter().collect();
    remove(state, start)
}
