//! Well-formed: each rule by name, tested as it is written.

use crate::boot::{greatest_r, m_in_range};
use crate::tables::{table_length, Address, Cap, Kind, Object, Place, Row, State, Tables, KINDS, NONE, SIZES};
use std::collections::{BTreeMap, BTreeSet};

/// The rules that tables can break.
#[derive(Clone, Copy, PartialEq, Eq, PartialOrd, Ord, Debug)]
pub enum Rule {
    MemoryRange,
    RadixRange,
    TableLength,
    KindRange,
    ZeroWord3,
    ZeroWord4,
    EmptyRowZero,
    ListInTable,
    ListOccupied,
    ListOnce,
    ListWhole,
    PreviousLink,
    Count,
    FirstDepth,
    DepthStep,
    SizeOfType,
    UntypedAtMostHalf,
    WithinMemory,
    Aligned,
    BadgeRange,
    GuardSizeAndRadix,
    GuardRange,
    EndpointRights,
    NotificationRights,
    FrameRights,
    WatermarkMultiple,
    WatermarkRange,
    InsideCNode,
    ChildInsideUntyped,
    ChildBelowWatermark,
    ChildOfTyped,
    ChildrenDisjoint,
    DepthZeroDisjoint,
}

/// All rules, in the order in which they are tested.
pub const RULES: [Rule; 33] = [
    Rule::MemoryRange,
    Rule::RadixRange,
    Rule::TableLength,
    Rule::KindRange,
    Rule::ZeroWord3,
    Rule::ZeroWord4,
    Rule::EmptyRowZero,
    Rule::ListInTable,
    Rule::ListOccupied,
    Rule::ListOnce,
    Rule::ListWhole,
    Rule::PreviousLink,
    Rule::Count,
    Rule::FirstDepth,
    Rule::DepthStep,
    Rule::SizeOfType,
    Rule::UntypedAtMostHalf,
    Rule::WithinMemory,
    Rule::Aligned,
    Rule::BadgeRange,
    Rule::GuardSizeAndRadix,
    Rule::GuardRange,
    Rule::EndpointRights,
    Rule::NotificationRights,
    Rule::FrameRights,
    Rule::WatermarkMultiple,
    Rule::WatermarkRange,
    Rule::InsideCNode,
    Rule::ChildInsideUntyped,
    Rule::ChildBelowWatermark,
    Rule::ChildOfTyped,
    Rule::ChildrenDisjoint,
    Rule::DepthZeroDisjoint,
];

/// Keeps a rule: Ok if it holds, else its name.
fn keep(holds: bool, rule: Rule) -> Result<(), Rule> {
    if holds {
        Ok(())
    } else {
        Err(rule)
    }
}

/// Well-formed: the state that the words stand for, or the first rule that they break.
pub fn well_formed(tables: &Tables) -> Result<State, Rule> {
    control_and_length(tables)?;
    let caps = occupied_rows(tables)?;
    let list = derivation_list(tables, &caps)?;
    depths(&list)?;
    let state = State { m: tables.control[0], r: tables.control[1], caps, list };
    state.caps.values().try_for_each(|cap| allowed(state.m, cap))?;
    inside_cnodes(&state)?;
    children_and_parents(&state)?;
    disjoint_siblings(&state)?;
    Ok(state)
}

/// Control words are in Boot's ranges and the table has its length.
fn control_and_length(tables: &Tables) -> Result<(), Rule> {
    let [m, r, _, _] = tables.control;
    keep(m_in_range(m), Rule::MemoryRange)?;
    keep((4..=greatest_r(m)).contains(&r), Rule::RadixRange)?;
    keep(tables.words.len() == table_length(m), Rule::TableLength)
}

/// Kinds run from 0 to 6, a word that the row list gives as 0 is 0, and empty rows are eight zeros.
fn occupied_rows(tables: &Tables) -> Result<BTreeMap<Row, Cap>, Rule> {
    let mut caps = BTreeMap::new();
    for row in (0..tables.rows() as u32).map(Row) {
        let words = tables.row(row);
        let [kind, address, size, word3, word4, ..] = words;
        keep(kind <= 6, Rule::KindRange)?;
        if kind == 0 {
            keep(words == [0; 8], Rule::EmptyRowZero)?;
            continue;
        }
        let kind = KINDS[kind as usize - 1];
        let no_word3 = matches!(kind, Kind::Tcb | Kind::Frame);
        let no_word4 = matches!(kind, Kind::Untyped | Kind::Tcb);
        keep(!no_word3 || word3 == 0, Rule::ZeroWord3)?;
        keep(!no_word4 || word4 == 0, Rule::ZeroWord4)?;
        let object = Object { kind, address: Address(address), size };
        caps.insert(row, Cap { object, word3, word4 });
    }
    Ok(caps)
}

/// The list from the head meets each occupied row once; previous links and count agree.
fn derivation_list(tables: &Tables, caps: &BTreeMap<Row, Cap>) -> Result<Vec<Place>, Rule> {
    let [_, _, head, count] = tables.control;
    let mut list = Vec::new();
    let mut met = BTreeSet::new();
    let mut previous_row = NONE;
    let mut at = head;
    while at != NONE {
        let row = Row(at);
        keep((at as usize) < tables.rows(), Rule::ListInTable)?;
        keep(caps.contains_key(&row), Rule::ListOccupied)?;
        keep(met.insert(row), Rule::ListOnce)?;
        let [_, _, _, _, _, next, previous, depth] = tables.row(row);
        keep(previous == previous_row, Rule::PreviousLink)?;
        list.push(Place { row, depth });
        previous_row = at;
        at = next;
    }
    keep(list.len() == caps.len(), Rule::ListWhole)?;
    keep(list.len() as u64 == u64::from(count), Rule::Count)?;
    Ok(list)
}

/// The first depth is 0; a depth exceeds the one before by at most 1.
fn depths(list: &[Place]) -> Result<(), Rule> {
    keep(list.first().map_or(true, |place| place.depth == 0), Rule::FirstDepth)?;
    for pair in list.windows(2) {
        keep(u64::from(pair[1].depth) <= u64::from(pair[0].depth) + 1, Rule::DepthStep)?;
    }
    Ok(())
}

/// What the rules say of a capability by itself.
fn allowed(m: u32, cap: &Cap) -> Result<(), Rule> {
    let object = cap.object;
    object_allowed(m, &object)?;
    match object.kind {
        Kind::Untyped => {
            keep(cap.watermark() % 16 == 0, Rule::WatermarkMultiple)?;
            keep(u64::from(cap.watermark()) <= object.bytes(), Rule::WatermarkRange)
        }
        Kind::Tcb => Ok(()),
        Kind::Endpoint => {
            keep(cap.badge() < 1 << 28, Rule::BadgeRange)?;
            keep(cap.rights() <= 7, Rule::EndpointRights)
        }
        Kind::Notification => {
            keep(cap.badge() < 1 << 28, Rule::BadgeRange)?;
            keep(cap.rights() <= 3, Rule::NotificationRights)
        }
        Kind::CNode => {
            let bits = u64::from(cap.guard_size()) + u64::from(cap.radix());
            keep(bits <= 32, Rule::GuardSizeAndRadix)?;
            keep(cap.guard() < 1 << cap.guard_size().min(18), Rule::GuardRange)
        }
        Kind::Frame => keep(cap.rights() <= 3, Rule::FrameRights),
    }
}

/// Sizes are as in the type table; an Untyped is at most 2^(m-1); objects are within memory and aligned to their size.
fn object_allowed(m: u32, object: &Object) -> Result<(), Rule> {
    let (least, greatest) = SIZES[object.kind as usize];
    keep((least..=greatest).contains(&object.size), Rule::SizeOfType)?;
    keep(object.typed() || object.size < m, Rule::UntypedAtMostHalf)?;
    keep(object.exponent() <= u64::from(m), Rule::WithinMemory)?;
    keep(object.end() <= 1 << m, Rule::WithinMemory)?;
    keep(object.start() % object.bytes() == 0, Rule::Aligned)
}

/// Each occupied row lies in a CNode that some occupied row names.
fn inside_cnodes(state: &State) -> Result<(), Rule> {
    let named: BTreeSet<Object> = state.caps.values().map(|cap| cap.object).collect();
    let inside = |&row: &Row| named.iter().any(|object| object.holds(row));
    keep(state.caps.keys().all(inside), Rule::InsideCNode)
}

/// A child of an Untyped lies inside it, ending at or below its watermark. A child of another kind has its parent's
/// kind, address and size.
fn children_and_parents(state: &State) -> Result<(), Rule> {
    for (position, place) in state.list.iter().enumerate() {
        let parent = match state.parent(position) {
            Some(parent) => state.caps[&state.list[parent].row],
            None => continue,
        };
        let child = state.caps[&place.row].object;
        if parent.kind() == Kind::Untyped {
            let inside = parent.object.start() <= child.start() && child.end() <= parent.object.end();
            keep(inside, Rule::ChildInsideUntyped)?;
            let mark = parent.object.start() + u64::from(parent.watermark());
            keep(child.end() <= mark, Rule::ChildBelowWatermark)?;
        } else {
            keep(child == parent.object, Rule::ChildOfTyped)?;
        }
    }
    Ok(())
}

/// Children of one Untyped, and rows of depth 0, are pairwise disjoint or name the same typed object. (Children of a
/// typed object all name that object, so they may be compared as well.)
fn disjoint_siblings(state: &State) -> Result<(), Rule> {
    let mut siblings: BTreeMap<Option<usize>, Vec<Object>> = BTreeMap::new();
    for (position, place) in state.list.iter().enumerate() {
        siblings.entry(state.parent(position)).or_default().push(state.caps[&place.row].object);
    }
    for (parent, objects) in siblings {
        let rule = if parent.is_some() { Rule::ChildrenDisjoint } else { Rule::DepthZeroDisjoint };
        for (position, one) in objects.iter().enumerate() {
            for other in &objects[position + 1..] {
                keep(one.disjoint(other) || (one == other && one.typed()), rule)?;
            }
        }
    }
    Ok(())
}
