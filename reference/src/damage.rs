//! Tables that requests do not make: broken in one rule, or well-formed all the same.

use crate::boot::greatest_r;
use crate::random::Random;
use crate::rules::Rule;
use crate::tables::{Cap, Kind, Object, Place, Row, State, Tables, NONE};

/// Sets one word of a row.
fn set(tables: &mut Tables, row: Row, word: usize, value: u32) {
    tables.words[row.0 as usize * 8 + word] = value;
}

/// A random row whose capability is as wanted.
fn row_where(state: &State, random: &mut Random, good: impl Fn(&Cap) -> bool) -> Option<Row> {
    let rows: Vec<Row> = state.caps.iter().filter(|(_, cap)| good(cap)).map(|(&row, _)| row).collect();
    random.pick(&rows)
}

/// A random place in the list as wanted.
fn place_where(state: &State, random: &mut Random, good: impl Fn(usize) -> bool) -> Option<usize> {
    let places: Vec<usize> = (0..state.list.len()).filter(|&position| good(position)).collect();
    random.pick(&places)
}

/// The capability at a place in the list.
fn cap_at(state: &State, position: usize) -> Cap {
    state.caps[&state.list[position].row]
}

/// The parent at a place is as wanted.
fn parent_is(state: &State, position: usize, good: impl Fn(&Cap) -> bool) -> bool {
    state.parent(position).map_or(false, |parent| good(&cap_at(state, parent)))
}

/// Tables that try to break this rule; None if there is no row to break it with.
pub fn broken(rule: Rule, tables: &Tables, state: &State, random: &mut Random) -> Option<Tables> {
    let mut new = tables.clone();
    match rule {
        Rule::MemoryRange | Rule::RadixRange | Rule::TableLength | Rule::Count => whole(rule, &mut new, random),
        Rule::ListInTable | Rule::ListOccupied | Rule::ListOnce | Rule::ListWhole | Rule::PreviousLink => {
            list(rule, &mut new, state, random)?
        }
        Rule::FirstDepth | Rule::DepthStep => depth(rule, &mut new, state, random)?,
        Rule::InsideCNode
        | Rule::ChildInsideUntyped
        | Rule::ChildBelowWatermark
        | Rule::ChildOfTyped
        | Rule::ChildrenDisjoint
        | Rule::DepthZeroDisjoint => kinship(rule, &mut new, state, random)?,
        Rule::EmptyRowZero => {
            let empty: Vec<Row> = (0..tables.rows() as u32).map(Row).filter(|&row| !state.occupied(row)).collect();
            let value = random.interesting().max(1);
            set(&mut new, random.pick(&empty)?, 1 + random.below(7), value);
        }
        _ => one_word(rule, &mut new, state, random)?,
    }
    Some(new)
}

/// Breaks a rule about the control words or the length.
fn whole(rule: Rule, new: &mut Tables, random: &mut Random) {
    let [m, _, _, count] = new.control;
    match rule {
        Rule::MemoryRange => new.control[0] = random.pick(&[0, 9, 17, 32, NONE]).unwrap_or(0),
        Rule::RadixRange => new.control[1] = random.pick(&[0, 3, 9, greatest_r(m) + 1, NONE]).unwrap_or(0),
        Rule::Count => new.control[3] = random.pick(&[count + 1, count.wrapping_sub(1), 0, NONE]).unwrap_or(0),
        _ => {
            let length = new.words.len();
            let lengths = [length - 8, length + 8, length - 1, length + 1, length / 2, length * 2, 0];
            let length = random.pick(&lengths).unwrap_or(0).min(32768);
            new.words.resize(length, 0);
            new.words.truncate(length / 8 * 8);
            new.words.resize(length, 0);
        }
    }
}

/// Breaks a rule about the links.
fn list(rule: Rule, new: &mut Tables, state: &State, random: &mut Random) -> Option<()> {
    let position = random.below(state.list.len().max(1));
    let at = state.list.get(position)?.row;
    let earlier = state.list[random.below(position + 1)].row;
    let empty: Vec<u32> = (0..new.rows() as u32).filter(|&row| !state.occupied(Row(row))).collect();
    let next = match rule {
        Rule::ListInTable => random.pick(&[new.rows() as u32, new.rows() as u32 + 1, NONE - 1])?,
        Rule::ListOccupied => random.pick(&empty)?,
        Rule::ListOnce => earlier.0,
        Rule::ListWhole => NONE,
        _ => {
            let value = random.pick(&[NONE, at.0, random.0 as u32 % 64, 0])?;
            set(new, at, 6, value);
            return Some(());
        }
    };
    if rule != Rule::ListOnce && random.chance(20) {
        new.control[2] = next;
    } else {
        set(new, at, 5, next);
    }
    Some(())
}

/// Breaks a rule about the depths.
fn depth(rule: Rule, new: &mut Tables, state: &State, random: &mut Random) -> Option<()> {
    if rule == Rule::FirstDepth {
        set(new, state.list.first()?.row, 7, random.pick(&[1, 2, NONE])?);
        return Some(());
    }
    let position = place_where(state, random, |position| position > 0)?;
    let before = state.list[position - 1].depth;
    set(new, state.list[position].row, 7, random.pick(&[before + 2, before + 3, NONE])?);
    Some(())
}

/// Breaks a rule about a capability by itself, by one word of its row.
fn one_word(rule: Rule, new: &mut Tables, state: &State, random: &mut Random) -> Option<()> {
    let memory = 1u32 << state.m;
    let any = random.word();
    let kinds: &[Kind] = match rule {
        Rule::ZeroWord3 => &[Kind::Tcb, Kind::Frame],
        Rule::ZeroWord4 => &[Kind::Untyped, Kind::Tcb],
        Rule::UntypedAtMostHalf | Rule::WatermarkMultiple | Rule::WatermarkRange => &[Kind::Untyped],
        Rule::BadgeRange => &[Kind::Endpoint, Kind::Notification],
        Rule::GuardSizeAndRadix | Rule::GuardRange => &[Kind::CNode],
        Rule::EndpointRights => &[Kind::Endpoint],
        Rule::NotificationRights => &[Kind::Notification],
        Rule::FrameRights => &[Kind::Frame],
        _ => &crate::tables::KINDS,
    };
    let row = row_where(state, random, |cap| kinds.contains(&cap.kind()))?;
    let cap = state.caps[&row];
    let address = cap.object.address.0;
    let bytes = cap.object.bytes() as u32;
    let too_large: &[u32] = &[state.m - 3, state.m, 28, 32, 60, 64, 100, NONE - 3, NONE];
    let (word, values) = match rule {
        Rule::KindRange => (0, vec![7, 8, NONE, any | 8]),
        Rule::ZeroWord3 => (3, vec![1, 16, NONE, any | 1]),
        Rule::ZeroWord4 => (4, vec![1, 7, NONE, any | 1]),
        Rule::SizeOfType => (2, vec![0, 1, 3, 5, 9, 11, 13, NONE]),
        Rule::UntypedAtMostHalf => (2, vec![state.m, state.m + 1, 32, 64, NONE]),
        Rule::WithinMemory if cap.kind() == Kind::CNode && any % 2 == 0 => (2, too_large.to_vec()),
        Rule::WithinMemory => (1, vec![memory, memory + bytes, NONE - bytes + 1, NONE - 15]),
        Rule::Aligned => (1, vec![address + 1, address + 8, address + 16, address ^ (bytes / 2)]),
        Rule::BadgeRange => (3, vec![1 << 28, NONE, any | 1 << 28]),
        Rule::GuardSizeAndRadix => (4, vec![33 - cap.radix(), 32, NONE, NONE - cap.radix() + 1]),
        Rule::GuardRange => (3, vec![1 << cap.guard_size().min(18), 1 << 18, NONE]),
        Rule::EndpointRights => (4, vec![8, 15, NONE, any | 8]),
        Rule::NotificationRights | Rule::FrameRights => (4, vec![4, 7, NONE, any | 4]),
        Rule::WatermarkMultiple => (3, vec![1, 8, 15, bytes - 1, cap.watermark() | 8]),
        Rule::WatermarkRange => (3, vec![bytes + 16, bytes * 2, NONE - 15]),
        _ => return None,
    };
    set(new, row, word, random.pick(&values)?);
    Some(())
}

/// Breaks a rule about rows and other rows.
fn kinship(rule: Rule, new: &mut Tables, state: &State, random: &mut Random) -> Option<()> {
    let child = |position: usize| parent_is(state, position, |parent| parent.kind() == Kind::Untyped);
    match rule {
        Rule::InsideCNode => {
            let objects: Vec<Object> = state.caps.values().map(|cap| cap.object).collect();
            let outside: Vec<Row> = (0..new.rows() as u32)
                .map(Row)
                .filter(|&row| !objects.iter().any(|object| object.holds(row)))
                .collect();
            let to = random.pick(&outside)?;
            let position = random.below(state.list.len().max(1));
            let from = state.list.get(position)?.row;
            let mut moved = state.clone();
            moved.list[position].row = to;
            let cap = moved.caps.remove(&from)?;
            moved.caps.insert(to, cap);
            new.write(&moved);
        }
        Rule::ChildInsideUntyped => {
            let object = |position: usize| cap_at(state, position).object;
            let movable = |position: usize| child(position) && object(position).kind != Kind::CNode;
            let position = place_where(state, random, movable).or_else(|| place_where(state, random, child))?;
            let bytes = object(position).bytes() as u32;
            let address = random.below(((1 << state.m) / bytes) as usize) as u32 * bytes;
            set(new, state.list[position].row, 1, address);
        }
        Rule::ChildBelowWatermark => {
            let row = state.list[state.parent(place_where(state, random, child)?)?].row;
            let watermark = state.caps[&row].watermark();
            set(new, row, 3, random.pick(&[0, watermark.saturating_sub(16)])?);
        }
        Rule::ChildOfTyped => {
            let of_typed = |position: usize| parent_is(state, position, |parent| parent.object.typed());
            let after_typed = |position: usize| position > 0 && cap_at(state, position - 1).object.typed();
            match place_where(state, random, of_typed) {
                Some(position) if random.chance(50) => {
                    let object = cap_at(state, position).object;
                    set(new, state.list[position].row, 1, object.address.0 ^ object.bytes() as u32);
                }
                _ => {
                    let position = place_where(state, random, after_typed)?;
                    set(new, state.list[position].row, 7, state.list[position - 1].depth + 1);
                }
            }
        }
        Rule::ChildrenDisjoint => {
            let position = place_where(state, random, child)?;
            let parent = state.parent(position)?;
            let sibling = place_where(state, random, |at| at != position && state.parent(at) == Some(parent))?;
            set(new, state.list[position].row, 1, cap_at(state, sibling).object.address.0);
        }
        _ => {
            let position = place_where(state, random, |position| state.list[position].depth > 0)?;
            set(new, state.list[position].row, 7, 0);
        }
    }
    Some(())
}

/// The place after the descendants of a place.
fn after_subtree(state: &State, position: usize) -> usize {
    position + 1 + state.descendants(state.list[position].row).len()
}

/// A copy of a CNode that no longer stands below its original but as the last of the siblings of that, away from the CNode's other names.
fn far_name(state: &State, random: &mut Random) -> Option<State> {
    let original = |position: usize| {
        let typed = |at: &usize| cap_at(state, *at).object.typed();
        state.ancestors(position).into_iter().filter(typed).min()
    };
    let copy = |position: usize| cap_at(state, position).kind() == Kind::CNode && original(position).is_some();
    let from = place_where(state, random, copy)?;
    let top = original(from)?;
    let depth = state.list[top].depth;
    let mut wild = state.clone();
    let mut taken: Vec<Place> = wild.list.drain(from..after_subtree(state, from)).collect();
    let lower = state.list[from].depth - depth;
    taken.iter_mut().for_each(|place| place.depth -= lower);
    let past = |position: &usize| wild.list.get(*position).map_or(true, |place| place.depth < depth);
    let to = (top + 1..).find(past)?;
    wild.list.splice(to..to, taken);
    Some(wild)
}

/// Tables that are likely well-formed though no request makes them: two siblings change places with all below them, a
/// copy becomes its source's sibling, or one word changes a little.
pub fn unusual(tables: &Tables, state: &State, random: &mut Random) -> Option<Tables> {
    let mut new = tables.clone();
    match random.below(4) {
        0 => new.write(&far_name(state, random)?),
        1 => {
            let next_is_sibling = |position: usize| {
                let next = after_subtree(state, position);
                next < state.list.len() && state.list[next].depth == state.list[position].depth
            };
            let first = place_where(state, random, next_is_sibling)?;
            let second = after_subtree(state, first);
            let end = after_subtree(state, second);
            let mut swapped = state.clone();
            swapped.list[first..end].rotate_left(second - first);
            new.write(&swapped);
        }
        2 => {
            let copy = |position: usize| parent_is(state, position, |parent| parent.object.typed());
            let position = place_where(state, random, copy)?;
            let end = after_subtree(state, position);
            let mut flat = state.clone();
            let lower = |place: &mut Place| place.depth -= 1;
            flat.list[position..end].iter_mut().for_each(lower);
            new.write(&flat);
        }
        _ => {
            let row = row_where(state, random, |_| true)?;
            let word = random.pick(&[1, 2, 3, 3, 3, 4, 4, 7])?;
            let old = new.row(row)[word];
            let value = random.pick(&[
                old ^ 1,
                old ^ 2,
                old + 1,
                old.wrapping_sub(1),
                old ^ 16,
                old ^ 32,
                old ^ 64,
                old ^ 4,
            ])?;
            set(&mut new, row, word, value);
        }
    }
    Some(new)
}

/// Tables with right links whose rows, depths and objects have been changed at random a few times.
pub fn scrambled(tables: &Tables, state: &State, random: &mut Random) -> Tables {
    let mut wild = state.clone();
    for _ in 0..1 + random.below(3) {
        scramble(&mut wild, tables.rows(), random);
    }
    let mut new = tables.clone();
    new.write(&wild);
    new
}

/// One random change of a state.
fn scramble(wild: &mut State, rows: usize, random: &mut Random) {
    if wild.list.is_empty() {
        return;
    }
    let position = random.below(wild.list.len());
    let other = random.below(wild.list.len());
    let row = wild.list[position].row;
    let pattern = cap_at(wild, other);
    match random.below(9) {
        0 => {
            let before = if position == 0 { 0 } else { wild.list[position - 1].depth + 1 };
            wild.list[position].depth = random.below(before as usize + 1) as u32;
        }
        1 => wild.list.swap(position, other),
        2 => {
            let place = wild.list.remove(position);
            wild.list.insert(other, place);
        }
        3 => {
            wild.list.remove(position);
            wild.caps.remove(&row);
        }
        4 | 5 => add_row(wild, rows, pattern, position, random),
        6 => {
            let object = &mut wild.caps.get_mut(&row).expect("a listed row is occupied").object;
            let step = object.bytes() as u32;
            object.address.0 = random.pick(&[pattern.object.address.0, object.address.0 ^ step]).unwrap_or(0);
        }
        7 => {
            let object = &mut wild.caps.get_mut(&row).expect("a listed row is occupied").object;
            object.size = random.pick(&[object.size + 1, object.size.max(1) - 1]).unwrap_or(0).min(20);
        }
        _ => {
            let cap = wild.caps.get_mut(&row).expect("a listed row is occupied");
            if cap.kind() == Kind::Untyped {
                cap.word3 = random.below(cap.object.bytes() as usize / 16 + 1) as u32 * 16;
            } else if matches!(cap.kind(), Kind::Endpoint | Kind::Notification) {
                let kind = if cap.kind() == Kind::Endpoint { Kind::Notification } else { Kind::Endpoint };
                cap.object.kind = kind;
                cap.word4 &= 3;
            }
        }
    }
}

/// A new row that names what another names, after some place in the list, mostly one that names it, too.
fn add_row(wild: &mut State, rows: usize, pattern: Cap, position: usize, random: &mut Random) {
    let inside = |row: u32| wild.caps.values().any(|cap| cap.object.exponent() < 20 && cap.object.holds(Row(row)));
    let empty: Vec<u32> = (0..rows as u32).filter(|&row| !wild.occupied(Row(row)) && inside(row)).collect();
    let row = match random.pick(&empty) {
        Some(row) => Row(row),
        None => return,
    };
    let after = place_where(wild, random, |at| cap_at(wild, at).object == pattern.object).unwrap_or(position);
    let after = if random.chance(70) { after } else { position };
    let deepest = wild.list[after].depth as usize + 1;
    let depth = if random.chance(50) { deepest } else { random.below(deepest + 1) } as u32;
    wild.list.insert(after + 1, Place { row, depth });
    wild.caps.insert(row, pattern);
}
