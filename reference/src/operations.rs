//! Copy, Mint, Move, Mutate, Rotate and Retype, each with its own order of refusals.

use crate::answers::{Answer, Failure};
use crate::lookup::index_lookup;
use crate::tables::{Address, Cap, Kind, Object, Place, Row, State, KINDS};

/// The rights bits that a kind has: all three for an Endpoint, write and read for a Notification or Frame.
fn full_rights(kind: Kind) -> u32 {
    match kind {
        Kind::Endpoint => 7,
        Kind::Notification | Kind::Frame => 3,
        Kind::Untyped | Kind::Tcb | Kind::CNode => 0,
    }
}

/// Rights mask Endpoint, Notification and Frame; other kinds ignore them.
fn masked(cap: Cap, rights: u32) -> Cap {
    match cap.kind() {
        Kind::Endpoint | Kind::Notification | Kind::Frame => Cap { word4: cap.rights() & rights, ..cap },
        Kind::Untyped | Kind::Tcb | Kind::CNode => cap,
    }
}

/// Data by Mint: sets the badge of an unbadged Endpoint or Notification; badged, not allowed.
fn minted(cap: Cap, data: u32) -> Result<Cap, Answer> {
    match cap.kind() {
        Kind::Endpoint | Kind::Notification if cap.badge() == 0 => Ok(Cap { word3: data % (1 << 28), ..cap }),
        Kind::Endpoint | Kind::Notification => Err(Answer::IllegalOperation),
        _ => guarded(cap, data),
    }
}

/// Data by Mutate or Rotate: not allowed for an Endpoint or Notification.
fn mutated(cap: Cap, data: u32) -> Result<Cap, Answer> {
    match cap.kind() {
        Kind::Endpoint | Kind::Notification => Err(Answer::IllegalOperation),
        _ => guarded(cap, data),
    }
}

/// Data for a CNode: the low 5 bits are guard size and the next 18 the guard, cut to that size; not allowed if size +
/// radix > 32. Others ignore data.
fn guarded(cap: Cap, data: u32) -> Result<Cap, Answer> {
    if cap.kind() != Kind::CNode {
        return Ok(cap);
    }
    let size = data % (1 << 5);
    let guard = (data >> 5) % (1 << 18) % (1 << size);
    if size + cap.radix() > 32 {
        return Err(Answer::IllegalOperation);
    }
    Ok(Cap { word3: guard, word4: size, ..cap })
}

/// The refusal for an empty source, pivot or node: Missing, with its depth.
fn missing(source: bool, depth: u32) -> Answer {
    Answer::FailedLookup { source, failure: Failure::Missing { bits: depth } }
}

/// Moves keep the place in the list: the row's place becomes the other row's.
fn move_place(state: &mut State, from: Row, to: Row) {
    let position = state.place_of(from);
    state.list[position].row = to;
}

/// A copy is listed straight after its source, one deeper. A copy of an Untyped has watermark 0, and the source becomes
/// full.
fn place_copy(state: &mut State, source: Row, destination: Row, mut copy: Cap) {
    if copy.kind() == Kind::Untyped {
        copy.word3 = 0;
        let full = copy.object.bytes() as u32;
        state.caps.get_mut(&source).expect("the source is occupied").word3 = full;
    }
    let position = state.place_of(source);
    let depth = state.list[position].depth + 1;
    state.list.insert(position + 1, Place { row: destination, depth });
    state.caps.insert(destination, copy);
}

/// A moved capability: out of the source's row, into the destination's.
fn place_move(state: &mut State, source: Row, destination: Row, moved: Cap) {
    move_place(state, source, destination);
    state.caps.remove(&source);
    state.caps.insert(destination, moved);
}

/// The destination and source of Copy, Mint, Move, Mutate, and the source's capability: destination lookup; occupied;
/// source lookup; source empty.
fn ends(state: &State, service: Row, root: Row, message: &[u32]) -> Result<(Row, Row, Cap), Answer> {
    let destination = index_lookup(state, service, message[2], message[3], false)?;
    if state.occupied(destination) {
        return Err(Answer::DeleteFirst);
    }
    let source = index_lookup(state, root, message[5], message[6], true)?;
    let cap = state.caps.get(&source).ok_or_else(|| missing(true, message[6]))?;
    Ok((destination, source, *cap))
}

/// Copy, and Mint with data.
pub fn copy(state: &mut State, service: Row, root: Row, message: &[u32], data: Option<u32>) -> Result<u32, Answer> {
    let (destination, source, cap) = ends(state, service, root, message)?;
    let mut copy = masked(cap, message[7]);
    if let Some(data) = data {
        copy = minted(copy, data)?;
    }
    if cap.kind() == Kind::Untyped && state.has_children(source) {
        return Err(Answer::RevokeFirst);
    }
    place_copy(state, source, destination, copy);
    Ok(1)
}

/// Move, and Mutate with data.
pub fn shift(state: &mut State, service: Row, root: Row, message: &[u32], data: Option<u32>) -> Result<u32, Answer> {
    let (destination, source, cap) = ends(state, service, root, message)?;
    let moved = match data {
        Some(data) => mutated(cap, data)?,
        None => cap,
    };
    place_move(state, source, destination, moved);
    Ok(0)
}

/// Rotate: the pivot goes to the destination and the source to the pivot, each with its datum.
pub fn rotate(
    state: &mut State,
    service: Row,
    pivot_root: Row,
    source_root: Row,
    message: &[u32],
) -> Result<u32, Answer> {
    let destination = index_lookup(state, service, message[2], message[3], false)?;
    let source = index_lookup(state, source_root, message[10], message[11], true)?;
    let pivot = index_lookup(state, pivot_root, message[6], message[7], false)?;
    if pivot == source || pivot == destination {
        return Err(Answer::IllegalOperation);
    }
    if state.occupied(destination) && destination != source {
        return Err(Answer::DeleteFirst);
    }
    let source_cap = *state.caps.get(&source).ok_or_else(|| missing(true, message[11]))?;
    let pivot_cap = *state.caps.get(&pivot).ok_or_else(|| missing(false, message[7]))?;
    let to_destination = mutated(pivot_cap, message[4])?;
    let to_pivot = mutated(source_cap, message[8])?;
    let pivot_position = state.place_of(pivot);
    let source_position = state.place_of(source);
    state.list[pivot_position].row = destination;
    state.list[source_position].row = pivot;
    state.caps.remove(&source);
    state.caps.insert(destination, to_destination);
    state.caps.insert(pivot, to_pivot);
    Ok(0)
}

/// The type and size of a Retype: type > 5; size > 30; CNode size 0 or Untyped size < 4. Fixed sizes come from the type
/// table.
fn new_object(message: &[u32]) -> Result<(Kind, u32), Answer> {
    let (number, size) = (message[2], message[3]);
    if number > 5 {
        return Err(Answer::InvalidArgument { argument: 0 });
    }
    if size > 30 {
        return Err(Answer::RangeError { least: 0, greatest: 30 });
    }
    let kind = KINDS[number as usize];
    if (kind == Kind::CNode && size == 0) || (kind == Kind::Untyped && size < 4) {
        return Err(Answer::InvalidArgument { argument: 1 });
    }
    let size = match kind {
        Kind::Untyped | Kind::CNode => size,
        Kind::Tcb => 10,
        Kind::Endpoint | Kind::Notification => 4,
        Kind::Frame => 12,
    };
    Ok((kind, size))
}

/// The node of a Retype: depth 0 takes the root itself, else lookup; not a CNode is Missing, node depth.
fn node(state: &State, root: Row, message: &[u32]) -> Result<Object, Answer> {
    let (index, depth) = (message[5], message[6]);
    let row = if depth == 0 { root } else { index_lookup(state, root, index, depth, false)? };
    let cap = state.caps.get(&row).filter(|cap| cap.kind() == Kind::CNode);
    cap.map(|cap| cap.object).ok_or_else(|| missing(false, depth))
}

/// The rows that a Retype fills: offset and window tested against the node's slots, then a slot occupied.
fn window_rows(state: &State, node: Object, message: &[u32]) -> Result<Vec<Row>, Answer> {
    let (offset, window) = (message[7], message[8]);
    let slots = 1 << node.size;
    if offset >= slots {
        return Err(Answer::RangeError { least: 0, greatest: slots - 1 });
    }
    if !(1..=256).contains(&window) {
        return Err(Answer::RangeError { least: 1, greatest: 256 });
    }
    if window > slots - offset {
        return Err(Answer::RangeError { least: 1, greatest: slots - offset });
    }
    let first = node.slots().start + offset;
    let rows: Vec<Row> = (first..first + window).map(Row).collect();
    if rows.iter().any(|&row| state.occupied(row)) {
        return Err(Answer::DeleteFirst);
    }
    Ok(rows)
}

/// Where a Retype starts: an Untyped without children starts from watermark 0.
fn start_mark(state: &State, service: Row) -> u64 {
    if state.has_children(service) {
        u64::from(state.caps[&service].watermark())
    } else {
        0
    }
}

/// A number rounded up to a multiple of another.
fn align_up(number: u64, to: u64) -> u64 {
    (number + to - 1) / to * to
}

/// Retype: lays the objects in a row from the aligned mark, sets the watermark to their end, and lists the new
/// capabilities straight after the Untyped in slot order.
pub fn retype(state: &mut State, service: Row, root: Row, message: &[u32]) -> Result<u32, Answer> {
    let (kind, size) = new_object(message)?;
    let node = node(state, root, message)?;
    let rows = window_rows(state, node, message)?;
    let untyped = state.caps[&service].object;
    let bytes = Object { kind, address: Address(0), size }.bytes();
    let mark = start_mark(state, service);
    let free = untyped.bytes() - mark;
    if free / bytes < rows.len() as u64 {
        return Err(Answer::NotEnoughMemory { free: free as u32 });
    }
    let first = align_up(untyped.start() + mark, bytes);
    let end = first + bytes * rows.len() as u64;
    state.caps.get_mut(&service).expect("the service is occupied").word3 = (end - untyped.start()) as u32;
    let position = state.place_of(service);
    let depth = state.list[position].depth + 1;
    for (number, &row) in rows.iter().enumerate() {
        let address = Address((first + bytes * number as u64) as u32);
        let object = Object { kind, address, size };
        state.caps.insert(row, Cap { object, word3: 0, word4: full_rights(kind) });
        state.list.insert(position + 1 + number, Place { row, depth });
    }
    Ok(rows.len() as u32)
}
