//! Lookup, on addresses as strings of bits.

use crate::answers::{Answer, Failure};
use crate::tables::{Cap, Kind, Row, State};

/// Why a lookup gives no slot.
#[derive(Clone, Copy, PartialEq, Eq, Debug)]
pub enum NoSlot {
    DepthOutOfRange,
    Failed(Failure),
}

/// The low `count` bits of a number, the highest first.
fn low_bits(number: u32, count: u32) -> Vec<bool> {
    (0..count).rev().map(|place| number >> place & 1 == 1).collect()
}

/// The number that bits stand for, the highest first.
fn number_of(bits: &[bool]) -> u32 {
    bits.iter().fold(0, |number, &bit| number * 2 + u32::from(bit))
}

/// The row's capability if it is a CNode; a row out of the table is not.
fn cnode_at(state: &State, row: Row) -> Option<Cap> {
    state.caps.get(&row).copied().filter(|cap| cap.kind() == Kind::CNode)
}

/// The slot that an address of `depth` bits picks from the row `start`.
pub fn lookup(state: &State, start: Row, address: u32, depth: u32) -> Result<Row, NoSlot> {
    let mut cnode = cnode_at(state, start).ok_or(NoSlot::Failed(Failure::InvalidRoot))?;
    if !(1..=32).contains(&depth) {
        return Err(NoSlot::DepthOutOfRange);
    }
    let mut bits = low_bits(address, depth);
    loop {
        let (slot, left) = step(cnode, &bits).map_err(NoSlot::Failed)?;
        if left.is_empty() {
            return Ok(slot);
        }
        let missing = Failure::DepthMismatch { bits: left.len() as u32, resolved: 0 };
        cnode = cnode_at(state, slot).ok_or(NoSlot::Failed(missing))?;
        bits = left;
    }
}

/// One CNode of a lookup: its guard is compared first, then the next bits pick the slot; gives the bits left as well.
fn step(cnode: Cap, bits: &[bool]) -> Result<(Row, Vec<bool>), Failure> {
    let (b, x) = (bits.len() as u32, cnode.radix());
    let (g, s) = (cnode.guard(), cnode.guard_size());
    if s > b || bits[..s as usize] != low_bits(g, s) {
        return Err(Failure::GuardMismatch { bits: b, guard: g, size: s });
    }
    if s + x > b {
        return Err(Failure::DepthMismatch { bits: b, resolved: s + x });
    }
    let index = number_of(&bits[s as usize..(s + x) as usize]);
    Ok((Row(cnode.object.slots().start + index), bits[(s + x) as usize..].to_vec()))
}

/// Service and roots are looked up from the caller's row at depth 32; `word` is the message word of the address.
pub fn root_lookup(state: &State, caller: Row, message: &[u32], word: usize) -> Result<Row, Answer> {
    lookup(state, caller, message[word], 32).map_err(|none| match none {
        NoSlot::Failed(failure) => Answer::CapFault { word: word as u32, failure },
        NoSlot::DepthOutOfRange => unreachable!("32 is in range"),
    })
}

/// Indexes are looked up from the service, or from the root named before them.
pub fn index_lookup(state: &State, start: Row, index: u32, depth: u32, source: bool) -> Result<Row, Answer> {
    lookup(state, start, index, depth).map_err(|none| match none {
        NoSlot::Failed(failure) => Answer::FailedLookup { source, failure },
        NoSlot::DepthOutOfRange => Answer::RangeError { least: 1, greatest: 32 },
    })
}
