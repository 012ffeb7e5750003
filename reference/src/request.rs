//! Requests: the common order, then the operation.

use crate::answers::Answer;
use crate::lookup::{index_lookup, root_lookup};
use crate::operations::{copy, retype, rotate, shift};
use crate::removal::{delete, revoke};
use crate::rules::well_formed;
use crate::tables::{Kind, Row, State, Tables};

/// The names of operations 1 to 8.
pub const OPERATIONS: [&str; 8] = ["Copy", "Mint", "Move", "Mutate", "Delete", "Revoke", "Rotate", "Retype"];

/// How many words an operation's message has at least.
fn message_length(operation: u32) -> usize {
    match operation {
        1 => 8,
        2 => 9,
        3 => 7,
        4 => 8,
        5 | 6 => 4,
        7 => 12,
        8 => 9,
        _ => unreachable!("the operation is known"),
    }
}

/// The message words that hold roots, in message order.
fn root_words(operation: u32) -> &'static [usize] {
    match operation {
        1..=4 | 8 => &[4],
        7 => &[5, 9],
        _ => &[],
    }
}

/// Retype is Untyped's, the rest CNode's.
fn of_its_kind(kind: Kind, operation: u32) -> bool {
    matches!((kind, operation), (Kind::CNode, 1..=7) | (Kind::Untyped, 8))
}

/// The common order after the tables; gives the count of a success and changes the state, or refuses.
fn served(state: &mut State, caller: Row, message: &[u32]) -> Result<u32, Answer> {
    if message.len() < 2 {
        return Err(Answer::TruncatedMessage);
    }
    let service = root_lookup(state, caller, message, 1)?;
    let kind = state.caps.get(&service).ok_or(Answer::InvalidCapability)?.kind();
    let operation = message[0];
    if !of_its_kind(kind, operation) {
        return Err(Answer::IllegalOperation);
    }
    if message.len() < message_length(operation) {
        return Err(Answer::TruncatedMessage);
    }
    let mut roots = Vec::new();
    for &word in root_words(operation) {
        roots.push(root_lookup(state, caller, message, word)?);
    }
    match operation {
        1 => copy(state, service, roots[0], message, None),
        2 => copy(state, service, roots[0], message, Some(message[8])),
        3 => shift(state, service, roots[0], message, None),
        4 => shift(state, service, roots[0], message, Some(message[7])),
        5 => Ok(delete(state, index_lookup(state, service, message[2], message[3], false)?)),
        6 => Ok(revoke(state, index_lookup(state, service, message[2], message[3], false)?)),
        7 => rotate(state, service, roots[0], roots[1], message),
        8 => retype(state, service, roots[0], message),
        _ => unreachable!("the operation is known"),
    }
}

/// A request: a caller's root row and a message of words. A refusal leaves tables and control untouched.
pub fn request(tables: &mut Tables, caller: u32, message: &[u32]) -> Answer {
    let mut state = match well_formed(tables) {
        Ok(state) => state,
        Err(_) => return Answer::BadTables,
    };
    match served(&mut state, Row(caller), message) {
        Ok(count) => {
            tables.write(&state);
            Answer::Success { count }
        }
        Err(refusal) => refusal,
    }
}
