//! The tables: the lent words, and the rows and the list that they stand for.

use std::collections::BTreeMap;

/// None, as a word.
pub const NONE: u32 = 4294967295;
/// A slot takes 16 bytes.
pub const SLOT_BYTES: u32 = 16;
/// Words of a row.
pub const ROW_WORDS: usize = 8;

/// A row number of the slot table.
#[derive(Clone, Copy, PartialEq, Eq, PartialOrd, Ord, Debug)]
pub struct Row(pub u32);

/// A byte address.
#[derive(Clone, Copy, PartialEq, Eq, PartialOrd, Ord, Debug)]
pub struct Address(pub u32);

/// The object types, in the order of their numbers 0 to 5.
#[derive(Clone, Copy, PartialEq, Eq, PartialOrd, Ord, Debug)]
pub enum Kind {
    Untyped,
    Tcb,
    Endpoint,
    Notification,
    CNode,
    Frame,
}

/// The six kinds by type number.
pub const KINDS: [Kind; 6] = [Kind::Untyped, Kind::Tcb, Kind::Endpoint, Kind::Notification, Kind::CNode, Kind::Frame];

/// The power of two that each type adds to its size word to give its bytes: a CNode's slots take 2^4 bytes each.
pub const ADDED_EXPONENT: [u64; 6] = [0, 0, 0, 0, 4, 0];

/// The size words that each type may have, least and greatest; memory bounds those without a bound of their own.
pub const SIZES: [(u32, u32); 6] = [(4, u32::MAX), (10, 10), (4, 4), (4, 4), (1, u32::MAX), (12, 12)];

/// What a capability names: kind, address and size word.
#[derive(Clone, Copy, PartialEq, Eq, PartialOrd, Ord, Debug)]
pub struct Object {
    pub kind: Kind,
    pub address: Address,
    pub size: u32,
}

/// An occupied row without its links: what it names, and words 3 and 4.
#[derive(Clone, Copy, PartialEq, Eq, Debug)]
pub struct Cap {
    pub object: Object,
    pub word3: u32,
    pub word4: u32,
}

/// The words that the host lends: the slot table and the four control words.
#[derive(Clone, PartialEq, Eq, Debug)]
pub struct Tables {
    pub words: Vec<u32>,
    pub control: [u32; 4],
}

/// A place in the derivation list: a row and its depth.
#[derive(Clone, Copy, PartialEq, Eq, Debug)]
pub struct Place {
    pub row: Row,
    pub depth: u32,
}

/// What well-formed tables stand for: the occupied rows, and the derivation tree as a list in preorder with depths.
#[derive(Clone, PartialEq, Eq, Debug)]
pub struct State {
    pub m: u32,
    pub r: u32,
    pub caps: BTreeMap<Row, Cap>,
    pub list: Vec<Place>,
}

impl Object {
    /// The power of two of the object's bytes.
    pub fn exponent(&self) -> u64 {
        u64::from(self.size) + ADDED_EXPONENT[self.kind as usize]
    }

    /// The object's bytes (for sizes that the rules or Retype's tests have bounded).
    pub fn bytes(&self) -> u64 {
        1 << self.exponent()
    }

    /// The first byte.
    pub fn start(&self) -> u64 {
        u64::from(self.address.0)
    }

    /// The byte after the last.
    pub fn end(&self) -> u64 {
        self.start() + self.bytes()
    }

    /// Typed means not Untyped.
    pub fn typed(&self) -> bool {
        self.kind != Kind::Untyped
    }

    /// Two objects are disjoint.
    pub fn disjoint(&self, other: &Object) -> bool {
        self.end() <= other.start() || other.end() <= self.start()
    }

    /// A CNode at address a has its first slot in row a/16; these are all its rows.
    pub fn slots(&self) -> std::ops::Range<u32> {
        let first = self.address.0 / SLOT_BYTES;
        first..first + (1 << self.size)
    }

    /// The row lies in this CNode.
    pub fn holds(&self, row: Row) -> bool {
        self.kind == Kind::CNode && self.slots().contains(&row.0)
    }
}

impl Cap {
    /// The kind of the object.
    pub fn kind(&self) -> Kind {
        self.object.kind
    }

    /// The badge of an Endpoint or Notification.
    pub fn badge(&self) -> u32 {
        self.word3
    }

    /// The guard of a CNode.
    pub fn guard(&self) -> u32 {
        self.word3
    }

    /// The watermark of an Untyped, in bytes.
    pub fn watermark(&self) -> u32 {
        self.word3
    }

    /// The rights of an Endpoint, Notification or Frame.
    pub fn rights(&self) -> u32 {
        self.word4
    }

    /// The guard size of a CNode.
    pub fn guard_size(&self) -> u32 {
        self.word4
    }

    /// The radix of a CNode.
    pub fn radix(&self) -> u32 {
        self.object.size
    }
}

impl Tables {
    /// How many whole rows the table has.
    pub fn rows(&self) -> usize {
        self.words.len() / ROW_WORDS
    }

    /// The eight words of a row.
    pub fn row(&self, row: Row) -> [u32; ROW_WORDS] {
        let first = row.0 as usize * ROW_WORDS;
        let mut words = [0; ROW_WORDS];
        words.copy_from_slice(&self.words[first..first + ROW_WORDS]);
        words
    }

    /// Sets the eight words of a row.
    pub fn set_row(&mut self, row: Row, words: [u32; ROW_WORDS]) {
        let first = row.0 as usize * ROW_WORDS;
        self.words[first..first + ROW_WORDS].copy_from_slice(&words);
    }

    /// Writes a state: listed rows with their links and depths, all other rows zero, the head and the count.
    pub fn write(&mut self, state: &State) {
        self.words.iter_mut().for_each(|word| *word = 0);
        let row_at = |place: Option<&Place>| place.map_or(NONE, |place| place.row.0);
        for (position, place) in state.list.iter().enumerate() {
            let cap = state.caps[&place.row];
            let next = row_at(state.list.get(position + 1));
            let previous = if position == 0 { NONE } else { row_at(state.list.get(position - 1)) };
            let kind = 1 + cap.kind() as u32;
            let object = cap.object;
            self.set_row(
                place.row,
                [kind, object.address.0, object.size, cap.word3, cap.word4, next, previous, place.depth],
            );
        }
        self.control = [state.m, state.r, row_at(state.list.first()), state.list.len() as u32];
    }
}

/// The words that a table for memory of 2^m bytes has: 8 x 2^(m-4).
pub fn table_length(m: u32) -> usize {
    ROW_WORDS << (m - 4)
}

impl State {
    /// The row is occupied.
    pub fn occupied(&self, row: Row) -> bool {
        self.caps.contains_key(&row)
    }

    /// Where in the list an occupied row stands.
    pub fn place_of(&self, row: Row) -> usize {
        self.list.iter().position(|place| place.row == row).expect("an occupied row is listed")
    }

    /// The parent: the nearest place before with smaller depth.
    pub fn parent(&self, position: usize) -> Option<usize> {
        let depth = self.list[position].depth;
        (0..position).rev().find(|&before| self.list[before].depth < depth)
    }

    /// The ancestors: the parent, its parent, and so on.
    pub fn ancestors(&self, position: usize) -> Vec<usize> {
        let mut found = Vec::new();
        let mut at = position;
        while let Some(parent) = self.parent(at) {
            found.push(parent);
            at = parent;
        }
        found
    }

    /// The descendants: the unbroken run after it with greater depth.
    pub fn descendants(&self, row: Row) -> Vec<Row> {
        let position = self.place_of(row);
        let depth = self.list[position].depth;
        self.list[position + 1..].iter().take_while(|after| after.depth > depth).map(|after| after.row).collect()
    }

    /// The row has children.
    pub fn has_children(&self, row: Row) -> bool {
        !self.descendants(row).is_empty()
    }

    /// The rows that name an object.
    pub fn naming(&self, object: Object) -> Vec<Row> {
        self.caps.iter().filter(|(_, cap)| cap.object == object).map(|(&row, _)| row).collect()
    }

    /// The occupied rows of a CNode.
    pub fn occupied_rows_of(&self, cnode: Object) -> Vec<Row> {
        let slots = cnode.slots();
        self.caps.range(Row(slots.start)..Row(slots.end)).map(|(&row, _)| row).collect()
    }
}
