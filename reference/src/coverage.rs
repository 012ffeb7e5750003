//! What a replay meets, counted; and what it must meet.

use crate::answers::{Answer, Failure};
use crate::console::{read, Console, Line};
use crate::request::{request, OPERATIONS};
use crate::rules::{well_formed, RULES};
use crate::tables::{Kind, Object, Row, State};
use std::collections::{BTreeMap, BTreeSet};
use std::io::{self, Write};

/// What must be met besides the rules and the operations: answers with their details, and events.
const MUST: [&str; 74] = [
    "answer 0",
    "answer 1 argument 0",
    "answer 1 argument 1",
    "answer 2",
    "answer 3",
    "answer 4: 0 30",
    "answer 4: 0 last slot",
    "answer 4: 1 32",
    "answer 4: 1 256",
    "answer 4: 1 slots left",
    "answer 6 source InvalidRoot",
    "answer 6 source Missing",
    "answer 6 source DepthMismatch",
    "answer 6 source GuardMismatch",
    "answer 6 other InvalidRoot",
    "answer 6 other Missing",
    "answer 6 other DepthMismatch",
    "answer 6 other GuardMismatch",
    "answer 7",
    "answer 8",
    "answer 9",
    "answer 10",
    "answer 64 InvalidRoot",
    "answer 64 DepthMismatch",
    "answer 64 GuardMismatch",
    "answer 64 word 1",
    "answer 64 word 4",
    "answer 64 word 5",
    "answer 64 word 9",
    "answer 65",
    "boot answer 0",
    "boot answer 4: m",
    "boot answer 4: r",
    "memory 2^10",
    "memory 2^11",
    "memory 2^12",
    "memory 2^13",
    "memory 2^14",
    "memory 2^15",
    "memory 2^16",
    "line bad",
    "estate answered",
    "estate bad",
    "tree answered",
    "tree bad",
    "Retype Untyped",
    "Retype Tcb",
    "Retype Endpoint",
    "Retype Notification",
    "Retype CNode",
    "Retype Frame",
    "Retype after a due reset",
    "Retype into a node found by lookup",
    "Copy Untyped",
    "Mint sets a badge",
    "Mint sets a guard",
    "Mutate sets a guard",
    "Move of an Untyped with children",
    "copy of a copy",
    "Rotate with destination equal to source",
    "Rotate with another destination",
    "Delete of an empty slot",
    "Delete of one row",
    "Delete of several rows",
    "Delete of an Untyped with children",
    "Delete of a name of a CNode beside another",
    "Delete of a name of a CNode far from another",
    "Delete of the only name of an empty CNode",
    "Revoke of an empty slot",
    "Revoke without descendants",
    "Revoke of descendants",
    "Revoke takes rows that are no descendants",
    "Revoke removes its own target",
    "lookup through two CNodes at depth 32",
];

/// Events about rings, met after a Delete or a Move.
const RINGS: [&str; 2] = ["a CNode named by its own slots alone", "two CNodes named by each other alone"];

/// Counts by name.
#[derive(Default)]
pub struct Coverage {
    console: Console,
    counts: BTreeMap<String, u64>,
}

/// All names that must be met.
fn must() -> Vec<String> {
    let mut names: Vec<String> = MUST.iter().chain(&RINGS).map(|name| name.to_string()).collect();
    names.extend(RULES.iter().map(|rule| format!("rule {:?} broken", rule)));
    names.extend(OPERATIONS.iter().map(|name| format!("success {}", name)));
    names
}

/// A failure's name.
fn failure_name(failure: Failure) -> &'static str {
    match failure {
        Failure::InvalidRoot => "InvalidRoot",
        Failure::Missing { .. } => "Missing",
        Failure::DepthMismatch { .. } => "DepthMismatch",
        Failure::GuardMismatch { .. } => "GuardMismatch",
    }
}

/// The names that an answer counts under.
fn answer_names(answer: Answer) -> Vec<String> {
    match answer {
        Answer::Success { .. } => vec!["answer 0".to_string()],
        Answer::InvalidArgument { argument } => vec![format!("answer 1 argument {}", argument)],
        Answer::InvalidCapability => vec!["answer 2".to_string()],
        Answer::IllegalOperation => vec!["answer 3".to_string()],
        Answer::RangeError { least: 0, greatest: 30 } => vec!["answer 4: 0 30".to_string()],
        Answer::RangeError { least: 0, .. } => vec!["answer 4: 0 last slot".to_string()],
        Answer::RangeError { greatest: 32, .. } => vec!["answer 4: 1 32".to_string()],
        Answer::RangeError { greatest: 256, .. } => vec!["answer 4: 1 256".to_string()],
        Answer::RangeError { .. } => vec!["answer 4: 1 slots left".to_string()],
        Answer::FailedLookup { source, failure } => {
            let side = if source { "source" } else { "other" };
            vec![format!("answer 6 {} {}", side, failure_name(failure))]
        }
        Answer::TruncatedMessage => vec!["answer 7".to_string()],
        Answer::DeleteFirst => vec!["answer 8".to_string()],
        Answer::RevokeFirst => vec!["answer 9".to_string()],
        Answer::NotEnoughMemory { .. } => vec!["answer 10".to_string()],
        Answer::CapFault { word, failure } => {
            vec![format!("answer 64 {}", failure_name(failure)), format!("answer 64 word {}", word)]
        }
        Answer::BadTables => vec!["answer 65".to_string()],
    }
}

/// The CNodes that the rows of a state name.
fn cnodes(state: &State) -> BTreeSet<Object> {
    state.caps.values().map(|cap| cap.object).filter(|object| object.kind == Kind::CNode).collect()
}

/// All rows naming the CNode lie in this other one.
fn named_only_in(state: &State, cnode: Object, other: Object) -> bool {
    state.naming(cnode).into_iter().all(|row| other.holds(row))
}

/// The rings of one and of two CNodes in a state.
fn ring_names(state: &State) -> Vec<String> {
    let cnodes: Vec<Object> = cnodes(state).into_iter().collect();
    let mut names = Vec::new();
    for (position, &one) in cnodes.iter().enumerate() {
        if one.address.0 != 0 && named_only_in(state, one, one) {
            names.push(RINGS[0].to_string());
        }
        for &other in &cnodes[position + 1..] {
            if named_only_in(state, one, other) && named_only_in(state, other, one) {
                names.push(RINGS[1].to_string());
            }
        }
    }
    names
}

/// Where another name of the CNode in a row stands: in the list beside it, further away, or nowhere.
fn cnode_name(state: &State, row: Row) -> Option<&'static str> {
    let object = state.caps[&row].object;
    if object.kind != Kind::CNode {
        return None;
    }
    let place = state.place_of(row);
    let names = |at: usize| state.list.get(at).map_or(false, |other| state.caps[&other.row].object == object);
    if names(place + 1) || place.checked_sub(1).map_or(false, names) {
        Some("Delete of a name of a CNode beside another")
    } else if state.naming(object).len() > 1 {
        Some("Delete of a name of a CNode far from another")
    } else {
        Some("Delete of the only name of an empty CNode")
    }
}

/// The events of a success, seen by comparing the states before and after.
fn events(before: &State, after: &State, message: &[u32], count: u32) -> Vec<String> {
    let operation = message[0];
    let mut names = vec![format!("success {}", OPERATIONS[operation as usize - 1])];
    let mut met = |name: &str| names.push(name.to_string());
    let new: Vec<Row> = after.caps.keys().filter(|row| !before.occupied(**row)).copied().collect();
    let gone: Vec<Row> = before.caps.keys().filter(|row| !after.occupied(**row)).copied().collect();
    match operation {
        1 | 2 => {
            let place = after.place_of(new[0]);
            let cap = after.caps[&new[0]];
            if cap.kind() == Kind::Untyped {
                met("Copy Untyped");
            }
            if after.ancestors(place).iter().filter(|&&at| after.caps[&after.list[at].row].object.typed()).count() > 1 {
                met("copy of a copy");
            }
            if operation == 2 && cap.word3 != 0 {
                met(if cap.kind() == Kind::CNode { "Mint sets a guard" } else { "Mint sets a badge" });
            }
        }
        3 | 4 => {
            let cap = after.caps[&new[0]];
            if cap.kind() == Kind::Untyped && after.has_children(new[0]) {
                met("Move of an Untyped with children");
            }
            if operation == 4 && cap.kind() == Kind::CNode && cap.word3 != 0 {
                met("Mutate sets a guard");
            }
        }
        5 => {
            met(match count {
                0 => "Delete of an empty slot",
                1 => "Delete of one row",
                _ => "Delete of several rows",
            });
            if gone.iter().any(|row| before.caps[row].kind() == Kind::Untyped && before.has_children(*row)) {
                met("Delete of an Untyped with children");
            }
            if let [row] = gone[..] {
                cnode_name(before, row).into_iter().for_each(met);
            }
        }
        7 => met(if new.is_empty() {
            "Rotate with destination equal to source"
        } else {
            "Rotate with another destination"
        }),
        8 => {
            let kind = after.caps[&new[0]].kind();
            met(&format!("Retype {:?}", kind));
            let parent = after.parent(after.place_of(new[0])).map(|at| after.list[at].row);
            let reset = |row: Row| before.caps[&row].watermark() > 0 && !before.has_children(row);
            if parent.map_or(false, reset) {
                met("Retype after a due reset");
            }
            if message[6] != 0 {
                met("Retype into a node found by lookup");
            }
        }
        _ => {}
    }
    if matches!(operation, 3 | 4 | 5 | 7) && before.m <= 12 {
        names.extend(ring_names(after));
    }
    names
}

/// The events of a Revoke: needs the target, so it is looked up again.
fn revoke_events(before: &State, caller: Row, message: &[u32], count: u32) -> Vec<String> {
    let service = crate::lookup::root_lookup(before, caller, message, 1).expect("it succeeded");
    let target = crate::lookup::index_lookup(before, service, message[2], message[3], false).expect("it succeeded");
    let mut names = Vec::new();
    if !before.occupied(target) {
        names.push("Revoke of an empty slot".to_string());
        return names;
    }
    let descendants: BTreeSet<Row> = before.descendants(target).into_iter().collect();
    let gone = crate::removal::removed(before, &descendants);
    names.push(if count == 0 { "Revoke without descendants" } else { "Revoke of descendants" }.to_string());
    if gone.len() > descendants.len() {
        names.push("Revoke takes rows that are no descendants".to_string());
    }
    if gone.contains(&target) {
        names.push("Revoke removes its own target".to_string());
    }
    names
}

impl Coverage {
    /// Counts a name once more.
    fn met(&mut self, name: &str) {
        *self.counts.entry(name.to_string()).or_insert(0) += 1;
    }

    /// Counts a request.
    fn ask(&mut self, caller: u32, message: &[u32]) {
        let before = well_formed(&self.console.tables);
        let answer = request(&mut self.console.tables, caller, message);
        let mut names = answer_names(answer);
        match before {
            Err(rule) => names.push(format!("rule {:?} broken", rule)),
            Ok(before) => {
                let outside = |cap: &crate::tables::Cap| cap.guard_size() + cap.radix() < 32;
                let nested = before.caps.get(&Row(caller)).map_or(false, outside);
                if let Answer::Success { count } = answer {
                    if nested {
                        names.push("lookup through two CNodes at depth 32".to_string());
                    }
                    let after = well_formed(&self.console.tables).expect("a request keeps tables well-formed");
                    names.extend(events(&before, &after, message, count));
                    if message[0] == 6 {
                        names.extend(revoke_events(&before, Row(caller), message, count));
                    }
                }
            }
        }
        names.iter().for_each(|name| self.met(name));
    }

    /// Counts what a line meets, and does what it says.
    pub fn line(&mut self, line: &[u8]) {
        let well = |coverage: &Coverage| well_formed(&coverage.console.tables).is_ok();
        match read(line) {
            Line::Ask(caller, message) => self.ask(caller, &message),
            Line::Boot(m, r) => {
                let answer = self.console.boot(m, r);
                self.met(match answer {
                    Answer::Success { .. } => "boot answer 0",
                    Answer::RangeError { least: 10, .. } => "boot answer 4: m",
                    _ => "boot answer 4: r",
                });
                if (10..=16).contains(&m) {
                    self.met(&format!("memory 2^{}", m));
                }
            }
            Line::Bad => self.met("line bad"),
            Line::Estate(row) => {
                let good = well(self) && (row as usize) < self.console.tables.rows();
                self.met(if good { "estate answered" } else { "estate bad" });
            }
            Line::Tree => {
                let good = well(self);
                self.met(if good { "tree answered" } else { "tree bad" });
            }
            _ => self.console.line(line, &mut io::sink()).expect("a sink takes everything"),
        }
    }

    /// Writes the counts and what was never met; true if all that must be met was.
    pub fn report(&self, out: &mut impl Write) -> io::Result<bool> {
        let must = must();
        let mut never = Vec::new();
        for name in &must {
            let count = self.counts.get(name).copied().unwrap_or(0);
            writeln!(out, "{:>9}  {}", count, name)?;
            if count == 0 {
                never.push(name);
            }
        }
        for (name, count) in self.counts.iter().filter(|(name, _)| !must.contains(name)) {
            writeln!(out, "{:>9}  {} (not asked for)", count, name)?;
        }
        for name in &never {
            writeln!(out, "never met: {}", name)?;
        }
        writeln!(out, "{} of {} met", must.len() - never.len(), must.len())?;
        Ok(never.is_empty())
    }
}
