//! Console lines to replay: mostly requests that mean something in the state they meet, refusals of every kind, and
//! damaged tables.

use crate::boot::greatest_r;
use crate::console::{spaced, Console};
use crate::damage::{broken, scrambled, unusual};
use crate::random::Random;
use crate::rules::{well_formed, Rule, RULES};
use crate::tables::{Cap, Kind, Object, Row, State, Tables, KINDS};
use std::collections::VecDeque;
use std::io::{self, Write};

/// A slot and the address that a lookup finds it by.
#[derive(Clone, Copy, Debug)]
struct Path {
    row: Row,
    address: u32,
    depth: u32,
}

/// How many paths a search stops at.
const MOST_PATHS: usize = 400;

/// Lines that are bad, blank, or spaced oddly.
const ODD_LINES: [&str; 31] = [
    "",
    "   ",
    "\t",
    "\r",
    "# a comment",
    "#show",
    " # no comment",
    "boot",
    "boot 10",
    "boot 10 4 0",
    "boot 9 4",
    "boot 17 4",
    "boot 4294967295 4",
    "boot x 4",
    "Boot 10 4",
    "size",
    "size 32769",
    "size -1",
    "control 1 2 3",
    "row 4096 0 0 0 0 0 0 0 0",
    "row 0 1 2 3",
    "row 536870912 0 0 0 0 0 0 0 0",
    "ask",
    "ask 4294967296 5 0",
    "ask 0 +5 0 6 32",
    "ask 0 0x5 0",
    "ask 0 5 0 1 2 3 4 5 6 7 8 9 10 11 12 13 14 15",
    "show 1",
    "estate",
    "estate 4096",
    "tree 0",
];

/// Lines that mean the same as plain ones.
const SPACED_LINES: [&str; 6] =
    ["  show", "\tshow\t", "show \r", "ask  0\t5   0 00000000000000000006 32 ", " tree", "estate 000"];

/// A run of the generator: what it has written so far led to these tables.
pub(crate) struct Generator<'a, W: Write> {
    pub(crate) random: Random,
    pub(crate) console: Console,
    episodes: u32,
    filling: bool,
    out: &'a mut W,
}

/// Writes console lines with `count` requests.
pub fn generate(seed: u64, count: u64, out: &mut impl Write) -> io::Result<()> {
    let mut generator = Generator::new(seed, out);
    generator.write("# before any boot")?;
    generator.write("show")?;
    generator.write("ask 0 5 0 1 32")?;
    generator.write("tree")?;
    let mut left = count.saturating_sub(1);
    while left > 0 {
        left = generator.episode(left)?;
    }
    generator.write("show")
}

/// The slots of the CNode at a path, each with its own path; none if the row is no CNode or 32 bits do not do.
fn slots_below(state: &State, at: Path) -> Vec<Path> {
    let cap = match state.caps.get(&at.row) {
        Some(cap) if cap.kind() == Kind::CNode => cap,
        _ => return Vec::new(),
    };
    let depth = at.depth + cap.guard_size() + cap.radix();
    if depth > 32 {
        return Vec::new();
    }
    let prefix = (u64::from(at.address) << cap.guard_size() | u64::from(cap.guard())) << cap.radix();
    let rows = cap.object.slots();
    let first = rows.start;
    rows.map(|row| Path { row: Row(row), address: (prefix + u64::from(row - first)) as u32, depth }).collect()
}

/// The row holds a CNode.
pub(crate) fn is_cnode(state: &State, row: Row) -> bool {
    is_kind(state, row, Kind::CNode)
}

/// The row holds a capability of this kind.
fn is_kind(state: &State, row: Row, kind: Kind) -> bool {
    state.caps.get(&row).map_or(false, |cap| cap.kind() == kind)
}

impl<'a, W: Write> Generator<'a, W> {
    /// A generator before its first line.
    pub(crate) fn new(seed: u64, out: &'a mut W) -> Self {
        Generator { random: Random(seed), console: Console::default(), episodes: 0, filling: false, out }
    }
}

impl<W: Write> Generator<'_, W> {
    /// Writes a line and does what it says.
    pub(crate) fn write(&mut self, line: &str) -> io::Result<()> {
        writeln!(self.out, "{}", line)?;
        self.console.line(line.as_bytes(), &mut io::sink())
    }

    /// Writes the lines that make the tables these.
    fn write_tables(&mut self, new: &Tables) -> io::Result<()> {
        if new.words.len() != self.console.tables.words.len() {
            self.write(&format!("size {}", new.words.len()))?;
        }
        if new.control != self.console.tables.control {
            self.write(&format!("control {}", spaced(&new.control)))?;
        }
        for row in (0..new.rows() as u32).map(Row) {
            if new.row(row) != self.console.tables.row(row) {
                self.write(&format!("row {} {}", row.0, spaced(&new.row(row))))?;
            }
        }
        Ok(())
    }

    /// One boot and what follows; gives the requests left.
    fn episode(&mut self, mut left: u64) -> io::Result<u64> {
        self.episodes += 1;
        self.filling = self.random.chance(35);
        let mut m = self.random.weighted(&[(48, 10), (14, 11), (12, 12), (14, 13), (6, 14), (4, 15), (2, 16)]);
        if self.episodes % 10 == 0 {
            m = 10 + self.episodes / 10 % 7;
        }
        let r = 4 + self.random.below(greatest_r(m) as usize - 3) as u32;
        if self.random.chance(10) {
            let wrong = self.random.pick(&[3, 0, greatest_r(m) + 1, u32::MAX]).unwrap_or(0);
            self.write(&format!("boot {} {}", m, wrong))?;
            self.write("show")?;
        }
        self.write(&format!("boot {} {}", m, r))?;
        self.write("show")?;
        if self.random.chance(if m >= 13 { 60 } else { 20 }) {
            left = self.script(m, r, left)?;
        }
        let length = 20 + self.random.below(if m <= 12 { 300 } else { 80 });
        for _ in 0..length {
            let state = match well_formed(&self.console.tables) {
                Ok(state) if left > 0 => state,
                _ => break,
            };
            if self.stuck(&state) && self.random.chance(40) {
                break;
            }
            match self.random.below(100) {
                0..=4 => left = left.saturating_sub(self.damaged(&state)?),
                5..=9 => self.rearranged(&state)?,
                10 => self.odd_line()?,
                11 => self.estate_or_tree(&state)?,
                _ => {
                    left -= 1;
                    self.request(&state)?;
                }
            }
        }
        self.write("show")?;
        self.write("tree")?;
        Ok(left)
    }

    /// Nobody can reach a capability at depth 32 any more, or only few can.
    fn stuck(&mut self, state: &State) -> bool {
        let (_, roots) = self.caller(state);
        !roots.iter().any(|path| is_cnode(state, path.row))
    }

    /// Sequences that random requests seldom make: rings of CNodes, an Untyped held in a CNode made from it, guards that
    /// let two CNodes share 32 bits, a Frame and a TCB, many rows.
    fn script(&mut self, m: u32, r: u32, left: u64) -> io::Result<u64> {
        let largest = m - r - 4;
        let second = largest - 1;
        let scripts: [&[&str]; 6] = [
            &["8 1 4 2 0 0 0 12 2", "3 12 0 2 0 12 32", "5 0 13 32", "6 0 1 32"],
            &[
                "8 1 4 2 0 0 0 12 2",
                "1 0 14 32 0 13 32 7",
                "3 12 0 2 0 13 32",
                "3 14 1 2 0 12 32",
                "5 0 14 32",
                "6 0 1 32",
            ],
            &["8 1 4 2 0 0 0 12 1", "3 12 0 2 0 1 32", "6 12 0 2"],
            &[
                "8 1 4 2 0 0 0 12 2",
                "2 0 14 32 0 12 32 7 14",
                "2 12 0 2 0 13 32 7 14",
                "2 12 1 2 0 12 32 7 78",
                "8 1 2 0 0 0 0 15 1",
                "3 12 2 2 0 15 32",
            ],
            &["8 LARGEST 5 0 0 0 0 12 1", "8 SECOND 1 0 0 0 0 13 1", "1 0 14 32 0 12 32 1", "1 12 15 32 0 13 32 1"],
            &["8 LARGEST 4 8 0 0 0 12 1", "8 SECOND 2 0 0 12 32 1 200", "8 SECOND 3 0 0 12 32 201 50", "6 0 SECOND 32"],
        ];
        let script = match m {
            13..=16 if self.random.chance(50) => scripts[4 + self.random.below(2)],
            _ => scripts[self.random.below(4)],
        };
        let last = if self.random.chance(30) { script.len() } else { script.len() - 1 };
        for message in &script[..last] {
            let message = message.replace("LARGEST", &largest.to_string()).replace("SECOND", &second.to_string());
            self.write(&format!("ask 0 {}", message))?;
            self.write("show")?;
        }
        Ok(left.saturating_sub(last as u64))
    }

    /// A request, and now and then the tables after it.
    pub(crate) fn request(&mut self, state: &State) -> io::Result<()> {
        let line = self.ask(state);
        let before = self.console.tables.clone();
        self.write(&line)?;
        let changed = self.console.tables != before;
        if self.random.chance(if changed { 30 } else { 4 }) {
            self.write("show")?;
        }
        Ok(())
    }

    /// Tables with a broken rule, requests to them, and the tables as they were.
    fn damaged(&mut self, state: &State) -> io::Result<u64> {
        let whole = self.console.tables.clone();
        let mut rule = RULES[self.random.below(RULES.len())];
        if state.caps.values().any(|cap| matches!(cap.kind(), Kind::Frame | Kind::Tcb)) && self.random.chance(35) {
            rule = self.random.pick(&[Rule::FrameRights, Rule::ZeroWord3]).unwrap_or(rule);
        }
        let new = match broken(rule, &whole, state, &mut self.random) {
            Some(new) => new,
            None => return Ok(0),
        };
        self.write_tables(&new)?;
        let asks = 1 + self.random.below(2);
        for _ in 0..asks {
            let line = self.ask(state);
            self.write(&line)?;
        }
        match self.random.below(8) {
            0 => self.write("tree")?,
            1 => self.write("estate 0")?,
            2 => self.write("show")?,
            _ => {}
        }
        if well_formed(&self.console.tables).is_err() {
            self.write_tables(&whole)?;
        }
        Ok(asks as u64)
    }

    /// Tables that no request makes, well-formed or not; they stay if they are.
    fn rearranged(&mut self, state: &State) -> io::Result<()> {
        let whole = self.console.tables.clone();
        let new = if self.random.chance(75) {
            Some(scrambled(&whole, state, &mut self.random))
        } else {
            unusual(&whole, state, &mut self.random)
        };
        if let Some(new) = new {
            self.write_tables(&new)?;
            self.write(&format!("ask {}", new.control[2]))?;
            if well_formed(&new).is_err() {
                self.write_tables(&whole)?;
            }
        }
        Ok(())
    }

    /// A line that is bad, blank or spaced oddly.
    fn odd_line(&mut self) -> io::Result<()> {
        let line = if self.random.chance(70) { self.random.pick(&ODD_LINES) } else { self.random.pick(&SPACED_LINES) };
        self.write(line.unwrap_or(""))
    }

    /// An estate or the tree.
    fn estate_or_tree(&mut self, state: &State) -> io::Result<()> {
        let rows: Vec<Row> = state.caps.keys().copied().collect();
        let any = self.random.below(self.console.tables.rows() + 1) as u32;
        let row = self.random.pick(&rows).filter(|_| any % 8 != 0).map_or(any, |row| row.0);
        if self.random.chance(70) {
            self.write(&format!("estate {}", row))
        } else {
            self.write("tree")
        }
    }

    /// The slots that lookups from a row find: the nearest, and some far ones by random walks.
    fn reachable(&mut self, state: &State, start: Row) -> Vec<Path> {
        let start = Path { row: start, address: 0, depth: 0 };
        let mut found = Vec::new();
        let mut queue = VecDeque::from([start]);
        while let Some(at) = queue.pop_front() {
            let slots = slots_below(state, at);
            queue.extend(slots.iter().filter(|path| path.depth < 32 && is_cnode(state, path.row)));
            found.extend(slots);
            if found.len() > MOST_PATHS {
                break;
            }
        }
        for _ in 0..8 {
            let mut at = start;
            loop {
                let slots = slots_below(state, at);
                let nodes: Vec<Path> = slots.iter().copied().filter(|path| is_cnode(state, path.row)).collect();
                let next = if self.random.chance(80) { self.random.pick(&nodes) } else { self.random.pick(&slots) };
                match next.or_else(|| self.random.pick(&slots)) {
                    Some(path) => {
                        found.push(path);
                        at = path;
                    }
                    None => break,
                }
            }
        }
        found
    }

    /// One of the paths whose row is as wanted; sometimes another, and any numbers if there is none.
    fn choose(&mut self, paths: &[Path], good: impl Fn(Row) -> bool) -> Path {
        let fitting: Vec<Path> = paths.iter().copied().filter(|path| good(path.row)).collect();
        let strict = self.random.chance(95);
        let fit = self.random.pick(&fitting).filter(|_| strict);
        let path = fit.or_else(|| self.random.pick(paths));
        let any = Path { row: Row(0), address: self.random.interesting(), depth: self.random.interesting() };
        let mut path = path.unwrap_or(any);
        if path.depth < 32 && self.random.chance(20) {
            path.address |= self.random.word() << path.depth;
        }
        path
    }

    /// The caller's row and the slots that its lookups at depth 32 find.
    fn caller(&mut self, state: &State) -> (Row, Vec<Path>) {
        let nodes: Vec<Row> = state.caps.keys().copied().filter(|&row| is_cnode(state, row)).collect();
        let mut caller = Row(0);
        let mut paths = Vec::new();
        for attempt in 0..4 {
            caller = if attempt == 0 && is_cnode(state, Row(0)) && self.random.chance(65) {
                Row(0)
            } else {
                self.random.pick(&nodes).unwrap_or(Row(0))
            };
            paths = self.reachable(state, caller);
            paths.retain(|path| path.depth == 32);
            if paths.iter().any(|path| state.occupied(path.row)) {
                break;
            }
        }
        (caller, paths)
    }

    /// A rights word.
    fn rights(&mut self) -> u32 {
        if self.random.chance(80) {
            self.random.below(8) as u32
        } else {
            self.random.interesting()
        }
    }

    /// A datum for a capability.
    fn data(&mut self, cap: Option<&Cap>) -> u32 {
        match cap {
            Some(cap) if cap.kind() == Kind::CNode => {
                let x = cap.radix();
                let any = self.random.below(32) as u32;
                let sizes = [0, 16u32.saturating_sub(x), 16u32.saturating_sub(x), 8u32.saturating_sub(x), 32 - x, any];
                let size = self.random.pick(&sizes).unwrap_or(0).min(31);
                let guard = if self.random.chance(50) { 0 } else { self.random.word() % (1 << 18) };
                let guard = if self.random.chance(80) { guard % (1 << size.min(18)) } else { guard };
                let high = if self.random.chance(20) { self.random.word() << 23 } else { 0 };
                size | guard << 5 | high
            }
            _ => self.random.interesting(),
        }
    }

    /// A message that means something to one caller.
    pub(crate) fn message_of(&mut self, state: &State, caller: Row) -> Vec<u32> {
        let mut roots = self.reachable(state, caller);
        roots.retain(|path| path.depth == 32);
        self.message(state, &roots)
    }

    /// A message of a caller whose lookups at depth 32 find these slots.
    fn message(&mut self, state: &State, roots: &[Path]) -> Vec<u32> {
        let removals = if self.filling { 2 } else { 8 };
        let transfers = [(14, 1), (16, 2), (12, 3), (10, 4), (10, 7)];
        let operation = match self.random.weighted(&[(62, 0), (removals + 1, 5), (removals, 6), (30, 8)]) {
            0 => self.random.weighted(&transfers),
            other => other,
        };
        match operation {
            8 => self.retype(state, roots),
            7 => self.rotate(state, roots),
            5 | 6 => self.removal(state, roots, operation),
            _ => self.transfer(state, roots, operation),
        }
    }

    /// A line with a request.
    fn ask(&mut self, state: &State) -> String {
        let (caller, roots) = self.caller(state);
        let mut message = self.message(state, &roots);
        let mut caller = caller.0;
        match self.random.below(100) {
            0..=1 => {
                let word = self.random.pick(&[1, 4, 5, 9]).filter(|&word| word < message.len()).unwrap_or(1);
                message[word] = self.random.word();
            }
            2..=7 => {
                let word = self.random.below(message.len());
                message[word] = self.random.interesting();
            }
            8..=9 => message.truncate(self.random.below(message.len())),
            10..=12 => {
                let more = self.random.below(17 - message.len());
                (0..more).for_each(|_| message.push(self.random.interesting()));
            }
            13 => caller = self.random.interesting(),
            _ => {}
        }
        let mut numbers = vec![caller];
        numbers.extend(message);
        format!("ask {}", spaced(&numbers))
    }

    /// A message for Copy, Mint, Move or Mutate.
    fn transfer(&mut self, state: &State, roots: &[Path], operation: u32) -> Vec<u32> {
        let service = self.choose(roots, |row| is_cnode(state, row));
        let root = self.choose(roots, |row| is_cnode(state, row));
        let to = self.reachable(state, service.row);
        let to = self.choose(&to, |row| !state.occupied(row));
        let from = self.reachable(state, root.row);
        let wanted = self.random.weighted(&[(5, None), (4, Some(Kind::CNode)), (2, Some(Kind::Untyped))]);
        let childless = self.random.chance(80);
        let copying = operation <= 2;
        let boot_row = copying || self.random.chance(5);
        let fits = |row: Row| match (state.caps.get(&row), wanted) {
            (None, _) => false,
            (Some(_), _) if row == Row(0) && !boot_row => false,
            (Some(_), None) => true,
            (Some(cap), Some(Kind::Untyped)) if copying && childless => {
                cap.kind() == Kind::Untyped && !state.has_children(row)
            }
            (Some(cap), Some(kind)) => cap.kind() == kind,
        };
        let from = self.choose(&from, fits);
        let mut message =
            vec![operation, service.address, to.address, to.depth, root.address, from.address, from.depth];
        if copying {
            message.push(self.rights());
        }
        if operation % 2 == 0 {
            message.push(self.data(state.caps.get(&from.row)));
        }
        message
    }

    /// A message for Delete or Revoke.
    fn removal(&mut self, state: &State, roots: &[Path], operation: u32) -> Vec<u32> {
        let service = self.choose(roots, |row| is_cnode(state, row));
        let paths = self.reachable(state, service.row);
        let boot_row = self.random.chance(3);
        let wanted = operation == 6 && self.random.chance(60);
        let good =
            |row: Row| state.occupied(row) && (boot_row || row != Row(0)) && (!wanted || state.has_children(row));
        let target = self.choose(&paths, good);
        vec![operation, service.address, target.address, target.depth]
    }

    /// A message for Rotate.
    fn rotate(&mut self, state: &State, roots: &[Path]) -> Vec<u32> {
        let boot_row = self.random.chance(5);
        let movable = |row: Row| {
            let badged = is_kind(state, row, Kind::Endpoint) || is_kind(state, row, Kind::Notification);
            state.occupied(row) && !badged && (boot_row || row != Row(0))
        };
        let service = self.choose(roots, |row| is_cnode(state, row));
        let pivot_root = self.choose(roots, |row| is_cnode(state, row));
        let source_root = self.choose(roots, |row| is_cnode(state, row));
        let from = self.reachable(state, source_root.row);
        let source = self.choose(&from, movable);
        let at = self.reachable(state, pivot_root.row);
        let pivot = self.choose(&at, |row| movable(row) && row != source.row);
        let to = self.reachable(state, service.row);
        let swap = self.random.chance(40);
        let destination = self.choose(&to, |row| if swap { row == source.row } else { !state.occupied(row) });
        let first = self.data(state.caps.get(&pivot.row));
        let second = self.data(state.caps.get(&source.row));
        let mut message = vec![7, service.address, destination.address, destination.depth, first];
        message.extend([pivot_root.address, pivot.address, pivot.depth, second]);
        message.extend([source_root.address, source.address, source.depth]);
        message
    }

    /// A message for Retype.
    fn retype(&mut self, state: &State, roots: &[Path]) -> Vec<u32> {
        let roomy = self.random.chance(70);
        let room = |row: Row| {
            let cap = state.caps[&row];
            !state.has_children(row) || u64::from(cap.watermark()) < cap.object.bytes()
        };
        let service = self.choose(roots, |row| is_kind(state, row, Kind::Untyped) && (!roomy || room(row)));
        let root = self.choose(roots, |row| is_cnode(state, row));
        let bytes = state.caps.get(&service.row).map_or(4, |cap| cap.object.exponent() as usize);
        let (tcb, frame) = (if bytes >= 10 { 12 } else { 2 }, if bytes >= 12 { 40 } else { 2 });
        let kind = self.random.weighted(&[(20, 0), (tcb, 1), (16, 2), (12, 3), (36, 4), (frame, 5)]);
        let size = match KINDS[kind] {
            Kind::Untyped => 4 + self.random.below(bytes.max(5) - 3) as u32,
            Kind::CNode => {
                let most = if self.filling { 9 } else { 5 };
                1 + self.random.below(bytes.saturating_sub(5).clamp(1, most)) as u32
            }
            _ if self.random.chance(90) => 0,
            _ => self.random.interesting(),
        };
        let direct = self.random.chance(50);
        let node = if direct {
            Path { row: root.row, address: 0, depth: 0 }
        } else {
            let nodes = self.reachable(state, root.row);
            self.choose(&nodes, |row| is_cnode(state, row))
        };
        let (offset, window) = self.window(state, state.caps.get(&node.row).map(|cap| cap.object));
        let kind = if self.random.chance(2) { 6 + self.random.interesting() % 8 } else { kind as u32 };
        let size = if self.random.chance(2) { self.random.below(4) as u32 } else { size };
        vec![8, service.address, kind, size, root.address, node.address, node.depth, offset, window]
    }

    /// An offset and window, mostly of empty slots.
    fn window(&mut self, state: &State, node: Option<Object>) -> (u32, u32) {
        let node = match node {
            Some(node) if node.kind == Kind::CNode && self.random.chance(95) => node,
            _ => return (self.random.interesting(), self.random.interesting()),
        };
        let rows = node.slots();
        let first = rows.start;
        let empty: Vec<u32> = rows.clone().filter(|&row| !state.occupied(Row(row))).map(|row| row - first).collect();
        let offset = self.random.pick(&empty).unwrap_or(0);
        let run = (offset..rows.end - first).take_while(|slot| !state.occupied(Row(first + slot))).count();
        let most = if self.random.chance(if self.filling { 50 } else { 85 }) { run.min(3) } else { run };
        let window = 1 + self.random.below(most.max(1)) as u32;
        (offset, if self.random.chance(3) { window + run as u32 } else { window })
    }
}
