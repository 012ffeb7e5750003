//! The console's language: a line in, lines out.
//!
//! Exact output, every line ended by one line feed, words separated by single spaces, numbers in decimal:
//! - `boot`, `ask`: the six words of the answer. `size`, `control`, `row`: `ok`. `bad` where a line is refused.
//! - `show`: `control A B C D`; for each row with a word that is not 0, ascending, `row K A B C D E F G H`; `end`.
//! - `estate ROW`: `estate K1 K2 ..`, the rows of the estate of ROW, ascending; or `bad` if the tables are not
//!   well-formed or ROW is out of the table.
//! - `tree`: for each listed row in list order one line, indented by two spaces for each depth, then `end`; or the one
//!   line `bad`, without `end`, if the tables are not well-formed. The lines, by kind:
//!
//!   ```text
//!   row K Untyped address A bytes N watermark W
//!   row K TCB address A
//!   row K Endpoint address A badge B rights RIGHTS
//!   row K Notification address A badge B rights RIGHTS
//!   row K CNode address A radix X guard G size S
//!   row K Frame address A rights RIGHTS
//!   ```
//!
//!   N is the number of bytes (256, not the exponent 8). RIGHTS is `none`, or those of `write`, `read`, `grant` that
//!   the capability has, in this order, joined by `+`.

use crate::answers::{six_words, Answer};
use crate::boot::{boot, m_in_range};
use crate::estates::estate;
use crate::request::request;
use crate::rules::well_formed;
use crate::tables::{table_length, Cap, Kind, Row, State, Tables};
use std::io::{self, Write};

/// The words of the largest table.
pub const LARGEST_TABLE: u32 = 32768;
/// The most message words of an `ask` line.
pub const MOST_WORDS: usize = 16;

/// A line that has been read.
#[derive(Clone, PartialEq, Eq, Debug)]
pub enum Line {
    Blank,
    Boot(u32, u32),
    Size(u32),
    Control([u32; 4]),
    SetRow(u32, [u32; 8]),
    Ask(u32, Vec<u32>),
    Show,
    Estate(u32),
    Tree,
    Bad,
}

/// A number: digits only, at most 4294967295.
fn number(word: &[u8]) -> Option<u32> {
    if word.is_empty() {
        return None;
    }
    word.iter().try_fold(0u32, |value, &byte| {
        let digit = byte.checked_sub(b'0').filter(|&digit| digit <= 9)?;
        value.checked_mul(10)?.checked_add(u32::from(digit))
    })
}

/// The words of a line: what stands between spaces and tabs; a carriage return at its end is dropped.
fn words(line: &[u8]) -> Vec<&[u8]> {
    let line = line.strip_suffix(b"\r").unwrap_or(line);
    line.split(|&byte| byte == b' ' || byte == b'\t').filter(|word| !word.is_empty()).collect()
}

/// Reads a line, given without its line feed.
pub fn read(line: &[u8]) -> Line {
    let words = words(line);
    if words.is_empty() || line.starts_with(b"#") {
        return Line::Blank;
    }
    let numbers: Option<Vec<u32>> = words[1..].iter().map(|word| number(word)).collect();
    let numbers = match numbers {
        Some(numbers) => numbers,
        None => return Line::Bad,
    };
    match (words[0], &numbers[..]) {
        (b"boot", &[m, r]) => Line::Boot(m, r),
        (b"size", &[n]) if n <= LARGEST_TABLE => Line::Size(n),
        (b"control", &[a, b, c, d]) => Line::Control([a, b, c, d]),
        (b"row", &[k, a, b, c, d, e, f, g, h]) => Line::SetRow(k, [a, b, c, d, e, f, g, h]),
        (b"ask", [caller, message @ ..]) if message.len() <= MOST_WORDS => Line::Ask(*caller, message.to_vec()),
        (b"show", []) => Line::Show,
        (b"estate", &[row]) => Line::Estate(row),
        (b"tree", []) => Line::Tree,
        _ => Line::Bad,
    }
}

/// Numbers with single spaces between them.
pub fn spaced(numbers: &[u32]) -> String {
    numbers.iter().map(u32::to_string).collect::<Vec<_>>().join(" ")
}

/// The lent tables; at the start no words and control four zeros.
pub struct Console {
    pub tables: Tables,
}

impl Default for Console {
    /// A console at its start.
    fn default() -> Self {
        Console { tables: Tables { words: Vec::new(), control: [0; 4] } }
    }
}

impl Console {
    /// Does what a line says and writes its answer.
    pub fn line(&mut self, line: &[u8], out: &mut impl Write) -> io::Result<()> {
        match read(line) {
            Line::Blank => Ok(()),
            Line::Boot(m, r) => answer(self.boot(m, r), out),
            Line::Size(n) => {
                self.tables = Tables { words: vec![0; n as usize], control: [0; 4] };
                writeln!(out, "ok")
            }
            Line::Control(control) => {
                self.tables.control = control;
                writeln!(out, "ok")
            }
            Line::SetRow(row, _) if row as usize >= self.tables.rows() => writeln!(out, "bad"),
            Line::SetRow(row, words) => {
                self.tables.set_row(Row(row), words);
                writeln!(out, "ok")
            }
            Line::Ask(caller, message) => answer(request(&mut self.tables, caller, &message), out),
            Line::Show => show(&self.tables, out),
            Line::Estate(row) => show_estate(&self.tables, row, out),
            Line::Tree => show_tree(&self.tables, out),
            Line::Bad => writeln!(out, "bad"),
        }
    }

    /// `boot`: with m in range the table first becomes a zero table of the length that fits.
    pub fn boot(&mut self, m: u32, r: u32) -> Answer {
        if m_in_range(m) {
            self.tables.words = vec![0; table_length(m)];
        }
        boot(&mut self.tables, m, r)
    }
}

/// Writes the six words of an answer.
fn answer(answer: Answer, out: &mut impl Write) -> io::Result<()> {
    writeln!(out, "{}", spaced(&six_words(answer)))
}

/// Writes the control words and each row with a word that is not 0.
fn show(tables: &Tables, out: &mut impl Write) -> io::Result<()> {
    writeln!(out, "control {}", spaced(&tables.control))?;
    for row in 0..tables.rows() as u32 {
        let words = tables.row(Row(row));
        if words != [0; 8] {
            writeln!(out, "row {} {}", row, spaced(&words))?;
        }
    }
    writeln!(out, "end")
}

/// Writes an estate.
fn show_estate(tables: &Tables, row: u32, out: &mut impl Write) -> io::Result<()> {
    match well_formed(tables) {
        Ok(state) if (row as usize) < tables.rows() => {
            let rows: Vec<u32> = estate(&state, Row(row)).into_iter().map(|Row(number)| number).collect();
            writeln!(out, "estate {}", spaced(&rows))
        }
        _ => writeln!(out, "bad"),
    }
}

/// Draws the derivation tree.
fn show_tree(tables: &Tables, out: &mut impl Write) -> io::Result<()> {
    match well_formed(tables) {
        Ok(state) => draw(&state, out),
        Err(_) => writeln!(out, "bad"),
    }
}

/// One line for each listed row, then `end`.
fn draw(state: &State, out: &mut impl Write) -> io::Result<()> {
    for place in &state.list {
        let indent = "  ".repeat(place.depth as usize);
        writeln!(out, "{}row {} {}", indent, place.row.0, described(&state.caps[&place.row]))?;
    }
    writeln!(out, "end")
}

/// A capability in words.
fn described(cap: &Cap) -> String {
    let address = cap.object.address.0;
    match cap.kind() {
        Kind::Untyped => {
            format!("Untyped address {} bytes {} watermark {}", address, cap.object.bytes(), cap.watermark())
        }
        Kind::Tcb => format!("TCB address {}", address),
        Kind::Endpoint => {
            format!("Endpoint address {} badge {} rights {}", address, cap.badge(), rights_in_words(cap.rights()))
        }
        Kind::Notification => {
            format!("Notification address {} badge {} rights {}", address, cap.badge(), rights_in_words(cap.rights()))
        }
        Kind::CNode => {
            format!("CNode address {} radix {} guard {} size {}", address, cap.radix(), cap.guard(), cap.guard_size())
        }
        Kind::Frame => format!("Frame address {} rights {}", address, rights_in_words(cap.rights())),
    }
}

/// Rights in words: write 1, read 2, grant 4.
fn rights_in_words(rights: u32) -> String {
    let names = [(1, "write"), (2, "read"), (4, "grant")];
    let held: Vec<&str> = names.iter().filter(|(bit, _)| rights & bit != 0).map(|&(_, name)| name).collect();
    if held.is_empty() {
        "none".to_string()
    } else {
        held.join("+")
    }
}
