//! The twelve cases of the paper, with the values it states.

use crate::answers::six_words;
use crate::boot::boot;
use crate::estates::estate;
use crate::request::request;
use crate::rules::well_formed;
use crate::tables::{table_length, Row, Tables, NONE};

/// What a case says when a value differs.
pub type Checked = Result<(), String>;

/// Two values are the same.
fn same<T: PartialEq + std::fmt::Debug>(what: &str, found: T, stated: T) -> Checked {
    if found == stated {
        Ok(())
    } else {
        Err(format!("{}: found {:?}, stated {:?}", what, found, stated))
    }
}

/// The tables after Boot with m=10, r=4.
pub fn booted() -> Tables {
    let mut tables = Tables { words: vec![7; table_length(10)], control: [9; 4] };
    boot(&mut tables, 10, 4);
    tables
}

/// P: the state after case 1.
pub fn state_p() -> Tables {
    let mut tables = booted();
    request(&mut tables, 0, &[8, 1, 4, 2, 0, 0, 0, 3, 2]);
    tables
}

/// Asks from caller row 0 and compares the answer with the stated words, followed by zeros.
pub fn asks(tables: &mut Tables, message: &[u32], stated: &[u32]) -> Checked {
    let mut six = [0; 6];
    six[..stated.len()].copy_from_slice(stated);
    same(&format!("answer to {:?}", message), six_words(request(tables, 0, message)), six)
}

/// Asks and compares; the answer is a refusal, so the tables must stay.
fn refuses(tables: &mut Tables, message: &[u32], stated: &[u32]) -> Checked {
    let before = tables.clone();
    asks(tables, message, stated)?;
    same("tables after a refusal", &*tables, &before)
}

/// The rows in list order, read from the words by the next links.
pub fn list_of(tables: &Tables) -> Vec<u32> {
    let mut rows = Vec::new();
    let mut at = tables.control[2];
    while at != NONE {
        rows.push(at);
        at = tables.row(Row(at))[5];
    }
    rows
}

/// The estate of a row.
fn estate_of(tables: &Tables, row: u32) -> Vec<u32> {
    let state = well_formed(tables).expect("the tables are well-formed");
    estate(&state, Row(row)).into_iter().map(|Row(number)| number).collect()
}

/// The rows other than these are zero.
fn others_zero(tables: &Tables, but: &[u32]) -> Checked {
    let wrong = (0..64).filter(|row| !but.contains(row)).find(|&row| tables.row(Row(row)) != [0; 8]);
    same("a row that should be zero", wrong, None)
}

fn boot_state() -> Checked {
    let tables = booted();
    same("control", tables.control, [10, 4, 0, 3])?;
    same("row 0", tables.row(Row(0)), [5, 0, 4, 0, 28, 1, NONE, 0])?;
    same("row 1", tables.row(Row(1)), [1, 256, 8, 0, 0, 2, 0, 0])?;
    same("row 2", tables.row(Row(2)), [1, 512, 9, 0, 0, NONE, 1, 0])?;
    others_zero(&tables, &[0, 1, 2])?;
    same("list", list_of(&tables), vec![0, 1, 2])
}

fn case_1() -> Checked {
    let mut tables = booted();
    asks(&mut tables, &[8, 1, 4, 2, 0, 0, 0, 3, 2], &[0, 2])?;
    same("row 3", tables.row(Row(3)), [5, 256, 2, 0, 0, 4, 1, 1])?;
    same("address of row 4", tables.row(Row(4))[1], 320)?;
    same("row 4", tables.row(Row(4)), [5, 320, 2, 0, 0, 2, 3, 1])?;
    same("watermark", tables.row(Row(1))[3], 128)?;
    same("list", list_of(&tables), vec![0, 1, 3, 4, 2])?;
    same("control", tables.control, [10, 4, 0, 5])?;
    others_zero(&tables, &[0, 1, 2, 3, 4])
}

fn case_2() -> Checked {
    let mut tables = state_p();
    refuses(&mut tables, &[8, 1, 2, 0, 0, 0, 0, 5, 9], &[10, 128])?;
    asks(&mut tables, &[8, 1, 2, 0, 0, 0, 0, 5, 8], &[0, 8])?;
    same("list", list_of(&tables), vec![0, 1, 5, 6, 7, 8, 9, 10, 11, 12, 3, 4, 2])?;
    same("row 5", tables.row(Row(5)), [3, 384, 4, 0, 7, 6, 1, 1])?;
    same("row 12", tables.row(Row(12)), [3, 496, 4, 0, 7, 3, 11, 1])?;
    same("watermark", tables.row(Row(1))[3], 256)
}

fn case_3() -> Checked {
    let mut tables = state_p();
    asks(&mut tables, &[8, 1, 2, 0, 0, 0, 0, 5, 1], &[0, 1])?;
    refuses(&mut tables, &[8, 1, 0, 6, 0, 0, 0, 6, 2], &[10, 112])?;
    asks(&mut tables, &[8, 1, 0, 6, 0, 0, 0, 6, 1], &[0, 1])?;
    same("address of the untyped", tables.row(Row(6))[1], 448)?;
    same("kind of the untyped", tables.row(Row(6))[0], 1)
}

fn case_4() -> Checked {
    refuses(&mut state_p(), &[1, 0, 6, 32, 0, 1, 32, 7], &[9])
}

fn case_5() -> Checked {
    refuses(&mut state_p(), &[5, 0, 6, 0], &[4, 1, 32])?;
    refuses(&mut state_p(), &[5, 0, 6, 33], &[4, 1, 32])
}

fn case_6() -> Checked {
    refuses(&mut state_p(), &[5, 0, 16, 32], &[6, 0, 4, 32, 0, 28])
}

fn case_7() -> Checked {
    refuses(&mut state_p(), &[5, 0, 3, 30], &[6, 0, 3, 30, 32])
}

fn case_8() -> Checked {
    refuses(&mut state_p(), &[5, 3, 5, 3], &[6, 0, 3, 1, 0])
}

fn case_9() -> Checked {
    refuses(&mut state_p(), &[1, 0, 6, 32, 0, 7, 32, 7], &[6, 1, 2, 32])
}

fn case_10() -> Checked {
    let mut tables = state_p();
    asks(&mut tables, &[8, 2, 2, 0, 0, 0, 0, 7, 1], &[0, 1])?;
    asks(&mut tables, &[3, 3, 1, 2, 0, 7, 32], &[0, 0])?;
    same("row 17", tables.row(Row(17)), [3, 512, 4, 0, 7, NONE, 2, 1])?;
    asks(&mut tables, &[5, 0, 3, 32], &[0, 2])?;
    same("list", list_of(&tables), vec![0, 1, 4, 2])?;
    same("row 1", tables.row(Row(1)), [1, 256, 8, 128, 0, 4, 0, 0])?;
    same("row 2", tables.row(Row(2)), [1, 512, 9, 16, 0, NONE, 4, 0])?;
    others_zero(&tables, &[0, 1, 2, 4])
}

fn case_11() -> Checked {
    let mut tables = state_p();
    asks(&mut tables, &[3, 3, 0, 2, 0, 3, 32], &[0, 0])?;
    same("row 16", tables.row(Row(16)), [5, 256, 2, 0, 0, 4, 1, 1])?;
    same("list", list_of(&tables), vec![0, 1, 16, 4, 2])?;
    asks(&mut tables, &[6, 0, 1, 32], &[0, 2])?;
    same("list", list_of(&tables), vec![0, 1, 2])?;
    others_zero(&tables, &[0, 1, 2])
}

fn case_12() -> Checked {
    let tables = state_p();
    let (third, fourth) = (estate_of(&tables, 3), estate_of(&tables, 4));
    same("estate of row 3", &third, &vec![3, 16, 17, 18, 19])?;
    same("estate of row 4", &fourth, &vec![4, 20, 21, 22, 23])?;
    same("a shared row", third.iter().find(|row| fourth.contains(row)), None)?;
    let whole = estate_of(&tables, 0);
    same("row 0's holds both", third.iter().chain(&fourth).all(|row| whole.contains(row)), true)
}

/// All cases by name, each run.
pub fn run() -> Vec<(&'static str, Checked)> {
    vec![
        ("boot state", boot_state()),
        ("case 1", case_1()),
        ("case 2", case_2()),
        ("case 3", case_3()),
        ("case 4", case_4()),
        ("case 5", case_5()),
        ("case 6", case_6()),
        ("case 7", case_7()),
        ("case 8", case_8()),
        ("case 9", case_9()),
        ("case 10", case_10()),
        ("case 11", case_11()),
        ("case 12", case_12()),
    ]
}
