//! What a request costs the console and this program, by the size of the tables and how full they are.

use std::io::{self, Write};
use std::process::{Command, Stdio};
use std::time::{Duration, Instant};

/// The pairs of requests of one measurement of both programs, and of the console alone, which is faster.
const PAIRS: usize = 1000;
const CONSOLE_PAIRS: usize = 20_000;

/// How often each program is run on the same lines, in turn; the shortest time counts.
const TURNS: usize = 3;

/// The lines that make the tables: a booted host, and, where it is to be full, an Endpoint in every free slot of the boot CNode but two.
fn tables(m: u32, r: u32, full: bool) -> String {
    let first = m - r - 3;
    let last = (1u32 << r) - 2;
    let mut lines = format!("boot {} {}\n", m, r);
    if full {
        let untyped = m - r - 4;
        lines += &format!("ask 0 8 {} 2 0 0 0 0 {} {}\n", untyped, first, (last - first).min(256));
    } else {
        lines += &format!("ask 0 8 1 2 0 0 0 0 {} 1\n", first);
    }
    lines
}

/// Two requests that leave the tables as they were: one fills the last slot of the boot CNode, the other deletes what is there.
fn pair(r: u32, fills: &str) -> String {
    format!("{}\nask 0 5 0 {} 32\n", fills, last_slot(r))
}

fn last_slot(r: u32) -> u32 {
    (1 << r) - 1
}

/// A copy of what is in a slot of the boot CNode.
fn copies(r: u32, slot: u32) -> String {
    pair(r, &format!("ask 0 1 0 {} 32 0 {} 32 7", last_slot(r), slot))
}

/// A copy of the first Endpoint.
fn copies_endpoint(m: u32, r: u32) -> String {
    copies(r, m - r - 3)
}

/// What is made and deleted to compare the ways of Delete: a copy of an Endpoint; a second name of the boot CNode, which stays; the only name
/// of a CNode from the largest Untyped, which has no other child.
fn removals(m: u32, r: u32) -> [(&'static str, String); 3] {
    let new_cnode = pair(r, &format!("ask 0 8 {} 4 1 0 0 0 {} 1", m - r - 4, last_slot(r)));
    [("endpoint", copies_endpoint(m, r)), ("second-name-of-cnode", copies(r, 0)), ("only-name-of-cnode", new_cnode)]
}

/// How long a program takes on some lines.
fn time(program: &[String], lines: &str) -> io::Result<Duration> {
    let began = Instant::now();
    let mut child = Command::new(&program[0]).args(&program[1..]).stdin(Stdio::piped()).stdout(Stdio::null()).spawn()?;
    child.stdin.take().expect("piped").write_all(lines.as_bytes())?;
    child.wait()?;
    Ok(began.elapsed())
}

/// The shortest time of a program.
fn fastest(program: &[String], lines: &str) -> io::Result<Duration> {
    let mut best = time(program, lines)?;
    for _ in 1..TURNS {
        best = best.min(time(program, lines)?);
    }
    Ok(best)
}

/// The shortest time of each of two programs, run in turn.
fn shortest(one: &[String], other: &[String], lines: &str) -> io::Result<(Duration, Duration)> {
    let mut best = (time(one, lines)?, time(other, lines)?);
    for _ in 1..TURNS {
        best = (best.0.min(time(one, lines)?), best.1.min(time(other, lines)?));
    }
    Ok(best)
}

/// Microseconds for a request, from the time of the lines that make the tables and the time with so many pairs of requests.
fn each(idle: Duration, busy: Duration, pairs: usize) -> f64 {
    busy.saturating_sub(idle).as_secs_f64() * 1e6 / (2 * pairs) as f64
}

/// A line for each size and fill: the rows, the console's and this program's time for a request, and their ratio. Then, for the console alone, a
/// line for each size and way of Delete: its time for a request, and the ratio to that with an Endpoint's copy.
pub fn run(console: &[&str], out: &mut impl Write) -> io::Result<()> {
    let console: Vec<String> = console.iter().map(|word| word.to_string()).collect();
    let own = vec![std::env::current_exe()?.to_string_lossy().into_owned()];
    writeln!(out, "m rows fill console-us reference-us ratio")?;
    for m in 10..=16 {
        let r = 8.min(m - 5);
        for full in [false, true] {
            let start = tables(m, r, full);
            let lines = start.clone() + &copies_endpoint(m, r).repeat(PAIRS);
            let (idle, own_idle) = shortest(&console, &own, &start)?;
            let (busy, own_busy) = shortest(&console, &own, &lines)?;
            let (theirs, ours) = (each(idle, busy, PAIRS), each(own_idle, own_busy, PAIRS));
            let fill = if full { "full" } else { "boot" };
            writeln!(out, "{} {} {} {:.2} {:.2} {:.3}", m, 1u32 << (m - 4), fill, theirs, ours, theirs / ours)?;
        }
    }
    writeln!(out, "m rows deleted console-us ratio")?;
    for m in [10, 13, 16] {
        let r = 8.min(m - 6);
        let start = tables(m, r, false);
        let mut first = None;
        for (name, pair) in removals(m, r) {
            let lines = start.clone() + &pair.repeat(CONSOLE_PAIRS);
            let (idle, busy) = (fastest(&console, &start)?, fastest(&console, &lines)?);
            let time = each(idle, busy, CONSOLE_PAIRS);
            writeln!(out, "{} {} {} {:.2} {:.3}", m, 1u32 << (m - 4), name, time, time / *first.get_or_insert(time))?;
        }
    }
    Ok(())
}
