//! Reads lines and writes lines; or runs the cases, writes requests to replay, or counts what a replay meets.
//!
//! - no argument: the console's language on standard input and output.
//! - `--cases`: the twelve cases of the paper, one line each, then `N passed, M failed`; status 1 if one failed.
//! - `--generate SEED COUNT`: console lines with COUNT requests.
//! - `--coverage`: reads console lines, counts what they meet; status 1 if something that must be met was not.
//! - `--separation SEED COUNT`: COUNT pairs of tenants whose estates share no row, and as many whose estates share one;
//!   then `N passed, M failed`; status 1 if one failed.
//! - `--separation-lines SEED COUNT`: console lines of the runs of `--separation`.
//! - `--benchmark PROGRAM [WORD ..]`: what a request costs that console and this program, by size and fill, and the ratio.

use reference::{benchmark, cases, console, coverage, generate, separation};
use std::io::{self, BufRead, Write};
use std::process::exit;

/// Each line of standard input without its line feed, given to `each`.
fn each_line(mut each: impl FnMut(&[u8]) -> io::Result<()>) -> io::Result<()> {
    let stdin = io::stdin();
    let mut input = stdin.lock();
    let mut line = Vec::new();
    while input.read_until(b'\n', &mut line)? > 0 {
        each(line.strip_suffix(b"\n").unwrap_or(&line))?;
        line.clear();
    }
    Ok(())
}

/// The console.
fn run_console(out: &mut impl Write) -> io::Result<bool> {
    let mut console = console::Console::default();
    each_line(|line| console.line(line, out))?;
    Ok(true)
}

/// The twelve cases.
fn run_cases(out: &mut impl Write) -> io::Result<bool> {
    let results = cases::run();
    for (name, result) in &results {
        match result {
            Ok(()) => writeln!(out, "{}: passed", name)?,
            Err(why) => writeln!(out, "{}: FAILED: {}", name, why)?,
        }
    }
    let failed = results.iter().filter(|(_, result)| result.is_err()).count();
    writeln!(out, "{} passed, {} failed", results.len() - failed, failed)?;
    Ok(failed == 0)
}

/// The counts of a replay.
fn run_coverage(out: &mut impl Write) -> io::Result<bool> {
    let mut coverage = coverage::Coverage::default();
    each_line(|line| {
        coverage.line(line);
        Ok(())
    })?;
    coverage.report(out)
}

/// Chooses by the arguments; None if they are wrong.
fn run(arguments: &[&str], out: &mut impl Write) -> Option<io::Result<bool>> {
    match arguments {
        [] => Some(run_console(out)),
        ["--cases"] => Some(run_cases(out)),
        ["--coverage"] => Some(run_coverage(out)),
        ["--generate", seed, count] => {
            let (seed, count) = (seed.parse().ok()?, count.parse().ok()?);
            Some(generate::generate(seed, count, out).map(|()| true))
        }
        ["--separation", seed, count] => Some(separation::run(seed.parse().ok()?, count.parse().ok()?, out)),
        ["--separation-lines", seed, count] => {
            let (seed, count) = (seed.parse().ok()?, count.parse().ok()?);
            Some(separation::lines(seed, count, out).map(|()| true))
        }
        ["--benchmark", program @ ..] if !program.is_empty() => Some(benchmark::run(program, out).map(|()| true)),
        _ => None,
    }
}

fn main() {
    let arguments: Vec<String> = std::env::args().skip(1).collect();
    let arguments: Vec<&str> = arguments.iter().map(String::as_str).collect();
    let stdout = io::stdout();
    let mut out = io::BufWriter::new(stdout.lock());
    let result = run(&arguments, &mut out);
    let flushed = out.flush();
    match (result, flushed) {
        (Some(Ok(true)), Ok(())) => {}
        (Some(Ok(false)), Ok(())) => exit(1),
        (None, _) => {
            eprintln!(
                "usage: reference [--cases | --generate SEED COUNT | --coverage | --separation[-lines] SEED COUNT]"
            );
            exit(2)
        }
        (Some(Err(error)), _) | (_, Err(error)) => {
            eprintln!("reference: {}", error);
            exit(2)
        }
    }
}
