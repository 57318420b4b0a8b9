//! Rounds in which the library and the original take turns on certificates, and the tables of
//! their times.
use crate::classes_pace::Family;
use crate::numbers::median;
use std::fmt::Write as _;
use std::time::Duration;

/// The library's turn; the other one is the original's.
pub const LIBRARY: usize = 0;

/// A turn: its round, its run in the round, whose it is.
#[derive(Clone, Copy)]
pub struct Turn {
    pub round: usize,
    pub run: usize,
    pub side: usize,
}

/// The medians, over so many rounds of so many runs, of the parts of what `one` times in a turn.
pub fn medians<const TIMED: usize, const PARTS: usize>(
    rounds: usize,
    runs: usize,
    mut one: impl FnMut(Turn, &mut [Duration; TIMED]) -> Result<(), String>,
    parts: impl Fn([f64; TIMED]) -> [f64; PARTS],
) -> Result<[f64; PARTS], String> {
    let mut told = [const { Vec::new() }; PARTS];
    // The first round is not counted: in it all memory is made to be there.
    for round in 0..=rounds {
        let mut sums = [Duration::ZERO; TIMED];
        for run in 0..runs {
            for side in [round % 2, 1 - round % 2] {
                one(Turn { round, run, side }, &mut sums)?;
            }
        }
        if round > 0 {
            let times = sums.map(|sum| sum.as_nanos() as f64 / runs as f64);
            for (told, time) in told.iter_mut().zip(parts(times)) {
                told.push(time);
            }
        }
    }
    Ok(told.map(median))
}

/// The families, a line each.
pub fn families(families: &[Family]) -> String {
    let mut out = String::from("Families\n");
    for family in families {
        let _ = writeln!(out, "  {:4}  {}", family.name, family.what);
    }
    out
}

/// The first line of a table: what the numbers and the times are.
pub fn head(numbers: [&str; 3], parts: &[&str]) -> String {
    line(
        "",
        numbers,
        parts.iter().map(|part| part.to_string()),
        "ratio",
    )
}

/// A line of a family: numbers, times in milliseconds, a ratio.
pub fn row(family: &str, numbers: [usize; 3], times: &[f64], ratio: &str) -> String {
    let numbers = numbers.map(|number| number.to_string());
    let times = times.iter().map(|time| format!("{:.3}", time / 1e6));
    line(family, numbers.each_ref().map(String::as_str), times, ratio)
}

fn line(
    name: &str,
    [a, b, c]: [&str; 3],
    parts: impl Iterator<Item = String>,
    ratio: &str,
) -> String {
    let mut out = format!("{name:4} {a:>7} {b:>8} {c:>8}");
    for part in parts {
        let _ = write!(out, " {part:>9}");
    }
    out + &format!(" {ratio:>6}\n")
}
