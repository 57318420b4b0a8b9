//! The speed of the library's unification beside the original's, on terms of four kinds.
use crate::generalize::door;
use crate::kinds::{KINDS, Kind};
use crate::numbers::judged;
use crate::unify::{Buffers, JOINED, Lent, READ, UNIFY, words};
use std::fmt::Write as _;
use std::time::Instant;

/// Each is four times the one before it: unification that is linear takes four times as long. From
/// one of them to the next it may take more than five, where a cache ends between the two; not
/// each time. `bench counts` says how much work it is, whatever the caches.
const SIZES: [usize; 3] = [25_000, 100_000, 400_000];
const MOST_GROWTH: f64 = 5.0;

const NOTES: &str = "
Nanoseconds a level, argument, binding or doubling, by the least times over the rounds,
since a difference of two calls is of nothing else; each side first every other round.
  original  the original's `Graph::unify` alone, on a graph that is there
  ours      a call of the library less one that unifies nothing: both read the list and
            clear, and do nothing else
  whole     the call
";

struct Row {
    kind: &'static str,
    size: usize,
    original: f64,
    ours: f64,
    whole: f64,
}

pub fn report(quick: bool) -> Result<String, String> {
    let rounds = if quick { 3 } else { 101 };
    let mut rows = Vec::new();
    for kind in &KINDS {
        for size in SIZES.map(|size| if quick { size / 100 } else { size }) {
            let row = measure(kind, size, rounds);
            rows.push(row.map_err(|why| format!("{}, {size}: {why}", kind.name))?);
        }
    }
    let mut out = format!("Unification, {rounds} rounds\n{NOTES}\nKinds\n");
    for kind in &KINDS {
        let _ = writeln!(out, "  {:6}  {}", kind.name, kind.what);
    }
    let _ = writeln!(
        out,
        "\n{:6} {:>7} {:>9} {:>7} {:>7} {:>7}",
        "kind", "size", "original", "ours", "whole", "ratio"
    );
    for row in &rows {
        let _ = writeln!(
            out,
            "{:6} {:>7} {:>9.1} {:>7.1} {:>7.1} {:>7.2}",
            row.kind,
            row.size,
            row.original,
            row.ours,
            row.whole,
            row.ours / row.original
        );
    }
    let slow = growth(&rows, &mut out);
    let grown = (!slow.is_empty()).then(|| {
        format!(
            "four times the size takes more than {MOST_GROWTH} times as long each time: {}",
            slow.join(", ")
        )
    });
    judged(out, quick, grown)
}

/// The time of each size over that of the size before it; answers the kinds that grow too much
/// each time.
fn growth(rows: &[Row], out: &mut String) -> Vec<String> {
    let mut slow = Vec::new();
    let _ = writeln!(
        out,
        "\nFour times the size\n\n{:6} {:>7} {:>9} {:>7}",
        "kind", "size", "original", "ours"
    );
    for sizes in rows.chunks(SIZES.len()) {
        let mut least = f64::INFINITY;
        for pair in sizes.windows(2) {
            let [small, large] = pair else { continue };
            let times = large.size as f64 / small.size as f64;
            let ours = times * large.ours / small.ours;
            least = least.min(ours);
            let _ = writeln!(
                out,
                "{:6} {:>7} {:>9.2} {ours:>7.2}",
                large.kind,
                large.size,
                times * large.original / small.original
            );
        }
        if least > MOST_GROWTH {
            slow.push(format!("{} {least:.2}", sizes[0].kind));
        }
    }
    slow
}

fn measure(kind: &Kind, size: usize, rounds: usize) -> Result<Row, String> {
    let (nodes, x, y) = (kind.make)(size);
    let list = words(&nodes);
    let mut lent = Buffers::new(Lent::exact(&nodes));
    let mut ours = |stage: u64| -> Result<f64, String> {
        let start = Instant::now();
        let answer = lent.call(&list, x.into(), y.into(), stage);
        let time = start.elapsed().as_nanos() as f64;
        match answer.code {
            JOINED => Ok(time),
            code => Err(format!("the library says {code}")),
        }
    };
    let theirs = || -> Result<f64, String> { Ok(door::time(&nodes, x, y)?.as_nanos() as f64) };
    let mut least = [f64::MAX; 3];
    // The first round is not counted: in it all memory is made to be there.
    for round in 0..=rounds {
        let first = if round % 2 == 0 { theirs()? } else { 0.0 };
        let (whole, idle) = (ours(UNIFY)?, ours(READ)?);
        let original = if round % 2 == 0 { first } else { theirs()? };
        if round > 0 {
            for (least, time) in least.iter_mut().zip([original, whole, idle]) {
                *least = least.min(time);
            }
        }
    }
    let [original, whole, idle] = least.map(|time| time / size as f64);
    Ok(Row {
        kind: kind.name,
        size,
        original,
        ours: whole - idle,
        whole,
    })
}
