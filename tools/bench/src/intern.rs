//! `Store::intern` of the original beside the library's `intern_all`.
use crate::keys::{FAMILIES, Keys};
use crate::numbers::median;
use crate::oracle::Store;
use crate::ours::{DONE, Lent, Tried};
use std::fmt::Write as _;
use std::hint::black_box;
use std::time::{Duration, Instant};

const SIZES: [usize; 4] = [1_000, 10_000, 100_000, 1_000_000];
/// The size that is timed with ample buffers too.
const AMPLE_AT: usize = 100_000;
/// Buffers for so many times the words that the nodes need.
const USUAL: usize = 2;
const AMPLE: usize = 16;
/// A round is as many runs as it takes to intern so many keys.
const ROUND: usize = 10_000;

const NOTES: &str = "
Nanoseconds a key, medians over the rounds; a round times both sides in turn, over
runs that intern 10,000 keys or more. Both read the keys from one buffer.
  room      words lent to the library, as a multiple of what the nodes need
  original  Store::new() and an intern a key; its growth is in, its release is not
  ours      one intern_all over lent buffers whose memory is there already; it clears
            them as it ends, which is in
  no keys   the same call over the same index and words with no key: what clearing
            alone costs
  ratio     ours without the clearing, over original: the store against the store
  whole     ours with it, over original
";

struct Row {
    family: &'static str,
    keys: usize,
    nodes: usize,
    room: usize,
    original: f64,
    ours: f64,
    /// Ours without a key.
    clearing: f64,
}

pub fn report(quick: bool) -> Result<String, String> {
    let (most, rounds) = if quick { (10_000, 3) } else { (1_000_000, 9) };
    let mut rows = Vec::new();
    for family in &FAMILIES {
        for n in SIZES.into_iter().filter(|&n| n <= most) {
            let keys = (family.make)(n);
            let rooms: &[usize] = match n == AMPLE_AT {
                true => &[USUAL, AMPLE],
                false => &[USUAL],
            };
            for &room in rooms {
                let row = measure(family.name, &keys, room, rounds)
                    .map_err(|why| format!("{}, {n} keys, room {room}x: {why}", family.name))?;
                rows.push(row);
            }
        }
    }
    Ok(table(&rows, rounds))
}

/// The original's store of these keys, and the number of each.
fn original(keys: &Keys, numbers: &mut [u32]) -> Store {
    let mut store = Store::new();
    for (number, key) in numbers.iter_mut().zip(keys.iter()) {
        *number = store.intern(key);
    }
    store
}

fn measure(family: &'static str, keys: &Keys, room: usize, rounds: usize) -> Result<Row, String> {
    let mut numbers = vec![0; keys.count];
    let store = original(keys, &mut numbers);
    let mut words = Vec::new();
    for id in 0..store.len() as u32 {
        let node = store.node(id);
        words.push(node.len() as u32 - 1);
        words.extend_from_slice(node);
    }

    // Ahead of the rounds, that both agree; every place of the buffers is written here.
    let mut lent = Lent::new(room * words.len(), keys.count, |_| 1);
    let tried = lent.intern(&keys.words);
    lent.check(tried, store.len(), &words, &numbers)?;

    let runs = ROUND.div_ceil(keys.count);
    let a_key = |round: Duration| round.as_nanos() as f64 / (runs * keys.count) as f64;
    let (mut originals, mut ours, mut clearings) = (Vec::new(), Vec::new(), Vec::new());
    for round in 0..rounds {
        let (mut original_time, mut our_time) = (Duration::ZERO, Duration::ZERO);
        for _ in 0..runs {
            // Each side goes first every other round.
            for side in [round % 2, 1 - round % 2] {
                let start = Instant::now();
                if side == 0 {
                    let store = original(black_box(keys), &mut numbers);
                    original_time += start.elapsed();
                    drop(black_box(store));
                } else {
                    let tried = lent.intern(black_box(&keys.words));
                    our_time += start.elapsed();
                    done(tried)?;
                }
            }
            if lent.numbers != numbers {
                return Err("the numbers of a later round differ".into());
            }
        }
        originals.push(a_key(original_time));
        ours.push(a_key(our_time));
    }
    for _ in 0..rounds {
        let start = Instant::now();
        for _ in 0..runs {
            done(black_box(&mut lent).intern_nothing())?;
        }
        clearings.push(a_key(start.elapsed()));
    }
    Ok(Row {
        family,
        keys: keys.count,
        nodes: store.len(),
        room,
        original: median(originals),
        ours: median(ours),
        clearing: median(clearings),
    })
}

fn done(tried: Tried) -> Result<(), String> {
    match tried.code {
        DONE => Ok(()),
        code => Err(format!("code {code}, not {DONE}")),
    }
}

fn table(rows: &[Row], rounds: usize) -> String {
    let mut out = format!("Store::intern, {rounds} rounds\n{NOTES}\nFamilies\n");
    for family in &FAMILIES {
        let _ = writeln!(out, "  {:8}  {}", family.name, family.what);
    }
    let _ = writeln!(
        out,
        "\n{:8} {:>8} {:>8} {:>5} {:>9} {:>9} {:>9} {:>6} {:>6}",
        "family", "keys", "nodes", "room", "original", "ours", "no keys", "ratio", "whole"
    );
    for r in rows {
        let _ = writeln!(
            out,
            "{:8} {:>8} {:>8} {:>4}x {:>9.1} {:>9.1} {:>9.1} {:>6.2} {:>6.2}",
            r.family,
            r.keys,
            r.nodes,
            r.room,
            r.original,
            r.ours,
            r.clearing,
            (r.ours - r.clearing) / r.original,
            r.ours / r.original
        );
    }
    out + &growth(rows)
}

/// Time a key at the largest size over that at the smallest.
fn growth(rows: &[Row]) -> String {
    let mut out = String::new();
    for family in &FAMILIES {
        let mut usual = rows
            .iter()
            .filter(|r| r.family == family.name && r.room == USUAL);
        let (Some(first), Some(last)) = (usual.next(), usual.next_back()) else {
            continue;
        };
        if out.is_empty() {
            let _ = writeln!(
                out,
                "\nTime a key at {} keys over that at {}\n\n{:8} {:>9} {:>9}",
                last.keys, first.keys, "family", "original", "ours"
            );
        }
        let _ = writeln!(
            out,
            "{:8} {:>9.2} {:>9.2}",
            family.name,
            last.original / first.original,
            last.ours / first.ours
        );
    }
    out
}
