//! `Analysis::copy` and `Analysis::resolve` of the original beside the library's `copy_pattern`.
use crate::families::{FAMILIES, Family};
use crate::generalize::door::Walker;
use crate::numbers::judged;
use crate::walk::{Asked, Lent, Store, VAR, Walked, words};
use std::fmt::Write as _;
use std::hint::black_box;
use std::thread;
use std::time::Instant;

/// So many copies are timed together.
const COPIES: u64 = 4;
/// A round is as many runs as it takes to walk so many nodes.
const ROUND: usize = 100_000;
/// The original's walks call themselves, as deep as the patterns are.
const STACK: usize = 1 << 31;
/// The sizes of a family, as multiples of its least; the second and the third are four times the one
/// before.
const TIMES: [usize; 4] = [1, 4, 16, 40];
/// Four times the size may take so many times as long, unless a cache ends between the two sizes, so
/// not both times; and a node of a largest pattern so many times as long as one of a smallest.
/// `bench counts` says how much work it is, whatever the caches.
const MOST: f64 = 5.0;

const NOTES: &str = "
Nanoseconds a node, by the least times over the rounds: a difference of two calls is of nothing
else than the walk only where both were left alone. A round times both sides in turn, over runs
that walk 100,000 nodes or more.
  original  copy: a cleared graph and memo, then copies by Analysis::copy; read: a cleared
            memo and numbering, then Analysis::resolve of one copy
  ours      copy: a call with four copies less one with none, over the same buffers; read: a
            call that reads its one copy back less one that does not
  ratio     ours over original
  growth    the time of all nodes over that of the row of the size before it
";

/// Nanoseconds a node, of copying and of reading back.
struct Side {
    copy: f64,
    read: f64,
}

struct Row {
    family: &'static str,
    nodes: usize,
    original: Side,
    ours: Side,
}

pub fn report(quick: bool) -> Result<String, String> {
    let run = thread::Builder::new()
        .stack_size(STACK)
        .spawn(move || measure_all(quick))
        .map_err(|e| e.to_string())?;
    run.join().map_err(|_| "a walk broke off".to_string())?
}

fn measure_all(quick: bool) -> Result<String, String> {
    let (rounds, less) = if quick { (3, 10) } else { (21, 1) };
    let mut rows = Vec::new();
    for family in &FAMILIES {
        for n in TIMES.map(|times| times * (family.size / less)) {
            let row = measure(family, n, rounds)
                .map_err(|why| format!("{}, size {n}: {why}", family.name))?;
            rows.push(row);
        }
    }
    let out = table(&rows, rounds);
    judged(out, quick, grown(&rows))
}

fn measure(family: &Family, n: usize, rounds: usize) -> Result<Row, String> {
    let nodes = (family.make)(n);
    let p = nodes.len() as u32 - 1;
    let cells = Store::of(&nodes).cells(p);
    let from = words(&nodes);
    let variables = nodes.iter().filter(|node| node[0] == VAR).count();
    let flex = vec![0; variables];
    let ask = |copies, read| Asked::unpacked(&from, &flex, p, copies, read);
    let told = |answer: Walked, copies: usize, at: u32, numbered: usize| {
        let wanted = Walked {
            code: 0,
            at: at.into(),
            numbered: numbered as u64,
            cells: (copies * cells) as u64,
        };
        match answer == wanted {
            true => Ok(()),
            false => Err(format!("{answer:?}, not {wanted:?}")),
        }
    };
    let mut many = Lent::new(0, from.len(), COPIES as usize * cells);
    let mut one = Lent::new(0, from.len(), cells);
    let mut theirs = Walker::new(&nodes, variables)?;
    // The least time of each of six things.
    let mut least = [f64::MAX; 6];
    let runs = rounds * ROUND.div_ceil(nodes.len());
    for run in 0..runs {
        for side in [run % 2, 1 - run % 2] {
            if side == 0 {
                let start = Instant::now();
                for _ in 0..COPIES {
                    black_box(theirs.copy(p));
                }
                took(&mut least[0], start);
                let x = theirs.again(p);
                let start = Instant::now();
                let read = theirs.read(x)?;
                took(&mut least[1], start);
                if read != (p, variables) {
                    return Err(format!("the original reads {read:?}"));
                }
            } else {
                let mut call = |lent: &mut Lent, i: usize, copies: u64, read, at, numbered| {
                    let asked = ask(copies, read);
                    let start = Instant::now();
                    let answer = lent.copy(black_box(&asked));
                    took(&mut least[i], start);
                    told(answer, copies as usize, at, numbered)
                };
                call(&mut many, 2, 0, 0, 0, 0)?;
                call(&mut many, 3, COPIES, 0, 0, 0)?;
                call(&mut one, 4, 1, 0, 0, 0)?;
                call(&mut one, 5, 1, 1, p, variables)?;
            }
        }
    }
    let a_node = |time: f64, copies: u64| time / (copies as usize * nodes.len()) as f64;
    Ok(Row {
        family: family.name,
        nodes: nodes.len(),
        original: Side {
            copy: a_node(least[0], COPIES),
            read: a_node(least[1], 1),
        },
        ours: Side {
            copy: a_node(least[3] - least[2], COPIES),
            read: a_node(least[5] - least[4], 1),
        },
    })
}

/// The time since `start`, if it is less.
fn took(least: &mut f64, start: Instant) {
    *least = least.min(start.elapsed().as_nanos() as f64);
}

/// The time of all nodes over that of a smaller pattern's, for copying and for reading back.
fn growth(small: &Row, large: &Row) -> [f64; 2] {
    let times = large.nodes as f64 / small.nodes as f64;
    [
        times * large.ours.copy / small.ours.copy,
        times * large.ours.read / small.ours.read,
    ]
}

/// A family that grows too fast.
fn grown(rows: &[Row]) -> Option<String> {
    rows.chunks(TIMES.len()).find_map(|sizes| {
        let [first, second, third, last] = sizes else {
            return None;
        };
        let more = last.nodes as f64 / first.nodes as f64;
        let [once, again] = [growth(first, second), growth(second, third)];
        let near = [once[0].min(again[0]), once[1].min(again[1])];
        let far = growth(first, last).map(|times| times / more);
        let over = near.iter().chain(&far).any(|&times| times > MOST);
        over.then(|| {
            format!(
                "{}: four times the size takes at least {:.2} times as long to copy and {:.2} to read \
                 back, and a node at {more:.0} times the size {:.2} and {:.2}",
                first.family, near[0], near[1], far[0], far[1]
            )
        })
    })
}

fn table(rows: &[Row], rounds: usize) -> String {
    let mut out = format!("Copying and reading back, {rounds} rounds\n{NOTES}\nFamilies\n");
    for family in &FAMILIES {
        let _ = writeln!(out, "  {:8}  {}", family.name, family.what);
    }
    let _ = writeln!(
        out,
        "\n{:8} {:>8} {:>5} {:>9} {:>9} {:>6} {:>7}",
        "family", "nodes", "", "original", "ours", "ratio", "growth"
    );
    for sizes in rows.chunks(TIMES.len()) {
        for (i, row) in sizes.iter().enumerate() {
            let grown = match i {
                0 => None,
                _ => Some(growth(&sizes[i - 1], row)),
            };
            for (k, what, theirs, ours) in [
                (0, "copy", row.original.copy, row.ours.copy),
                (1, "read", row.original.read, row.ours.read),
            ] {
                let grown = grown.map_or(String::new(), |grown| format!("{:.2}", grown[k]));
                let _ = writeln!(
                    out,
                    "{:8} {:>8} {what:>5} {theirs:>9.1} {ours:>9.1} {:>6.2} {grown:>7}",
                    row.family,
                    row.nodes,
                    ours / theirs
                );
            }
        }
    }
    out
}
