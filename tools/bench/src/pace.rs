//! The speed of the library's reader over generated packs of three kinds.
use crate::numbers::{Numbers, judged, median};
use crate::read::{Answer, GOOD, SHORT, parse, work_for};
use certpack::pack::{Named, PREDICATE, Pack, Rule, Step, Symbol, Term};
use std::fmt::Write as _;
use std::hint::black_box;
use std::time::{Duration, Instant};

const SIZES: [usize; 3] = [1_000, 100_000, 10_000_000];
/// A byte of the largest pack may take so many times what one of the smallest takes.
const MOST_RATIO: f64 = 3.0;

struct Kind {
    name: &'static str,
    what: &'static str,
    /// A pack of about so many bytes.
    make: fn(usize) -> Pack,
}

const KINDS: [Kind; 3] = [
    Kind {
        name: "nodes",
        what: "distinct ground terms, deep and of up to 16 arguments",
        make: nodes,
    },
    Kind {
        name: "names",
        what: "goals and results; sorts, symbols and rules up to their limits",
        make: names,
    },
    Kind {
        name: "steps",
        what: "four rules of up to 16 premises, refs to any earlier step",
        make: steps,
    },
];

/// One that reads, and one that is refused for its work and only clears.
const CALLS: [Call; 2] = [
    Call {
        library: parse,
        less: 0,
        wanted: GOOD,
    },
    Call {
        library: parse,
        less: 1,
        wanted: SHORT,
    },
];

const NOTES: &str = "
Nanoseconds a byte of the pack, medians over the rounds. A round reads as many bytes
whatever the size, each pack in memory of its own and with the least work, 64 bytes a
byte of the pack, so that a small pack finds the caches as cold as a large one does.
  whole     the call: it reads the pack and clears all of work
  clearing  the same with a word of work less, which is refused: it only clears
  reading   the difference of the two
  again     the same difference where all calls share one pack and one work, so that
            small ones stay in the caches
";

struct Row {
    kind: &'static str,
    bytes: usize,
    apart: Times,
    again: Times,
}

struct Times {
    whole: f64,
    clearing: f64,
}

impl Times {
    fn reading(&self) -> f64 {
        self.whole - self.clearing
    }

    /// How reading has grown since `first`. Reading that took no time at all was measured
    /// wrong, and is no good ratio.
    fn growth(&self, first: &Times) -> f64 {
        self.reading() / first.reading().max(0.0)
    }
}

pub fn report(quick: bool) -> Result<String, String> {
    let (most, rounds) = if quick { (100_000, 3) } else { (10_000_000, 9) };
    let mut rows = Vec::new();
    for kind in &KINDS {
        for size in SIZES.into_iter().filter(|&size| size <= most) {
            let pack = (kind.make)(size).encode();
            let calls = most / size;
            let timed = |places| -> Result<Times, String> {
                let times = measure(&pack, places, calls, rounds, &CALLS)
                    .map_err(|why| format!("{}, {size} bytes: {why}", kind.name))?;
                let [whole, clearing] = times.map(|times| median(times) / pack.len() as f64);
                Ok(Times { whole, clearing })
            };
            rows.push(Row {
                kind: kind.name,
                bytes: pack.len(),
                apart: timed(calls)?,
                again: timed(1)?,
            });
        }
    }
    let mut out = table(&rows, rounds);
    let slow = growth(&rows, &mut out);
    let grown = (!slow.is_empty()).then(|| {
        format!(
            "the time a byte of reading grows by more than {MOST_RATIO}: {}",
            slow.join(", ")
        )
    });
    judged(out, quick, grown)
}

/// A sort of call: with so many words of work less than the least it gives this answer.
pub struct Call {
    pub library: fn(&[u8], &mut [u32]) -> Answer,
    pub less: usize,
    pub wanted: Answer,
}

/// Times so many calls of each sort, over packs and work at so many places; answers the
/// nanoseconds that a call takes in each round. The sorts take turns, far apart among the
/// places, so that all find the caches alike.
pub fn measure<const N: usize>(
    pack: &[u8],
    places: usize,
    calls: usize,
    rounds: usize,
    sorts: &[Call; N],
) -> Result<[Vec<f64>; N], String> {
    let packs = pack.repeat(places);
    let words = work_for(pack.len());
    let mut work = vec![1; places * words];
    let mut timed = |place: usize, sort: &Call| -> Result<Duration, String> {
        let pack = &packs[place * pack.len()..][..pack.len()];
        let work = &mut work[place * words..][..words - sort.less];
        let start = Instant::now();
        let answer = (sort.library)(black_box(pack), work);
        let time = start.elapsed();
        match answer == sort.wanted {
            true => Ok(time),
            false => Err(format!("the library says {answer}, not {}", sort.wanted)),
        }
    };
    let mut times = [const { Vec::new() }; N];
    // The first round is not counted: in it all memory is made to be there.
    for round in 0..=rounds {
        let mut sums = [Duration::ZERO; N];
        for i in 0..calls {
            for (k, sort) in sorts.iter().enumerate() {
                sums[k] += timed((i + k * places / N) % places, sort)?;
            }
        }
        if round > 0 {
            for (times, sum) in times.iter_mut().zip(sums) {
                times.push(sum.as_nanos() as f64 / calls as f64);
            }
        }
    }
    Ok(times)
}

fn table(rows: &[Row], rounds: usize) -> String {
    let mut out = format!("Reading a pack, {rounds} rounds\n{NOTES}\nKinds\n");
    for kind in &KINDS {
        let _ = writeln!(out, "  {:6}  {}", kind.name, kind.what);
    }
    let _ = writeln!(
        out,
        "\n{:6} {:>9} {:>8} {:>8} {:>8} {:>8}",
        "kind", "bytes", "reading", "whole", "clearing", "again"
    );
    for row in rows {
        let _ = writeln!(
            out,
            "{:6} {:>9} {:>8.2} {:>8.2} {:>8.2} {:>8.2}",
            row.kind,
            row.bytes,
            row.apart.reading(),
            row.apart.whole,
            row.apart.clearing,
            row.again.reading()
        );
    }
    out
}

/// Time a byte at the largest size over that at the smallest; answers the kinds whose
/// reading grows too much.
fn growth(rows: &[Row], out: &mut String) -> Vec<String> {
    let mut slow = Vec::new();
    for kind in &KINDS {
        let mut of_kind = rows.iter().filter(|row| row.kind == kind.name);
        let (Some(first), Some(last)) = (of_kind.next(), of_kind.next_back()) else {
            continue;
        };
        if kind.name == KINDS[0].name {
            let _ = writeln!(
                out,
                "\nTime a byte at {} bytes over that at {}\n\n{:6} {:>8} {:>8} {:>8}",
                last.bytes, first.bytes, "kind", "reading", "whole", "again"
            );
        }
        let reading = last.apart.growth(&first.apart);
        let _ = writeln!(
            out,
            "{:6} {reading:>8.2} {:>8.2} {:>8.2}",
            kind.name,
            last.apart.whole / first.apart.whole,
            last.again.growth(&first.again)
        );
        if reading.is_nan() || reading > MOST_RATIO {
            slow.push(format!("{} {reading:.2}", kind.name));
        }
    }
    slow
}

/// How many arguments each constructor has.
const ARITY: [usize; 5] = [0, 1, 2, 4, 16];
/// The predicate behind them, and its judgment where it stands alone.
const HOLDS: u32 = ARITY.len() as u32;

/// One sort, the constructors, a predicate without arguments.
fn theory() -> Pack {
    let symbol = |name: String, arity, output| Symbol {
        name,
        inputs: vec![0; arity],
        output,
    };
    let constructors = ARITY.iter().map(|&n| symbol(format!("c{n}"), n, 0));
    let holds = [symbol("holds".into(), 0, PREDICATE)];
    Pack {
        sorts: vec!["Term".into()],
        symbols: constructors.chain(holds).collect(),
        ..Pack::default()
    }
}

fn rule(name: String, premises: usize) -> Rule {
    let holds = Term::App(HOLDS, Vec::new());
    Rule {
        name,
        vars: Vec::new(),
        premises: vec![holds.clone(); premises],
        conclusion: holds,
    }
}

/// Each node but the first has the one before as an argument, so no two are the same;
/// its others are near, and one in eight is anywhere.
fn nodes(bytes: usize) -> Pack {
    const NEAR: usize = 64;
    let mut drawn = Numbers::default();
    let mut pack = theory();
    pack.nodes.push(vec![0]);
    let mut left = bytes.saturating_sub(pack.encode().len());
    while left > 0 {
        let n = pack.nodes.len();
        let head = 1 + drawn.below(ARITY.len() - 1);
        let mut node = vec![head as u32, n as u32 - 1];
        for _ in 1..ARITY[head] {
            let back = match drawn.below(8) {
                0 => drawn.below(n),
                _ => drawn.below(n.min(NEAR)),
            };
            node.push((n - 1 - back) as u32);
        }
        left = left.saturating_sub(6 + 4 * node.len());
        pack.nodes.push(node);
    }
    pack
}

/// Names of 6 to 64 bytes: an eighth of them sorts, symbols and rules each, as far as
/// there may be so many, the others goals and results.
fn names(bytes: usize) -> Pack {
    let name = |i: usize| format!("{:a<1$}{i:06}", "", i % 59);
    let eighth = bytes / 8 / 45;
    let mut pack = theory();
    pack.sorts.extend((0..eighth).map(name).take(255));
    pack.rules.push(rule("fact".into(), 0));
    for i in 0..eighth.min(4_000) {
        pack.symbols.push(Symbol {
            name: name(i),
            inputs: Vec::new(),
            output: 0,
        });
        pack.rules.push(rule(name(i), 0));
    }
    pack.nodes.push(vec![HOLDS]);
    pack.steps.push(Step {
        rule: 0,
        judgment: 0,
        refs: Vec::new(),
    });
    let mut left = bytes.saturating_sub(pack.encode().len());
    for i in 0.. {
        let name = name(i);
        let both = 2 * (10 + name.len());
        if left < both {
            break;
        }
        left -= both;
        pack.goals.push(Named { at: 0, name });
    }
    pack.results = pack.goals.clone();
    pack
}

fn steps(bytes: usize) -> Pack {
    const PREMISES: [usize; 4] = [0, 1, 2, 16];
    let mut drawn = Numbers::default();
    let mut pack = theory();
    for premises in PREMISES {
        pack.rules.push(rule(format!("r{premises}"), premises));
    }
    pack.nodes.push(vec![HOLDS]);
    let mut left = bytes.saturating_sub(pack.encode().len());
    while left > 0 {
        let n = pack.steps.len();
        let rule = if n == 0 { 0 } else { drawn.below(4) };
        let refs = (0..PREMISES[rule]).map(|_| drawn.below(n) as u32);
        let step = Step {
            rule: rule as u32,
            judgment: 0,
            refs: refs.collect(),
        };
        left = left.saturating_sub(14 + 4 * step.refs.len());
        pack.steps.push(step);
    }
    pack
}
