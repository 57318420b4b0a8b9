//! The library's class building beside the original's, on certificates such as a dock writes.
use crate::building::{FIGURES, Lengths, Lent, Returned, classes};
use crate::clock;
use crate::generalize::{Stats, generalize};
use crate::joints::{CUT, Certificate, GOALS, certificate};
use crate::numbers::judged;
use crate::read::{GOOD, parse};
use crate::rounds::{LIBRARY, Turn, families, head, medians, row};
use std::fmt::Write as _;
use std::hint::black_box;
use std::ops::RangeInclusive;
use std::time::{Duration, Instant};

pub const SIZES: [usize; 3] = [1_000, 10_000, 100_000];
/// A step of the largest certificate may take so many times what one of the smallest takes.
const MOST_GROWTH: f64 = 5.0;

const NOTES: &str = "
Milliseconds a certificate, medians over the rounds. A round has as many steps whatever the
size, each certificate in memory of its own, so that a small one finds the caches as cold as
a large one does. Both sides take turns. Class, pattern and graph are lent at most twice as
long as they are needed, work as short as it may be.
  clearing  a call with a word of work less, which is refused: it only clears
  reading   parse_pack of the pack less parse_pack of the empty one, over the same work
  building  cert_classes less clearing and reading: keys, classes, the goals' tests, figures
  original  `run` from the parsed certificate up to its classes, without the goals
  shown     and on to the end of its goals, which it binds and shows
  ratio     building over original
";

pub struct Family {
    pub name: &'static str,
    pub what: &'static str,
    /// How often a counter ticks.
    pub ticks: RangeInclusive<usize>,
}

pub const FAMILIES: [Family; 2] = [
    Family {
        name: "few",
        what: "counters of 6 to 12 ticks: some hundred classes, whatever the size",
        ticks: 6..=12,
    },
    Family {
        name: "many",
        what: "counters of up to 60 ticks: a class for some twenty steps",
        ticks: 0..=60,
    },
];

/// What is told, in nanoseconds a certificate.
const PARTS: [&str; 5] = ["clearing", "reading", "building", "original", "shown"];
const READING: usize = 1;
const BUILDING: usize = 2;
const ORIGINAL: usize = 3;

/// What is timed: calls that build, that only clear, that only read, that read the empty pack,
/// and the original's two laps.
const TIMED: usize = 6;

/// The parts of a round by what was timed in it.
fn parts([whole, cleared, read, nothing, original, shown]: [f64; TIMED]) -> [f64; PARTS.len()] {
    let reading = read - nothing;
    [cleared, reading, whole - cleared - reading, original, shown]
}

struct Row {
    family: &'static str,
    steps: usize,
    bytes: usize,
    classes: usize,
    times: [f64; PARTS.len()],
}

impl Row {
    fn a_step(&self, part: usize) -> f64 {
        self.times[part] / self.steps as f64
    }

    fn ratio(&self) -> f64 {
        self.times[BUILDING] / self.times[ORIGINAL]
    }
}

pub fn report(quick: bool) -> Result<String, String> {
    let (most, rounds) = if quick { (10_000, 3) } else { (100_000, 9) };
    let mut rows = Vec::new();
    for family in &FAMILIES {
        for size in SIZES.into_iter().filter(|&size| size <= most) {
            let made = certificate(size, family.ticks.clone(), GOALS);
            let row = measure(family.name, &made, most / size, rounds);
            rows.push(row.map_err(|why| format!("{}, {size} steps: {why}", family.name))?);
        }
    }
    let mut out = table(&rows, rounds);
    let slow = growth(&rows, &mut out);
    judged(out, quick, slow)
}

/// The times of one certificate, so many runs a round.
fn measure(
    family: &'static str,
    made: &Certificate,
    runs: usize,
    rounds: usize,
) -> Result<Row, String> {
    let pack = made.pack()?;
    let (lent, built) = Lent::grown(&pack)?;
    if built.code != 0 {
        return Err(format!("{} at {}", built.code, built.place));
    }
    let lengths = lent.0.map(|buffer| buffer.len());
    let mut places: Vec<Place> = (0..runs).map(|_| Place::new(&pack, lengths)).collect();
    let one = |turn: Turn, sums: &mut _| match turn.side {
        LIBRARY => library(&mut places, turn.run, built, sums),
        _ => original(made, built, sums),
    };
    let times = medians(rounds, runs, one, parts)?;
    Ok(Row {
        family,
        steps: made.steps,
        bytes: pack.len(),
        classes: built.figures[1] as usize,
        times,
    })
}

/// A pack with its buffers.
struct Place {
    pack: Vec<u8>,
    lent: Lent,
}

impl Place {
    fn new(pack: &[u8], lengths: Lengths) -> Place {
        Place {
            pack: pack.to_vec(),
            lent: Lent::new(lengths),
        }
    }
}

/// One call of each sort, far apart among the places, so that all find the caches alike.
fn library(
    places: &mut [Place],
    i: usize,
    built: Returned,
    sums: &mut [Duration; TIMED],
) -> Result<(), String> {
    let short = Returned {
        code: 8,
        place: 4,
        figures: [0; FIGURES],
    };
    let count = places.len();
    for sort in 0..4 {
        let Place { pack, lent } = &mut places[(i + sort * count / 4) % count];
        let pack = black_box(&pack[..]);
        let [class, pattern, graph, work] = &mut lent.0;
        let enough = work.len();
        let start = Instant::now();
        let good = match sort {
            0 => classes(pack, [class, pattern, graph, work]) == built,
            1 => classes(pack, [class, pattern, graph, &mut work[..enough - 1]]) == short,
            2 => parse(pack, work) == GOOD,
            _ => parse(&[], work) == GOOD,
        };
        sums[sort] += start.elapsed();
        if !good {
            return Err(format!("a call of sort {sort} has another answer"));
        }
    }
    Ok(())
}

/// One run of the original; its figures must be the library's.
fn original(
    made: &Certificate,
    built: Returned,
    sums: &mut [Duration; TIMED],
) -> Result<(), String> {
    let (_, laps) = original_run(made, built)?;
    sums[4] += laps[0];
    sums[5] += laps[1];
    Ok(())
}

/// One run of the original from the text, whose figures must be these: what it says, and how
/// long it took to make the classes and on to the end of the goals.
pub fn original_run(made: &Certificate, built: Returned) -> Result<(Stats, [Duration; 2]), String> {
    clock::take();
    let (stats, _) = generalize(
        &made.theory,
        &made.goals,
        made.proof.as_bytes(),
        &[CUT],
        None,
        None,
    )?;
    let laps = clock::take();
    let [read, made, shown] = laps[..] else {
        return Err(format!("the original passed {} places, not 3", laps.len()));
    };
    if figures(&stats) != built.figures {
        return Err(format!("the original's figures are {stats:?}"));
    }
    Ok((stats, [made - read, shown - made]))
}

fn figures(stats: &Stats) -> [u64; FIGURES] {
    let [single, few, tens, hundreds] = stats.instance_histogram;
    [
        stats.steps,
        stats.classes,
        stats.ground_nodes,
        stats.pattern_nodes,
        stats.class_vars,
        stats.flex_vars,
        stats.fixed_vars,
        stats.subst_entries,
        stats.subst_renamings,
        single,
        few,
        tens,
        hundreds,
    ]
    .map(|figure| figure as u64)
}

fn table(rows: &[Row], rounds: usize) -> String {
    let families = families(&FAMILIES);
    let head = head(["steps", "bytes", "classes"], &PARTS);
    let mut out = format!("Building classes, {rounds} rounds\n{NOTES}\n{families}\n{head}");
    for one in rows {
        let numbers = [one.steps, one.bytes, one.classes];
        let ratio = format!("{:.2}", one.ratio());
        out += &row(one.family, numbers, &one.times, &ratio);
    }
    out
}

/// Time a step at the largest size over that at the smallest; answers what is too slow.
fn growth(rows: &[Row], out: &mut String) -> Option<String> {
    let mut slow = Vec::new();
    let _ = writeln!(out, "\nTime a step of the last over that of the first\n");
    for family in &FAMILIES {
        let mut of_family = rows.iter().filter(|row| row.family == family.name);
        let (Some(first), Some(last)) = (of_family.next(), of_family.next_back()) else {
            continue;
        };
        // A part that took no time at all was measured wrong, and is no good ratio.
        let grown = |part: usize| last.a_step(part) / first.a_step(part).max(0.0);
        let building = grown(BUILDING);
        let _ = writeln!(
            out,
            "{:4}  reading {:.2}, building {building:.2}, original {:.2}",
            family.name,
            grown(READING),
            grown(ORIGINAL)
        );
        if building.is_nan() || building > MOST_GROWTH {
            slow.push(format!("{}: a step grows by {building:.2}", family.name));
        }
        if last.ratio() > 1.0 {
            slow.push(format!(
                "{}: {:.2} of the original",
                family.name,
                last.ratio()
            ));
        }
    }
    (!slow.is_empty()).then(|| format!("building classes is too slow: {}", slow.join(", ")))
}
