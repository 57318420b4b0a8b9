//! The speed of the library's step check over generated packs.
use crate::numbers::{Numbers, judged, median};
use crate::pace::{Call, measure};
use crate::read::{GOOD, SHORT, check, parse};
use certpack::pack::{Named, PREDICATE, Pack, Rule, Step, Symbol, Term};
use std::fmt::Write as _;

const SIZES: [usize; 3] = [1_000, 10_000, 100_000];
/// A step of the largest pack may take so many times what one of the smallest takes.
const MOST_RATIO: f64 = 5.0;

const NOTES: &str = "
Milliseconds a pack and, behind them, nanoseconds a step, medians over the rounds. A
round checks as many steps whatever the size, each pack in memory of its own and with
the least work, 64 bytes a byte of the pack, so that a small pack finds the caches as
cold as a large one does.
  clearing  a call with a word of work less, which is refused: it only clears
  reading   a call that only reads (parse_pack), less clearing
  checking  a call that reads and checks (cert_check), less the one that only reads
";

/// Calls that only clear, that read, that read and check.
const CALLS: [Call; 3] = [
    Call {
        library: check,
        less: 1,
        wanted: SHORT,
    },
    Call {
        library: parse,
        less: 0,
        wanted: GOOD,
    },
    Call {
        library: check,
        less: 0,
        wanted: GOOD,
    },
];

const PARTS: [&str; 3] = ["clearing", "reading", "checking"];

struct Row {
    steps: usize,
    bytes: usize,
    /// Nanoseconds a pack for each of the parts.
    times: [f64; 3],
}

impl Row {
    fn a_step(&self, part: usize) -> f64 {
        self.times[part] / self.steps as f64
    }
}

/// What each round took more than in the other sort of call.
fn less(whole: &[f64], part: &[f64]) -> Vec<f64> {
    whole.iter().zip(part).map(|(a, b)| a - b).collect()
}

pub fn report(quick: bool) -> Result<String, String> {
    let (most, rounds) = if quick { (10_000, 3) } else { (100_000, 9) };
    let mut rows = Vec::new();
    for steps in SIZES.into_iter().filter(|&steps| steps <= most) {
        let pack = counters(steps).encode();
        let calls = most / steps;
        let [cleared, read, checked] = measure(&pack, calls, calls, rounds, &CALLS)
            .map_err(|why| format!("{steps} steps: {why}"))?;
        rows.push(Row {
            steps,
            bytes: pack.len(),
            times: [
                median(cleared.clone()),
                median(less(&read, &cleared)),
                median(less(&checked, &read)),
            ],
        });
    }
    let mut out = format!("Checking a pack, {rounds} rounds\n{NOTES}\n");
    let _ = write!(out, "{:>7} {:>9}", "steps", "bytes");
    for part in PARTS {
        let _ = write!(out, " {part:>10} {:>7}", "a step");
    }
    for row in &rows {
        let _ = write!(out, "\n{:>7} {:>9}", row.steps, row.bytes);
        for (part, time) in row.times.iter().enumerate() {
            let _ = write!(out, " {:>10.3} {:>7.1}", time / 1e6, row.a_step(part));
        }
    }
    out.push('\n');
    let [first, .., last] = &rows[..] else {
        return Ok(out);
    };
    // Checking that took no time at all was measured wrong, and is no good ratio.
    let growth = |part| last.a_step(part) / first.a_step(part).max(0.0);
    let _ = writeln!(
        out,
        "\nTime a step at {} steps over that at {}: clearing {:.2}, reading {:.2}, checking {:.2}",
        last.steps,
        first.steps,
        growth(0),
        growth(1),
        growth(2)
    );
    let checking = growth(2);
    let grown = (checking.is_nan() || checking > MOST_RATIO).then(|| {
        format!("the time a step of checking grows by {checking:.2}, more than {MOST_RATIO}")
    });
    judged(out, quick, grown)
}

// Symbols, and rules by number.
const Z: u32 = 0;
const S: u32 = 1;
const COUNT: u32 = 2;
const SEEN: u32 = 3;
const GAP: u32 = 4;
const WALL: u32 = 5;
const FIRST: u32 = 0;
const NEXT: u32 = 1;
const SEES: u32 = 2;
const MOVES: u32 = 3;
const JOINS: u32 = 4;

/// A counter's marks, one for each round of four steps; at each mark something is seen of
/// an earlier one, and two more judgments follow from that.
fn theory() -> Pack {
    let symbol = |name: &str, arity, output| Symbol {
        name: name.into(),
        inputs: vec![0; arity],
        output,
    };
    let term = |head, args: &[&Term]| Term::App(head, args.iter().copied().cloned().collect());
    let [x, y] = [Term::Var(0), Term::Var(1)];
    let [sx, sy] = [term(S, &[&x]), term(S, &[&y])];
    let [count_x, count_y] = [term(COUNT, &[&x]), term(COUNT, &[&y])];
    let seen = term(SEEN, &[&x, &y]);
    let gap = term(GAP, &[&sx, &sy]);
    let rule = |name: &str, vars, premises: &[&Term], conclusion| Rule {
        name: name.into(),
        vars: vec![0; vars],
        premises: premises.iter().copied().cloned().collect(),
        conclusion,
    };
    Pack {
        sorts: vec!["Mark".into()],
        symbols: vec![
            symbol("z", 0, 0),
            symbol("s", 1, 0),
            symbol("count", 1, PREDICATE),
            symbol("seen", 2, PREDICATE),
            symbol("gap", 2, PREDICATE),
            symbol("wall", 3, PREDICATE),
        ],
        rules: vec![
            rule("first", 0, &[], term(COUNT, &[&term(Z, &[])])),
            rule("next", 1, &[&count_x], term(COUNT, &[&sx])),
            rule("sees", 2, &[&count_x, &count_y], seen.clone()),
            rule("moves", 2, &[&seen, &count_x, &count_y], gap.clone()),
            rule("joins", 2, &[&gap, &seen], term(WALL, &[&sx, &y, &sy])),
        ],
        ..Pack::default()
    }
}

/// So many steps, four a round; one round in 64 has a goal.
fn counters(steps: usize) -> Pack {
    let mut drawn = Numbers::default();
    let mut pack = theory();
    // Node k is mark k.
    let marks = steps.div_ceil(4) as u32;
    pack.nodes.push(vec![Z]);
    pack.nodes.extend((0..marks).map(|k| vec![S, k]));
    for k in 0..marks {
        let earlier = drawn.below(k as usize + 1) as u32;
        // Step 4k is count(k).
        let (rule, refs) = match k {
            0 => (FIRST, vec![]),
            _ => (NEXT, vec![4 * k - 4]),
        };
        let (here, there) = (4 * k, 4 * earlier);
        for (node, rule, refs) in [
            (vec![COUNT, k], rule, refs),
            (vec![SEEN, k, earlier], SEES, vec![here, there]),
            (
                vec![GAP, k + 1, earlier + 1],
                MOVES,
                vec![here + 1, here, there],
            ),
            (
                vec![WALL, k + 1, earlier, earlier + 1],
                JOINS,
                vec![here + 2, here + 1],
            ),
        ] {
            let judgment = pack.nodes.len() as u32;
            pack.nodes.push(node);
            pack.steps.push(Step {
                rule,
                judgment,
                refs,
            });
        }
        if k % 64 == 0 {
            let name = format!("g{k}");
            let last = pack.steps.len() as u32 - 1;
            let judgment = pack.nodes.len() as u32 - 1;
            pack.results.push(Named {
                at: last,
                name: name.clone(),
            });
            pack.goals.push(Named { at: judgment, name });
        }
    }
    pack
}
