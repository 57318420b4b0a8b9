//! The library's shown goals beside the original's, on the certificates of class building.
use crate::building::{Lent, Returned};
use crate::classes_pace::{FAMILIES, SIZES, original_run};
use crate::generalize::Stats;
use crate::joints::{Certificate, GOALS, certificate};
use crate::numbers::judged;
use crate::rounds::{LIBRARY, Turn, families, head, medians, row};
use crate::showing::{Page, Shown};
use certpack::judge::Run;
use certpack::pack::{self, Pack};
use certpack::shown::AS_A_RULE;
use std::fmt::Write as _;
use std::hint::black_box;
use std::time::{Duration, Instant};

/// A difference of two calls is judged if the original's goals take this part of a call.
const LEAST_PART: f64 = 0.05;

const NOTES: &str = "
Milliseconds a certificate, medians over the rounds, at budgets 60 and 12. A round has as many
steps whatever the size, each certificate in memory of its own. Both sides take turns. Text is
lent as long as it is, the other buffers as for class building.
  call      cert_classes of the pack without its goals: the whole call
  goals     cert_show of the pack less that: the goals' records read, their tests, the text
  original  its goals alone: the end of `run`, which finds the results, binds and shows
  ratio     goals over original; in brackets where the original's goals take less than a
            twentieth of a call, so that the difference is more noise than not
";

/// What is told, in nanoseconds a certificate.
const PARTS: [&str; 3] = ["call", "goals", "original"];
const CALL: usize = 0;
const ASKED: usize = 1;
const ORIGINAL: usize = 2;

/// What is timed: show calls, class building without goals, the original's goals.
const TIMED: usize = 3;

struct Row {
    family: &'static str,
    steps: usize,
    goals: usize,
    bytes: usize,
    times: [f64; PARTS.len()],
}

impl Row {
    fn ratio(&self) -> f64 {
        self.times[ASKED] / self.times[ORIGINAL]
    }

    fn is_judged(&self) -> bool {
        self.times[ORIGINAL] >= LEAST_PART * self.times[CALL]
    }
}

pub fn report(quick: bool) -> Result<String, String> {
    let (most, rounds) = if quick { (10_000, 3) } else { (100_000, 9) };
    let mut rows = Vec::new();
    for family in &FAMILIES {
        for goals in [GOALS, usize::MAX] {
            for size in SIZES.into_iter().filter(|&size| size <= most) {
                let made = certificate(size, family.ticks.clone(), goals);
                let row = measure(family.name, &made, most / size, rounds);
                rows.push(row.map_err(|why| format!("{}, {size} steps: {why}", family.name))?);
            }
        }
    }
    judged(table(&rows, rounds), quick, slow(&rows))
}

/// A certificate's pack, the same without goals, and what the library says of both.
struct Asked {
    pack: Vec<u8>,
    goalless: Vec<u8>,
    built: Returned,
    lent: Lent,
    text: String,
    goals: usize,
}

impl Asked {
    fn of(made: &Certificate) -> Result<Asked, String> {
        let bytes = made.pack()?;
        let pack = pack::decode(&bytes).map_err(|refusal| refusal.to_string())?;
        let (lent, built) = Lent::grown(&bytes)?;
        if built.code != 0 {
            return Err(format!("{} at {}", built.code, built.place));
        }
        let [class, pattern] = lent.words(pack.steps.len(), built)?;
        let text = Run::read(&pack, class, pattern)?.shown(AS_A_RULE, usize::MAX)?;
        let goals = pack.goals.len();
        let goalless = Pack {
            goals: Vec::new(),
            ..pack.clone()
        };
        Ok(Asked {
            goalless: goalless.encode(),
            pack: bytes,
            built,
            text: text.ok_or("no text")?,
            lent,
            goals,
        })
    }

    fn place(&self) -> Place {
        Place {
            pack: self.pack.clone(),
            goalless: self.goalless.clone(),
            page: Page::new(self.lent.lengths(), self.text.len()),
        }
    }

    /// What a show call returns.
    fn shown(&self) -> Shown {
        Shown {
            code: 0,
            place: 0,
            text_len: self.text.len() as u64,
            figures: self.built.figures,
        }
    }
}

/// Packs with their buffers.
struct Place {
    pack: Vec<u8>,
    goalless: Vec<u8>,
    page: Page,
}

/// The times of one certificate, so many runs a round.
fn measure(
    family: &'static str,
    made: &Certificate,
    runs: usize,
    rounds: usize,
) -> Result<Row, String> {
    let asked = Asked::of(made)?;
    let mut places: Vec<Place> = (0..runs).map(|_| asked.place()).collect();
    let one = |turn: Turn, sums: &mut [Duration; TIMED]| match turn.side {
        LIBRARY => library(&mut places, turn, &asked, sums),
        _ => {
            sums[2] += original(made, &asked)?;
            Ok(())
        }
    };
    let parts = |[shown, call, original]: [f64; TIMED]| [call, shown - call, original];
    let times = medians(rounds, runs, one, parts)?;
    Ok(Row {
        family,
        steps: made.steps,
        goals: asked.goals,
        bytes: asked.text.len(),
        times,
    })
}

/// One call of each sort, far apart among the places; which comes first changes by round.
fn library(
    places: &mut [Place],
    turn: Turn,
    asked: &Asked,
    sums: &mut [Duration; TIMED],
) -> Result<(), String> {
    let count = places.len();
    for sort in [turn.round % 2, 1 - turn.round % 2] {
        let Place {
            pack,
            goalless,
            page,
        } = &mut places[(turn.run + sort * count / 2) % count];
        let start = Instant::now();
        let good = match sort {
            0 => page.call(black_box(&pack[..]), AS_A_RULE) == asked.shown(),
            _ => page.words.call(black_box(&goalless[..])) == asked.built,
        };
        sums[sort] += start.elapsed();
        if !good {
            return Err(format!("a call of sort {sort} has another answer"));
        }
        if sort == 0 && page.text != asked.text.as_bytes() {
            return Err("the library shows another text than certpack".into());
        }
    }
    Ok(())
}

/// The goals of one run of the original, whose text must be the library's.
fn original(made: &Certificate, asked: &Asked) -> Result<Duration, String> {
    let (stats, [_, goals]) = original_run(made, asked.built)?;
    match text(&stats) == asked.text {
        true => Ok(goals),
        false => Err("the original shows another text than certpack".into()),
    }
}

/// Its goals as document 01's lines.
fn text(stats: &Stats) -> String {
    let mut text = String::new();
    for goal in &stats.goals {
        let _ = writeln!(text, "{} {}", goal.name, goal.general);
        for (variable, flex, value) in &goal.vars {
            let _ = writeln!(text, "{variable} {} {value}", u8::from(*flex));
        }
    }
    text
}

fn table(rows: &[Row], rounds: usize) -> String {
    let families = families(&FAMILIES);
    let head = head(["steps", "goals", "bytes"], &PARTS);
    let mut out = format!("Goals as shown, {rounds} rounds\n{NOTES}\n{families}\n{head}");
    for one in rows {
        let ratio = match one.is_judged() {
            true => format!("{:.2}", one.ratio()),
            false => format!("({:.2})", one.ratio()),
        };
        let numbers = [one.steps, one.goals, one.bytes];
        out += &row(one.family, numbers, &one.times, &ratio);
    }
    out
}

/// What takes longer than in the original.
fn slow(rows: &[Row]) -> Option<String> {
    let slow = rows
        .iter()
        .filter(|row| row.is_judged() && row.ratio() > 1.0);
    let slow: Vec<String> = slow
        .map(|row| {
            let Row {
                family,
                steps,
                goals,
                ..
            } = row;
            let ratio = row.ratio();
            format!("{family}, {steps} steps, {goals} goals: {ratio:.2} of the original")
        })
        .collect();
    (!slow.is_empty()).then(|| format!("goals are shown too slowly: {}", slow.join("; ")))
}
