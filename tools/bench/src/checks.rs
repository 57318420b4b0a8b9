//! Packs through the library's step check: the recorded ones, whole and changed, and
//! written ones, every answer beside certpack's or document 01's.
use crate::numbers::Numbers;
use crate::read::{Answer, GOOD, check as library};
use crate::trial::Trial;
use crate::{edits, limits, reads, verdicts, wrong};
use certpack::vectors::{self, Case};
use certpack::{pack, verdict::verdict};

/// The least that the changed packs must come to: all, with a wrong step, with a bad goal.
const LEAST_CHANGED: usize = 20_000;
const LEAST_STEPS: usize = 1_000;
const LEAST_GOALS: usize = 100;

/// A pack of at most so many bytes is cut and edited anywhere as well; the reader's own
/// tests do so to all.
const DAMAGED: usize = 512;

/// How many changed packs there were, and how many got each answer.
#[derive(Default)]
struct Counts {
    packs: usize,
    step: usize,
    goal: usize,
    form: usize,
}

impl Counts {
    fn add(&mut self, answer: Answer) {
        self.packs += 1;
        match answer.code {
            1 => self.form += 1,
            3 => self.step += 1,
            4 => self.goal += 1,
            _ => {}
        }
    }
}

pub fn check(folder: &str) -> Result<String, String> {
    let mut trial = Trial::new(library, certpack);
    let (mut counts, mut drawn) = (Counts::default(), Numbers::default());
    let (mut packs, mut refused, mut damaged) = (0, 0, 0);
    for path in vectors::files(folder)? {
        for case in vectors::read(&path)? {
            let at = |why: String| format!("{path}: case {}: {why}", case.name);
            let (who, wanted) = recorded(&case).map_err(at)?;
            trial.whole(&case.pack, who, wanted).map_err(at)?;
            packs += 1;
            refused += usize::from(wanted != GOOD);
            let one = |pack: &[u8]| trial.agrees(pack).map(|answer| counts.add(answer));
            wrong::check(&mut drawn, &case.pack, one).map_err(at)?;
            if case.pack.len() <= DAMAGED {
                damaged += reads::cut(&mut trial, &case.pack).map_err(at)?;
                damaged += edits::check(&mut trial, &case.pack).map_err(at)?;
            }
        }
    }
    let Counts {
        packs: changed,
        step,
        goal,
        form,
    } = counts;
    if changed < LEAST_CHANGED || step < LEAST_STEPS || goal < LEAST_GOALS {
        return Err(format!(
            "{folder}: {changed} packs changed, {step} with a wrong step, {goal} with a bad goal: too few"
        ));
    }
    let written = trial.tries(&verdicts::tries())?;
    let mut at_limits = limits::tries();
    at_limits.0.retain(|one| one.wanted != GOOD);
    let at_limits = trial.tries(&at_limits)?;
    let lengths = trial.lengths()?;
    Ok(format!(
        "{packs} packs checked, {refused} refused; {changed} changed ({step} with a wrong step, \
         {goal} with a bad goal, {form} against their form), {damaged} damaged, {written} written, \
         {at_limits} over limits and forms, {lengths} lengths answered as certpack and document 01 do\n"
    ))
}

/// What certpack's reader and its verdict say.
fn certpack(bytes: &[u8]) -> Answer {
    match pack::decode(bytes) {
        Err(refusal) => refusal.into(),
        Ok(pack) => verdict(&pack).map_or(GOOD, |(number, place)| Answer {
            code: number.into(),
            place: place as u64,
        }),
    }
}

/// Who says what a case must get: the original's kernel where it accepts, else certpack.
fn recorded(case: &Case) -> Result<(&'static str, Answer), String> {
    let answer = certpack(&case.pack);
    if case.kernel == "accepts" {
        Ok(("the original's kernel", GOOD))
    } else if case.kernel.starts_with("refuses") && answer == GOOD {
        Err("certpack accepts what the original's kernel refuses".into())
    } else {
        Ok(("certpack", answer))
    }
}
