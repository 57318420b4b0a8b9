//! Packs through the library's reader: the recorded ones, cut, edited, at each limit
//! and with each length, every answer beside certpack's or one that is written here.
use crate::read::{Answer, GOOD, parse};
use crate::trial::Trial;
use crate::{edits, limits};
use certpack::{pack, vectors};

/// A pack of at most so many bytes is cut at every byte.
const CUT_WHOLE: usize = 2 << 10;
/// A larger one at so many bytes from each end, and at so many places between.
const ENDS: usize = 200;
const BETWEEN: usize = 200;
/// Above so many bytes a reading takes milliseconds, so there are fewer places between.
const HUGE: usize = 1 << 17;
const FEW: usize = 32;

pub fn check(folder: &str) -> Result<String, String> {
    let mut trial = Trial::new(parse, certpack);
    let (mut packs, mut cuts, mut edited) = (0, 0, 0);
    for path in vectors::files(folder)? {
        for case in vectors::read(&path)? {
            let at = |why: String| format!("{path}: case {}: {why}", case.name);
            trial.agrees(&case.pack).map_err(at)?;
            trial.whole(&case.pack, "document 01", GOOD).map_err(at)?;
            packs += 1;
            cuts += cut(&mut trial, &case.pack).map_err(at)?;
            edited += edits::check(&mut trial, &case.pack).map_err(at)?;
        }
    }
    let at_limits = trial.tries(&limits::tries())?;
    let lengths = trial.lengths()?;
    Ok(format!(
        "{packs} packs read; {cuts} cuts, {edited} edits, {at_limits} packs at limits, \
         {lengths} lengths answered as certpack and document 01 do\n"
    ))
}

/// What certpack's reader says.
fn certpack(pack: &[u8]) -> Answer {
    match pack::decode(pack) {
        Ok(_) => GOOD,
        Err(refusal) => refusal.into(),
    }
}

/// The pack's first bytes, up to each of many places.
pub fn cut(trial: &mut Trial, pack: &[u8]) -> Result<usize, String> {
    let n = pack.len();
    let mut places: Vec<usize> = (0..n).collect();
    if n > CUT_WHOLE {
        let between = if n > HUGE { FEW } else { BETWEEN };
        places.retain(|&place| place <= ENDS || place >= n - ENDS);
        places.extend((0..between).map(|_| trial.drawn.below(n)));
    }
    for &place in &places {
        trial
            .agrees(&pack[..place])
            .map_err(|why| format!("cut at {place}: {why}"))?;
    }
    Ok(places.len())
}
