//! Packs through the library's class building. The recorded ones: every word and figure
//! beside the original's, in buffers that are just long enough, longer, and a cell too
//! short, and their steps without premises one by one. The same with wrong steps and goals,
//! drawn ones and written ones: beside the plain builder and document 01.
use crate::building::{Lengths, Lent, MOST_CELLS, Returned, least};
use crate::drawn_packs::Drawing;
use crate::numbers::Numbers;
use crate::plain::{self, Built};
use crate::read::{Answer, GOOD};
use crate::trial::kept;
use crate::tries::Try;
use crate::{class_answers, limits, single, wrong};
use certpack::vectors::{self, Case};
use certpack::{pack, verdict::verdict};

/// So many cells more than are needed.
const MORE: usize = 7;
/// The least that the recorded packs must come to: built, buffers a cell too short.
const LEAST_BUILT: usize = 400;
const LEAST_SHORT: usize = 1_500;
/// So many packs are drawn.
const DRAWN: usize = 50_000;
/// The least that changed and drawn packs must come to: classes of packs that the step check
/// refuses, and each refusal.
const LEAST: usize = 200;

/// What changed and drawn packs came to.
#[derive(Default)]
struct Wrong {
    packs: usize,
    /// The step check refuses the pack, and its classes are built.
    taken: usize,
    clash: usize,
    circle: usize,
    instance: usize,
}

pub fn check(folder: &str) -> Result<String, String> {
    let (mut built, mut short, mut refused) = (0, 0, 0);
    let (mut changed, mut drawn) = (Wrong::default(), Wrong::default());
    let mut alone = single::Asked::default();
    let mut numbers = Numbers::default();
    for path in vectors::files(folder)? {
        for case in vectors::read(&path)? {
            let at = |why: String| format!("{path}: case {}: {why}", case.name);
            if case.classes == "done" && accepted(&case.pack) {
                recorded(&case).map_err(at)?;
                short += shortened(&case).map_err(at)?;
                built += 1;
            } else {
                let answer = agrees(&case.pack).map_err(at)?;
                if answer == GOOD {
                    return Err(at("classes of a pack that the original has none of".into()));
                }
                refused += 1;
            }
            single::check(&case, &mut alone).map_err(at)?;
            let one = |pack: &[u8]| changed.agrees(pack);
            wrong::check(&mut numbers, &case.pack, one).map_err(at)?;
        }
    }
    let mut drawing = Drawing::new();
    for _ in 0..DRAWN {
        drawn.agrees(&drawing.pack().encode())?;
    }
    let least = [
        changed.taken,
        drawn.taken,
        drawn.clash,
        drawn.circle,
        drawn.instance,
        alone.recorded,
    ];
    if built < LEAST_BUILT || short < LEAST_SHORT || least.into_iter().any(|count| count < LEAST) {
        return Err(format!(
            "{folder}: {built} packs with classes, {short} buffers shortened, {changed} changed, \
             {drawn} drawn, {} steps alone: too few",
            alone.recorded
        ));
    }
    let written = class_answers::tries();
    let refusals = limits::tries();
    let refusals = refusals.0.iter().filter(|one| one.wanted != GOOD);
    for one in written.0.iter().chain(refusals) {
        tried(one).map_err(|why| format!("{}: {why}", one.what))?;
    }
    let lengths = lengths()?;
    Ok(format!(
        "classes, patterns and figures of {built} recorded packs as the original has them, in \
         buffers just long enough and longer; {short} buffers a cell too short and {refused} other \
         packs refused, with zeros; {} steps alone have their rules' conclusions as classes, {} of \
         them as recorded; {changed} changed, {drawn} drawn, and {} written ones answered as \
         the plain builder and document 01 do; {lengths} lengths as document 01 has them\n",
        alone.steps,
        alone.recorded,
        written.0.len()
    ))
}

impl std::fmt::Display for Wrong {
    fn fmt(&self, f: &mut std::fmt::Formatter) -> std::fmt::Result {
        let Wrong {
            packs,
            taken,
            clash,
            circle,
            instance,
        } = self;
        write!(
            f,
            "{packs} packs ({taken} with wrong steps and classes, {clash} clashes, {circle} \
             circles, {instance} no instances)"
        )
    }
}

/// Whether the step check accepts a pack, by certpack.
pub fn accepted(bytes: &[u8]) -> bool {
    pack::decode(bytes).is_ok_and(|pack| verdict(&pack).is_none())
}

/// What the library must answer of a pack, in buffers that suffice.
fn plain(bytes: &[u8]) -> Result<Built, Answer> {
    let pack = pack::decode(bytes).map_err(Answer::from)?;
    plain::build(&pack).map_err(|(code, place)| Answer { code, place })
}

/// The library and the plain builder must agree; their answer.
fn agrees(bytes: &[u8]) -> Result<Answer, String> {
    let (lent, returned) = Lent::grown(bytes)?;
    let answer = Answer {
        code: returned.code,
        place: returned.place,
    };
    let agree = match plain(bytes) {
        Ok(built) => holds(&lent, returned, &built),
        Err(wanted) if wanted == answer => lent.refused(returned),
        Err(wanted) => Err(format!("{answer}, the plain builder {wanted}")),
    };
    agree.map_err(|why| format!("the library says {why}; {}", kept(bytes)))?;
    Ok(answer)
}

impl Wrong {
    fn agrees(&mut self, bytes: &[u8]) -> Result<(), String> {
        self.packs += 1;
        match agrees(bytes)?.code {
            0 => self.taken += usize::from(!accepted(bytes)),
            5 => self.clash += 1,
            6 => self.circle += 1,
            7 => self.instance += 1,
            _ => {}
        }
        Ok(())
    }
}

/// A written pack: the plain builder and the library must give the written answer.
fn tried(one: &Try) -> Result<(), String> {
    let wanted = one.wanted;
    match agrees(&one.pack)? {
        answer if answer == wanted => Ok(()),
        answer => Err(format!(
            "{answer}, document 01 says {wanted}; {}",
            kept(&one.pack)
        )),
    }
}

/// That a call returned these figures and left these words.
pub fn holds(lent: &Lent, returned: Returned, built: &Built) -> Result<(), String> {
    let wanted = Returned {
        code: 0,
        place: 0,
        figures: built.figures,
    };
    if returned != wanted {
        return Err(format!("{returned:?}, not {wanted:?}"));
    }
    lent.holds(0, &built.class_words)?;
    lent.holds(1, &built.pattern_words)?;
    lent.holds(2, &[])?;
    lent.holds(3, &[])
}

/// The words, figures and cells that the original has.
fn original(case: &Case) -> Result<Built, String> {
    let figures = case.figures.clone().try_into();
    Ok(Built {
        class_words: case.class_words.clone(),
        pattern_words: case.pattern_words.clone(),
        figures: figures.map_err(|figures| format!("recorded figures: {figures:?}"))?,
        cells: *case.classes_used.first().ok_or("no largest graph")? as usize,
    })
}

/// The lengths that a case needs, all but work so many cells longer.
fn needs(case: &Case, built: &Built, more: usize) -> Lengths {
    let needs = [
        built.class_words.len(),
        built.pattern_words.len(),
        built.cells,
    ];
    least(case.pack.len(), needs.map(|length| length + more))
}

/// The recorded words and figures, from the plain builder and from the library.
fn recorded(case: &Case) -> Result<(), String> {
    let built = original(case)?;
    if plain(&case.pack).as_ref() != Ok(&built) {
        return Err("the plain builder makes other classes than the original".into());
    }
    for more in [0, MORE] {
        let mut lent = Lent::new(needs(case, &built, more));
        let returned = lent.call(&case.pack);
        holds(&lent, returned, &built)?;
    }
    Ok(())
}

/// Each buffer a cell too short: 8 at that buffer, and zeros. Answers how many could be so.
fn shortened(case: &Case) -> Result<usize, String> {
    let needs = needs(case, &original(case)?, 0);
    let mut tried = 0;
    for buffer in (0..4).filter(|&buffer| needs[buffer] > 0) {
        let mut lengths = needs;
        lengths[buffer] -= 1;
        if buffer < 3 {
            lengths = least(case.pack.len(), [lengths[0], lengths[1], lengths[2]]);
        }
        refuses(&case.pack, lengths, (8, buffer as u64 + 1))?;
        tried += 1;
    }
    Ok(tried)
}

/// A call with these lengths of the class, pattern, graph and work buffers must be refused so.
pub fn refuses(pack: &[u8], lengths: Lengths, (code, place): (u64, u64)) -> Result<(), String> {
    let mut lent = Lent::new(lengths);
    let returned = lent.call(pack);
    if (returned.code, returned.place) != (code, place) {
        return Err(format!(
            "{} at {} with lengths {lengths:?}, not {code} at {place}",
            returned.code, returned.place
        ));
    }
    lent.refused(returned)
}

/// Lengths over a limit ahead of all else; of several short buffers the one that the run
/// writes past first: the steps' words, then for each class graph, pattern and row.
fn lengths() -> Result<usize, String> {
    let long = MOST_CELLS + 1;
    let over: [(&[u8], Lengths); 5] = [
        (&[], [long, 0, 0, 0]),
        (&[], [0, long, 0, 0]),
        (&[], [0, 0, long, 0]),
        (&[], [long, long, long, 1024]),
        (&[0], [long, 0, 0, 0]),
    ];
    for (pack, lengths) in over {
        refuses(pack, lengths, (2, 0))?;
    }
    // nat(z) by a rule without premises: a step's word and a row of 3 words, patterns of 5
    // words, 3 cells; the same cut: patterns of 7 words, a row of 4 words.
    let (rule, cut) = (
        class_answers::one_step_pack(false),
        class_answers::one_step_pack(true),
    );
    let short: [(&[u8], [usize; 3], u64); 9] = [
        (&rule, [0, 0, 0], 1),
        (&rule, [0, 5, 3], 1),
        (&rule, [1, 0, 0], 3),
        (&rule, [1, 0, 2], 3),
        (&rule, [1, 0, 3], 2),
        (&rule, [3, 4, 3], 2),
        (&rule, [3, 5, 3], 1),
        (&cut, [1, 0, 0], 2),
        (&cut, [4, 7, 0], 1),
    ];
    for (pack, cells, place) in short {
        refuses(pack, least(pack.len(), cells), (8, place))?;
    }
    for (pack, cells) in [(&rule, [4, 5, 3]), (&cut, [5, 7, 0])] {
        let mut lent = Lent::new(least(pack.len(), cells));
        let returned = lent.call(pack);
        let built = plain(pack).map_err(|answer| format!("the plain builder says {answer}"))?;
        holds(&lent, returned, &built)?;
    }
    Ok(over.len() + short.len() + 2)
}
