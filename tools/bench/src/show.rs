//! Packs through the library's show call: words and figures as class building has them, and
//! the goals' text byte for byte. Of the recorded packs as the original shows it, and at other
//! budgets as the plain judge of certpack does; of deep and shared terms as it is written
//! here. In text just long enough, longer, and a byte too short. What class building refuses, the
//! call refuses alike with no text lent at all.
use crate::building::{Lengths, Lent, MOST_CELLS, Returned, least};
use crate::classes::accepted;
use crate::drawn_packs::Drawing;
use crate::numbers::Numbers;
use crate::read::{Answer, GOOD};
use crate::showing::Page;
use crate::trial::kept;
use crate::tries::Try;
use crate::{class_answers, limits, show_packs, wrong};
use certpack::judge::Run;
use certpack::pack;
use certpack::shown::{AS_A_RULE, Budgets};
use certpack::vectors::{self, Case};
use std::time::{Duration, Instant};

const BUDGETS: [u64; 7] = [0, 1, 2, 5, 12, 60, u64::MAX];
/// A longer text is not made: it must be 8 at 5 in a text of FEW bytes.
const AFFORDABLE: usize = 1 << 20;
const FEW: usize = 4096;
/// So many bytes more than are needed.
const MORE: usize = 7;
/// So long such a call may take, however large the text would be.
const SOON: Duration = Duration::from_secs(2);
/// One recorded case in so many is changed, and so many packs are drawn.
const CHANGED: usize = 12;
const DRAWN: usize = 4_000;
/// The least that the recorded packs must come to: packs with goals, texts, texts a byte too
/// short; and the other ones: texts, refusals.
const LEAST_PACKS: usize = 350;
const LEAST_TEXTS: usize = 7_000;
const LEAST_OTHERS: usize = 1_000;

/// What the calls came to.
#[derive(Default)]
struct Asked {
    packs: usize,
    /// Packs whose text is not empty.
    with_goals: usize,
    texts: usize,
    short: usize,
    refused: usize,
}

pub fn check(folder: &str) -> Result<String, String> {
    let (mut recorded, mut others) = (Asked::default(), Asked::default());
    let mut drawn = Draw(Numbers::default());
    let mut numbers = Numbers::default();
    let mut cases = 0;
    for path in vectors::files(folder)? {
        for case in vectors::read(&path)? {
            let at = |why: String| format!("{path}: case {}: {why}", case.name);
            recorded.case(&case).map_err(at)?;
            if cases % CHANGED == 0 {
                let one = |pack: &[u8]| others.any(pack, &[drawn.budgets()]).map(drop);
                wrong::check(&mut numbers, &case.pack, one).map_err(at)?;
            }
            cases += 1;
        }
    }
    let mut drawing = Drawing::new();
    for _ in 0..DRAWN {
        others.any(&drawing.pack().encode(), &[drawn.budgets()])?;
    }
    let written = written(&mut others)?;
    let large = large(&mut others)?;
    let lengths = lengths()?;
    if recorded.with_goals < LEAST_PACKS
        || recorded.texts.min(recorded.short) < LEAST_TEXTS
        || others.texts.min(others.refused) < LEAST_OTHERS
    {
        return Err(format!(
            "{folder}: {recorded}; changed and drawn {others}: too few"
        ));
    }
    Ok(format!(
        "goals of recorded packs shown as the original and, at other budgets, certpack do: \
         {recorded}; of changed, drawn and {written} written packs: {others}; {large} texts of \
         deep and shared terms; {lengths} lengths as document 01 has them\n"
    ))
}

impl std::fmt::Display for Asked {
    fn fmt(&self, f: &mut std::fmt::Formatter) -> std::fmt::Result {
        let Asked {
            packs,
            with_goals,
            texts,
            short,
            refused,
        } = self;
        write!(
            f,
            "{packs} packs ({with_goals} with goals, {texts} texts, {short} a byte too short, \
             {refused} refused)"
        )
    }
}

/// Budgets drawn among those.
struct Draw(Numbers);

impl Draw {
    fn budgets(&mut self) -> Budgets {
        let mut one = || BUDGETS[self.0.below(BUDGETS.len())];
        Budgets {
            form: one(),
            value: one(),
        }
    }
}

/// Each budget with itself and its neighbours; of a large pack document 01's, the least and
/// the most.
fn pairs(large: bool) -> Vec<Budgets> {
    let pair = |form: usize, value: usize| Budgets {
        form: BUDGETS[form],
        value: BUDGETS[value],
    };
    let last = BUDGETS.len() - 1;
    if large {
        return vec![AS_A_RULE, pair(0, 0), pair(last, last)];
    }
    let near = |i: usize| (i.saturating_sub(1)..=last.min(i + 1)).map(move |k| pair(i, k));
    (0..=last).flat_map(near).collect()
}

/// What `cert_classes` says of a pack and leaves, in buffers that suffice.
struct Classed<'a> {
    bytes: &'a [u8],
    lent: Lent,
    returned: Returned,
}

impl<'a> Classed<'a> {
    fn of(bytes: &'a [u8]) -> Result<Self, String> {
        let (lent, returned) = Lent::grown(bytes)?;
        Ok(Classed {
            bytes,
            lent,
            returned,
        })
    }

    fn lengths(&self) -> Lengths {
        self.lent.lengths()
    }

    /// This text, with the words and figures of class building.
    fn shows(&self, budgets: Budgets, room: usize, text: &str) -> Result<(), String> {
        let mut page = Page::new(self.lengths(), room);
        let shown = page.call(self.bytes, budgets);
        if shown.returned() != self.returned {
            return Err(format!("{shown:?}, class building {:?}", self.returned));
        }
        for i in 0..4 {
            page.words.holds(i, &self.lent.0[i])?;
        }
        page.holds(shown, text)
    }

    /// 8 at 5, with zeros.
    fn is_short(&self, budgets: Budgets, room: usize) -> Result<(), String> {
        refuses(self.bytes, budgets, self.lengths(), room, (8, 5))
    }

    /// A text too long to be made is refused, and soon.
    fn is_endless(&self, budgets: Budgets, room: usize) -> Result<(), String> {
        let start = Instant::now();
        self.is_short(budgets, room)?;
        match start.elapsed() {
            time if time > SOON => Err(format!("{time:?} for an 8 at 5")),
            _ => Ok(()),
        }
    }
}

/// A call with these lengths must be refused so.
fn refuses(
    pack: &[u8],
    budgets: Budgets,
    lengths: Lengths,
    room: usize,
    (code, place): (u64, u64),
) -> Result<(), String> {
    let mut page = Page::new(lengths, room);
    let shown = page.call(pack, budgets);
    if (shown.code, shown.place) != (code, place) {
        return Err(format!(
            "{} at {} with lengths {lengths:?} and a text of {room} bytes, not {code} at {place}",
            shown.code, shown.place
        ));
    }
    page.refused(shown)
}

impl Asked {
    /// A recorded case: at document 01's budgets the text is the original's.
    fn case(&mut self, case: &Case) -> Result<(), String> {
        let pairs = pairs(case.pack.len() > vectors::INLINE);
        let done = case.classes == "done" && accepted(&case.pack);
        let wanted = |budgets: Budgets| (budgets == AS_A_RULE).then(|| case.shown.clone());
        match self.pack(&case.pack, &pairs, wanted)? == GOOD {
            good if good == done => Ok(()),
            good => Err(format!("shown: {good}, by the original: {done}")),
        }
    }

    /// Any pack at these budgets; its answer.
    fn any(&mut self, bytes: &[u8], pairs: &[Budgets]) -> Result<Answer, String> {
        self.pack(bytes, pairs, |_| None)
    }

    /// A pack at these budgets; where a text is wanted, the judge must have the same.
    fn pack(
        &mut self,
        bytes: &[u8],
        pairs: &[Budgets],
        wanted: impl Fn(Budgets) -> Option<String>,
    ) -> Result<Answer, String> {
        self.packs += 1;
        let classed = Classed::of(bytes)?;
        let Returned { code, place, .. } = classed.returned;
        let tested = match code {
            0 => self.texts(&classed, pairs, wanted),
            _ => {
                self.refused += 1;
                // Whatever it is refused for, it is so ahead of any text.
                refuses(bytes, pairs[0], classed.lengths(), 0, (code, place))
            }
        };
        tested.map_err(|why| format!("{why}; {}", kept(bytes)))?;
        Ok(Answer { code, place })
    }

    /// The texts of a pack.
    fn texts(
        &mut self,
        classed: &Classed,
        pairs: &[Budgets],
        wanted: impl Fn(Budgets) -> Option<String>,
    ) -> Result<(), String> {
        let pack = pack::decode(classed.bytes).map_err(|refusal| refusal.to_string())?;
        let [class, pattern] = classed.lent.words(pack.steps.len(), classed.returned)?;
        let run = Run::read(&pack, class, pattern)?;
        self.with_goals += usize::from(!pack.goals.is_empty());
        for &budgets in pairs {
            let at = |why: String| format!("{budgets:?}: {why}");
            let judged = run.shown(budgets, AFFORDABLE).map_err(at)?;
            if let Some(wanted) = wanted(budgets)
                && judged.as_ref() != Some(&wanted)
            {
                return Err(at("certpack shows another text than the wanted one".into()));
            }
            self.text(classed, budgets, judged.as_deref()).map_err(at)?;
        }
        Ok(())
    }

    /// A text in a buffer just long enough, longer, and a byte too short.
    fn text(
        &mut self,
        classed: &Classed,
        budgets: Budgets,
        text: Option<&str>,
    ) -> Result<(), String> {
        let Some(text) = text else {
            self.short += 1;
            return classed.is_endless(budgets, FEW);
        };
        self.texts += 1;
        for more in [0, MORE] {
            classed.shows(budgets, text.len() + more, text)?;
        }
        if let Some(room) = text.len().checked_sub(1) {
            self.short += 1;
            classed.is_short(budgets, room)?;
        }
        Ok(())
    }
}

/// Packs with a written answer of class building, and those against a form or over a limit.
fn written(others: &mut Asked) -> Result<usize, String> {
    let (answers, forms) = (class_answers::tries(), limits::tries());
    let refusals = forms.0.iter().filter(|one| one.wanted != GOOD);
    let all: Vec<&Try> = answers.0.iter().chain(refusals).collect();
    for one in &all {
        let at = |why: String| format!("{}: {why}", one.what);
        match others.any(&one.pack, &[AS_A_RULE]).map_err(at)? {
            answer if answer == one.wanted => {}
            answer => return Err(at(format!("{answer}, document 01 says {}", one.wanted))),
        }
    }
    Ok(all.len())
}

/// Deep terms and shared ones: how many texts.
fn large(others: &mut Asked) -> Result<usize, String> {
    let before = others.texts;
    for large in show_packs::all() {
        let at = |why: String| format!("{}: {why}", large.name);
        let bytes = large.pack.encode();
        others.pack(&bytes, large.budgets, large.text).map_err(at)?;
        for &budgets in large.endless {
            let classed = Classed::of(&bytes).map_err(at)?;
            for room in [FEW, MOST_CELLS] {
                classed.is_endless(budgets, room).map_err(at)?;
            }
        }
    }
    Ok(others.texts - before)
}

/// A pack, the lengths of buffers 1 to 4, and that of text.
type Lending<'a> = (&'a [u8], Lengths, usize);

/// Lengths over a limit ahead of all else, work ahead of the pack, text behind all else.
fn lengths() -> Result<usize, String> {
    /// Of goal `r`.
    const TEXT: &str = "r (nat z)\n";
    let long = MOST_CELLS + 1;
    let goalless = class_answers::one_step_pack(false);
    let [met, unmet] = ["r", "g"].map(class_answers::one_goal_pack);
    let lent = |pack: &[u8], cells: [usize; 3]| least(pack.len(), cells);
    let refusals: [(Lending, (u64, u64)); 14] = [
        ((&[], [0, 0, 0, 1024], long), (2, 0)),
        ((&[], [0, 0, 0, 0], long), (2, 0)),
        ((&[0], [0, 0, 0, 1040], long), (2, 0)),
        ((&[], [long, 0, 0, 1024], 0), (2, 0)),
        ((&[], [0, long, 0, 0], 9), (2, 0)),
        ((&[], [0, 0, long, 0], long), (2, 0)),
        ((&[], [0, 0, 0, 1023], MOST_CELLS), (8, 4)),
        ((&[0], [0, 0, 0, 1040], 9), (1, 0)),
        ((&met, lent(&met, [3, 5, 3]), 0), (8, 1)),
        ((&met, lent(&met, [4, 4, 3]), 0), (8, 2)),
        ((&met, lent(&met, [4, 5, 2]), 0), (8, 3)),
        ((&met, lent(&met, [4, 5, 3]), 0), (8, 5)),
        ((&met, lent(&met, [4, 5, 3]), TEXT.len() - 1), (8, 5)),
        ((&unmet, lent(&unmet, [4, 5, 3]), 0), (4, 0)),
    ];
    for ((pack, lengths, room), answer) in refusals {
        refuses(pack, AS_A_RULE, lengths, room, answer)?;
    }
    let enough = lent(&goalless, [4, 5, 3]);
    let shown: [(Lending, &str); 6] = [
        ((&[], [0, 0, 0, 1024], 0), ""),
        ((&[], [0, 0, 0, 1024], MOST_CELLS), ""),
        ((&goalless, enough, 0), ""),
        ((&goalless, enough, 9), ""),
        ((&met, lent(&met, [4, 5, 3]), TEXT.len()), TEXT),
        ((&met, lent(&met, [4, 5, 3]), MOST_CELLS), TEXT),
    ];
    for ((pack, lengths, room), text) in shown {
        let mut page = Page::new(lengths, room);
        let shown = page.call(pack, AS_A_RULE);
        if (shown.code, shown.place) != (0, 0) {
            return Err(format!("{shown:?} with a text of {room} bytes"));
        }
        page.holds(shown, text)?;
    }
    Ok(refusals.len() + shown.len())
}
