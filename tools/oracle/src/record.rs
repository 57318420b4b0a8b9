//! One case: the original's answers on a text, and the pack of what it read.
use crate::generalize::{Emitted, Stats, generalize};
use crate::{hook, kernel, schematic};
use certpack::sexp::Sexp;
use certpack::text::Forms;
use certpack::vectors::Case;
use std::fmt::Write as _;

fn lines(forms: &[(usize, Sexp)]) -> String {
    forms.iter().fold(String::new(), |mut text, (_, form)| {
        let _ = writeln!(text, "{form}");
        text
    })
}

/// The original's input, in the form of its function's arguments.
struct Input {
    theory: String,
    goals: String,
    proof: String,
    /// The proof without results that no goal asks for, which the kernel refuses.
    kernel_proof: String,
    cuts: Vec<String>,
    abstract_at: Option<String>,
}

impl Input {
    /// The forms must have given a pack already.
    fn new(forms: &Forms) -> Result<Self, String> {
        let mut cuts = Vec::new();
        let mut abstract_at = None;
        for (_, form) in &forms.cuts {
            let xs = form.list().map_err(|f| f.why)?;
            let words: Vec<String> = xs[1..].iter().map(Sexp::to_string).collect();
            if words[0].contains(':') {
                return Err(format!(
                    "the original can't be told of {}, for its colon",
                    words[0]
                ));
            }
            match xs[0].to_string() == "cut" {
                true => cuts.push(words.join(":")),
                false => abstract_at = Some(words.join(":")),
            }
        }
        let named = |form: &Sexp, tag: &str| -> Option<String> {
            let xs = form.list().ok()?;
            (xs[0].to_string() == tag).then(|| xs[1].to_string())
        };
        let asked: Vec<String> = forms
            .goals
            .iter()
            .filter_map(|(_, f)| named(f, "goal"))
            .collect();
        let kept = (forms.proof.iter())
            .filter(|(_, f)| named(f, "result").is_none_or(|name| asked.contains(&name)))
            .cloned();
        Ok(Input {
            theory: lines(&forms.theory),
            goals: lines(&forms.goals),
            proof: lines(&forms.proof),
            kernel_proof: lines(&kept.collect::<Vec<_>>()),
            cuts,
            abstract_at,
        })
    }

    fn run(
        &self,
        out: Option<(&mut Vec<u8>, &mut Vec<u8>)>,
    ) -> Result<(Stats, Option<Emitted>), String> {
        let cuts: Vec<&str> = self.cuts.iter().map(String::as_str).collect();
        let out = match out {
            Some((goals, proof)) => Some((goals as _, proof as _)),
            None => None,
        };
        let abstract_at = self.abstract_at.as_deref();
        generalize(
            &self.theory,
            &self.goals,
            self.proof.as_bytes(),
            &cuts,
            abstract_at,
            out,
        )
    }
}

/// How a run of the original ended that did not come to its answer.
fn ended(why: &str, out_of_time: bool) -> String {
    match why {
        _ if out_of_time => "out of time".into(),
        "reconstruction thread panicked" => "panic".into(),
        _ => format!("error: {}", one_line(why)),
    }
}

fn one_line(text: &str) -> String {
    text.replace('\n', " ")
}

fn verdict<T>(r: Result<T, String>) -> String {
    match r {
        Ok(_) => "accepts".into(),
        Err(why) => format!("refuses: {}", one_line(&why)),
    }
}

fn figures(s: &Stats) -> Vec<u64> {
    let named = [
        s.steps,
        s.classes,
        s.ground_nodes,
        s.pattern_nodes,
        s.class_vars,
        s.flex_vars,
        s.fixed_vars,
        s.subst_entries,
        s.subst_renamings,
    ];
    named
        .iter()
        .chain(&s.instance_histogram)
        .map(|&n| n as u64)
        .collect()
}

/// The goals as document 01's show call writes them.
fn shown(s: &Stats) -> String {
    let mut text = String::new();
    for goal in &s.goals {
        let _ = writeln!(text, "{} {}", goal.name, goal.general);
        for (variable, flex, value) in &goal.vars {
            let _ = writeln!(text, "{variable} {} {value}", u32::from(*flex));
        }
    }
    text
}

/// Record the original's answers; the pack that it read must be the one made from the text.
pub fn record(name: &str, forms: &Forms) -> Result<Case, String> {
    let mut case = Case {
        name: name.to_owned(),
        pack: forms.pack()?.encode(),
        ..Case::default()
    };
    let input = Input::new(forms)?;
    hook::take();
    let ran = input.run(None);
    let taken = hook::take();
    let read = taken.pack.ok_or_else(|| match &ran {
        Err(why) => format!("{name}: the original does not read it: {why}"),
        Ok(_) => format!("{name}: the original read nothing"),
    })?;
    if read.encode() != case.pack {
        return Err(format!("{name}: the original reads another pack"));
    }
    case.kernel = match input.goals.is_empty() {
        true => "is not asked: no goal".into(),
        false => verdict(
            kernel::Theory::parse(&input.theory)
                .and_then(|t| t.check(&input.goals, &input.kernel_proof)),
        ),
    };
    case.classes = match &ran {
        Ok((stats, _)) => {
            case.figures = figures(stats);
            case.shown = shown(stats);
            "done".into()
        }
        Err(why) => ended(why, taken.out_of_time),
    };
    case.class_words = taken.class_words;
    case.pattern_words = taken.before;
    case.classes_used = vec![taken.class_cells, taken.class_pairs];
    let (mut goals, mut proof) = (Vec::new(), Vec::new());
    let ran = input.run(Some((&mut goals, &mut proof)));
    let taken = hook::take();
    case.open = taken.open;
    case.emit = match ran {
        Ok((_, Some(e))) => {
            let counts = [
                e.open_goals,
                e.rigid_goals.len(),
                e.steps,
                e.inductions,
                e.definitions,
            ];
            case.emitted = counts.iter().map(|&n| n as u64).collect();
            "done".into()
        }
        Ok((_, None)) => return Err(format!("{name}: the original emitted nothing")),
        Err(why) => ended(&why, taken.out_of_time),
    };
    if case.emit == "done" {
        let rest = taken.after.strip_prefix(&case.pattern_words[..]);
        case.more_pattern_words = rest.ok_or("emission changed earlier patterns")?.to_vec();
        case.emit_used = vec![taken.cells, taken.text, taken.pairs];
        let text = |bytes: Vec<u8>| String::from_utf8(bytes).map_err(|e| e.to_string());
        (case.proof, case.goals) = (text(proof)?, text(goals)?);
        let checked = schematic::check(&input.theory, &case.goals, case.proof.as_bytes());
        case.schematic = verdict(checked);
    }
    Ok(case)
}
