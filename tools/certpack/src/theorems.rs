//! Recorded cases as theorems of the definition: that its show call, in buffers just long
//! enough, leaves the original's words, figures and text, and with one cell less of a
//! buffer answers 8, on packs of at most 512 bytes; and on every pack that record 9 opens the
//! variables that the original opens. The kit's checker proves them by evaluation.
use crate::judge::conclusions;
use crate::pack::{Pack, decode};
use crate::vectors::Case;
use crate::verdict::verdict;
use std::fmt::Write as _;

const HEAD: &str = "-- Recorded answers of the Rust original, as theorems of the definition.
use Rattle.std.specs.Prelude.{◌≡◌, refl, List, [], ◌∷◌, map, ℕ}
use Rattle.definition.specs.Frame.{right, within, ◌>>=◌ as ◌>>=f◌}
use Rattle.definition.specs.Run.{◌>>=◌ as ◌>>=r◌}
use Rattle.definition.specs.Store.{nodes_in, term_of}
use Rattle.definition.specs.Graph.{up_to}
use Rattle.definition.specs.Classes.{mark}
use Rattle.definition.specs.Open.{at}
use Rattle.definition.specs.Calls.{Left, cert_show}
use Rattle.definition.specs.declared.Figures.{Figures}
use Rattle.definition.specs.declared.Answer.{Answer}
";

/// The definition is evaluated on packs of so many bytes at the most.
const SMALL: usize = 512;

const FIGURES: [&str; 13] = [
    "steps",
    "classes",
    "ground_nodes",
    "pattern_nodes",
    "class_vars",
    "flex_vars",
    "fixed_vars",
    "subst_entries",
    "subst_renamings",
    "single",
    "few",
    "tens",
    "hundreds",
];

pub(crate) fn list<T: ToString>(xs: &[T]) -> String {
    let words: Vec<String> = xs.iter().map(T::to_string).collect();
    format!(
        "{}[]",
        words.iter().fold(String::new(), |s, w| s + w + " ∷ ")
    )
}

/// One theorem, by evaluation.
fn theorem(out: &mut String, name: &str, opened: &str, left: &str, right: &str) {
    let _ = write!(
        out,
        "\n{name} : {left} ≡ {right}\nunfolding {opened}\n{name} = refl\n"
    );
}

const CALL: &str = "cert_show ◌>>=f◌ ◌>>=r◌ right within";

/// The lengths lent: class, pattern, graph, work, text.
fn call(pack: &str, l: [usize; 5]) -> String {
    let [class, pattern, graph, work, text] = l;
    format!("cert_show ({pack}) 60 12 {class} {pattern} {graph} {work} {text}")
}

/// What record 9 opens in the conclusion of each goal's class.
fn openings(out: &mut String, name: &str, pack: &Pack, case: &Case) -> Result<(), String> {
    let Some((constructor, position)) = pack.abstracted else {
        return Ok(());
    };
    let words = list(&case.pattern_words);
    let goals = conclusions(pack, case)?.into_iter().zip(&case.open);
    for (g, ((conclusion, variables), open)) in goals.enumerate() {
        let marks: Vec<u32> = (0..variables as u32)
            .map(|k| u32::from(open.contains(&k)))
            .collect();
        let many = case.pattern_words.len();
        let left = format!(
            "map (λ (k : ℕ). mark (at {constructor} {position} k (term_of (nodes_in {many} ({words})) {conclusion}))) (up_to {variables})"
        );
        let name = format!("{name}_open{g}");
        theorem(
            out,
            &name,
            "mark at term_of nodes_in up_to",
            &left,
            &list(&marks),
        );
    }
    Ok(())
}

/// The theorems of some cases; none of a case on which the original answers no paper's question.
pub fn theorems(cases: &[&Case]) -> Result<String, String> {
    let mut out = HEAD.to_owned();
    for case in cases {
        let pack = decode(&case.pack).map_err(|r| format!("{}: {r}", case.name))?;
        let name = case.name.replace('-', "");
        if verdict(&pack).is_none() {
            openings(&mut out, &name, &pack, case)?;
        }
        if case.pack.len() > SMALL {
            continue;
        }
        let bytes = list(&case.pack);
        let enough = |g: usize| {
            let (class, pattern) = (case.class_words.len(), case.pattern_words.len());
            let work = 16 * (pattern + g + case.pack.len()) + 1024;
            [class, pattern, g, work, case.shown.len()]
        };
        if let Some((number, place)) = verdict(&pack) {
            let answer = format!("record {{ code = {number}; place = {place} }}");
            let call = call(&bytes, [5000, 5000, 5000, 1_000_000, 5000]);
            let left = format!("({call}).returned");
            theorem(&mut out, &format!("{name}_refused"), CALL, &left, &answer);
            continue;
        }
        if case.classes != "done" {
            return Err(format!("{}: the original did not answer", case.name));
        }
        let graph = case.classes_used.first().copied().unwrap_or(0) as usize;
        let _ = write!(
            out,
            "\nunfoldable {name} : Left\nunfolding {CALL}\n{name} = {}\n",
            call(&bytes, enough(graph))
        );
        let mut of = |part: &str, right: &str| {
            let left = format!("{name}.{part}");
            theorem(&mut out, &format!("{name}_{part}"), &name, &left, right);
        };
        of("class", &list(&case.class_words));
        of("pattern", &list(&case.pattern_words));
        of("text", &list(case.shown.as_bytes()));
        let figures = FIGURES.iter().zip(&case.figures);
        let figures: Vec<String> = figures.map(|(f, n)| format!("{f} = {n}")).collect();
        of("figures", &format!("record {{ {} }}", figures.join("; ")));
        for (i, buffer) in [(0, 1), (1, 2), (2, 3), (4, 5)] {
            let mut short = enough(graph);
            if short[i] > 0 {
                short[i] -= 1;
                let answer = format!("record {{ code = 8; place = {buffer} }}");
                let left = format!("({}).returned", call(&bytes, short));
                theorem(
                    &mut out,
                    &format!("{name}_short{buffer}"),
                    CALL,
                    &left,
                    &answer,
                );
            }
        }
    }
    Ok(out)
}
