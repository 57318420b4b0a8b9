//! Recorded emissions as rows of the definition's table: that its emit call, in buffers just
//! long enough, leaves all that the original wrote, and with one cell less of a buffer answers
//! 8; and where the original has no answer, document 01's number. The kit's checker proves them
//! by evaluation.
use crate::pack::{Pack, decode};
use crate::theorems::list;
use crate::vectors::Case;
use crate::verdict::verdict;
use std::fmt::Write as _;

const HEAD: &str = "-- Recorded emissions of the Rust original, as rows of the definition.
use Rattle.std.specs.Prelude.{refl, [], ◌∷◌}
use Rattle.emission.specs.Rows.Row.{Row, emits, left, ample, Claim, seen, said}
";

/// What is expected of a case.
enum Expected {
    Written,
    /// A number of document 01's table with its place.
    Refused(u32, usize),
    /// Nothing, and why.
    Nothing(&'static str),
}

fn expected(case: &Case, pack: &Pack) -> Result<Expected, String> {
    if let Some((number, place)) = verdict(pack) {
        return Ok(Expected::Refused(number, place));
    }
    let on_cut = |g: u32| pack.cut(pack.nodes[g as usize][0]).is_some();
    Ok(match case.emit.as_str() {
        "done" => Expected::Written,
        "out of time" => Expected::Nothing("its search doesn't end in time"),
        "error: abstracted goal variables of more than one sort" => Expected::Refused(9, 0),
        "panic" => match pack.goals.iter().position(|g| on_cut(g.at)) {
            Some(goal) => Expected::Refused(10, goal),
            None => Expected::Nothing("the original panics as it settles two heads"),
        },
        _ if pack.goals.len() == 1 => Expected::Refused(11, 0),
        other => return Err(format!("{}: of which goal is {other}", case.name)),
    })
}

fn row(out: &mut String, name: &str, row: &str) {
    let _ = write!(
        out,
        "\n{name} : Claim ({row})\nunfolding seen said\n{name} = refl\n"
    );
}

/// The lengths lent: class, pattern, graph, proof, goals.
fn room(l: [usize; 5]) -> String {
    let [class, pattern, graph, proof, goals] = l;
    format!(
        "(record {{ class = {class}; pattern = {pattern}; graph = {graph}; proof = {proof}; goals = {goals} }})"
    )
}

/// The rows of the cases with packs of at most so many bytes; of one left out, a comment.
pub fn emissions(cases: &[&Case], most: usize) -> Result<String, String> {
    let mut out = HEAD.to_owned();
    for case in cases.iter().filter(|c| c.pack.len() <= most) {
        let pack = decode(&case.pack).map_err(|r| format!("{}: {r}", case.name))?;
        let name = case.name.replace('-', "");
        let bytes = list(&case.pack);
        match expected(case, &pack)? {
            Expected::Nothing(why) => {
                let _ = write!(out, "\n-- left out: {}, {why}\n", case.name);
            }
            Expected::Refused(number, place) => {
                let claim = format!("emits ({bytes}) ample {number} {place}");
                row(&mut out, &name, &claim);
            }
            Expected::Written => written(&mut out, case, &name, &bytes)?,
        }
    }
    Ok(out)
}

fn written(out: &mut String, case: &Case, name: &str, bytes: &str) -> Result<(), String> {
    let used = |used: &[u64]| used.first().copied().unwrap_or(0) as usize;
    let graph = used(&case.classes_used).max(used(&case.emit_used));
    let longest = case.emit_used.get(1).copied().unwrap_or(0) as usize;
    if longest > case.proof.len() {
        return Err(format!("{}: an undone attempt wrote more", case.name));
    }
    let pattern = [&case.pattern_words[..], &case.more_pattern_words].concat();
    let claim = format!(
        "left ({bytes}) {graph} ({}) ({}) ({}) ({}) ({}) ({})",
        list(&case.emitted),
        list(&case.figures),
        list(&case.class_words),
        list(&pattern),
        list(case.proof.as_bytes()),
        list(case.goals.as_bytes())
    );
    row(out, name, &claim);
    let enough = [
        case.class_words.len(),
        pattern.len(),
        graph,
        case.proof.len(),
        case.goals.len(),
    ];
    for (i, buffer) in [1, 2, 3, 5, 6].into_iter().enumerate() {
        let mut short = enough;
        if short[i] > 0 {
            short[i] -= 1;
            let claim = format!("emits ({bytes}) {} 8 {buffer}", room(short));
            row(out, &format!("{name}_short{buffer}"), &claim);
        }
    }
    Ok(())
}
