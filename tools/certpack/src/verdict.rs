//! The verdict on a pack's steps and goals, as document 01 states it.
use crate::pack::{Pack, Term};
use std::collections::HashMap;

/// Document 01's number and place: 3 with a step, 4 with a goal; `None` where all pass.
pub fn verdict(pack: &Pack) -> Option<(u32, usize)> {
    let failed = (0..pack.steps.len()).find(|&s| !passes(pack, s));
    if let Some(s) = failed {
        return Some((3, s));
    }
    let results: HashMap<&str, u32> = pack
        .results
        .iter()
        .map(|r| (r.name.as_str(), r.at))
        .collect();
    let unmet = pack.goals.iter().position(|g| {
        let step = results.get(g.name.as_str());
        step.is_none_or(|&s| pack.steps[s as usize].judgment != g.at)
    });
    unmet.map(|g| (4, g))
}

/// One assignment turns the premises into the refs' judgments and the conclusion into the step's.
fn passes(pack: &Pack, s: usize) -> bool {
    let step = &pack.steps[s];
    let rule = &pack.rules[step.rule as usize];
    let mut values = vec![None; rule.vars.len()];
    let premises = rule.premises.iter().zip(&step.refs);
    let wanted = premises.map(|(p, &r)| (p, pack.steps[r as usize].judgment));
    wanted
        .chain([(&rule.conclusion, step.judgment)])
        .all(|(t, g)| matches(pack, t, g, &mut values))
}

/// Match a rule's term against a ground node, extending the assignment.
pub fn matches(pack: &Pack, t: &Term, node: u32, values: &mut [Option<u32>]) -> bool {
    match t {
        Term::Var(v) => *values[*v as usize].get_or_insert(node) == node,
        Term::App(head, args) => {
            let n = &pack.nodes[node as usize];
            n[0] == *head
                && args
                    .iter()
                    .zip(&n[1..])
                    .all(|(a, &k)| matches(pack, a, k, values))
        }
    }
}
