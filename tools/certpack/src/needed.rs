//! Which steps class building needs, and the histogram's slot of a class, by document 01.
use crate::pack::Pack;
use std::collections::HashMap;

/// The predicate of a step's judgment.
pub fn predicate(pack: &Pack, step: usize) -> u32 {
    pack.nodes[pack.steps[step].judgment as usize][0]
}

pub fn is_cut(pack: &Pack, step: usize) -> bool {
    pack.cut(predicate(pack, step)).is_some()
}

/// The first step with each step's judgment.
pub fn first_steps(pack: &Pack) -> Vec<u32> {
    let mut by_judgment = HashMap::new();
    (0..)
        .zip(&pack.steps)
        .map(|(s, step)| *by_judgment.entry(step.judgment).or_insert(s))
        .collect()
}

/// The steps that a step's refs stand for.
pub fn refs<'a>(pack: &'a Pack, first: &'a [u32], step: usize) -> impl Iterator<Item = usize> {
    let refs = pack.steps[step].refs.iter();
    refs.map(|&r| first[r as usize] as usize)
}

/// The results' steps, and onwards the refs of needed steps that aren't cut.
pub fn needed(pack: &Pack, first: &[u32]) -> Vec<bool> {
    let mut needed = vec![false; first.len()];
    for result in &pack.results {
        needed[first[result.at as usize] as usize] = true;
    }
    // A ref is an earlier step, and its judgment's first step is no later.
    for s in (0..needed.len()).rev() {
        if needed[s] && !is_cut(pack, s) {
            refs(pack, first, s).for_each(|r| needed[r] = true);
        }
    }
    needed
}

/// The histogram's slot of a class with so many steps.
pub fn slot(count: u32) -> usize {
    match count {
        0 | 1 => 0,
        2..=9 => 1,
        10..=99 => 2,
        _ => 3,
    }
}
