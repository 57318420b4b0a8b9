//! The class of a single step: the steps of a recorded pack whose rules have no premises, each as
//! the pack's one result, through the library's class building, beside a plain reading of the
//! rule and the recorded class.
use crate::building::{FIGURES, Lent, least};
use crate::classes::{holds, refuses};
use crate::plain::Built;
use crate::walk::{Store, VAR};
use certpack::needed::{first_steps, is_cut, slot};
use certpack::pack::{self, Named, Pack, Rule, Term};
use certpack::vectors::{self, Case};
use std::collections::HashMap;

const NONE: u32 = u32::MAX;
/// Of a large pack so many steps of one rule are asked for: each call reads all of it.
const EACH: usize = 3;

/// How many steps were asked for, and how many of them stand beside a recorded class.
#[derive(Default)]
pub struct Asked {
    pub steps: usize,
    pub recorded: usize,
}

/// What a rule's conclusion is as a pattern of an empty store.
struct Conclusion {
    store: Store,
    at: u32,
    variables: u32,
}

impl Conclusion {
    fn of(rule: &Rule) -> Conclusion {
        fn read(rule: &Rule, term: &Term, store: &mut Store, met: &mut HashMap<u32, u32>) -> u32 {
            let node = match term {
                Term::Var(k) => {
                    let next = met.len() as u32;
                    let number = *met.entry(*k).or_insert(next);
                    vec![VAR, number, rule.vars[*k as usize]]
                }
                Term::App(head, args) => {
                    let mut node = vec![*head];
                    for arg in args {
                        node.push(read(rule, arg, store, met));
                    }
                    node
                }
            };
            store.intern(node)
        }
        let (mut store, mut met) = (Store::default(), HashMap::new());
        let at = read(rule, &rule.conclusion, &mut store, &mut met);
        Conclusion {
            store,
            at,
            variables: met.len() as u32,
        }
    }

    /// What class building gives a pack whose one needed step is `step`, of this conclusion.
    fn built(&self, pack: &Pack, step: usize) -> Built {
        let mut class_words = vec![NONE; pack.steps.len()];
        class_words[step] = 0;
        class_words.extend([self.at, 1, self.variables]);
        class_words.extend(vec![0; self.variables as usize]);
        let mut figures = [0; FIGURES];
        let counts = [
            1,
            1,
            pack.nodes.len(),
            self.store.nodes.len(),
            self.variables as usize,
        ];
        for (figure, count) in figures.iter_mut().zip(counts) {
            *figure = count as u64;
        }
        figures[FIGURES - 4 + slot(1)] = 1;
        Built {
            class_words,
            pattern_words: self.store.words(),
            figures,
            cells: written_cells(&pack.rules[pack.steps[step].rule as usize]),
        }
    }
}

/// The cells of a rule's variables and of its conclusion, a node for each application written.
fn written_cells(rule: &Rule) -> usize {
    fn cells(term: &Term) -> usize {
        match term {
            Term::Var(_) => 0,
            Term::App(_, args) => 1 + args.len() + args.iter().map(cells).sum::<usize>(),
        }
    }
    rule.vars.len() + cells(&rule.conclusion)
}

/// The steps of a recorded pack that are the first of their judgments, neither cut nor with
/// premises.
pub fn check(case: &Case, asked: &mut Asked) -> Result<(), String> {
    let pack = pack::decode(&case.pack).map_err(|why| format!("{why:?}"))?;
    let each = match case.pack.len() > vectors::INLINE {
        true => EACH,
        false => usize::MAX,
    };
    let first = first_steps(&pack);
    let mut of_rule = vec![0; pack.rules.len()];
    for (s, step) in pack.steps.iter().enumerate() {
        let rule = &pack.rules[step.rule as usize];
        let count = &mut of_rule[step.rule as usize];
        if !rule.premises.is_empty() || first[s] as usize != s || is_cut(&pack, s) || *count == each
        {
            continue;
        }
        *count += 1;
        let at = |why: String| format!("step {s} alone: {why}");
        let conclusion = Conclusion::of(rule);
        alone(&pack, s, &conclusion.built(&pack, s)).map_err(at)?;
        asked.steps += 1;
        if case.classes == "done" && case.class_words[s] != NONE {
            beside(case, &pack, s, &conclusion).map_err(at)?;
            asked.recorded += 1;
        }
    }
    Ok(())
}

/// The pack with step `s` as its one result, and no goal: in buffers just long enough, and in
/// pattern and graph buffers a cell too short.
fn alone(pack: &Pack, s: usize, built: &Built) -> Result<(), String> {
    let pack = Pack {
        goals: Vec::new(),
        results: vec![Named {
            at: s as u32,
            name: "alone".into(),
        }],
        ..pack.clone()
    };
    let bytes = pack.encode();
    let cells = [
        built.class_words.len(),
        built.pattern_words.len(),
        built.cells,
    ];
    let mut lent = Lent::new(least(bytes.len(), cells));
    let returned = lent.call(&bytes);
    holds(&lent, returned, built)?;
    for buffer in [1, 2] {
        let mut short = cells;
        short[buffer] -= 1;
        refuses(&bytes, least(bytes.len(), short), (8, buffer as u64 + 1))?;
    }
    Ok(())
}

/// That the recorded class of step `s` concludes the same term with as many variables, none of
/// them flexible.
fn beside(case: &Case, pack: &Pack, s: usize, conclusion: &Conclusion) -> Result<(), String> {
    let mut at = pack.steps.len();
    for _ in 0..case.class_words[s] {
        at += 3 + case.class_words[at + 2] as usize;
    }
    let variables = case.class_words[at + 2];
    let flex = &case.class_words[at + 3..][..variables as usize];
    if variables != conclusion.variables || flex.contains(&1) {
        return Err(format!(
            "{} variables, and the recorded class has {flex:?}",
            conclusion.variables
        ));
    }
    let recorded = nodes(&case.pattern_words);
    let ours = &conclusion.store.nodes;
    match same(&recorded, case.class_words[at], ours, conclusion.at) {
        true => Ok(()),
        false => Err("the recorded class concludes another term".into()),
    }
}

/// The nodes that words hold.
fn nodes(words: &[u32]) -> Vec<Vec<u32>> {
    let (mut nodes, mut at) = (Vec::new(), 0);
    while let Some(&count) = words.get(at) {
        let end = at + 2 + count as usize;
        nodes.push(words[at + 1..end].to_vec());
        at = end;
    }
    nodes
}

/// Whether two patterns are the same term.
fn same(left: &[Vec<u32>], x: u32, right: &[Vec<u32>], y: u32) -> bool {
    let (a, b) = (&left[x as usize], &right[y as usize]);
    if a[0] != b[0] || a.len() != b.len() {
        return false;
    }
    if a[0] == VAR {
        return a == b;
    }
    a[1..]
        .iter()
        .zip(&b[1..])
        .all(|(&x, &y)| same(left, x, right, y))
}
