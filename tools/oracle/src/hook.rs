//! What the hooks in the original take down: the pack that it read, its classes and
//! patterns, and what its run used.
use crate::oracle::{Map, Pat, Spec, Store, Truth};
use certpack::pack::{Cut, Named, PREDICATE, Pack, Rule, Step, Symbol, Term};
use std::sync::Mutex;
use std::sync::atomic::{AtomicBool, AtomicU64, Ordering::Relaxed};

/// Turns of the search, of walks and of graph pushes that count as out of time.
const MOST_TURNS: u64 = 4_000_000;

#[derive(Default)]
pub struct Taken {
    pub pack: Option<Pack>,
    pub class_words: Vec<u32>,
    /// Pattern words ahead of emission, and at the end.
    pub before: Vec<u32>,
    pub after: Vec<u32>,
    /// The open variables of each goal, ascending.
    pub open: Vec<Vec<u32>>,
    /// Largest graph in cells and pairs taken: of class building, then of emission.
    pub class_cells: u64,
    pub class_pairs: u64,
    pub cells: u64,
    pub pairs: u64,
    /// Longest proof text.
    pub text: u64,
    pub out_of_time: bool,
}

static TAKEN: Mutex<Option<Taken>> = Mutex::new(None);
static CLASS_CELLS: AtomicU64 = AtomicU64::new(0);
static CLASS_PAIRS: AtomicU64 = AtomicU64::new(0);
static CELLS: AtomicU64 = AtomicU64::new(0);
static PAIRS: AtomicU64 = AtomicU64::new(0);
static TEXT: AtomicU64 = AtomicU64::new(0);
static TURNS: AtomicU64 = AtomicU64::new(0);
static OUT_OF_TIME: AtomicBool = AtomicBool::new(false);

fn with(f: impl FnOnce(&mut Taken)) {
    let mut taken = TAKEN.lock().unwrap_or_else(|e| e.into_inner());
    f(taken.get_or_insert_with(Taken::default));
}

/// What was taken down since the last call.
pub fn take() -> Taken {
    let mut all = Taken::default();
    with(|taken| all = std::mem::take(taken));
    all.class_cells = CLASS_CELLS.swap(0, Relaxed);
    all.class_pairs = CLASS_PAIRS.swap(0, Relaxed);
    all.cells = CELLS.swap(0, Relaxed);
    all.pairs = PAIRS.swap(0, Relaxed);
    all.text = TEXT.swap(0, Relaxed);
    all.out_of_time = OUT_OF_TIME.swap(false, Relaxed);
    TURNS.store(0, Relaxed);
    all
}

pub fn turn() {
    if TURNS.fetch_add(1, Relaxed) >= MOST_TURNS {
        OUT_OF_TIME.store(true, Relaxed);
        panic!("out of time");
    }
}

pub fn cells(n: usize) {
    CELLS.fetch_max(n as u64, Relaxed);
    turn();
}

pub fn pair() {
    PAIRS.fetch_add(1, Relaxed);
}

pub fn text(n: usize) {
    TEXT.fetch_max(n as u64, Relaxed);
}

fn pattern_words(store: &Store) -> Vec<u32> {
    let mut words = Vec::new();
    for id in 0..store.len() as u32 {
        let node = store.node(id);
        words.push(node.len() as u32 - 1);
        words.extend(node);
    }
    words
}

pub fn classes<'a>(
    class_of: &[u32],
    classes: impl Iterator<Item = (u32, &'a [bool])>,
    instances: &[usize],
    patterns: &Store,
) {
    let mut words = class_of.to_vec();
    for ((conclusion, flex), &count) in classes.zip(instances) {
        words.extend([conclusion, count as u32, flex.len() as u32]);
        words.extend(flex.iter().map(|&f| u32::from(f)));
    }
    with(|taken| {
        taken.class_words = words;
        taken.before = pattern_words(patterns);
    });
    // From here on cells and pairs are emission's.
    CLASS_CELLS.store(CELLS.swap(0, Relaxed), Relaxed);
    CLASS_PAIRS.store(PAIRS.swap(0, Relaxed), Relaxed);
}

pub fn open(goals: impl Iterator<Item = Vec<u32>>) {
    let sorted = |mut variables: Vec<u32>| {
        variables.sort();
        variables
    };
    with(|taken| taken.open = goals.map(sorted).collect());
}

pub fn patterns(store: &Store) {
    with(|taken| taken.after = pattern_words(store));
}

fn term(p: &Pat) -> Term {
    match p {
        Pat::Var(v) => Term::Var(*v as u32),
        Pat::App(h, args) => Term::App(*h, args.iter().map(term).collect()),
    }
}

/// The pack of what the original read, in its own order of symbols and rules. Its
/// maps have no order: results go by name, cuts by predicate.
pub fn read(
    spec: &Spec,
    ground: &Store,
    goals: &[(String, u32)],
    truth: &Truth,
    cut: &Map<u32, Vec<usize>>,
    abstract_at: Option<(u32, usize)>,
) {
    let mut sorts: Vec<(u32, String)> = spec.sorts.iter().map(|(n, &i)| (i, n.clone())).collect();
    sorts.sort();
    let mut symbols: Vec<Symbol> = (spec.names.iter().zip(&spec.inputs))
        .map(|(name, inputs)| Symbol {
            name: name.clone(),
            inputs: inputs.clone(),
            output: PREDICATE,
        })
        .collect();
    for (sort, constructors) in spec.by_sort.iter().enumerate() {
        for &c in constructors {
            symbols[c as usize].output = sort as u32;
        }
    }
    let rules = spec.rules.iter().map(|r| Rule {
        name: r.name.clone(),
        vars: r.vars.iter().map(|v| v.1).collect(),
        premises: r.premises.iter().map(term).collect(),
        conclusion: term(&r.conclusion),
    });
    let steps = (0..truth.rule.len()).map(|s| Step {
        rule: truth.rule[s],
        judgment: truth.judgment[s],
        refs: truth.refs[s].clone(),
    });
    let named = |(name, at): (&String, &u32)| Named {
        at: *at,
        name: name.clone(),
    };
    let mut results: Vec<Named> = truth.results.iter().map(named).collect();
    results.sort_by(|a, b| a.name.cmp(&b.name));
    let mut cuts: Vec<Cut> = (cut.iter())
        .map(|(&predicate, outputs)| Cut {
            predicate,
            outputs: outputs.iter().map(|&o| o as u32).collect(),
        })
        .collect();
    cuts.sort_by_key(|c| c.predicate);
    let pack = Pack {
        sorts: sorts.into_iter().map(|s| s.1).collect(),
        symbols,
        rules: rules.collect(),
        nodes: (0..ground.len() as u32)
            .map(|id| ground.node(id).to_vec())
            .collect(),
        steps: steps.collect(),
        goals: goals.iter().map(|(name, at)| named((name, at))).collect(),
        results,
        cuts,
        abstracted: abstract_at.map(|(c, p)| (c, p as u32)),
    };
    with(|taken| taken.pack = Some(pack));
}
