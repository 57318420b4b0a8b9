//! Small packs drawn at random: rules that clash, circle or suit, and steps that follow by
//! them or not.
use crate::numbers::Numbers;
use certpack::pack::{Cut, Named, PREDICATE, Pack, Rule, Step, Symbol, Term};

// Constructors z, s and t with 0 to 2 arguments, predicates p and q with 1 and 2.
const ARITY: [usize; 5] = [0, 1, 2, 1, 2];
const CONSTRUCTORS: usize = 3;
const PREDICATES: usize = ARITY.len() - CONSTRUCTORS;
const VARIABLES: usize = 2;
const RULES: usize = 6;
const FACTS: usize = 2;
const TERMS: usize = 6;
const JUDGMENTS: usize = 8;
const STEPS: usize = 8;

pub struct Drawing {
    drawn: Numbers,
}

impl Drawing {
    pub fn new() -> Drawing {
        Drawing {
            drawn: Numbers::default(),
        }
    }

    fn below(&mut self, end: usize) -> usize {
        self.drawn.below(end)
    }

    /// One in so many.
    fn one_in(&mut self, count: usize) -> bool {
        self.below(count) == 0
    }

    fn term(&mut self, depth: usize) -> Term {
        if depth == 0 || self.one_in(2) {
            return Term::Var(self.below(VARIABLES) as u32);
        }
        self.over(0, CONSTRUCTORS, depth - 1)
    }

    /// One of so many symbols from the first on, over terms of this depth.
    fn over(&mut self, first: usize, count: usize, depth: usize) -> Term {
        let head = first + self.below(count);
        let args = (0..ARITY[head]).map(|_| self.term(depth)).collect();
        Term::App(head as u32, args)
    }

    fn judgment(&mut self) -> Term {
        self.over(CONSTRUCTORS, PREDICATES, 2)
    }

    fn rule(&mut self, number: usize) -> Rule {
        let premises = if number < FACTS { 0 } else { 1 + self.below(2) };
        Rule {
            name: format!("r{number}"),
            vars: vec![0; VARIABLES],
            premises: (0..premises).map(|_| self.judgment()).collect(),
            conclusion: self.judgment(),
        }
    }

    /// Distinct nodes, all terms ahead of all judgments.
    fn nodes(&mut self) -> Vec<Vec<u32>> {
        let mut nodes = vec![vec![0]];
        for i in 0..TERMS + JUDGMENTS {
            let terms = nodes.len().min(TERMS + 1);
            let head = match i < TERMS {
                true => 1 + self.below(CONSTRUCTORS - 1),
                false => CONSTRUCTORS + self.below(PREDICATES),
            };
            let args = (0..ARITY[head]).map(|_| self.below(terms) as u32);
            let node: Vec<u32> = std::iter::once(head as u32).chain(args).collect();
            if !nodes.contains(&node) {
                nodes.push(node);
            }
        }
        nodes
    }

    /// A step by a drawn rule; each ref is one by a rule that concludes the premise's
    /// predicate, if there is one.
    fn step(&mut self, pack: &Pack, judgments: &[u32]) -> Step {
        let rules = if pack.steps.is_empty() { FACTS } else { RULES };
        let rule = self.below(rules);
        let mut refs = Vec::new();
        for premise in &pack.rules[rule].premises {
            let suits =
                |step: &Step| head(&pack.rules[step.rule as usize].conclusion) == head(premise);
            let all = 0..pack.steps.len() as u32;
            let suiting: Vec<u32> = all.filter(|&s| suits(&pack.steps[s as usize])).collect();
            refs.push(match suiting.is_empty() {
                true => self.below(pack.steps.len()) as u32,
                false => suiting[self.below(suiting.len())],
            });
        }
        Step {
            rule: rule as u32,
            judgment: judgments[self.below(judgments.len())],
            refs,
        }
    }

    pub fn pack(&mut self) -> Pack {
        let symbols = ARITY.iter().enumerate().map(|(i, &arity)| Symbol {
            name: format!("c{i}"),
            inputs: vec![0; arity],
            output: if i < CONSTRUCTORS { 0 } else { PREDICATE },
        });
        let mut pack = Pack {
            sorts: vec!["N".into()],
            symbols: symbols.collect(),
            ..Pack::default()
        };
        pack.rules = (0..RULES).map(|number| self.rule(number)).collect();
        pack.nodes = self.nodes();
        let all = 0..pack.nodes.len() as u32;
        let judgments: Vec<u32> = all.filter(|&n| pack.sort_of(n) == PREDICATE).collect();
        for _ in 0..STEPS {
            let step = self.step(&pack, &judgments);
            pack.steps.push(step);
        }
        for (name, at) in [("a", STEPS - 1), ("b", self.below(STEPS))] {
            let name = name.to_owned();
            if self.one_in(2) {
                let judgment = pack.steps[at].judgment;
                pack.goals.push(Named {
                    at: judgment,
                    name: name.clone(),
                });
            }
            pack.results.push(Named {
                at: at as u32,
                name,
            });
        }
        if self.one_in(4) {
            pack.cuts.push(Cut {
                predicate: (CONSTRUCTORS + self.below(PREDICATES)) as u32,
                outputs: Vec::new(),
            });
        }
        pack
    }
}

fn head(term: &Term) -> u32 {
    match term {
        Term::Var(v) | Term::App(v, _) => *v,
    }
}
