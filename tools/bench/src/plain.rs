//! Class building written plainly from document 01, for packs that the original can't be
//! asked about: wrong steps and goals. It keeps no worklist's order, no stamps and no
//! buffers; what it answers of the recorded packs must be what the original did.
use crate::building::FIGURES;
use crate::walk::{Store, VAR};
use certpack::needed::{first_steps, is_cut, needed, predicate, refs, slot};
use certpack::pack::{Pack, Term};
use std::collections::{HashMap, HashSet};

const NONE: u32 = u32::MAX;

/// Class words, pattern words, figures, and the cells of the largest graph.
#[derive(Debug, PartialEq, Eq)]
pub struct Built {
    pub class_words: Vec<u32>,
    pub pattern_words: Vec<u32>,
    pub figures: [u64; FIGURES],
    pub cells: usize,
}

/// Document 01's number and place.
pub type Refused = (u64, u64);

struct Class {
    conclusion: u32,
    flex: Vec<bool>,
    count: u32,
    is_cut: bool,
}

enum Node {
    Var(u32),
    App(u32, Vec<usize>),
}

/// Terms as nodes; a node that was joined with another is linked to it.
#[derive(Default)]
struct Graph {
    nodes: Vec<Node>,
    link: Vec<Option<usize>>,
    flex: Vec<bool>,
}

impl Graph {
    fn push(&mut self, node: Node, flex: bool) -> usize {
        self.nodes.push(node);
        self.link.push(None);
        self.flex.push(flex);
        self.nodes.len() - 1
    }

    fn find(&self, mut x: usize) -> usize {
        while let Some(next) = self.link[x] {
            x = next;
        }
        x
    }

    fn cells(&self) -> usize {
        let cells = |node: &Node| match node {
            Node::Var(_) => 1,
            Node::App(_, args) => 1 + args.len(),
        };
        self.nodes.iter().map(cells).sum()
    }

    fn instance(&mut self, term: &Term, env: &[usize]) -> usize {
        match term {
            Term::Var(v) => env[*v as usize],
            Term::App(head, args) => {
                let args = args.iter().map(|a| self.instance(a, env)).collect();
                self.push(Node::App(*head, args), false)
            }
        }
    }

    /// A node for each node of the pattern; `seen` has them by the patterns' numbers.
    fn copy(
        &mut self,
        store: &Store,
        p: u32,
        flex: &[bool],
        seen: &mut HashMap<u32, usize>,
    ) -> usize {
        if let Some(&x) = seen.get(&p) {
            return x;
        }
        let node = &store.nodes[p as usize];
        let x = if node[0] == VAR {
            self.push(Node::Var(node[2]), flex[node[1] as usize])
        } else {
            let args = node[1..]
                .iter()
                .map(|&a| self.copy(store, a, flex, seen))
                .collect();
            self.push(Node::App(node[0], args), false)
        };
        seen.insert(p, x);
        x
    }

    /// Join two terms; no, where two heads meet. A circle is no clash.
    fn join(&mut self, x: usize, y: usize) -> bool {
        let mut left = vec![(x, y)];
        while let Some((x, y)) = left.pop() {
            let (x, y) = (self.find(x), self.find(y));
            if x == y {
                continue;
            }
            let (from, to) = match (&self.nodes[x], &self.nodes[y]) {
                (Node::App(h, a), Node::App(k, b)) => {
                    if h != k {
                        return false;
                    }
                    left.extend(a.iter().copied().zip(b.iter().copied()));
                    (x, y)
                }
                (Node::App(..), Node::Var(_)) => (y, x),
                (Node::Var(_), Node::App(..)) => (x, y),
                (Node::Var(_), Node::Var(_)) => {
                    self.flex[y] |= self.flex[x];
                    (x, y)
                }
            };
            self.link[from] = Some(to);
        }
        true
    }

    /// Whether some term holds itself.
    fn circular(&self) -> bool {
        #[derive(Clone, Copy, PartialEq)]
        enum Mark {
            New,
            Open,
            Done,
        }
        fn ends(graph: &Graph, x: usize, marks: &mut [Mark]) -> bool {
            let x = graph.find(x);
            match marks[x] {
                Mark::Open => return false,
                Mark::Done => return true,
                Mark::New => marks[x] = Mark::Open,
            }
            let good = match &graph.nodes[x] {
                Node::Var(_) => true,
                Node::App(_, args) => args.iter().all(|&a| ends(graph, a, marks)),
            };
            marks[x] = Mark::Done;
            good
        }
        let mut marks = vec![Mark::New; self.nodes.len()];
        !(0..self.nodes.len()).all(|x| ends(self, x, &mut marks))
    }

    /// Give the variables of `x` values so that it is ground node `g`; no, where it can't be.
    fn matches(&self, pack: &Pack, x: usize, g: u32, values: &mut HashMap<usize, u32>) -> bool {
        let (mut left, mut seen) = (vec![(x, g)], HashSet::new());
        while let Some((x, g)) = left.pop() {
            let x = self.find(x);
            let ground = &pack.nodes[g as usize];
            match &self.nodes[x] {
                Node::Var(_) if *values.entry(x).or_insert(g) != g => return false,
                Node::Var(_) => {}
                Node::App(head, _) if *head != ground[0] => return false,
                Node::App(_, args) if seen.insert((x, g)) => {
                    left.extend(args.iter().copied().zip(ground[1..].iter().copied()));
                }
                Node::App(..) => {}
            }
        }
        true
    }
}

/// What reading back has met: patterns by node, the numbered variables in their order.
struct Reading<'a> {
    pack: &'a Pack,
    graph: &'a Graph,
    /// Ground nodes as patterns.
    lifted: &'a mut HashMap<u32, u32>,
    values: HashMap<usize, u32>,
    patterns: HashMap<usize, u32>,
    numbered: Vec<usize>,
}

impl Reading<'_> {
    /// The pattern of `x`. A variable without a number gets one if all do or it is flexible,
    /// and is its value otherwise.
    fn read(&mut self, store: &mut Store, x: usize, all: bool) -> u32 {
        let x = self.graph.find(x);
        if let Some(&p) = self.patterns.get(&x) {
            return p;
        }
        let p = match &self.graph.nodes[x] {
            Node::Var(_) if !all && !self.graph.flex[x] => self.lift(store, self.values[&x]),
            Node::Var(sort) => {
                self.numbered.push(x);
                store.intern(vec![VAR, self.numbered.len() as u32 - 1, *sort])
            }
            Node::App(head, args) => {
                let args = args.iter().map(|&a| self.read(store, a, all));
                let node = std::iter::once(*head).chain(args).collect();
                store.intern(node)
            }
        };
        self.patterns.insert(x, p);
        p
    }

    fn lift(&mut self, store: &mut Store, g: u32) -> u32 {
        if let Some(&p) = self.lifted.get(&g) {
            return p;
        }
        let mut node = self.pack.nodes[g as usize].clone();
        for a in &mut node[1..] {
            *a = self.lift(store, *a);
        }
        let p = store.intern(node);
        self.lifted.insert(g, p);
        p
    }
}

struct Builder<'a> {
    pack: &'a Pack,
    /// The first step with each step's judgment.
    first: Vec<u32>,
    class_of: Vec<u32>,
    classes: Vec<Class>,
    store: Store,
    lifted: HashMap<u32, u32>,
    cells: usize,
    fixed: usize,
    entries: usize,
    renamings: usize,
}

/// The classes of a pack; or the refusal, whatever the buffers.
pub fn build(pack: &Pack) -> Result<Built, Refused> {
    let mut builder = Builder {
        pack,
        first: first_steps(pack),
        class_of: vec![NONE; pack.steps.len()],
        classes: Vec::new(),
        store: Store::default(),
        lifted: HashMap::new(),
        cells: 0,
        fixed: 0,
        entries: 0,
        renamings: 0,
    };
    builder.steps()?;
    builder.goals()?;
    Ok(builder.built())
}

impl Builder<'_> {
    fn steps(&mut self) -> Result<(), Refused> {
        let mut keys = HashMap::new();
        for (s, needed) in needed(self.pack, &self.first).into_iter().enumerate() {
            if !needed {
                continue;
            }
            let is_cut = is_cut(self.pack, s);
            let key = match is_cut {
                true => (predicate(self.pack, s), None),
                false => {
                    let refs = refs(self.pack, &self.first, s).map(|r| self.class_of[r]);
                    (self.pack.steps[s].rule, Some(refs.collect::<Vec<_>>()))
                }
            };
            let class = *keys.entry(key).or_insert(self.classes.len());
            if class == self.classes.len() {
                let made = match is_cut {
                    true => self.cut_class(predicate(self.pack, s)),
                    false => self.rule_class(s)?,
                };
                self.classes.push(made);
            }
            self.class_of[s] = class as u32;
            self.classes[class].count += 1;
        }
        Ok(())
    }

    fn cut_class(&mut self, predicate: u32) -> Class {
        let inputs = &self.pack.symbols[predicate as usize].inputs;
        let mut node = vec![predicate];
        for (k, &sort) in inputs.iter().enumerate() {
            node.push(self.store.intern(vec![VAR, k as u32, sort]));
        }
        Class {
            conclusion: self.store.intern(node),
            flex: vec![true; inputs.len()],
            count: 0,
            is_cut: true,
        }
    }

    fn rule_class(&mut self, s: usize) -> Result<Class, Refused> {
        let place = s as u64;
        let rule = &self.pack.rules[self.pack.steps[s].rule as usize];
        let mut graph = Graph::default();
        let env: Vec<usize> = rule
            .vars
            .iter()
            .map(|&so| graph.push(Node::Var(so), false))
            .collect();
        let (mut premises, mut copies) = (Vec::new(), Vec::new());
        for (term, r) in rule.premises.iter().zip(refs(self.pack, &self.first, s)) {
            let class = &self.classes[self.class_of[r] as usize];
            let mut seen = HashMap::new();
            let copy = graph.copy(&self.store, class.conclusion, &class.flex, &mut seen);
            let premise = graph.instance(term, &env);
            if !graph.join(premise, copy) {
                return Err((5, place));
            }
            premises.push((premise, self.pack.steps[r].judgment));
            let mut variables: Vec<(u32, usize)> = (seen.into_iter())
                .filter(|(p, _)| self.store.nodes[*p as usize][0] == VAR)
                .map(|(p, x)| (self.store.nodes[p as usize][1], x))
                .collect();
            variables.sort();
            copies.extend(variables.into_iter().map(|(_, x)| x));
        }
        if graph.circular() {
            return Err((6, place));
        }
        let mut values = HashMap::new();
        for (x, g) in premises {
            if !graph.matches(self.pack, x, g, &mut values) {
                return Err((7, place));
            }
        }
        let conclusion = graph.instance(&rule.conclusion, &env);
        self.cells = self.cells.max(graph.cells());
        let mut reading = Reading {
            pack: self.pack,
            graph: &graph,
            lifted: &mut self.lifted,
            values,
            patterns: HashMap::new(),
            numbered: Vec::new(),
        };
        let conclusion = reading.read(&mut self.store, conclusion, true);
        for x in copies {
            let p = reading.read(&mut self.store, x, false);
            self.entries += 1;
            self.renamings += usize::from(self.store.nodes[p as usize][0] == VAR);
        }
        let fixed = |x: &&usize| !graph.flex[**x] && !reading.numbered.contains(x);
        self.fixed += reading.values.keys().filter(fixed).count();
        Ok(Class {
            conclusion,
            flex: reading.numbered.iter().map(|&x| graph.flex[x]).collect(),
            count: 0,
            is_cut: false,
        })
    }

    fn goals(&self) -> Result<(), Refused> {
        for (i, goal) in self.pack.goals.iter().enumerate() {
            let named = self
                .pack
                .results
                .iter()
                .find(|result| result.name == goal.name);
            let result =
                named.filter(|result| self.pack.steps[result.at as usize].judgment == goal.at);
            let Some(result) = result else {
                return Err((4, i as u64));
            };
            let first = self.first[result.at as usize] as usize;
            let class = &self.classes[self.class_of[first] as usize];
            let mut graph = Graph::default();
            let x = graph.copy(
                &self.store,
                class.conclusion,
                &class.flex,
                &mut HashMap::new(),
            );
            if !graph.matches(self.pack, x, goal.at, &mut HashMap::new()) {
                return Err((7, result.at.into()));
            }
        }
        Ok(())
    }

    fn built(self) -> Built {
        let mut slots = [0; 4];
        let mut class_words = self.class_of;
        for class in &self.classes {
            class_words.extend([class.conclusion, class.count, class.flex.len() as u32]);
            class_words.extend(class.flex.iter().map(|&flex| u32::from(flex)));
            slots[slot(class.count)] += 1;
        }
        let marks = || {
            self.classes
                .iter()
                .filter(|class| !class.is_cut)
                .flat_map(|class| &class.flex)
        };
        let counts = [
            self.classes.iter().map(|class| class.count as usize).sum(),
            self.classes.len(),
            self.pack.nodes.len(),
            self.store.nodes.len(),
            marks().count(),
            marks().filter(|flex| **flex).count(),
            self.fixed,
            self.entries,
            self.renamings,
        ];
        let mut figures = [0; FIGURES];
        for (figure, count) in figures.iter_mut().zip(counts.into_iter().chain(slots)) {
            *figure = count as u64;
        }
        Built {
            class_words,
            pattern_words: self.store.words(),
            figures,
            cells: self.cells,
        }
    }
}
