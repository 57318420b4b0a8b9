//! Random certificates by forward chaining, as text. A seed always gives the same text.
use std::collections::HashMap;
use std::fmt::Write as _;

/// A small generator of numbers (splitmix64).
pub struct Random(u64);

impl Random {
    pub fn new(seed: u64) -> Self {
        Random(seed.wrapping_mul(0x9e37_79b9_7f4a_7c15) ^ 0x5851_f42d_4c95_7f2d)
    }

    fn next(&mut self) -> u64 {
        self.0 = self.0.wrapping_add(0x9e37_79b9_7f4a_7c15);
        let mut z = self.0;
        z = (z ^ (z >> 30)).wrapping_mul(0xbf58_476d_1ce4_e5b9);
        z = (z ^ (z >> 27)).wrapping_mul(0x94d0_49bb_1331_11eb);
        z ^ (z >> 31)
    }

    fn below(&mut self, n: usize) -> usize {
        (self.next() % n.max(1) as u64) as usize
    }

    fn between(&mut self, low: usize, high: usize) -> usize {
        low + self.below(high - low + 1)
    }

    fn chance(&mut self, percent: usize) -> bool {
        self.below(100) < percent
    }

    fn pick<'a, T>(&mut self, xs: &'a [T]) -> Option<&'a T> {
        xs.get(self.below(xs.len()))
    }
}

#[derive(Clone)]
enum Term {
    Var(usize),
    App(usize, Vec<Term>),
}

struct Symbol {
    name: String,
    inputs: Vec<usize>,
    /// `None` for a predicate.
    output: Option<usize>,
}

struct Rule {
    name: String,
    /// Sorts of the variables.
    vars: Vec<usize>,
    premises: Vec<Term>,
    conclusion: Term,
}

struct Step {
    rule: usize,
    refs: Vec<usize>,
    judgment: usize,
}

/// How much to make.
#[derive(Clone, Copy)]
pub struct Size {
    /// Blocks of sorts with their predicates, and rules that use them.
    pub blocks: usize,
    pub uses: usize,
    pub steps: usize,
    pub results: usize,
    /// Largest term, as a tree.
    pub term: usize,
}

struct Maker {
    random: Random,
    size: Size,
    sorts: Vec<String>,
    symbols: Vec<Symbol>,
    rules: Vec<Rule>,
    /// Predicates that a cut suits, with their outputs.
    cuttable: Vec<(usize, Vec<usize>)>,
    /// Predicates of the rules that use the blocks.
    uses: Vec<usize>,
    nodes: Vec<Vec<usize>>,
    /// Each node's size as a tree.
    sizes: Vec<usize>,
    interned: HashMap<Vec<usize>, usize>,
    steps: Vec<Step>,
    /// Steps by predicate.
    facts: Vec<Vec<usize>>,
    seen: HashMap<usize, usize>,
}

fn var(v: usize) -> Term {
    Term::Var(v)
}

fn app(h: usize, args: &[Term]) -> Term {
    Term::App(h, args.to_vec())
}

/// The text of a random certificate.
pub fn certificate(seed: u64, size: Size) -> String {
    let mut m = Maker {
        random: Random::new(seed),
        size,
        sorts: Vec::new(),
        symbols: Vec::new(),
        rules: Vec::new(),
        cuttable: Vec::new(),
        uses: Vec::new(),
        nodes: Vec::new(),
        sizes: Vec::new(),
        interned: HashMap::new(),
        steps: Vec::new(),
        facts: Vec::new(),
        seen: HashMap::new(),
    };
    m.theory();
    m.chain();
    m.text()
}

impl Maker {
    fn sort(&mut self, name: &str) -> usize {
        self.sorts.push(name.to_owned());
        self.sorts.len() - 1
    }

    fn symbol(&mut self, name: &str, inputs: &[usize], output: Option<usize>) -> usize {
        self.symbols.push(Symbol {
            name: name.to_owned(),
            inputs: inputs.to_vec(),
            output,
        });
        self.facts.push(Vec::new());
        self.symbols.len() - 1
    }

    fn rule(&mut self, vars: &[usize], premises: &[Term], conclusion: Term) {
        let name = format!("r{}", self.rules.len());
        self.rules.push(Rule {
            name,
            vars: vars.to_vec(),
            premises: premises.to_vec(),
            conclusion,
        });
    }

    fn constructors(&self, sort: usize) -> Vec<usize> {
        let all = 0..self.symbols.len();
        all.filter(|&s| self.symbols[s].output == Some(sort))
            .collect()
    }

    fn predicates(&self) -> Vec<usize> {
        let all = 0..self.symbols.len();
        all.filter(|&s| self.symbols[s].output.is_none()).collect()
    }

    /// A predicate that holds of every term of the sort, by recursion on it.
    fn total(&mut self, name: &str, sort: usize) -> usize {
        let p = self.symbol(name, &[sort], None);
        for c in self.constructors(sort) {
            let inputs = self.symbols[c].inputs.clone();
            let args: Vec<Term> = (0..inputs.len()).map(var).collect();
            let recursive = (0..inputs.len()).filter(|&i| inputs[i] == sort);
            let premises: Vec<Term> = recursive.map(|i| app(p, &[var(i)])).collect();
            self.rule(&inputs, &premises, app(p, &[app(c, &args)]));
        }
        self.cuttable.push((p, Vec::new()));
        p
    }

    fn theory(&mut self) {
        let mut naturals = None;
        for _ in 0..self.size.blocks {
            let known = self.sorts.len();
            match self.random.below(if naturals.is_some() { 9 } else { 4 }) {
                0 | 1 if naturals.is_none() => naturals = Some(self.naturals()),
                0..=2 if known < 6 => self.enumeration(),
                3 | 4 if known < 6 => self.tree(),
                _ => match naturals {
                    Some((n, z, s)) => self.function(n, z, s),
                    None => naturals = Some(self.naturals()),
                },
            }
        }
        if self.random.chance(20) {
            self.free();
        }
        for _ in 0..self.size.uses {
            self.used();
        }
        self.name_one_l();
    }

    /// One constant, one constructor with one recursive argument.
    fn naturals(&mut self) -> (usize, usize, usize) {
        let n = self.sort("N");
        let z = self.symbol("z", &[], Some(n));
        let s = self.symbol("s", &[n], Some(n));
        if self.random.chance(80) {
            self.total("n", n);
        }
        (n, z, s)
    }

    /// Constants only: a sort with no recursive argument.
    fn enumeration(&mut self) {
        let k = self.sorts.len();
        let sort = self.sort(&format!("B{k}"));
        for i in 0..self.random.between(1, 3) {
            self.symbol(&format!("c{k}{i}"), &[], Some(sort));
        }
        self.total(&format!("b{k}"), sort);
    }

    /// A constructor with several arguments, recursive and of other sorts.
    fn tree(&mut self) {
        let k = self.sorts.len();
        let sort = self.sort(&format!("T{k}"));
        self.symbol(&format!("e{k}"), &[], Some(sort));
        let mut inputs = Vec::new();
        for _ in 0..self.random.between(1, 3) {
            let other = self.random.below(self.sorts.len());
            inputs.push(if self.random.chance(60) { sort } else { other });
        }
        self.symbol(&format!("t{k}"), &inputs, Some(sort));
        if self.random.chance(30) {
            self.symbol(&format!("u{k}"), &[sort], Some(sort));
        }
        if self.random.chance(85) {
            self.total(&format!("p{k}"), sort);
        }
    }

    /// A relation on naturals, most with a functional output.
    fn function(&mut self, n: usize, z: usize, s: usize) {
        let suc = |t: Term| app(s, &[t]);
        let zero = || app(z, &[]);
        let k = self.symbols.len();
        let (x, y, o) = (var(0), var(1), var(2));
        match self.random.below(6) {
            0 => {
                let p = self.symbol(&format!("add{k}"), &[n, n, n], None);
                self.rule(&[n], &[], app(p, &[zero(), x.clone(), x.clone()]));
                let premise = app(p, &[x.clone(), y.clone(), o.clone()]);
                self.rule(&[n, n, n], &[premise], app(p, &[suc(x), y, suc(o)]));
                self.cuttable.push((p, vec![2]));
            }
            1 => {
                let p = self.symbol(&format!("max{k}"), &[n, n, n], None);
                self.rule(&[n], &[], app(p, &[zero(), x.clone(), x.clone()]));
                self.rule(&[n], &[], app(p, &[suc(x.clone()), zero(), suc(x.clone())]));
                let premise = app(p, &[x.clone(), y.clone(), o.clone()]);
                self.rule(&[n, n, n], &[premise], app(p, &[suc(x), suc(y), suc(o)]));
                self.cuttable.push((p, vec![2]));
            }
            2 => {
                let p = self.symbol(&format!("dbl{k}"), &[n, n], None);
                self.rule(&[], &[], app(p, &[zero(), zero()]));
                let premise = app(p, &[x.clone(), y.clone()]);
                self.rule(&[n, n], &[premise], app(p, &[suc(x), suc(suc(y))]));
                self.cuttable.push((p, vec![1]));
            }
            3 => {
                let p = self.symbol(&format!("le{k}"), &[n, n], None);
                self.rule(&[n], &[], app(p, &[zero(), x.clone()]));
                let premise = app(p, &[x.clone(), y.clone()]);
                self.rule(&[n, n], &[premise], app(p, &[suc(x), suc(y)]));
                self.cuttable.push((p, vec![]));
            }
            4 => {
                let p = self.symbol(&format!("snd{k}"), &[n, n, n], None);
                self.rule(&[n, n], &[], app(p, &[x, y.clone(), y]));
                self.cuttable.push((p, vec![2]));
            }
            _ => {
                let p = self.symbol(&format!("eq{k}"), &[n, n], None);
                self.rule(&[n], &[], app(p, &[x.clone(), x]));
                self.cuttable.push((p, vec![1]));
            }
        }
    }

    /// A predicate that holds of anything.
    fn free(&mut self) {
        let sort = self.random.below(self.sorts.len());
        let p = self.symbol("any", &[sort, sort], None);
        self.rule(&[sort, sort], &[], app(p, &[var(0), var(1)]));
        self.cuttable.push((p, vec![1]));
    }

    /// A rule over what there is: shared variables, nested terms. More than half of them
    /// hand on what a cut leaves open; the others are as they come.
    fn used(&mut self) {
        let open = self.random.chance(60);
        let (nested, predicates) = match open {
            true => (8, self.cuttable.iter().map(|c| c.0).collect()),
            false => (25, self.predicates()),
        };
        let mut vars = Vec::new();
        let mut premises = Vec::new();
        for _ in 0..self.random.between(usize::from(open), 3) {
            if let Some(&p) = self.random.pick(&predicates) {
                premises.push(self.judgment(p, &mut vars, nested));
            }
        }
        let p = match self.random.pick(&self.uses) {
            Some(&p) if !open && self.random.chance(40) => p,
            _ => self.use_predicate(if open { &vars } else { &[] }),
        };
        let conclusion = self.judgment(p, &mut vars, if open { 20 } else { 40 });
        self.rule(&vars, &premises, conclusion);
    }

    /// A new predicate over the sorts that stand there, or over any.
    fn use_predicate(&mut self, sorts: &[usize]) -> usize {
        let all: Vec<usize> = (0..self.sorts.len()).collect();
        let sorts = if sorts.is_empty() { &all } else { sorts };
        let arity = self.random.between(0, 3);
        let inputs = (0..arity).filter_map(|_| self.random.pick(sorts).copied());
        let inputs: Vec<usize> = inputs.collect();
        let p = self.symbol(&format!("q{}", self.uses.len()), &inputs, None);
        self.uses.push(p);
        p
    }

    fn judgment(&mut self, p: usize, vars: &mut Vec<usize>, nested: usize) -> Term {
        let inputs = self.symbols[p].inputs.clone();
        let args: Vec<Term> = inputs
            .iter()
            .map(|&s| self.pattern(s, vars, nested, 2))
            .collect();
        app(p, &args)
    }

    fn pattern(&mut self, sort: usize, vars: &mut Vec<usize>, nested: usize, depth: usize) -> Term {
        let constructors = self.constructors(sort);
        if depth > 0 && self.random.chance(nested) {
            if let Some(&c) = self.random.pick(&constructors) {
                let inputs = self.symbols[c].inputs.clone();
                let inner = inputs
                    .iter()
                    .map(|&s| self.pattern(s, vars, nested, depth - 1));
                return app(c, &inner.collect::<Vec<_>>());
            }
        }
        let known: Vec<usize> = (0..vars.len()).filter(|&v| vars[v] == sort).collect();
        match self.random.pick(&known) {
            Some(&v) if self.random.chance(75) => var(v),
            _ => {
                vars.push(sort);
                var(vars.len() - 1)
            }
        }
    }

    /// A symbol that the eigenvariable's name must step around, now and then.
    fn name_one_l(&mut self) {
        if self.random.chance(15) {
            let names = ["L", "L_", "L0", "L"];
            for name in &names[..self.random.between(1, 2)] {
                let s = self.random.below(self.symbols.len());
                self.symbols[s].name = (*name).to_owned();
            }
        }
    }

    fn intern(&mut self, node: Vec<usize>) -> usize {
        if let Some(&id) = self.interned.get(&node) {
            return id;
        }
        let size = 1 + node[1..].iter().map(|&a| self.sizes[a]).sum::<usize>();
        let id = self.nodes.len();
        self.interned.insert(node.clone(), id);
        self.nodes.push(node);
        self.sizes.push(size);
        id
    }

    fn matches(&self, t: &Term, node: usize, values: &mut [Option<usize>]) -> bool {
        match t {
            Term::Var(v) => *values[*v].get_or_insert(node) == node,
            Term::App(h, args) => {
                let n = &self.nodes[node];
                n[0] == *h
                    && args
                        .iter()
                        .zip(&n[1..])
                        .all(|(a, &k)| self.matches(a, k, values))
            }
        }
    }

    fn build(&mut self, t: &Term, values: &[Option<usize>]) -> Option<usize> {
        match t {
            Term::Var(v) => values[*v],
            Term::App(h, args) => {
                let mut node = vec![*h];
                for a in args {
                    node.push(self.build(a, values)?);
                }
                Some(self.intern(node))
            }
        }
    }

    /// A ground term of the sort, often one that is there already.
    fn ground(&mut self, sort: usize, depth: usize) -> Option<usize> {
        let last = self.nodes.len();
        for _ in 0..4 {
            if last > 0 && self.random.chance(60) {
                let n = self.random.below(last);
                if self.symbols[self.nodes[n][0]].output == Some(sort) {
                    return Some(n);
                }
            }
        }
        let all = self.constructors(sort);
        let flat = all
            .iter()
            .filter(|&&c| depth > 0 || self.symbols[c].inputs.is_empty());
        let flat: Vec<usize> = flat.copied().collect();
        let c = *self.random.pick(&flat)?;
        let mut node = vec![c];
        for s in self.symbols[c].inputs.clone() {
            node.push(self.ground(s, depth.saturating_sub(1))?);
        }
        Some(self.intern(node))
    }

    fn chain(&mut self) {
        let mut tries = 0;
        while self.steps.len() < self.size.steps && tries < 40 * self.size.steps {
            tries += 1;
            let rule = self.random.below(self.rules.len());
            self.apply(rule);
        }
    }

    /// One step by the rule, if facts for its premises are found.
    fn apply(&mut self, rule: usize) -> Option<()> {
        let (premises, conclusion) = {
            let r = &self.rules[rule];
            (r.premises.clone(), r.conclusion.clone())
        };
        let mut values = vec![None; self.rules[rule].vars.len()];
        let mut refs = Vec::new();
        for p in &premises {
            refs.push(self.fact(p, &mut values)?);
        }
        for v in 0..values.len() {
            if values[v].is_none() {
                let sort = self.rules[rule].vars[v];
                values[v] = Some(self.ground(sort, 2)?);
            }
        }
        let judgment = self.build(&conclusion, &values)?;
        if self.sizes[judgment] > self.size.term {
            return None;
        }
        // A judgment may come again; later steps may then rest on the second one.
        let again = self.seen.get(&judgment).copied().unwrap_or(0);
        if again > 1 || again == 1 && !self.random.chance(25) {
            return None;
        }
        self.seen.insert(judgment, again + 1);
        let predicate = self.nodes[judgment][0];
        self.facts[predicate].push(self.steps.len());
        self.steps.push(Step {
            rule,
            refs,
            judgment,
        });
        Some(())
    }

    /// An earlier step that the premise fits.
    fn fact(&mut self, premise: &Term, values: &mut Vec<Option<usize>>) -> Option<usize> {
        let Term::App(p, _) = premise else {
            return None;
        };
        for _ in 0..6 {
            let facts = self.facts[*p].len();
            if facts == 0 {
                return None;
            }
            let at = self.facts[*p][self.random.below(facts)];
            let mut tried = values.clone();
            if self.matches(premise, self.steps[at].judgment, &mut tried) {
                *values = tried;
                return Some(at);
            }
        }
        None
    }

    fn text(&mut self) -> String {
        let mut out = String::new();
        for s in &self.sorts {
            let _ = writeln!(out, "(sort {s})");
        }
        for s in &self.symbols {
            let inputs: Vec<&str> = s.inputs.iter().map(|&i| self.sorts[i].as_str()).collect();
            let inputs = inputs.join(" ");
            let _ = match s.output {
                Some(o) => writeln!(out, "(ctor {} ({inputs}) {})", s.name, self.sorts[o]),
                None => writeln!(out, "(pred {} ({inputs}))", s.name),
            };
        }
        for r in &self.rules {
            let premises: Vec<String> = r.premises.iter().map(|p| self.shown(p, true)).collect();
            let conclusion = self.shown(&r.conclusion, true);
            let _ = writeln!(
                out,
                "(rule {} ({}) {conclusion})",
                r.name,
                premises.join(" ")
            );
        }
        let (cuts, cut) = self.cuts();
        self.results(&cut, &mut out);
        out.push_str(&cuts);
        out
    }

    fn shown(&self, t: &Term, top: bool) -> String {
        match t {
            Term::Var(v) => format!("?x{v}"),
            Term::App(h, args) => {
                let args: Vec<String> = args.iter().map(|a| self.shown(a, false)).collect();
                self.applied(*h, &args, top)
            }
        }
    }

    fn applied(&self, h: usize, args: &[String], top: bool) -> String {
        let name = &self.symbols[h].name;
        match args.is_empty() {
            true if top => format!("({name})"),
            true => name.clone(),
            false => format!("({name} {})", args.join(" ")),
        }
    }

    fn ground_text(&self, node: usize, top: bool) -> String {
        let n = &self.nodes[node];
        let args: Vec<String> = n[1..].iter().map(|&a| self.ground_text(a, false)).collect();
        self.applied(n[0], &args, top)
    }

    /// Cuts and abstract, as text and as a set of predicates.
    fn cuts(&mut self) -> (String, Vec<usize>) {
        let mut out = String::new();
        let mut cut = Vec::new();
        let mut candidates = std::mem::take(&mut self.cuttable);
        candidates.extend(self.uses.iter().map(|&p| (p, Vec::new())));
        for (i, (p, outputs)) in candidates.iter().enumerate() {
            let is_use = i + self.uses.len() >= candidates.len();
            if !self.random.chance(if is_use { 5 } else { 80 }) {
                continue;
            }
            cut.push(*p);
            let _ = write!(out, "(cut {}", self.symbols[*p].name);
            let arity = self.symbols[*p].inputs.len();
            if self.random.chance(70) {
                outputs.iter().for_each(|o| {
                    let _ = write!(out, " {o}");
                });
            } else if arity > 0 && self.random.chance(50) {
                let _ = write!(out, " {}", self.random.below(arity));
            }
            out.push_str(")\n");
        }
        if self.random.chance(15) {
            let all = 0..self.symbols.len();
            let compound = all.filter(|&s| {
                self.symbols[s].output.is_some() && !self.symbols[s].inputs.is_empty()
            });
            let compound: Vec<usize> = compound.collect();
            if let Some(&c) = self.random.pick(&compound) {
                let position = self.random.below(self.symbols[c].inputs.len());
                let _ = writeln!(out, "(abstract {} {position})", self.symbols[c].name);
            }
        }
        (out, cut)
    }

    fn results(&mut self, cut: &[usize], out: &mut String) {
        let mut goals = String::new();
        let mut results = String::new();
        for i in 0..self.size.results.min(self.steps.len()) {
            let step = self.result(cut);
            let judgment = self.steps[step].judgment;
            let name = format!("g{i}");
            let on_cut = cut.contains(&self.nodes[judgment][0]);
            // A goal on a cut predicate makes the original panic: seldom, but now and then.
            if self.random.chance(if on_cut { 10 } else { 92 }) {
                let _ = writeln!(goals, "(goal {name} {})", self.ground_text(judgment, true));
                if self.size.results < 10 && self.random.chance(2) {
                    continue;
                }
            }
            let _ = writeln!(results, "(result {name} {step})");
        }
        out.push_str(&goals);
        for (i, s) in self.steps.iter().enumerate() {
            let refs: Vec<String> = s.refs.iter().map(usize::to_string).collect();
            let (rule, judgment) = (&self.rules[s.rule].name, self.ground_text(s.judgment, true));
            let _ = writeln!(out, "(step {i} {rule} ({}) {judgment})", refs.join(" "));
        }
        out.push_str(&results);
    }

    /// A late step, most often of a predicate that uses the others and is not cut.
    fn result(&mut self, cut: &[usize]) -> usize {
        let n = self.steps.len();
        let mut step = n - 1;
        for _ in 0..12 {
            step = n - 1 - self.random.below(n.min(2 + 3 * n / 4));
            let p = self.nodes[self.steps[step].judgment][0];
            if self.uses.contains(&p) && !cut.contains(&p) {
                break;
            }
        }
        step
    }
}

/// A cut judgment `depth` constructors deep that no other proof gives: the search must
/// go all the way down, and the certificate has three steps only. The goal has no
/// arguments, since the original reads goals without abbreviations.
pub fn deep(depth: usize) -> String {
    let mut out = String::from(
        "(sort Nat)\n(ctor z () Nat)\n(ctor s (Nat) Nat)\n(pred nat (Nat))\n(pred q ())\n\
         (pred w (Nat Nat))\n(rule nz () (nat z))\n(rule ns ((nat ?x)) (nat (s ?x)))\n\
         (rule nw ((w ?x ?y)) (nat ?x))\n(rule q ((nat ?x)) (q))\n(rule w () (w ?x ?y))\n\
         (goal g (q))\n(def ?0 z)\n",
    );
    for i in 0..depth {
        let _ = writeln!(out, "(def ?{} (s ?{i}))", i + 1);
    }
    let _ = writeln!(
        out,
        "(step 0 w () (w ?{depth} z))\n(step 1 nw (0) (nat ?{depth}))\n(step 2 q (1) (q))\n(result g 2)\n(cut nat)"
    );
    out
}

/// A certificate of `n` steps over naturals, shared by several goals: the large pack's kind.
pub fn ladder(n: usize) -> String {
    let mut out = String::from(
        "(sort Nat)\n(ctor z () Nat)\n(ctor s (Nat) Nat)\n(pred nat (Nat))\n(pred le (Nat Nat))\n\
         (rule nz () (nat z))\n(rule ns ((nat ?x)) (nat (s ?x)))\n(rule lz ((nat ?x)) (le z ?x))\n\
         (rule ls ((le ?x ?y)) (le (s ?x) (s ?y)))\n(def ?0 z)\n",
    );
    let half = n / 2;
    for i in 0..half + 40 {
        let _ = writeln!(out, "(def ?{} (s ?{i}))", i + 1);
    }
    for i in 0..half {
        let refs = if i == 0 {
            String::new()
        } else {
            (i - 1).to_string()
        };
        let rule = if i == 0 { "nz" } else { "ns" };
        let _ = writeln!(out, "(step {i} {rule} ({refs}) (nat ?{i}))");
    }
    for i in 0..half {
        let at = half + i;
        let (rule, refs) = if i % 40 == 0 {
            ("lz", half - 1 - i)
        } else {
            ("ls", at - 1)
        };
        let _ = match i % 40 {
            0 => writeln!(out, "(step {at} {rule} ({refs}) (le z ?{refs}))"),
            k => writeln!(
                out,
                "(step {at} {rule} ({refs}) (le ?{k} ?{}))",
                half - 1 - (i - k) + k
            ),
        };
    }
    for i in (0..half).filter(|i| i % 40 == 39 || i + 1 == half) {
        let _ = writeln!(out, "(result r{i} {})", half + i);
    }
    out.push_str("(cut nat)\n");
    out
}
