//! A pack from text: theory, goals, proof, cuts and abstract as S-expressions, in
//! one file or several. Every fault names its file and line.
//!
//! ```text
//! (sort NAME)                          (ctor NAME (SORT...) SORT)
//! (pred NAME (SORT...))                (rule NAME (PREMISE...) CONCLUSION)
//! (goal NAME JUDGMENT)                 (def ?NAME TERM)
//! (step N RULE (REF...) ITEM...)       (result NAME STEP)
//! (cut PREDICATE POSITION...)          (abstract CONSTRUCTOR POSITION)
//! ```
//! An ITEM is the step's judgment or a binding `(?VAR TERM)` of a rule's variable.
//! Ground nodes are numbered as met, the goals' ahead of the proof's; results are
//! sorted by name, cuts by predicate.
use crate::pack::{
    Cut, MOST_ARITY, MOST_BYTES, MOST_PREMISES, MOST_RULES, MOST_SORTS, MOST_SYMBOLS,
    MOST_VARIABLES, MOST_WORDS, Named, PREDICATE, Pack, Rule, Step, Symbol, Term, name_fault,
};
use crate::sexp::{Body, Fault, Sexp, fault, parse};
use crate::verdict::matches;
use std::collections::HashMap;

/// The forms of one or several files, by what they speak of.
#[derive(Default)]
pub struct Forms {
    files: Vec<String>,
    pub theory: Vec<(usize, Sexp)>,
    pub goals: Vec<(usize, Sexp)>,
    pub proof: Vec<(usize, Sexp)>,
    pub cuts: Vec<(usize, Sexp)>,
}

impl Forms {
    /// Read texts, each with the name that faults give it.
    pub fn read(sources: &[(String, String)]) -> Result<Self, String> {
        let mut forms = Forms::default();
        for (file, (name, text)) in sources.iter().enumerate() {
            forms.files.push(name.clone());
            for form in parse(text).map_err(|f| forms.say(file, f))? {
                let part = match tag(&form).map_err(|f| forms.say(file, f))? {
                    "sort" | "ctor" | "pred" | "rule" => &mut forms.theory,
                    "goal" => &mut forms.goals,
                    "def" | "step" | "result" => &mut forms.proof,
                    "cut" | "abstract" => &mut forms.cuts,
                    other => {
                        let why = format!("{other} is no form of a pack's text");
                        return Err(forms.say(
                            file,
                            Fault {
                                line: form.line,
                                why,
                            },
                        ));
                    }
                };
                part.push((file, form));
            }
        }
        Ok(forms)
    }

    fn say(&self, file: usize, f: Fault) -> String {
        format!("{}:{}: {}", self.files[file], f.line, f.why)
    }

    /// The pack that the forms describe.
    pub fn pack(&self) -> Result<Pack, String> {
        let mut maker = Maker::default();
        for part in [&self.theory, &self.goals, &self.proof, &self.cuts] {
            for (file, form) in part {
                maker.form(form).map_err(|f| self.say(*file, f))?;
            }
        }
        let mut pack = maker.pack;
        pack.results.sort_by(|a, b| a.name.cmp(&b.name));
        pack.cuts.sort_by_key(|c| c.predicate);
        if pack.encode().len() > MOST_BYTES {
            return Err("the pack would have more than 2^24 bytes".into());
        }
        Ok(pack)
    }
}

fn tag(form: &Sexp) -> Result<&str, Fault> {
    match form.list()?.first() {
        Some(x) => x.atom(),
        None => fault(form.line, "an empty form"),
    }
}

type Made<T> = Result<T, Fault>;

#[derive(Default)]
struct Maker {
    pack: Pack,
    sorts: HashMap<String, u32>,
    symbols: HashMap<String, u32>,
    rules: HashMap<String, u32>,
    /// The rules' variable names, as a pack has none.
    variables: Vec<Vec<String>>,
    nodes: HashMap<Vec<u32>, u32>,
    defs: HashMap<String, u32>,
    goals: HashMap<String, ()>,
    results: HashMap<String, ()>,
}

/// Enter a new name for the thing of that number.
fn enter<T>(names: &mut HashMap<String, T>, what: &str, x: &Sexp, value: T) -> Made<String> {
    let name = x.atom()?;
    if let Some(why) = name_fault(name.as_bytes()) {
        return fault(x.line, format!("{why}: {name}"));
    }
    if names.insert(name.to_owned(), value).is_some() {
        return fault(x.line, format!("{what} {name} is declared twice"));
    }
    Ok(name.to_owned())
}

fn known(names: &HashMap<String, u32>, what: &str, x: &Sexp) -> Made<u32> {
    let name = x.atom()?;
    match names.get(name) {
        Some(&n) => Ok(n),
        None => fault(x.line, format!("unknown {what} {name}")),
    }
}

fn number(x: &Sexp) -> Made<u32> {
    let digits = x.atom()?;
    match digits.parse() {
        Ok(n) if digits.bytes().all(|b| b.is_ascii_digit()) => Ok(n),
        _ => fault(x.line, format!("a number is expected here, not {digits}")),
    }
}

fn is_variable(x: &Sexp) -> bool {
    matches!(&x.body, Body::Atom(a) if a.starts_with('?'))
}

impl Maker {
    fn form(&mut self, form: &Sexp) -> Made<()> {
        let xs = form.list()?;
        match (tag(form)?, xs.len()) {
            ("sort", 2) => self.sort(&xs[1]),
            ("ctor", 4) => {
                let output = known(&self.sorts, "sort", &xs[3])?;
                self.symbol(&xs[1], &xs[2], output)
            }
            ("pred", 3) => self.symbol(&xs[1], &xs[2], PREDICATE),
            ("rule", 4) => self.rule(&xs[1], &xs[2], &xs[3]),
            ("goal", 3) => self.goal(&xs[1], &xs[2]),
            ("def", 3) => self.def(&xs[1], &xs[2]),
            ("step", 4..) => self.step(&xs[1..]),
            ("result", 3) => self.result(&xs[1], &xs[2]),
            ("cut", 2..) => self.cut(&xs[1], &xs[2..]),
            ("abstract", 3) => self.abstracted(form.line, &xs[1], &xs[2]),
            (t, n) => fault(form.line, format!("a {t} form of {n} elements")),
        }
    }

    fn sort(&mut self, name: &Sexp) -> Made<()> {
        let id = self.pack.sorts.len();
        if id == MOST_SORTS {
            return fault(name.line, "more than 256 sorts");
        }
        let name = enter(&mut self.sorts, "sort", name, id as u32)?;
        self.pack.sorts.push(name);
        Ok(())
    }

    fn symbol(&mut self, name: &Sexp, inputs: &Sexp, output: u32) -> Made<()> {
        let id = self.pack.symbols.len();
        if id == MOST_SYMBOLS {
            return fault(name.line, "more than 4,096 symbols");
        }
        let sorts = inputs.list()?;
        if sorts.len() > MOST_ARITY {
            return fault(inputs.line, format!("arity {}, above 16", sorts.len()));
        }
        let sorts = sorts.iter().map(|s| known(&self.sorts, "sort", s));
        let inputs = sorts.collect::<Made<_>>()?;
        let name = enter(&mut self.symbols, "symbol", name, id as u32)?;
        self.pack.symbols.push(Symbol {
            name,
            inputs,
            output,
        });
        Ok(())
    }

    fn rule(&mut self, name: &Sexp, premises: &Sexp, conclusion: &Sexp) -> Made<()> {
        let id = self.pack.rules.len();
        if id == MOST_RULES {
            return fault(name.line, "more than 4,096 rules");
        }
        let list = premises.list()?;
        if list.len() > MOST_PREMISES {
            return fault(premises.line, format!("{} premises, above 16", list.len()));
        }
        let mut vars: Vec<(String, u32)> = Vec::new();
        let mut words = 0;
        let mut terms = Vec::new();
        for x in list.iter().chain([conclusion]) {
            terms.push(self.pattern(x, PREDICATE, &mut vars, &mut words)?);
        }
        let name = enter(&mut self.rules, "rule", name, id as u32)?;
        let Some(conclusion) = terms.pop() else {
            return fault(premises.line, "a rule without a conclusion");
        };
        let (names, sorts) = vars.into_iter().unzip();
        self.variables.push(names);
        self.pack.rules.push(Rule {
            name,
            vars: sorts,
            premises: terms,
            conclusion,
        });
        Ok(())
    }

    /// The head and the arguments of a term or, at sort `PREDICATE`, of a judgment.
    fn head<'a>(&self, x: &'a Sexp, sort: Option<u32>) -> Made<(u32, &'a [Sexp])> {
        let (name, args) = match &x.body {
            Body::Atom(_) if sort == Some(PREDICATE) => {
                return fault(x.line, format!("a judgment is expected here, not {x}"));
            }
            Body::Atom(_) => (x, &[][..]),
            Body::List(xs) => match xs.split_first() {
                Some((name, args)) => (name, args),
                None => return fault(x.line, "an empty list for a term"),
            },
        };
        let head = known(&self.symbols, "symbol", name)?;
        let symbol = &self.pack.symbols[head as usize];
        if sort.map_or(symbol.output == PREDICATE, |s| s != symbol.output) {
            let what = match (sort, symbol.output) {
                (Some(PREDICATE), _) => "is no predicate",
                (_, PREDICATE) => "is a predicate, below the top",
                _ => "has another sort than its place",
            };
            return fault(x.line, format!("{} {what}", symbol.name));
        }
        if symbol.inputs.len() != args.len() {
            let (n, k) = (symbol.inputs.len(), args.len());
            return fault(
                x.line,
                format!("{} takes {n} arguments, not {k}", symbol.name),
            );
        }
        if args.is_empty() && symbol.output != PREDICATE && matches!(x.body, Body::List(_)) {
            return fault(
                x.line,
                format!("{} is a constant: no brackets", symbol.name),
            );
        }
        Ok((head, args))
    }

    /// A term of a rule.
    fn pattern(
        &self,
        x: &Sexp,
        sort: u32,
        vars: &mut Vec<(String, u32)>,
        words: &mut usize,
    ) -> Made<Term> {
        *words += 1;
        if *words > MOST_WORDS {
            return fault(x.line, "a rule of more than 256 prefix words");
        }
        if is_variable(x) {
            return self.variable(x, sort, vars);
        }
        let (head, args) = self.head(x, Some(sort))?;
        let mut terms = Vec::new();
        for (i, a) in args.iter().enumerate() {
            let s = self.pack.symbols[head as usize].inputs[i];
            terms.push(self.pattern(a, s, vars, words)?);
        }
        Ok(Term::App(head, terms))
    }

    fn variable(&self, x: &Sexp, sort: u32, vars: &mut Vec<(String, u32)>) -> Made<Term> {
        let name = x.atom()?;
        if sort == PREDICATE || name == "?" {
            return fault(x.line, format!("{name} can't stand here"));
        }
        match vars.iter().position(|(n, _)| n == name) {
            Some(v) if vars[v].1 != sort => {
                fault(x.line, format!("{name} stands for terms of two sorts"))
            }
            Some(v) => Ok(Term::Var(v as u32)),
            None if vars.len() == MOST_VARIABLES => fault(x.line, "more than 64 variables"),
            None => {
                vars.push((name.to_owned(), sort));
                Ok(Term::Var(vars.len() as u32 - 1))
            }
        }
    }

    fn intern(&mut self, node: Vec<u32>) -> u32 {
        let next = self.pack.nodes.len() as u32;
        *self.nodes.entry(node).or_insert_with_key(|n| {
            self.pack.nodes.push(n.clone());
            next
        })
    }

    /// A ground term of the sort, of any sort, or a judgment at `PREDICATE`.
    fn ground(&mut self, x: &Sexp, sort: Option<u32>) -> Made<u32> {
        if is_variable(x) {
            let name = x.atom()?;
            return match self.defs.get(name) {
                None => fault(x.line, format!("{name} is not defined")),
                Some(&n) if sort.is_some_and(|s| s != self.pack.sort_of(n)) => {
                    fault(x.line, format!("{name} has another sort than its place"))
                }
                Some(&n) => Ok(n),
            };
        }
        let (head, args) = self.head(x, sort)?;
        let mut node = vec![head];
        for (i, a) in args.iter().enumerate() {
            let s = self.pack.symbols[head as usize].inputs[i];
            node.push(self.ground(a, Some(s))?);
        }
        Ok(self.intern(node))
    }

    fn goal(&mut self, name: &Sexp, judgment: &Sexp) -> Made<()> {
        let name = enter(&mut self.goals, "goal", name, ())?;
        let at = self.ground(judgment, Some(PREDICATE))?;
        self.pack.goals.push(Named { at, name });
        Ok(())
    }

    fn def(&mut self, name: &Sexp, term: &Sexp) -> Made<()> {
        if !is_variable(name) || name.atom()? == "?" {
            return fault(
                name.line,
                "an abbreviation's name starts with ? and goes on",
            );
        }
        let node = self.ground(term, None)?;
        let name = name.atom()?;
        if self.defs.insert(name.to_owned(), node).is_some() {
            return fault(term.line, format!("{name} is defined twice"));
        }
        Ok(())
    }

    /// What follows `step`: its number, rule, refs and items.
    fn step(&mut self, xs: &[Sexp]) -> Made<()> {
        let line = xs[0].line;
        let n = self.pack.steps.len();
        if number(&xs[0])? as usize != n {
            return fault(line, format!("step {n} is the next one, not {}", xs[0]));
        }
        let r = known(&self.rules, "rule", &xs[1])?;
        let rule = self.pack.rules[r as usize].clone();
        let refs = xs[2].list()?.iter().map(number).collect::<Made<Vec<_>>>()?;
        if refs.len() != rule.premises.len() {
            let (k, m) = (refs.len(), rule.premises.len());
            return fault(
                line,
                format!("{k} refs, where {} has {m} premises", rule.name),
            );
        }
        let mut values = vec![None; rule.vars.len()];
        for (i, (p, &at)) in rule.premises.iter().zip(&refs).enumerate() {
            let Some(earlier) = self.pack.steps.get(at as usize) else {
                return fault(line, format!("step {at}, which is no earlier one"));
            };
            if !matches(&self.pack, p, earlier.judgment, &mut values) {
                let why = format!("premise {} of {} does not fit step {at}", i + 1, rule.name);
                return fault(line, why);
            }
        }
        let mut stated = None;
        for item in &xs[3..] {
            let list = item.list()?;
            if list.len() == 2 && is_variable(&list[0]) {
                let v = self.named_variable(r, &list[0])?;
                let value = self.ground(&list[1], Some(rule.vars[v]))?;
                if *values[v].get_or_insert(value) != value {
                    return fault(item.line, format!("{} has two values", list[0]));
                }
            } else {
                stated = Some(self.ground(item, Some(PREDICATE))?);
            }
        }
        let judgment = match stated {
            Some(j) if matches(&self.pack, &rule.conclusion, j, &mut values) => j,
            Some(_) => {
                return fault(line, format!("the judgment does not fit {}", rule.name));
            }
            None => match self.build(&rule.conclusion, &values) {
                Some(j) => j,
                None => return fault(line, "a variable of the conclusion has no value"),
            },
        };
        self.pack.steps.push(Step {
            rule: r,
            judgment,
            refs,
        });
        Ok(())
    }

    fn named_variable(&self, rule: u32, x: &Sexp) -> Made<usize> {
        let name = x.atom()?;
        match self.variables[rule as usize].iter().position(|v| v == name) {
            Some(v) => Ok(v),
            None => fault(x.line, format!("the rule has no variable {name}")),
        }
    }

    fn build(&mut self, t: &Term, values: &[Option<u32>]) -> Option<u32> {
        match t {
            Term::Var(v) => values[*v as usize],
            Term::App(head, args) => {
                let mut node = vec![*head];
                for a in args {
                    node.push(self.build(a, values)?);
                }
                Some(self.intern(node))
            }
        }
    }

    fn result(&mut self, name: &Sexp, step: &Sexp) -> Made<()> {
        let at = number(step)?;
        if at as usize >= self.pack.steps.len() {
            return fault(step.line, format!("step {at}, which there is not"));
        }
        let name = enter(&mut self.results, "result", name, ())?;
        self.pack.results.push(Named { at, name });
        Ok(())
    }

    /// A symbol by its name, and positions below its arity.
    fn places(&self, name: &Sexp, predicate: bool, at: &[Sexp]) -> Made<(u32, Vec<u32>)> {
        let symbol = known(&self.symbols, "symbol", name)?;
        let s = &self.pack.symbols[symbol as usize];
        if (s.output == PREDICATE) != predicate {
            let what = if predicate {
                "predicate"
            } else {
                "constructor"
            };
            return fault(name.line, format!("{} is no {what}", s.name));
        }
        let positions = at.iter().map(number).collect::<Made<Vec<_>>>()?;
        match positions.iter().find(|p| **p as usize >= s.inputs.len()) {
            Some(p) => fault(name.line, format!("{} has no position {p}", s.name)),
            None => Ok((symbol, positions)),
        }
    }

    fn cut(&mut self, name: &Sexp, outputs: &[Sexp]) -> Made<()> {
        let (predicate, outputs) = self.places(name, true, outputs)?;
        if self.pack.cut(predicate).is_some() {
            return fault(name.line, format!("{name} is cut twice"));
        }
        self.pack.cuts.push(Cut { predicate, outputs });
        Ok(())
    }

    fn abstracted(&mut self, line: usize, name: &Sexp, position: &Sexp) -> Made<()> {
        if self.pack.abstracted.is_some() {
            return fault(line, "a second abstract form");
        }
        let (symbol, at) = self.places(name, false, std::slice::from_ref(position))?;
        self.pack.abstracted = Some((symbol, at[0]));
        Ok(())
    }
}
