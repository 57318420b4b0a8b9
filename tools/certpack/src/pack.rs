//! Document 01's pack as plain data, with its encoder and its reader.
use std::collections::{HashMap, HashSet};

/// The output word of a predicate.
pub const PREDICATE: u32 = u32::MAX;
/// Added to a variable's number in a rule's prefix words.
pub const VARIABLE: u32 = 1 << 31;

pub const MOST_BYTES: usize = 1 << 24;
pub const MOST_SORTS: usize = 256;
pub const MOST_SYMBOLS: usize = 4096;
pub const MOST_ARITY: usize = 16;
pub const MOST_RULES: usize = 4096;
pub const MOST_VARIABLES: usize = 64;
pub const MOST_PREMISES: usize = 16;
pub const MOST_WORDS: usize = 256;
pub const MOST_NAME: usize = 64;

#[derive(Clone, Debug, PartialEq, Eq)]
pub struct Symbol {
    pub name: String,
    pub inputs: Vec<u32>,
    /// A sort, or `PREDICATE`.
    pub output: u32,
}

#[derive(Clone, Debug, PartialEq, Eq)]
pub enum Term {
    Var(u32),
    App(u32, Vec<Term>),
}

#[derive(Clone, Debug, PartialEq, Eq)]
pub struct Rule {
    pub name: String,
    /// The sort of each variable.
    pub vars: Vec<u32>,
    pub premises: Vec<Term>,
    pub conclusion: Term,
}

#[derive(Clone, Debug, PartialEq, Eq)]
pub struct Step {
    pub rule: u32,
    pub judgment: u32,
    pub refs: Vec<u32>,
}

/// A goal or a result: a judgment node or a step, under a name.
#[derive(Clone, Debug, PartialEq, Eq)]
pub struct Named {
    pub at: u32,
    pub name: String,
}

#[derive(Clone, Debug, PartialEq, Eq)]
pub struct Cut {
    pub predicate: u32,
    pub outputs: Vec<u32>,
}

#[derive(Clone, Debug, Default, PartialEq, Eq)]
pub struct Pack {
    pub sorts: Vec<String>,
    pub symbols: Vec<Symbol>,
    pub rules: Vec<Rule>,
    /// Head and arguments of each ground node.
    pub nodes: Vec<Vec<u32>>,
    pub steps: Vec<Step>,
    pub goals: Vec<Named>,
    pub results: Vec<Named>,
    pub cuts: Vec<Cut>,
    /// Constructor and position.
    pub abstracted: Option<(u32, u32)>,
}

impl Pack {
    pub fn is_predicate(&self, symbol: u32) -> bool {
        self.symbols[symbol as usize].output == PREDICATE
    }

    /// The output sort of a ground node, `PREDICATE` for a judgment.
    pub fn sort_of(&self, node: u32) -> u32 {
        self.symbols[self.nodes[node as usize][0] as usize].output
    }

    pub fn cut(&self, predicate: u32) -> Option<&Cut> {
        self.cuts.iter().find(|c| c.predicate == predicate)
    }

    /// The pack's bytes, one record behind the other in the order of the kinds.
    pub fn encode(&self) -> Vec<u8> {
        let mut out = Vec::new();
        for name in &self.sorts {
            record(&mut out, 1, |b| b.extend(name.as_bytes()));
        }
        for s in &self.symbols {
            record(&mut out, 2, |b| {
                word(b, s.output);
                half(b, s.inputs.len());
                words(b, &s.inputs);
                b.extend(s.name.as_bytes());
            });
        }
        for r in &self.rules {
            record(&mut out, 3, |b| {
                half(b, r.vars.len());
                half(b, r.premises.len());
                words(b, &r.vars);
                for t in r.premises.iter().chain([&r.conclusion]) {
                    prefix(b, t);
                }
                b.extend(r.name.as_bytes());
            });
        }
        for n in &self.nodes {
            record(&mut out, 4, |b| words(b, n));
        }
        for s in &self.steps {
            record(&mut out, 5, |b| {
                words(b, &[s.rule, s.judgment]);
                words(b, &s.refs);
            });
        }
        for (kind, list) in [(6, &self.goals), (7, &self.results)] {
            for x in list {
                record(&mut out, kind, |b| {
                    word(b, x.at);
                    b.extend(x.name.as_bytes());
                });
            }
        }
        for c in &self.cuts {
            record(&mut out, 8, |b| {
                word(b, c.predicate);
                words(b, &c.outputs);
            });
        }
        if let Some((constructor, position)) = self.abstracted {
            record(&mut out, 9, |b| words(b, &[constructor, position]));
        }
        out
    }
}

fn word(b: &mut Vec<u8>, w: u32) {
    b.extend(w.to_le_bytes());
}

fn words(b: &mut Vec<u8>, ws: &[u32]) {
    ws.iter().for_each(|&w| word(b, w));
}

fn half(b: &mut Vec<u8>, n: usize) {
    b.extend((n as u16).to_le_bytes());
}

fn prefix(b: &mut Vec<u8>, t: &Term) {
    match t {
        Term::Var(v) => word(b, VARIABLE + v),
        Term::App(h, args) => {
            word(b, *h);
            args.iter().for_each(|a| prefix(b, a));
        }
    }
}

fn record(out: &mut Vec<u8>, kind: u16, body: impl FnOnce(&mut Vec<u8>)) {
    let at = out.len();
    out.extend([0; 6]);
    body(out);
    let length = (out.len() - at - 6) as u32;
    out[at..at + 4].copy_from_slice(&length.to_le_bytes());
    out[at + 4..at + 6].copy_from_slice(&kind.to_le_bytes());
}

/// Why a pack is refused: document 01's number and place, and a reason for people.
#[derive(Clone, Debug, PartialEq, Eq)]
pub struct Refusal {
    pub number: u32,
    pub place: usize,
    pub why: String,
}

impl std::fmt::Display for Refusal {
    fn fmt(&self, f: &mut std::fmt::Formatter) -> std::fmt::Result {
        write!(f, "{} at {}: {}", self.number, self.place, self.why)
    }
}

/// A record's fault before its place is known.
struct Fault(u32, String);

type Checked<T> = Result<T, Fault>;

fn form<T>(why: impl Into<String>) -> Checked<T> {
    Err(Fault(1, why.into()))
}

fn limit<T>(why: impl Into<String>) -> Checked<T> {
    Err(Fault(2, why.into()))
}

/// What a name may hold: 1 to 64 bytes of 33 to 126, no round bracket, no leading `?`.
pub fn name_fault(name: &[u8]) -> Option<&'static str> {
    if name.is_empty() {
        Some("an empty name")
    } else if name.len() > MOST_NAME {
        Some("a name of more than 64 bytes")
    } else if name[0] == b'?' {
        Some("a name with a leading question mark")
    } else if name
        .iter()
        .any(|b| !(33..=126).contains(b) || matches!(b, b'(' | b')'))
    {
        Some("a name with a byte that names can't have")
    } else {
        None
    }
}

/// Read a pack, or say which record is the first bad one.
pub fn decode(bytes: &[u8]) -> Result<Pack, Refusal> {
    if bytes.len() > MOST_BYTES {
        return Err(Refusal {
            number: 2,
            place: 0,
            why: "a pack of more than 2^24 bytes".into(),
        });
    }
    let mut reader = Reader::default();
    let mut at = 0;
    while at < bytes.len() {
        match reader.record(&bytes[at..]) {
            Ok(length) => at += length,
            Err(Fault(number, why)) => {
                return Err(Refusal {
                    number,
                    place: at,
                    why,
                });
            }
        }
    }
    Ok(reader.pack)
}

#[derive(Default)]
struct Reader {
    pack: Pack,
    last_kind: u16,
    names: HashSet<(u16, String)>,
    nodes: HashMap<Vec<u32>, u32>,
}

/// The unread rest of a record's body.
struct Body<'a>(&'a [u8]);

impl<'a> Body<'a> {
    fn take(&mut self, n: usize) -> Checked<&'a [u8]> {
        if self.0.len() < n {
            return form("a body that ends too soon");
        }
        let (head, tail) = self.0.split_at(n);
        self.0 = tail;
        Ok(head)
    }

    fn word(&mut self) -> Checked<u32> {
        let b = self.take(4)?;
        Ok(u32::from_le_bytes([b[0], b[1], b[2], b[3]]))
    }

    fn half(&mut self) -> Checked<usize> {
        let b = self.take(2)?;
        Ok(usize::from(u16::from_le_bytes([b[0], b[1]])))
    }

    fn end(&self) -> Checked<()> {
        if self.0.is_empty() {
            Ok(())
        } else {
            form("a body with more bytes than its form")
        }
    }
}

impl Reader {
    /// Read the record at the front; answers its whole length.
    fn record(&mut self, rest: &[u8]) -> Checked<usize> {
        if rest.len() < 6 {
            return form("a header that is cut");
        }
        let length = u32::from_le_bytes([rest[0], rest[1], rest[2], rest[3]]) as usize;
        let kind = u16::from_le_bytes([rest[4], rest[5]]);
        if rest.len() - 6 < length {
            return form("a body that is cut");
        }
        if !(1..=9).contains(&kind) {
            return form(format!("kind {kind}, which there is not"));
        }
        if kind < self.last_kind {
            return form(format!("kind {kind} behind kind {}", self.last_kind));
        }
        self.last_kind = kind;
        let body = Body(&rest[6..6 + length]);
        match kind {
            1 => self.sort(body),
            2 => self.symbol(body),
            3 => self.rule(body),
            4 => self.node(body),
            5 => self.step(body),
            6 => self.goal(body),
            7 => self.result(body),
            8 => self.cut(body),
            _ => self.abstracted(body),
        }?;
        Ok(6 + length)
    }

    /// The rest of the body as a name, not given before in its kind.
    fn name(&mut self, kind: u16, body: Body) -> Checked<String> {
        if let Some(fault) = name_fault(body.0) {
            return form(fault);
        }
        let name = String::from_utf8_lossy(body.0).into_owned();
        if !self.names.insert((kind, name.clone())) {
            return form(format!("the name {name} twice"));
        }
        Ok(name)
    }

    fn sort(&mut self, body: Body) -> Checked<()> {
        if self.pack.sorts.len() == MOST_SORTS {
            return limit("more than 256 sorts");
        }
        let name = self.name(1, body)?;
        self.pack.sorts.push(name);
        Ok(())
    }

    fn known_sort(&self, sort: u32) -> Checked<()> {
        if (sort as usize) < self.pack.sorts.len() {
            Ok(())
        } else {
            form(format!("sort {sort}, which there is not"))
        }
    }

    fn symbol(&mut self, mut body: Body) -> Checked<()> {
        if self.pack.symbols.len() == MOST_SYMBOLS {
            return limit("more than 4,096 symbols");
        }
        let output = body.word()?;
        let arity = body.half()?;
        if arity > MOST_ARITY {
            return limit(format!("arity {arity}, above 16"));
        }
        if output != PREDICATE {
            self.known_sort(output)?;
        }
        let mut inputs = Vec::new();
        for _ in 0..arity {
            let sort = body.word()?;
            self.known_sort(sort)?;
            inputs.push(sort);
        }
        let name = self.name(2, body)?;
        self.pack.symbols.push(Symbol {
            name,
            inputs,
            output,
        });
        Ok(())
    }

    fn known_symbol(&self, symbol: u32) -> Checked<&Symbol> {
        match self.pack.symbols.get(symbol as usize) {
            Some(s) => Ok(s),
            None => form(format!("symbol {symbol}, which there is not")),
        }
    }

    fn rule(&mut self, mut body: Body) -> Checked<()> {
        if self.pack.rules.len() == MOST_RULES {
            return limit("more than 4,096 rules");
        }
        if body.0.len() < 4 {
            return form("a body that ends ahead of its counts");
        }
        let (variables, premises) = (body.half()?, body.half()?);
        if variables > MOST_VARIABLES {
            return limit(format!("{variables} variables, above 64"));
        }
        if premises > MOST_PREMISES {
            return limit(format!("{premises} premises, above 16"));
        }
        let mut vars = Vec::new();
        for _ in 0..variables {
            let sort = body.word()?;
            self.known_sort(sort)?;
            vars.push(sort);
        }
        let mut used = 0;
        let mut terms = Vec::new();
        for _ in 0..=premises {
            terms.push(self.term(&mut body, &vars, PREDICATE, &mut used)?);
        }
        let name = self.name(3, body)?;
        let Some(conclusion) = terms.pop() else {
            return form("a rule without a conclusion");
        };
        self.pack.rules.push(Rule {
            name,
            vars,
            premises: terms,
            conclusion,
        });
        Ok(())
    }

    /// One term of the given sort in prefix order.
    fn term(&self, body: &mut Body, vars: &[u32], sort: u32, used: &mut usize) -> Checked<Term> {
        if *used == MOST_WORDS && body.0.len() >= 4 {
            return limit("more than 256 prefix words");
        }
        let w = body.word()?;
        *used += 1;
        if w >= VARIABLE {
            let v = w - VARIABLE;
            return match vars.get(v as usize) {
                Some(&s) if s == sort => Ok(Term::Var(v)),
                Some(_) if sort == PREDICATE => form(format!("variable {v} for a judgment")),
                Some(_) => form(format!("variable {v} at a place of another sort")),
                None => form(format!("variable {v}, which there is not")),
            };
        }
        let symbol = self.known_symbol(w)?;
        if symbol.output != sort {
            return form(format!("{} at a place of another sort", symbol.name));
        }
        let mut args = Vec::new();
        for &s in &symbol.inputs {
            args.push(self.term(body, vars, s, used)?);
        }
        Ok(Term::App(w, args))
    }

    fn node(&mut self, mut body: Body) -> Checked<()> {
        let head = body.word()?;
        let symbol = self.known_symbol(head)?;
        let mut node = vec![head];
        for &sort in &symbol.inputs {
            let a = body.word()?;
            if a as usize >= self.pack.nodes.len() {
                return form(format!("node {a}, which is no earlier one"));
            }
            if self.pack.sort_of(a) != sort {
                return form(format!("node {a} at a place of another sort"));
            }
            node.push(a);
        }
        body.end()?;
        let number = self.pack.nodes.len() as u32;
        if let Some(first) = self.nodes.insert(node.clone(), number) {
            return form(format!("node {first} given again"));
        }
        self.pack.nodes.push(node);
        Ok(())
    }

    fn judgment(&self, node: u32) -> Checked<()> {
        if node as usize >= self.pack.nodes.len() {
            form(format!("node {node}, which there is not"))
        } else if self.pack.sort_of(node) != PREDICATE {
            form(format!("node {node}, which is no judgment"))
        } else {
            Ok(())
        }
    }

    fn step(&mut self, mut body: Body) -> Checked<()> {
        let (rule, judgment) = (body.word()?, body.word()?);
        let Some(r) = self.pack.rules.get(rule as usize) else {
            return form(format!("rule {rule}, which there is not"));
        };
        self.judgment(judgment)?;
        let mut refs = Vec::new();
        for _ in &r.premises {
            let s = body.word()?;
            if s as usize >= self.pack.steps.len() {
                return form(format!("step {s}, which is no earlier one"));
            }
            refs.push(s);
        }
        body.end()?;
        self.pack.steps.push(Step {
            rule,
            judgment,
            refs,
        });
        Ok(())
    }

    fn goal(&mut self, mut body: Body) -> Checked<()> {
        let at = body.word()?;
        self.judgment(at)?;
        let name = self.name(6, body)?;
        self.pack.goals.push(Named { at, name });
        Ok(())
    }

    fn result(&mut self, mut body: Body) -> Checked<()> {
        let at = body.word()?;
        if at as usize >= self.pack.steps.len() {
            return form(format!("step {at}, which there is not"));
        }
        let name = self.name(7, body)?;
        self.pack.results.push(Named { at, name });
        Ok(())
    }

    fn cut(&mut self, mut body: Body) -> Checked<()> {
        let predicate = body.word()?;
        let symbol = self.known_symbol(predicate)?;
        if symbol.output != PREDICATE {
            return form(format!("a cut on {}, which is no predicate", symbol.name));
        }
        if self.pack.cut(predicate).is_some() {
            return form(format!("{} cut twice", symbol.name));
        }
        let mut outputs = Vec::new();
        while !body.0.is_empty() {
            let position = body.word()?;
            if position as usize >= symbol.inputs.len() {
                return form(format!("output {position}, not below the arity"));
            }
            outputs.push(position);
        }
        self.pack.cuts.push(Cut { predicate, outputs });
        Ok(())
    }

    fn abstracted(&mut self, mut body: Body) -> Checked<()> {
        if self.pack.abstracted.is_some() {
            return form("a second abstract record");
        }
        let (constructor, position) = (body.word()?, body.word()?);
        let symbol = self.known_symbol(constructor)?;
        if symbol.output == PREDICATE {
            return form(format!(
                "abstract on {}, which is no constructor",
                symbol.name
            ));
        }
        if position as usize >= symbol.inputs.len() {
            return form(format!("position {position}, not below the arity"));
        }
        body.end()?;
        self.pack.abstracted = Some((constructor, position));
        Ok(())
    }
}
