//! A pack as lines that a person can read, one for each record.
use crate::pack::{PREDICATE, Pack, Term};
use std::fmt::Write as _;

/// Terms of up to this many nodes are written out; larger ones name their nodes.
const WRITTEN_OUT: u64 = 40;

pub fn dump(pack: &Pack) -> String {
    let mut d = Dump {
        pack,
        sizes: Vec::new(),
        out: String::new(),
    };
    for n in &pack.nodes {
        let size = n[1..]
            .iter()
            .fold(1u64, |s, &a| s.saturating_add(d.sizes[a as usize]));
        d.sizes.push(size);
    }
    d.write();
    d.out
}

struct Dump<'a> {
    pack: &'a Pack,
    /// How many nodes each ground term has as a tree.
    sizes: Vec<u64>,
    out: String,
}

impl Dump<'_> {
    fn line(&mut self, text: String) {
        self.out.push_str(&text);
        self.out.push('\n');
    }

    fn write(&mut self) {
        let pack = self.pack;
        for (i, name) in pack.sorts.iter().enumerate() {
            self.line(format!("sort {i} {name}"));
        }
        for (i, s) in pack.symbols.iter().enumerate() {
            let what = if s.output == PREDICATE {
                "predicate"
            } else {
                "constructor"
            };
            let mut text = format!("{what} {i} {}", s.name);
            for &input in &s.inputs {
                let _ = write!(text, " {}", pack.sorts[input as usize]);
            }
            if s.output != PREDICATE {
                let _ = write!(text, " : {}", pack.sorts[s.output as usize]);
            }
            self.line(text);
        }
        for (i, r) in pack.rules.iter().enumerate() {
            let mut text = format!("rule {i} {}", r.name);
            for (v, &sort) in r.vars.iter().enumerate() {
                let _ = write!(text, " ?{v}:{}", pack.sorts[sort as usize]);
            }
            for p in &r.premises {
                let _ = write!(text, " {}", self.term(p, true));
            }
            let _ = write!(text, " gives {}", self.term(&r.conclusion, true));
            self.line(text);
        }
        for i in 0..pack.nodes.len() as u32 {
            let mut shown = String::new();
            self.node(i, &mut shown);
            self.line(format!("node {i} {shown}"));
        }
        for (i, s) in pack.steps.iter().enumerate() {
            let rule = &pack.rules[s.rule as usize].name;
            let refs: Vec<String> = s.refs.iter().map(u32::to_string).collect();
            let judgment = self.ground(s.judgment);
            self.line(format!("step {i} {rule} ({}) {judgment}", refs.join(" ")));
        }
        for (i, g) in pack.goals.iter().enumerate() {
            let judgment = self.ground(g.at);
            self.line(format!("goal {i} {} {judgment}", g.name));
        }
        for (i, r) in pack.results.iter().enumerate() {
            self.line(format!("result {i} {} step {}", r.name, r.at));
        }
        for c in &pack.cuts {
            let mut text = format!("cut {}", pack.symbols[c.predicate as usize].name);
            for o in &c.outputs {
                let _ = write!(text, " output {o}");
            }
            self.line(text);
        }
        if let Some((constructor, position)) = pack.abstracted {
            let name = &pack.symbols[constructor as usize].name;
            self.line(format!("abstract {name} {position}"));
        }
    }

    fn term(&self, t: &Term, top: bool) -> String {
        match t {
            Term::Var(v) => format!("?{v}"),
            Term::App(h, args) => {
                let name = &self.pack.symbols[*h as usize].name;
                if args.is_empty() && !top {
                    return name.clone();
                }
                let args: Vec<String> = args.iter().map(|a| self.term(a, false)).collect();
                applied(name, &args)
            }
        }
    }

    /// A term or a judgment, written out where it is small.
    fn ground(&self, node: u32) -> String {
        if self.sizes[node as usize] > WRITTEN_OUT {
            let mut shown = String::new();
            self.node(node, &mut shown);
            return shown;
        }
        self.written(node)
    }

    fn written(&self, node: u32) -> String {
        let n = &self.pack.nodes[node as usize];
        let name = &self.pack.symbols[n[0] as usize].name;
        if n.len() == 1 && !self.pack.is_predicate(n[0]) {
            return name.clone();
        }
        let args: Vec<String> = n[1..].iter().map(|&a| self.written(a)).collect();
        applied(name, &args)
    }

    /// One node with its arguments written out if small, else by number.
    fn node(&self, node: u32, out: &mut String) {
        let n = &self.pack.nodes[node as usize];
        let name = &self.pack.symbols[n[0] as usize].name;
        let args: Vec<String> = n[1..]
            .iter()
            .map(|&a| match self.sizes[a as usize] {
                ..=WRITTEN_OUT => self.written(a),
                _ => format!("#{a}"),
            })
            .collect();
        match n.len() {
            1 if !self.pack.is_predicate(n[0]) => out.push_str(name),
            _ => out.push_str(&applied(name, &args)),
        }
    }
}

fn applied(name: &str, args: &[String]) -> String {
    let mut text = format!("({name}");
    for a in args {
        text.push(' ');
        text.push_str(a);
    }
    text.push(')');
    text
}
