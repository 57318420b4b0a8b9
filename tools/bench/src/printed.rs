//! Sets of terms as printed in papers on unification, given to the library, with Robinson's own
//! algorithm as their judge.
use crate::unify::{CLASH, FREE, JOINED, Lent, Node, agree, call, words};
use std::collections::HashMap;

/// Terms as printed, and what becomes of them when they are made one.
struct Example {
    set: &'static [&'static str],
    outcome: Outcome,
}

/// The values of variables, that there are none, or that some have no end.
enum Outcome {
    Joined(&'static [(&'static str, &'static str)]),
    Clash,
    Circle,
}
use Outcome::{Circle, Clash, Joined};

/// Of Robinson, A Machine-Oriented Logic Based on the Resolution Principle (1965): the set
/// whose most general unifier is worked out, the three of the disagreement set, all together and
/// by twos (section 5), and the two clauses whose refutation no search of Herbrand's levels would
/// find (section 4), with their variables apart and, as he writes them, with one name in both; two
/// of Chang and Lee, Symbolic Logic and Mechanical Theorem Proving (1973), on unification; the one
/// of Martelli and Montanari, An Efficient Unification Algorithm (1982); and pairs that only
/// Robinson's test of a variable inside its own term tells apart. All are cited from memory; the
/// texts were not at hand (docs/DECISIONS.md).
const EXAMPLES: [Example; 13] = [
    Example {
        set: &["P(a,x,h(g(z)))", "P(z,h(y),h(y))"],
        outcome: Joined(&[("z", "a"), ("x", "h(g(a))"), ("y", "g(a)")]),
    },
    Example {
        set: &["P(x,h(x,y),y)", "P(x,k(y),y)", "P(x,a,b)"],
        outcome: Clash,
    },
    Example {
        set: &["P(x,h(x,y),y)", "P(x,k(y),y)"],
        outcome: Clash,
    },
    Example {
        set: &["P(x,h(x,y),y)", "P(x,a,b)"],
        outcome: Clash,
    },
    Example {
        set: &["P(x,k(y),y)", "P(x,a,b)"],
        outcome: Clash,
    },
    Example {
        set: &["Q(x,g(x),y,h(x,y),z,k(x,y,z))", "Q(u,v,e(v),w,f(v,w),x2)"],
        outcome: Joined(&[
            ("x", "u"),
            ("v", "g(u)"),
            ("y", "e(g(u))"),
            ("w", "h(u,e(g(u)))"),
            ("z", "f(g(u),h(u,e(g(u))))"),
            ("x2", "k(u,e(g(u)),f(g(u),h(u,e(g(u)))))"),
        ]),
    },
    Example {
        set: &["Q(x,g(x),y,h(x,y),z,k(x,y,z))", "Q(u,v,e(v),w,f(v,w),x)"],
        outcome: Circle,
    },
    Example {
        set: &["P(a,x,f(g(y)))", "P(z,f(z),f(u))"],
        outcome: Joined(&[("z", "a"), ("x", "f(a)"), ("u", "g(y)")]),
    },
    Example {
        set: &["Q(f(a),g(x))", "Q(y,y)"],
        outcome: Clash,
    },
    Example {
        set: &["f(x1,g(x2,x3),x2,b)", "f(g(h(a,x5),x2),x1,h(a,x4),x4)"],
        outcome: Joined(&[
            ("x1", "g(h(a,b),h(a,b))"),
            ("x2", "h(a,b)"),
            ("x3", "h(a,b)"),
            ("x4", "b"),
            ("x5", "b"),
        ]),
    },
    Example {
        set: &["P(x,x)", "P(y,f(y))"],
        outcome: Circle,
    },
    Example {
        set: &["P(x,f(y))", "P(f(y),x)"],
        outcome: Joined(&[("x", "f(y)")]),
    },
    Example {
        set: &["P(x,y)", "P(f(y),f(x))"],
        outcome: Circle,
    },
];

/// Each example, in the library and by Robinson's algorithm.
pub fn check() -> Result<usize, String> {
    for example in &EXAMPLES {
        let set: Vec<Expression> = example.set.iter().map(|text| read(&mut &**text)).collect();
        let unified = library(example, &set)
            .map_err(|why| format!("{}: {why}", example.set.join(" and ")))?;
        let wanted = robinson(set).map(|e| e.renamed());
        if unified != wanted {
            return Err(format!(
                "{}: {unified:?}, by Robinson's algorithm {wanted:?}",
                example.set.join(" and ")
            ));
        }
    }
    Ok(EXAMPLES.len())
}

/// An expression; a name that starts with u to z is a variable's.
#[derive(Clone, PartialEq, Eq)]
struct Expression {
    name: String,
    args: Vec<Expression>,
}

/// The expression ahead in `text`, which is left behind it.
fn read(text: &mut &str) -> Expression {
    let end = text.find(['(', ')', ',']).unwrap_or(text.len());
    let name = text[..end].to_owned();
    *text = &text[end..];
    let mut args = Vec::new();
    while text.starts_with(['(', ',']) && (args.is_empty() == text.starts_with('(')) {
        *text = &text[1..];
        args.push(read(text));
    }
    if !args.is_empty() {
        *text = &text[1..];
    }
    Expression { name, args }
}

impl Expression {
    fn is_variable(&self) -> bool {
        self.name.starts_with(['u', 'v', 'w', 'x', 'y', 'z'])
    }

    /// How many symbols it has.
    fn length(&self) -> usize {
        1 + self.args.iter().map(Expression::length).sum::<usize>()
    }

    fn mentions(&self, variable: &str) -> bool {
        self.name == variable || self.args.iter().any(|a| a.mentions(variable))
    }

    /// With `value` put for a variable.
    fn put(&self, variable: &str, value: &Expression) -> Expression {
        if self.name == variable {
            return value.clone();
        }
        Expression {
            name: self.name.clone(),
            args: self.args.iter().map(|a| a.put(variable, value)).collect(),
        }
    }

    /// As text, its variables numbered as they are met.
    fn renamed(&self) -> String {
        self.show(&mut Vec::new())
    }

    fn show(&self, met: &mut Vec<String>) -> String {
        if self.is_variable() {
            let at = met.iter().position(|name| *name == self.name);
            let at = at.unwrap_or_else(|| {
                met.push(self.name.clone());
                met.len() - 1
            });
            return format!("?{at}");
        }
        if self.args.is_empty() {
            return self.name.clone();
        }
        let args: Vec<String> = self.args.iter().map(|a| a.show(met)).collect();
        format!("{}({})", self.name, args.join(","))
    }
}

/// Robinson's unification algorithm: while the expressions differ, the earliest of their disagreement
/// set must be a variable that the next one has not inside, and the next one is put for it.
fn robinson(mut set: Vec<Expression>) -> Option<Expression> {
    while set.iter().any(|e| *e != set[0]) {
        let mut differ = disagreement(set.iter().collect());
        differ.sort_by_key(|e| (e.length(), !e.is_variable(), e.name.clone()));
        differ.dedup();
        let (variable, value) = (differ[0], differ[1]);
        if !variable.is_variable() || value.mentions(&variable.name) {
            return None;
        }
        set = set.iter().map(|e| e.put(&variable.name, value)).collect();
    }
    set.pop()
}

/// What stands in each expression at the first place where not all have the same symbol.
fn disagreement(set: Vec<&Expression>) -> Vec<&Expression> {
    let first = set[0];
    let alike = |e: &Expression| e.name == first.name && e.args.len() == first.args.len();
    if !set.iter().all(|e| alike(e)) {
        return set;
    }
    let at = |i: usize| set.iter().map(|e| &e.args[i]).collect::<Vec<_>>();
    let place = (0..first.args.len()).find(|&i| at(i).iter().any(|a| **a != first.args[i]));
    place.map_or(set.clone(), |i| disagreement(at(i)))
}

/// The expressions as nodes.
#[derive(Default)]
struct Nodes {
    nodes: Vec<Node>,
    heads: Vec<String>,
    variables: HashMap<String, u32>,
}

impl Nodes {
    fn push(&mut self, node: Node) -> u32 {
        self.nodes.push(node);
        self.nodes.len() as u32 - 1
    }

    fn put(&mut self, e: &Expression) -> u32 {
        if e.is_variable() {
            if let Some(&node) = self.variables.get(&e.name) {
                return node;
            }
            let node = self.push(FREE);
            self.variables.insert(e.name.clone(), node);
            return node;
        }
        let args = e.args.iter().map(|a| self.put(a)).collect();
        self.app(&e.name, args)
    }

    fn app(&mut self, name: &str, args: Vec<u32>) -> u32 {
        let at = self.heads.iter().position(|head| head == name);
        let head = at.unwrap_or_else(|| {
            self.heads.push(name.into());
            self.heads.len() - 1
        });
        self.push(Node::App(head as u32, args))
    }

    /// A node's expression, along the roots.
    fn expression(&self, roots: &[u32], node: u32) -> Expression {
        let root = roots[node as usize];
        match &self.nodes[root as usize] {
            Node::Var { .. } => {
                let name = self.variables.iter().find(|(_, v)| **v == root);
                Expression {
                    name: name.map_or("?".into(), |(name, _)| name.clone()),
                    args: Vec::new(),
                }
            }
            Node::App(head, args) => Expression {
                name: self.heads[*head as usize].clone(),
                args: args.iter().map(|&a| self.expression(roots, a)).collect(),
            },
        }
    }
}

/// The library's answer must be the example's; what it makes of the expressions, if it makes them one.
fn library(example: &Example, set: &[Expression]) -> Result<Option<String>, String> {
    let mut terms = Nodes::default();
    let all: Vec<u32> = set.iter().map(|e| terms.put(e)).collect();
    // A call takes two nodes: all but the last one side by side, and all but the first.
    let last = all.len() - 1;
    let x = terms.app("", all[..last].to_vec());
    let y = terms.app("", all[1..].to_vec());
    let lent = Lent::exact(&terms.nodes);
    let (answer, roots) = call(&words(&terms.nodes), x.into(), y.into(), lent)?;
    let wanted = match example.outcome {
        Joined(_) => (JOINED, 0),
        Clash => (CLASH, 0),
        Circle => (JOINED, 1),
    };
    if (answer.code, answer.circular) != wanted {
        return Err(format!("{answer:?}"));
    }
    agree(&terms.nodes, x, y)?;
    let Joined(values) = example.outcome else {
        return Ok(None);
    };
    for &(name, value) in values {
        let is = terms.expression(&roots, terms.variables[name]);
        if is != read(&mut &*value) {
            return Err(format!("{name} is {}, not {value}", is.renamed()));
        }
    }
    let unified: Vec<Expression> = all.iter().map(|&e| terms.expression(&roots, e)).collect();
    match unified.iter().all(|e| *e == unified[0]) {
        true => Ok(Some(unified[0].renamed())),
        false => Err("the terms differ".into()),
    }
}
