//! Goals as shown, by document 01: for each a line of its name and its general form, then a
//! line for each variable of the form.
use crate::pack::Pack;
use std::fmt::Write as _;

/// Head of a pattern variable.
pub const VAR: u32 = u32::MAX - 1;

/// As many nodes are shown of a general form, and of a variable's value.
#[derive(Clone, Copy, Debug, PartialEq, Eq)]
pub struct Budgets {
    pub form: u64,
    pub value: u64,
}

/// Document 01's own.
pub const AS_A_RULE: Budgets = Budgets {
    form: 60,
    value: 12,
};

/// A goal: its name, the pattern of its general form, and the form's variables, ascending.
pub struct Goal<'a> {
    pub name: &'a str,
    pub form: u32,
    pub variables: Vec<Variable>,
}

/// A variable: its number, its flex mark, and the ground node that is its value.
pub struct Variable {
    pub number: u32,
    pub flex: u32,
    pub value: u32,
}

/// The goals' text; none if it has more bytes than `most`.
pub fn text(
    pack: &Pack,
    patterns: &[&[u32]],
    goals: &[Goal],
    budgets: Budgets,
    most: usize,
) -> Option<String> {
    let mut text = Text {
        pack,
        most,
        out: String::new(),
    };
    for goal in goals {
        text.write(goal.name)?;
        text.write(" ")?;
        text.term(|p| patterns[p as usize], goal.form, budgets.form)?;
        text.write("\n")?;
        for variable in &goal.variables {
            text.variable(variable, budgets.value)?;
        }
    }
    Some(text.out)
}

/// What is still to come of a term.
enum Part {
    Node(u32),
    Mark(&'static str),
}

struct Text<'a> {
    pack: &'a Pack,
    most: usize,
    out: String,
}

impl Text<'_> {
    fn write(&mut self, part: &str) -> Option<()> {
        self.out.push_str(part);
        (self.out.len() <= self.most).then_some(())
    }

    /// `?v0 : Nat 1 (s z)`: number, sort, flex mark, value.
    fn variable(&mut self, variable: &Variable, budget: u64) -> Option<()> {
        let Variable {
            number,
            flex,
            value,
        } = *variable;
        let sort = &self.pack.sorts[self.pack.sort_of(value) as usize];
        let _ = write!(self.out, "?v{number} : {sort} {flex} ");
        let nodes = &self.pack.nodes;
        self.term(|g| &nodes[g as usize], value, budget)?;
        self.write("\n")
    }

    /// A term by its nodes, from left to right, a unit of the budget for each.
    fn term<'n>(
        &mut self,
        node: impl Fn(u32) -> &'n [u32],
        top: u32,
        mut budget: u64,
    ) -> Option<()> {
        let mut left = vec![Part::Node(top)];
        while let Some(part) = left.pop() {
            match part {
                Part::Mark(mark) => self.write(mark)?,
                Part::Node(_) if budget == 0 => self.write("…")?,
                Part::Node(n) => {
                    budget -= 1;
                    self.node(node(n), &mut left)?;
                }
            }
        }
        Some(())
    }

    /// A node's own text; what follows it is left.
    fn node(&mut self, node: &[u32], left: &mut Vec<Part>) -> Option<()> {
        if node[0] == VAR {
            let _ = write!(self.out, "?v{}", node[1]);
            return self.write("");
        }
        // A judgment has brackets, a constant has none.
        if node.len() > 1 || self.pack.is_predicate(node[0]) {
            self.write("(")?;
            left.push(Part::Mark(")"));
        }
        for &a in node[1..].iter().rev() {
            left.extend([Part::Node(a), Part::Mark(" ")]);
        }
        let pack = self.pack;
        self.write(&pack.symbols[node[0] as usize].name)
    }
}
