//! The library's unification alone: printed examples, drawn terms beside a plain recursive unifier and, in a build that has it, the original's; and calls that it refuses.
use crate::numbers::Numbers;
use crate::ours::zeros;
use crate::printed;
use std::collections::HashMap;

/// What a call says: 0 joined, 1 a clash, 2 no such list or no such node, 3 lengths; how
/// many pairs were taken, and 1 if there is a circle.
#[repr(C)]
#[derive(Clone, Copy, Debug, PartialEq, Eq)]
pub struct Unification {
    pub code: u64,
    taken: u64,
    pub circular: u64,
}

pub const JOINED: u64 = 0;
pub const CLASH: u64 = 1;
const LIST: u64 = 2;
const LENGTHS: u64 = 3;

unsafe extern "C" {
    fn unify_nodes(
        terms: *const u32,
        terms_len: usize,
        x: u64,
        y: u64,
        stage: u64,
        roots: *mut u32,
        roots_len: usize,
        cells: *mut u32,
        cells_len: usize,
        work: *mut u32,
        work_len: usize,
    ) -> Unification;
}

/// In place of a head: the node is a variable.
const VAR: u32 = u32::MAX - 1;
/// What buffers hold ahead of a call.
const JUNK: u32 = 0xdead_beef;

/// A node over earlier ones.
#[derive(Clone, Debug)]
pub enum Node {
    Var { flex: bool, rigid: bool },
    App(u32, Vec<u32>),
}

pub const FREE: Node = Node::Var {
    flex: false,
    rigid: false,
};

/// The words that stand for nodes.
pub fn words(nodes: &[Node]) -> Vec<u32> {
    let mut words = Vec::new();
    for node in nodes {
        match node {
            Node::Var { flex, rigid } => {
                words.extend([VAR, 0, u32::from(*flex), u32::from(*rigid)])
            }
            Node::App(head, args) => {
                words.extend([*head, args.len() as u32]);
                words.extend(args);
            }
        }
    }
    words
}

/// As many cells as the nodes take.
fn cells(nodes: &[Node]) -> usize {
    let width = |node: &Node| match node {
        Node::Var { .. } => 1,
        Node::App(_, args) => 1 + args.len(),
    };
    nodes.iter().map(width).sum()
}

/// The lengths lent in one call.
#[derive(Clone, Copy)]
pub struct Lent {
    roots: usize,
    cells: usize,
    work: usize,
}

impl Lent {
    pub fn exact(nodes: &[Node]) -> Self {
        let cells = cells(nodes);
        Lent {
            roots: nodes.len(),
            cells,
            work: 8 * cells + 7,
        }
    }
}

/// How far a call goes: it reads, it unifies too, it tests for circles and writes roots too.
pub const READ: u64 = 0;
pub const UNIFY: u64 = 1;
const WHOLE: u64 = 2;

/// The buffers of a call.
pub struct Buffers {
    roots: Vec<u32>,
    cells: Vec<u32>,
    work: Vec<u32>,
}

impl Buffers {
    pub fn new(lent: Lent) -> Self {
        Buffers {
            roots: vec![JUNK; lent.roots],
            cells: vec![JUNK; lent.cells],
            work: vec![JUNK; lent.work],
        }
    }

    pub fn call(&mut self, terms: &[u32], x: u64, y: u64, stage: u64) -> Unification {
        // SAFETY: four slices of their own, each with its own length.
        unsafe {
            unify_nodes(
                terms.as_ptr(),
                terms.len(),
                x,
                y,
                stage,
                self.roots.as_mut_ptr(),
                self.roots.len(),
                self.cells.as_mut_ptr(),
                self.cells.len(),
                self.work.as_mut_ptr(),
                self.work.len(),
            )
        }
    }
}

/// One call; cells and work must come back as zeros, and roots too unless it is joined.
fn call_at(
    terms: &[u32],
    x: u64,
    y: u64,
    stage: u64,
    lent: Lent,
) -> Result<(Unification, Vec<u32>), String> {
    let mut lent = Buffers::new(lent);
    let answer = lent.call(terms, x, y, stage);
    zeros("cells", &lent.cells)?;
    zeros("work", &lent.work)?;
    if answer.code != JOINED {
        zeros("roots", &lent.roots)?;
    }
    Ok((answer, lent.roots))
}

pub fn call(terms: &[u32], x: u64, y: u64, lent: Lent) -> Result<(Unification, Vec<u32>), String> {
    call_at(terms, x, y, WHOLE, lent)
}

pub fn check() -> Result<String, String> {
    let examples = printed::check()?;
    shared()?;
    refusals()?;
    let drawn = drawn()?;
    Ok(format!(
        "{examples} written sets of terms and {drawn} drawn pairs unified\n"
    ))
}

/// Terms that double with each variable: h(x1,..,xn,f(y0,y0),..,yn) and
/// h(f(x0,x0),..,y1,..,yn,xn). Joined nodes are taken once, so the pairs stay few.
fn shared() -> Result<(), String> {
    const N: usize = 200;
    let (h, f) = (0, 1);
    let mut nodes = vec![FREE; 2 * (N + 1)];
    let (x, y) = (|i: usize| i as u32, |i: usize| (N + 1 + i) as u32);
    let mut doubled = |v: u32| {
        nodes.push(Node::App(f, vec![v, v]));
        nodes.len() as u32 - 1
    };
    let xs: Vec<u32> = (0..N).map(|i| doubled(x(i))).collect();
    let ys: Vec<u32> = (0..N).map(|i| doubled(y(i))).collect();
    let left = (1..=N).map(x).chain(ys).chain([y(N)]).collect();
    let right = xs.into_iter().chain((1..=N).map(y)).chain([x(N)]).collect();
    nodes.push(Node::App(h, left));
    nodes.push(Node::App(h, right));
    let top = nodes.len() as u32 - 1;
    agree(&nodes, top - 1, top).map_err(|why| format!("terms that double: {why}"))
}

/// Classes of nodes, by a number for each; no links.
struct Plain<'a> {
    nodes: &'a [Node],
    class: Vec<u32>,
}

impl Plain<'_> {
    /// A node of the class that is no free variable.
    fn fixed(&self, class: u32) -> Option<usize> {
        let free = |node: &Node| matches!(node, Node::Var { rigid: false, .. });
        (0..self.nodes.len()).find(|&i| self.class[i] == class && !free(&self.nodes[i]))
    }

    /// Whether the two can be made equal.
    fn equate(&mut self, x: u32, y: u32) -> bool {
        let (a, b) = (self.class[x as usize], self.class[y as usize]);
        if a == b {
            return true;
        }
        let both = self.fixed(a).zip(self.fixed(b));
        for class in &mut self.class {
            if *class == a {
                *class = b;
            }
        }
        let nodes = self.nodes;
        match both.map(|(i, j)| (&nodes[i], &nodes[j])) {
            None => true,
            Some((Node::App(f, xs), Node::App(g, ys))) => {
                f == g && xs.iter().zip(ys).all(|(&x, &y)| self.equate(x, y))
            }
            Some(_) => false,
        }
    }

    /// Whether some class is a part of itself: ended ones are taken away until none is left to take.
    fn circular(&self) -> bool {
        let n = self.nodes.len();
        let mut ended = vec![false; n];
        loop {
            let ends = |i: usize, ended: &[bool]| match self.fixed(i as u32).map(|j| &self.nodes[j])
            {
                Some(Node::App(_, args)) => {
                    args.iter().all(|&a| ended[self.class[a as usize] as usize])
                }
                _ => true,
            };
            let Some(i) = (0..n).find(|&i| !ended[i] && ends(i, &ended)) else {
                return ended.contains(&false);
            };
            ended[i] = true;
        }
    }

    /// The pairs taken by which all is joined: the first, and a pair of each argument of two applications joined.
    fn taken(&self) -> usize {
        let mut seen = vec![false; self.nodes.len()];
        let mut taken = 1;
        for (i, node) in self.nodes.iter().enumerate() {
            if let Node::App(_, args) = node {
                let class = self.class[i] as usize;
                taken += if seen[class] { args.len() } else { 0 };
                seen[class] = true;
            }
        }
        taken
    }
}

/// The library's answer is the plain unifier's, and the original's.
pub fn agree(nodes: &[Node], x: u32, y: u32) -> Result<(), String> {
    let (answer, roots) = call(&words(nodes), x.into(), y.into(), Lent::exact(nodes))?;
    let class = (0..nodes.len() as u32).collect();
    let mut plain = Plain { nodes, class };
    let joined = plain.equate(x, y);
    if answer.code != if joined { JOINED } else { CLASH } {
        return Err(format!("{answer:?}, and the plain unifier says {joined}"));
    }
    #[cfg(feature = "original")]
    original(nodes, x, y, joined.then_some(&roots[..]))?;
    if !joined {
        return Ok(());
    }
    let wanted = (plain.taken() as u64, u64::from(plain.circular()));
    if (answer.taken, answer.circular) != wanted {
        return Err(format!("{answer:?}, not {wanted:?}"));
    }
    stages(nodes, x, y, answer)?;
    let mut root_of = HashMap::new();
    let mut class_of = HashMap::new();
    for (i, &root) in roots.iter().enumerate() {
        let class = plain.class[i];
        if *root_of.entry(class).or_insert(root) != root
            || *class_of.entry(root).or_insert(class) != class
        {
            return Err(format!("node {i} has root {root}, not that of its class"));
        }
        if roots.get(root as usize) != Some(&root) {
            return Err(format!("node {i} has root {root}, which is none"));
        }
        if plain.fixed(class).is_some()
            && matches!(nodes[root as usize], Node::Var { rigid: false, .. })
        {
            return Err(format!("node {i} has root {root}, a variable, and a term"));
        }
    }
    Ok(())
}

/// A call that goes less far says less: no circle and no roots, and without unification no
/// pairs.
fn stages(nodes: &[Node], x: u32, y: u32, whole: Unification) -> Result<(), String> {
    for (stage, taken) in [(UNIFY, whole.taken), (READ, 0)] {
        let wanted = Unification {
            taken,
            circular: 0,
            ..whole
        };
        let (got, roots) = call_at(&words(nodes), x.into(), y.into(), stage, Lent::exact(nodes))?;
        if got != wanted {
            return Err(format!("stage {stage}: {got:?}, not {wanted:?}"));
        }
        zeros("roots", &roots)?;
    }
    Ok(())
}

/// The original gives the same roots.
#[cfg(feature = "original")]
fn original(nodes: &[Node], x: u32, y: u32, roots: Option<&[u32]>) -> Result<(), String> {
    let theirs = crate::generalize::door::unify(nodes, x, y)?;
    match theirs.as_deref() == roots {
        true => Ok(()),
        false => Err(format!("the original has roots {theirs:?}, not {roots:?}")),
    }
}

/// Heads of 0 to 3 arguments, two of each.
const HEADS: usize = 8;

fn drawn() -> Result<usize, String> {
    const PAIRS: usize = 20_000;
    let mut numbers = Numbers::default();
    for pair in 0..PAIRS {
        let n = 2 + numbers.below(if pair % 100 == 0 { 60 } else { 16 });
        let nodes: Vec<Node> = (0..n).map(|i| draw(&mut numbers, i)).collect();
        let (x, y) = (numbers.below(n) as u32, numbers.below(n) as u32);
        agree(&nodes, x, y).map_err(|why| format!("nodes {x} and {y} of {nodes:?}: {why}"))?;
    }
    Ok(PAIRS)
}

/// A node behind `earlier` others.
fn draw(numbers: &mut Numbers, earlier: usize) -> Node {
    if earlier == 0 || numbers.below(5) < 2 {
        return Node::Var {
            flex: numbers.below(3) == 0,
            rigid: numbers.below(8) == 0,
        };
    }
    let head = numbers.below(HEADS) as u32;
    let args = (0..head / 2)
        .map(|_| numbers.below(earlier) as u32)
        .collect();
    Node::App(head, args)
}

/// Calls that are refused, and at which length.
fn refusals() -> Result<(), String> {
    let nodes = [
        FREE,
        Node::App(1, vec![0]),
        Node::App(2, vec![]),
        Node::App(1, vec![2]),
    ];
    let terms = words(&nodes);
    let lent = Lent::exact(&nodes);
    let ask = |what: &str, terms: &[u32], x, y, lent, wanted| {
        let (answer, _) = call(terms, x, y, lent).map_err(|why| format!("{what}: {why}"))?;
        match answer.code == wanted {
            true => Ok(()),
            false => Err(format!("{what}: {answer:?}, not code {wanted}")),
        }
    };
    ask("exact lengths", &terms, 1, 3, lent, JOINED)?;
    ask(
        "a cell less",
        &terms,
        1,
        3,
        Lent {
            cells: lent.cells - 1,
            ..lent
        },
        LENGTHS,
    )?;
    ask(
        "a word of work less",
        &terms,
        1,
        3,
        Lent {
            work: lent.work - 1,
            ..lent
        },
        LENGTHS,
    )?;
    ask(
        "a root less",
        &terms,
        1,
        3,
        Lent {
            roots: lent.roots - 1,
            ..lent
        },
        LENGTHS,
    )?;
    let many = 1 << 24;
    ask(
        "2^24 cells",
        &terms,
        1,
        3,
        Lent {
            cells: many,
            work: 8 * many + 7,
            ..lent
        },
        LENGTHS,
    )?;
    ask("no node 4", &terms, 1, 4, lent, LIST)?;
    ask("no node 2^32", &terms, 1 << 32, 3, lent, LIST)?;
    ask(
        "the node itself as its argument",
        &[1, 1, 0],
        0,
        0,
        lent,
        LIST,
    )?;
    ask("no words", &[], 0, 0, lent, LIST)?;
    // A list may end behind each node.
    let mut ends = vec![0];
    for i in 0..nodes.len() {
        ends.push(words(&nodes[..=i]).len());
    }
    for end in 0..terms.len() {
        let wanted = match ends.iter().position(|&e| e == end) {
            Some(n) if n > 0 => JOINED,
            _ => LIST,
        };
        ask(&format!("{end} words"), &terms[..end], 0, 0, lent, wanted)?;
    }
    Ok(())
}
