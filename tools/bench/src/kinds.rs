//! Pairs of terms to unify, of four kinds and any size.
use crate::unify::Node;

const F: u32 = 0;
const G: u32 = 1;
const A: u32 = 2;

pub struct Kind {
    pub name: &'static str,
    #[cfg_attr(not(feature = "original"), allow(dead_code))]
    pub what: &'static str,
    /// Nodes of about that size, and the two to unify.
    pub make: fn(usize) -> (Vec<Node>, u32, u32),
}

pub const KINDS: [Kind; 4] = [
    Kind {
        name: "deep",
        what: "two terms of n levels, a variable and a constant at their ends",
        make: deep,
    },
    Kind {
        name: "wide",
        what: "one head over n variables and over n constants",
        make: wide,
    },
    Kind {
        name: "chain",
        what: "n variables bound one to the next, then the first to a constant",
        make: chain,
    },
    Kind {
        name: "double",
        what: "terms of 40 doublings, two beside two, n / 40 times",
        make: double,
    },
];

fn var() -> Node {
    Node::Var {
        flex: false,
        rigid: false,
    }
}

/// A term of so many levels over a node.
fn levels(nodes: &mut Vec<Node>, size: usize, end: Node) -> u32 {
    nodes.push(end);
    for _ in 0..size {
        nodes.push(Node::App(G, vec![nodes.len() as u32 - 1]));
    }
    nodes.len() as u32 - 1
}

fn deep(size: usize) -> (Vec<Node>, u32, u32) {
    let mut nodes = Vec::new();
    let x = levels(&mut nodes, size, var());
    let y = levels(&mut nodes, size, Node::App(A, Vec::new()));
    (nodes, x, y)
}

fn wide(size: usize) -> (Vec<Node>, u32, u32) {
    let mut nodes = vec![var(); size];
    nodes.push(Node::App(A, Vec::new()));
    let n = size as u32;
    nodes.push(Node::App(F, (0..n).collect()));
    nodes.push(Node::App(F, vec![n; size]));
    (nodes, n + 1, n + 2)
}

fn chain(size: usize) -> (Vec<Node>, u32, u32) {
    let mut nodes = vec![var(); size];
    nodes.push(Node::App(A, Vec::new()));
    let n = size as u32;
    // The last arguments are taken first, so each variable is bound to the next, and the
    // first one's chain is the longest; it meets the constant last of all.
    nodes.push(Node::App(F, std::iter::once(0).chain(0..n - 1).collect()));
    nodes.push(Node::App(F, std::iter::once(n).chain(1..n).collect()));
    (nodes, n + 1, n + 2)
}

fn double(size: usize) -> (Vec<Node>, u32, u32) {
    const DOUBLINGS: usize = 40;
    let mut nodes = Vec::new();
    let mut doubled = |end: Node| {
        nodes.push(end);
        for _ in 0..DOUBLINGS {
            let last = nodes.len() as u32 - 1;
            nodes.push(Node::App(F, vec![last, last]));
        }
        nodes.len() as u32 - 1
    };
    let (mut left, mut right) = (Vec::new(), Vec::new());
    for _ in 0..size.div_ceil(DOUBLINGS) {
        left.push(doubled(var()));
        right.push(doubled(Node::App(A, Vec::new())));
    }
    let at = nodes.len() as u32;
    nodes.push(Node::App(G, left));
    nodes.push(Node::App(G, right));
    (nodes, at, at + 1)
}
