//! Patterns to copy and to read back, of three families and any size.
use crate::walk::VAR;

/// Patterns of some shape, by a number of parts.
pub struct Family {
    pub name: &'static str,
    #[cfg_attr(not(feature = "original"), allow(dead_code))]
    pub what: &'static str,
    /// The parts of its least patterns.
    pub size: usize,
    pub make: fn(usize) -> Vec<Vec<u32>>,
}

pub const FAMILIES: [Family; 3] = [
    Family {
        name: "deep",
        what: "one argument a node, as many levels as nodes",
        size: 2_500,
        make: deep,
    },
    Family {
        name: "wide",
        what: "sixteen arguments a node over distinct variables",
        size: 1_600,
        make: wide,
    },
    Family {
        name: "shared",
        what: "forty doublings of a variable, many of them side by side",
        size: 50,
        make: shared,
    },
];

fn deep(n: usize) -> Vec<Vec<u32>> {
    let mut nodes = vec![vec![VAR, 0, 0]];
    nodes.extend((0..n as u32).map(|i| vec![1, i]));
    nodes
}

fn wide(n: usize) -> Vec<Vec<u32>> {
    let mut nodes: Vec<Vec<u32>> = (0..n as u32).map(|k| vec![VAR, k, 0]).collect();
    let level = (0..n as u32).collect();
    join(&mut nodes, level);
    nodes
}

fn shared(n: usize) -> Vec<Vec<u32>> {
    let (mut nodes, mut tops) = (Vec::new(), Vec::new());
    for k in 0..n as u32 {
        nodes.push(vec![VAR, k, 0]);
        for _ in 0..40 {
            let last = nodes.len() as u32 - 1;
            nodes.push(vec![2, last, last]);
        }
        tops.push(nodes.len() as u32 - 1);
    }
    join(&mut nodes, tops);
    nodes
}

/// Nodes over sixteen of these at a time, until there is one.
fn join(nodes: &mut Vec<Vec<u32>>, mut level: Vec<u32>) {
    while level.len() > 1 {
        let mut above = Vec::new();
        for part in level.chunks(16) {
            nodes.push([&[10 + part.len() as u32], part].concat());
            above.push(nodes.len() as u32 - 1);
        }
        level = above;
    }
}
