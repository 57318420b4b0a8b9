//! Generated keys in families, the same in every run.
use crate::numbers::Numbers;
use std::collections::HashSet;

/// Keys as the library takes them: for each the count of its arguments, its head, its arguments.
#[derive(Default)]
pub struct Keys {
    pub words: Vec<u32>,
    pub count: usize,
}

impl Keys {
    fn push(&mut self, head: u32, args: &[u32]) {
        self.words.push(args.len() as u32);
        self.words.push(head);
        self.words.extend_from_slice(args);
        self.count += 1;
    }

    /// Each key as the original takes it: its head and its arguments.
    pub fn iter(&self) -> impl Iterator<Item = &[u32]> {
        let mut rest = &self.words[..];
        std::iter::from_fn(move || {
            let (&arguments, tail) = rest.split_first()?;
            let (key, tail) = tail.split_at(arguments as usize + 1);
            rest = tail;
            Some(key)
        })
    }
}

pub struct Family {
    pub name: &'static str,
    pub what: &'static str,
    pub make: fn(usize) -> Keys,
}

pub const FAMILIES: [Family; 5] = [
    Family {
        name: "chain",
        what: "one head over the node before, all new",
        make: chain,
    },
    Family {
        name: "mix",
        what: "8 heads, 0 to 4 arguments near the latest node, a third of the keys repeats",
        make: mix,
    },
    Family {
        name: "grid",
        what: "one head over pairs of numbers below the root of n, all new",
        make: grid,
    },
    Family {
        name: "wide",
        what: "16 arguments, all new",
        make: wide,
    },
    Family {
        name: "repeats",
        what: "1,000 nodes of 2 arguments over and over",
        make: repeats,
    },
];

fn chain(n: usize) -> Keys {
    let mut keys = Keys::default();
    keys.push(0, &[]);
    for i in 1..n as u32 {
        keys.push(1, &[i - 1]);
    }
    keys
}

fn mix(n: usize) -> Keys {
    const ARITY: [usize; 8] = [0, 1, 1, 2, 2, 3, 3, 4];
    const NEAR: usize = 64;
    let mut numbers = Numbers::default();
    let mut keys = Keys::default();
    let mut seen = HashSet::new();
    let mut nodes: Vec<(u32, Vec<u32>)> = Vec::new();
    for _ in 0..n {
        // Some repeats come by themselves, the others from here.
        if numbers.below(100) < 20 && !nodes.is_empty() {
            let (head, args) = &nodes[numbers.below(nodes.len())];
            keys.push(*head, args);
            continue;
        }
        let head = numbers.below(ARITY.len());
        let near = |numbers: &mut Numbers| {
            let back = 1 + numbers.below(NEAR);
            nodes.len().saturating_sub(back) as u32
        };
        let args: Vec<u32> = (0..ARITY[head]).map(|_| near(&mut numbers)).collect();
        keys.push(head as u32, &args);
        let node = (head as u32, args);
        if seen.insert(node.clone()) {
            nodes.push(node);
        }
    }
    keys
}

fn grid(n: usize) -> Keys {
    // Row by row; the last row may be cut.
    let side = (1..).find(|s| s * s >= n).unwrap_or(n);
    let mut keys = Keys::default();
    for i in 0..n {
        keys.push(2, &[(i / side) as u32, (i % side) as u32]);
    }
    keys
}

fn wide(n: usize) -> Keys {
    let mut numbers = Numbers::default();
    let mut keys = Keys::default();
    for i in 0..n {
        let mut args = [i as u32; 16];
        for arg in &mut args[..15] {
            *arg = numbers.below(i + 1) as u32;
        }
        keys.push(3, &args);
    }
    keys
}

fn repeats(n: usize) -> Keys {
    const NODES: usize = 1000;
    let mut numbers = Numbers::default();
    let mut keys = Keys::default();
    for i in 0..n {
        let node = if i < NODES { i } else { numbers.below(NODES) };
        keys.push(4, &[node as u32, (node / 2) as u32]);
    }
    keys
}
