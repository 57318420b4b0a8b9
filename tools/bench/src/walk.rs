//! Copies of patterns read back in the library: written patterns and drawn ones beside a plain
//! renumbering; and calls that it refuses.
use crate::numbers::Numbers;
use crate::ours::zeros;
use std::collections::HashMap;

/// What a call says: 0 with a pattern's number, how many variables are numbered and how many cells
/// the graph has; or a refusal's number and place.
#[repr(C)]
#[derive(Clone, Copy, Debug, PartialEq, Eq)]
pub struct Walked {
    pub code: u64,
    pub at: u64,
    pub numbered: u64,
    pub cells: u64,
}

const DONE: u64 = 0;
const FORM: (u64, u64) = (1, 0);
const LENGTHS: (u64, u64) = (2, 0);
const SHORT: u64 = 8;
/// No list of patterns, or no such pattern.
const NONE: (u64, u64) = (12, 0);
/// The places of a short buffer.
const PATTERNS: u64 = 2;
const CELLS: u64 = 3;
const WORK: u64 = 4;

/// In place of a head: the node is a variable, by its number and its sort.
pub const VAR: u32 = u32::MAX - 1;
/// What buffers hold ahead of a call.
const JUNK: u32 = 0xdead_beef;

unsafe extern "C" {
    fn copy_pattern(
        pack: *const u8,
        pack_len: usize,
        from: *const u32,
        from_len: usize,
        flex: *const u32,
        flex_len: usize,
        p: u64,
        copies: u64,
        read: u64,
        patterns: *mut u32,
        patterns_len: usize,
        cells: *mut u32,
        cells_len: usize,
        work: *mut u32,
        work_len: usize,
    ) -> Walked;
}

/// The buffers of one call.
pub struct Lent {
    pub patterns: Vec<u32>,
    pub cells: Vec<u32>,
    pub work: Vec<u32>,
}

impl Lent {
    /// Room for so many words of patterns and cells, beside a pack of so many bytes.
    pub fn new(pack: usize, patterns: usize, cells: usize) -> Self {
        Lent {
            patterns: vec![JUNK; patterns],
            cells: vec![JUNK; cells],
            work: vec![JUNK; 16 * (patterns + cells + pack) + 1024],
        }
    }

    /// Pattern `p` of the list copied so many times, and the last copy read back.
    pub fn copy(&mut self, asked: &Asked) -> Walked {
        // SAFETY: six slices of their own, each with its own length.
        unsafe {
            copy_pattern(
                asked.pack.as_ptr(),
                asked.pack.len(),
                asked.from.as_ptr(),
                asked.from.len(),
                asked.flex.as_ptr(),
                asked.flex.len(),
                asked.p,
                asked.copies,
                asked.read,
                self.patterns.as_mut_ptr(),
                self.patterns.len(),
                self.cells.as_mut_ptr(),
                self.cells.len(),
                self.work.as_mut_ptr(),
                self.work.len(),
            )
        }
    }

    /// The answer and the patterns' words, and zeros behind them and elsewhere.
    pub fn check(&self, answer: Walked, wanted: Walked, words: &[u32]) -> Result<(), String> {
        if answer != wanted {
            return Err(format!("{answer:?}, not {wanted:?}"));
        }
        let (ours, behind) = self.patterns.split_at(words.len());
        if ours != words {
            return Err(format!("patterns {ours:?}, not {words:?}"));
        }
        zeros("patterns", behind)?;
        zeros("cells", &self.cells)?;
        zeros("work", &self.work)
    }

    /// A refusal, and zeros.
    fn check_refused(&self, answer: Walked, (code, at): (u64, u64)) -> Result<(), String> {
        let wanted = Walked {
            code,
            at,
            numbered: 0,
            cells: 0,
        };
        self.check(answer, wanted, &[])
    }
}

/// What is asked of `copy_pattern`.
#[derive(Clone, Copy)]
pub struct Asked<'a> {
    pub pack: &'a [u8],
    pub from: &'a [u32],
    pub flex: &'a [u32],
    pub p: u64,
    pub copies: u64,
    pub read: u64,
}

impl<'a> Asked<'a> {
    /// Of no pack: patterns alone.
    pub fn unpacked(from: &'a [u32], flex: &'a [u32], p: u32, copies: u64, read: u64) -> Self {
        let (pack, p) = (&[][..], p.into());
        Asked {
            pack,
            from,
            flex,
            p,
            copies,
            read,
        }
    }
}

/// A store of distinct nodes: each a head and its arguments, or a variable's number and sort.
#[derive(Clone, Default)]
pub struct Store {
    pub nodes: Vec<Vec<u32>>,
    numbers: HashMap<Vec<u32>, u32>,
}

impl Store {
    /// A store of these nodes.
    pub fn of(nodes: &[Vec<u32>]) -> Self {
        let mut store = Store::default();
        for node in nodes {
            store.intern(node.clone());
        }
        store
    }

    pub fn intern(&mut self, node: Vec<u32>) -> u32 {
        let next = self.nodes.len() as u32;
        let nodes = &mut self.nodes;
        *self.numbers.entry(node).or_insert_with_key(|node| {
            nodes.push(node.clone());
            next
        })
    }

    pub fn words(&self) -> Vec<u32> {
        words(&self.nodes)
    }

    /// Pattern `p` with its variables numbered by first occurrence from the left.
    fn renumber(&mut self, p: u32, seen: &mut HashMap<u32, u32>, numbered: &mut u32) -> u32 {
        if let Some(&q) = seen.get(&p) {
            return q;
        }
        let mut node = self.nodes[p as usize].clone();
        if node[0] == VAR {
            node[1] = *numbered;
            *numbered += 1;
        } else {
            for a in &mut node[1..] {
                *a = self.renumber(*a, seen, numbered);
            }
        }
        let q = self.intern(node);
        seen.insert(p, q);
        q
    }

    /// The cells of one copy of `p`: a node for each distinct node of it.
    pub fn cells(&self, p: u32) -> usize {
        let mut seen = vec![false; self.nodes.len()];
        let (mut left, mut cells) = (vec![p], 0);
        while let Some(p) = left.pop() {
            if std::mem::replace(&mut seen[p as usize], true) {
                continue;
            }
            let node = &self.nodes[p as usize];
            cells += 1;
            if node[0] != VAR {
                cells += node.len() - 1;
                left.extend(&node[1..]);
            }
        }
        cells
    }
}

/// The words of nodes: for each a count, then head and arguments.
pub fn words(nodes: &[Vec<u32>]) -> Vec<u32> {
    let mut words = Vec::new();
    for node in nodes {
        words.push(node.len() as u32 - 1);
        words.extend(node);
    }
    words
}

pub fn check() -> Result<String, String> {
    let written = written()?;
    let drawn = drawn()?;
    refusals()?;
    Ok(format!(
        "{written} written patterns and {drawn} drawn ones copied and read back\n"
    ))
}

/// The list's pattern `p` copied so many times; what comes back is as the plain renumbering has it.
fn agree(nodes: &[Vec<u32>], p: u32, copies: usize, read: u64) -> Result<(), String> {
    let mut store = Store::default();
    for node in nodes {
        store.intern(node.clone());
    }
    if p as usize >= store.nodes.len() {
        return Err("no such pattern is drawn".into());
    }
    let cells = copies * store.cells(p);
    let (mut at, mut numbered) = (0, 0);
    if read != 0 && copies != 0 {
        at = store.renumber(p, &mut HashMap::new(), &mut numbered);
    }
    let after = store.words();
    let from = words(nodes);
    let flex: Vec<u32> = (0..nodes.len() as u32).map(|k| k % 3).collect();
    let asked = Asked {
        pack: &[],
        from: &from,
        flex: &flex,
        p: p.into(),
        copies: copies as u64,
        read,
    };
    let wanted = Walked {
        code: DONE,
        at: at.into(),
        numbered: numbered.into(),
        cells: cells as u64,
    };
    let mut lent = Lent::new(0, after.len(), cells);
    let answer = lent.copy(&asked);
    lent.check(answer, wanted, &after)?;
    let mut lent = Lent::new(0, after.len() + 5, cells + 3);
    let answer = lent.copy(&asked);
    lent.check(answer, wanted, &after)
        .map_err(|why| format!("with room to spare: {why}"))?;
    let mut lent = Lent::new(0, after.len() - 1, cells);
    let answer = lent.copy(&asked);
    let wanted = match asked.flex.len() < after.len() {
        true => (SHORT, PATTERNS),
        false => LENGTHS,
    };
    lent.check_refused(answer, wanted)
        .map_err(|why| format!("a word short: {why}"))?;
    if cells != 0 {
        let mut lent = Lent::new(0, after.len(), cells - 1);
        let answer = lent.copy(&asked);
        lent.check_refused(answer, (SHORT, CELLS))
            .map_err(|why| format!("a cell short: {why}"))?;
    }
    Ok(())
}

fn written() -> Result<usize, String> {
    let var = |number, sort| vec![VAR, number, sort];
    let app = |head, args: &[u32]| [&[head], args].concat();
    // Variables out of order, two of one number, shared parts, no arguments, and sixteen.
    let mut doubled = vec![var(7, 0)];
    for i in 0..40 {
        doubled.push(app(1, &[i, i]));
    }
    let patterns: Vec<Vec<Vec<u32>>> = vec![
        vec![var(0, 0)],
        vec![var(3, 2), app(5, &[0, 0])],
        vec![app(9, &[])],
        vec![var(1, 0), var(0, 0), app(2, &[0, 1]), app(2, &[2, 0])],
        vec![var(0, 1), var(0, 2), app(3, &[1, 0])],
        vec![var(4, 0), app(1, &[0]), var(4, 0), app(6, &[0; 16])],
        doubled,
    ];
    let mut count = 0;
    for nodes in &patterns {
        let mut store = Store::default();
        for node in nodes {
            store.intern(node.clone());
        }
        for p in 0..store.nodes.len() as u32 {
            for copies in [0, 1, 3] {
                for read in [0, 1, u64::MAX] {
                    agree(nodes, p, copies, read)
                        .map_err(|why| format!("pattern {p} of {nodes:?}: {why}"))?;
                    count += 1;
                }
            }
        }
    }
    // Deep ones, which a recursive walk would not come back from.
    let deep = (0..200_000).map(|i| app(1, &[i]));
    let nodes: Vec<Vec<u32>> = [var(0, 0)].into_iter().chain(deep).collect();
    let store = words(&nodes);
    let mut lent = Lent::new(0, store.len(), 400_001);
    let answer = lent.copy(&Asked {
        pack: &[],
        from: &store,
        flex: &[],
        p: 200_000,
        copies: 1,
        read: 1,
    });
    let wanted = Walked {
        code: DONE,
        at: 200_000,
        numbered: 1,
        cells: 400_001,
    };
    lent.check(answer, wanted, &store)
        .map_err(|why| format!("200,000 levels: {why}"))?;
    Ok(count + 1)
}

fn drawn() -> Result<usize, String> {
    const PATTERNS: usize = 5_000;
    let mut numbers = Numbers::default();
    for pattern in 0..PATTERNS {
        let n = 1 + numbers.below(if pattern % 50 == 0 { 200 } else { 20 });
        // Nodes over earlier ones of the store, which has each once.
        let (mut nodes, mut store) = (Vec::new(), Store::default());
        for _ in 0..n {
            let node = draw(&mut numbers, store.nodes.len());
            store.intern(node.clone());
            nodes.push(node);
        }
        let p = numbers.below(store.nodes.len()) as u32;
        let (copies, read) = (numbers.below(4), numbers.below(4) as u64);
        agree(&nodes, p, copies, read)
            .map_err(|why| format!("pattern {p} of {nodes:?}, {copies} copies: {why}"))?;
    }
    Ok(PATTERNS)
}

/// A node behind `earlier` others.
fn draw(numbers: &mut Numbers, earlier: usize) -> Vec<u32> {
    if earlier == 0 || numbers.below(3) == 0 {
        return vec![VAR, numbers.below(6) as u32, numbers.below(2) as u32];
    }
    let arity = match numbers.below(20) {
        0 => 16,
        n => n % 4,
    };
    let mut node = vec![numbers.below(4) as u32];
    node.extend((0..arity).map(|_| numbers.below(earlier) as u32));
    node
}

/// Calls that are refused.
fn refusals() -> Result<(), String> {
    let nodes = [vec![VAR, 0, 0], vec![1, 0], vec![2, 1, 0]];
    let from = words(&nodes);
    let asked = Asked {
        pack: &[],
        from: &from,
        flex: &[1],
        p: 2,
        copies: 2,
        read: 1,
    };
    let ask = |what: &str, asked: Asked, wanted| {
        let mut lent = Lent::new(asked.pack.len(), 40, 40);
        let answer = lent.copy(&asked);
        lent.check_refused(answer, wanted)
            .map_err(|why| format!("{what}: {why}"))
    };
    ask("pattern 3 of 3", Asked { p: 3, ..asked }, NONE)?;
    let most = u64::MAX;
    ask("the largest pattern", Asked { p: most, ..asked }, NONE)?;
    let copies = Asked {
        copies: most,
        ..asked
    };
    ask("as many copies as can be said", copies, (SHORT, CELLS))?;
    let flex = [1; 41];
    let marks = Asked {
        flex: &flex,
        ..asked
    };
    ask("more marks than words", marks, LENGTHS)?;
    let lists: [(&str, &[u32]); 8] = [
        ("one word", &[0]),
        ("a count without its arguments", &[1, 5]),
        ("an argument that is the node itself", &[1, 5, 0]),
        ("an argument behind the node", &[2, VAR, 0, 0, 1, 5, 2]),
        ("a variable of one word", &[1, VAR, 0]),
        ("a variable of three words", &[3, VAR, 0, 0, 0]),
        (
            "seventeen arguments",
            &[
                2, VAR, 0, 0, 17, 5, 0, 0, 0, 0, 0, 0, 0, 0, 0, 0, 0, 0, 0, 0, 0, 0, 0,
            ],
        ),
        ("the largest count", &[u32::MAX, 1, 0]),
    ];
    for (what, from) in lists {
        ask(
            what,
            Asked {
                from,
                p: 0,
                ..asked
            },
            NONE,
        )?;
    }
    let pack = [0];
    ask(
        "a pack of one byte",
        Asked {
            pack: &pack,
            ..asked
        },
        FORM,
    )?;
    let mut lent = Lent::new(0, 40, 40);
    lent.work.pop();
    let answer = lent.copy(&asked);
    lent.check_refused(answer, (SHORT, WORK))
        .map_err(|why| format!("a word of work less: {why}"))
}
