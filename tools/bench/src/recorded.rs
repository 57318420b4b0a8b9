//! The recorded pattern stores through the library.
use crate::ours::{Lent, Tried};
use certpack::vectors::{self, Case};

type Fill = fn(usize) -> u32;

/// What the buffers hold ahead of a call; it may make no difference.
const FILLS: [(&str, Fill); 4] = [
    ("zeros", |_| 0),
    ("small numbers", |i| i as u32 % 7),
    ("junk", |i| (i as u32 + 1).wrapping_mul(0x9e37_79b9)),
    ("the largest words", |_| u32::MAX),
];

pub fn check(folder: &str) -> Result<String, String> {
    let mut stores = 0;
    for path in vectors::files(folder)? {
        for case in vectors::read(&path)? {
            if case.classes == "done" {
                check_case(&case).map_err(|why| format!("{path}: case {}: {why}", case.name))?;
                stores += 1;
            }
        }
    }
    match stores {
        0 => Err(format!("{folder}: no pattern stores")),
        _ => Ok(format!("{stores} pattern stores interned\n")),
    }
}

/// A store's nodes are distinct and in order, so interning them anew gives the same store.
fn check_case(case: &Case) -> Result<(), String> {
    // Emission goes on with the same store.
    let words = [&case.pattern_words[..], &case.more_pattern_words].concat();
    let nodes = count(&words)?;
    let once: Vec<u32> = (0..nodes as u32).collect();
    let (words_twice, twice) = (words.repeat(2), once.repeat(2));
    for (name, fill) in FILLS {
        let at = |what: &str, why: String| format!("{what}, buffers full of {name}: {why}");
        let (lent, tried) = intern(&words, words.len(), nodes, fill);
        lent.check(tried, nodes, &words, &once)
            .map_err(|why| at("once", why))?;
        let (lent, tried) = intern(&words, 2 * words.len() + 3, nodes, fill);
        lent.check(tried, nodes, &words, &once)
            .map_err(|why| at("with room to spare", why))?;
        let (lent, tried) = intern(&words_twice, words.len(), 2 * nodes, fill);
        lent.check(tried, nodes, &words, &twice)
            .map_err(|why| at("twice over", why))?;
        if let Some(short) = words.len().checked_sub(1) {
            let (lent, tried) = intern(&words, short, nodes, fill);
            lent.check_short(tried)
                .map_err(|why| at("one word short", why))?;
        }
    }
    Ok(())
}

fn intern(from: &[u32], words: usize, numbers: usize, fill: Fill) -> (Lent, Tried) {
    let mut lent = Lent::new(words, numbers, fill);
    let tried = lent.intern(from);
    (lent, tried)
}

/// How many nodes these words hold.
fn count(words: &[u32]) -> Result<usize, String> {
    let (mut at, mut nodes) = (0, 0);
    while let Some(&arguments) = words.get(at) {
        at += 2 + arguments as usize;
        nodes += 1;
    }
    match at == words.len() {
        true => Ok(nodes),
        false => Err("pattern words that end inside a node".into()),
    }
}
