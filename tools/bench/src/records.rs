//! Single records as bytes, good or bad.

/// A record of this kind with this body.
pub fn record(kind: u16, body: &[u8]) -> Vec<u8> {
    let length = (body.len() as u32).to_le_bytes();
    [&length, &kind.to_le_bytes()[..], body].concat()
}

/// The bytes of some words.
pub fn words(words: &[u32]) -> Vec<u8> {
    words.iter().flat_map(|word| word.to_le_bytes()).collect()
}

/// The bytes of some 16-bit counts.
pub fn halves(halves: &[u16]) -> Vec<u8> {
    halves.iter().flat_map(|half| half.to_le_bytes()).collect()
}

pub fn sort(name: &[u8]) -> Vec<u8> {
    record(1, name)
}

pub fn symbol(output: u32, inputs: &[u32], name: &[u8]) -> Vec<u8> {
    let counts = halves(&[inputs.len() as u16]);
    record(
        2,
        &[&words(&[output])[..], &counts, &words(inputs), name].concat(),
    )
}

/// The sorts of its variables, its premises, all their and the conclusion's words.
pub fn rule(variables: &[u32], premises: u16, prefix: &[u32], name: &[u8]) -> Vec<u8> {
    let counts = halves(&[variables.len() as u16, premises]);
    record(
        3,
        &[&counts[..], &words(variables), &words(prefix), name].concat(),
    )
}

/// A record of words alone: a node, a step, a cut, the abstract one.
pub fn plain(kind: u16, body: &[u32]) -> Vec<u8> {
    record(kind, &words(body))
}

/// A goal or a result.
pub fn named(kind: u16, at: u32, name: &[u8]) -> Vec<u8> {
    record(kind, &[&words(&[at])[..], name].concat())
}
