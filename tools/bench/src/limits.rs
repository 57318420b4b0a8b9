//! Packs at document 01's limits, each a little below, at and above, and, by `forms`, at
//! its forms. The answers are written from its words (and docs/DECISIONS.md, R6 to R18),
//! so that neither the library nor certpack is trusted with them.
use crate::forms;
use crate::records::{halves, plain, record, rule, sort, symbol, words};
use crate::tries::*;
use certpack::pack::PREDICATE;

pub fn tries() -> Tries {
    let mut tries = Tries::default();
    counts(&mut tries);
    symbols(&mut tries);
    rules(&mut tries);
    prefix(&mut tries);
    forms::add(&mut tries);
    tries
}

/// So many records, the name of each from its number.
fn many(count: usize, one: impl Fn(&[u8]) -> Vec<u8>) -> Vec<Vec<u8>> {
    (0..count)
        .map(|i| one(format!("a{i}").as_bytes()))
        .collect()
}

/// Sorts, symbols, rules: as many as there may be, then one more.
fn counts(t: &mut Tries) {
    let predicate = |name: &[u8]| symbol(PREDICATE, &[], name);
    let fact = |name: &[u8]| rule(&[], 0, &[0], name);
    let rules = [vec![predicate(b"q")], many(4096, fact)].concat();
    let full = [
        (1, many(256, sort), sort(b"b")),
        (2, many(4096, predicate), predicate(b"b")),
        (3, rules, fact(b"b")),
    ];
    for (kind, records, next) in full {
        let mut with = |what: &str, code: u64, last: Vec<u8>| {
            let what = format!("kind {kind}, all there may be{what}");
            let all = [&records[..], &[last]].concat();
            t.at(&what, code, records.len(), &all);
        };
        with("", 0, Vec::new());
        with(" and one more", 2, next.clone());
        with(" and an empty body", 2, record(kind, &[]));
        with(" and a bad body", 2, record(kind, &[255; 9]));
        with(" and a name again", 2, records[records.len() - 1].clone());
        with(" and a cut one", 1, next[..next.len() - 1].to_vec());
        with(" and a cut header", 1, next[..5].to_vec());
        with(" and an unknown kind", 1, record(0, &[]));
    }
    let mut sorts = many(256, sort);
    sorts.push(symbol(255, &[255], b"s"));
    t.at("sort 255", 0, 256, &sorts);
    sorts.push(symbol(256, &[], b"z"));
    t.at("sort 256", 1, 257, &sorts);
    let mut nodes = many(4096, predicate);
    nodes.push(plain(4, &[4095]));
    t.at("symbol 4,095", 0, 4096, &nodes);
    nodes.push(plain(4, &[4096]));
    t.at("symbol 4,096", 1, 4097, &nodes);
}

fn symbols(t: &mut Tries) {
    for output in [N, PREDICATE] {
        t.good("arity 16", 2, &[symbol(output, &[N; 16], b"w")]);
        t.limit("arity 17", 2, &[symbol(output, &[N; 17], b"w")]);
    }
    for arity in [17, 255, 256, 257, u16::MAX] {
        for output in [N, SORTS] {
            let body = [words(&[output]), halves(&[arity])].concat();
            let what = format!("arity {arity}, sort {output}, nothing behind");
            t.limit(&what, 2, &[record(2, &body)]);
            for cut in 0..6 {
                let what = format!("arity {arity} in a body of {cut} bytes");
                t.form(&what, 2, &[record(2, &body[..cut])]);
            }
        }
    }
}

fn rules(t: &mut Tries) {
    let last = [NAT, V + 63];
    t.good("64 variables", 3, &[rule(&[N; 64], 0, &last, b"r")]);
    t.limit("65 variables", 3, &[rule(&[N; 65], 0, &last, b"r")]);
    t.good("16 premises", 3, &[rule(&[], 16, &[TRUE; 17], b"r")]);
    t.limit("17 premises", 3, &[rule(&[], 17, &[TRUE; 18], b"r")]);
    let over = [[65, 0], [0, 17], [65, 17], [256, 0], [0, 256]];
    for counts in over {
        let what = format!("{} variables, {} premises", counts[0], counts[1]);
        let counts = halves(&counts);
        for behind in [0, 70] {
            let body = [counts.clone(), vec![255; behind]].concat();
            let what = format!("{what}, {behind} bad bytes behind");
            t.limit(&what, 3, &[record(3, &body)]);
        }
        // The counts are read as one.
        for cut in 0..4 {
            let what = format!("{what}, {cut} bytes of them");
            t.form(&what, 3, &[record(3, &counts[..cut])]);
        }
    }
}

/// A judgment of so many words.
fn chain(length: usize) -> Vec<u32> {
    [vec![NAT], vec![S; length - 2], vec![Z]].concat()
}

fn prefix(t: &mut Tries) {
    let mut one = |what: &str, code: u64, prefix: &[u32], name: &[u8]| {
        t.last(what, code, 3, &[rule(&[], 0, prefix, name)]);
    };
    one("255 words", 0, &chain(255), b"r");
    one("256 words", 0, &chain(256), b"r");
    one("256 words, a name of 64 bytes", 0, &chain(256), &[b'a'; 64]);
    one("256 words and a bad name", 1, &chain(256), b"?");
    one("256 words and no name", 1, &chain(256), b"");
    one("256 words and four bad bytes", 1, &chain(256), &[0; 4]);
    one("257 words", 2, &chain(257), b"r");
    one("257 words and no name", 2, &chain(257), b"");
    one("257 words and a bad name", 2, &chain(257), b"? (");
    one("300 words", 2, &chain(300), b"r");
    for at in [0, 1, 9, 254, 255] {
        for bad in [SYMBOLS, TRUE, C, V, u32::MAX] {
            let mut words = chain(257);
            words[at] = bad;
            one(&format!("257 words, word {at} is {bad}"), 1, &words, b"r");
        }
    }
    for bad in [S, SYMBOLS, TRUE, C, V, u32::MAX] {
        let mut words = chain(257);
        words[256] = bad;
        one(&format!("257 words, the last is {bad}"), 2, &words, b"r");
    }
    let wanting = &chain(257)[..256];
    for left in 0..6 {
        let what = format!("256 words, one wanted, {left} bytes left");
        let code = if left < 4 { 1 } else { 2 };
        one(&what, code, wanting, &vec![b'a'; left]);
        one(&what, code, wanting, &vec![0; left]);
    }
    let mut two = |what: &str, code: u64, premise: usize, conclusion: usize| {
        let words = [chain(premise), chain(conclusion)].concat();
        t.last(what, code, 3, &[rule(&[], 1, &words, b"r")]);
    };
    two("words of premise and conclusion, 256", 0, 128, 128);
    two("words of premise and conclusion, 257", 2, 128, 129);
    two("a premise of 254 words", 0, 254, 2);
    two("a premise of 255 words", 2, 255, 2);
    two("a premise of 256 words", 2, 256, 2);
    two("a premise of 257 words", 2, 257, 2);
    let nothing_behind = rule(&[], 1, &chain(256), b"abc");
    t.form("a premise of 256 words, no more", 3, &[nothing_behind]);
    // The variables' sorts are none of the words, and come ahead of them.
    let mut variables = |what: &str, code: u64, variables: &[u32], prefix: &[u32]| {
        t.last(what, code, 3, &[rule(variables, 0, prefix, b"r")]);
    };
    variables("64 variables, 256 words", 0, &[N; 64], &chain(256));
    variables("64 variables, 257 words", 2, &[N; 64], &chain(257));
    variables("an unknown sort, 257 words", 1, &[SORTS], &chain(257));
    variables("65 unknown sorts, 257 words", 2, &[SORTS; 65], &chain(257));
    // Each but the last argument of 15 wide terms is z, the last is the next one.
    let wides = [vec![SYMBOLS], vec![Z; 15]].concat().repeat(15);
    for (what, code, deep) in [("256 words, wide", 0, 14), ("257 words, wide", 2, 15)] {
        let prefix = [vec![NAT], wides.clone(), vec![S; deep], vec![Z]].concat();
        let wide = symbol(N, &[N; 16], b"wide");
        t.last(what, code, 2, &[wide, rule(&[], 0, &prefix, b"r")]);
    }
}
