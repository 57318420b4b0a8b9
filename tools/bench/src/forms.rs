//! Packs at document 01's forms: headers, order, names, and what each kind's body may say.
use crate::records::{named, plain, record, rule, sort, symbol, words};
use crate::tries::*;
use certpack::pack::PREDICATE;

pub fn add(t: &mut Tries) {
    headers(t);
    order(t);
    names(t);
    symbols(t);
    rules(t);
    nodes(t);
    steps(t);
    goals_and_results(t);
    cuts(t);
    abstracts(t);
}

fn headers(t: &mut Tries) {
    t.at("the empty pack", 0, 0, &[]);
    // Document 01's own record: its step 2 is not there, at byte 0.
    let example = vec![5, 0, 0, 0, 7, 0, 2, 0, 0, 0, 0x67];
    t.at("document 01's own record alone", 1, 0, &[example]);
    for left in 1..6 {
        let header = more(1, b"A")[..left].to_vec();
        let what = format!("{left} bytes left over");
        t.form(&what, 1, std::slice::from_ref(&header));
        t.form(&what, 9, &[header]);
        t.at(&format!("{left} bytes alone"), 1, 0, &[vec![0; left]]);
    }
    for kind in 1..=9 {
        let whole = more(kind, b"A");
        let front_kind = kind.min(8);
        let cut = whole[..whole.len() - 1].to_vec();
        let what = format!("one more of kind {kind}");
        t.good(&what, front_kind, std::slice::from_ref(&whole));
        t.form(&format!("kind {kind}, a byte cut"), front_kind, &[cut]);
        for length in [1 << 24, 1 << 31, u32::MAX, u32::MAX - 5, u32::MAX - 6] {
            let mut long = whole.clone();
            long[..4].copy_from_slice(&length.to_le_bytes());
            let what = format!("kind {kind}, a body length of {length}");
            t.form(&what, front_kind, &[long]);
        }
        let what = format!("kind {kind}, no body");
        t.form(&what, front_kind, &[record(kind, &[])]);
    }
    // With a body that would be good in another kind.
    for kind in [0, 10, 11, 256, 257, 258, 265, u16::MAX] {
        let what = format!("kind {kind}");
        t.at(&what, 1, 0, &[record(kind, b"A")]);
        for front_kind in [1, 8, 9] {
            t.form(&what, front_kind, &[record(kind, b"A")]);
            t.form(&what, front_kind, &[plain(kind, &[S, 0])]);
        }
    }
}

fn order(t: &mut Tries) {
    for high in 2..=9 {
        for low in 1..high {
            let what = format!("kind {low} behind kind {high}");
            t.form(&what, high, &[more(low, b"A")]);
        }
    }
    let nothing_between = [
        symbol(PREDICATE, &[], b"true"),
        rule(&[], 0, &[0], b"r"),
        plain(8, &[0]),
    ];
    t.at("kinds left out", 0, 0, &nothing_between);
    // The first bad record is the answer's, whatever comes behind it.
    let (bad, over) = (sort(b"?"), symbol(N, &[N; 17], b"w"));
    let many = |records: [&Vec<u8>; 4]| records.map(Vec::clone);
    let (a, b) = (sort(b"N"), symbol(N, &[], b"z"));
    t.at("bad ahead of over", 1, 1, &many([&a, &bad, &b, &over]));
    t.at("over ahead of bad", 2, 2, &many([&a, &b, &over, &bad]));
    t.at("over ahead of cut", 2, 2, &many([&a, &b, &over, &vec![7]]));
    t.at("bad first", 1, 0, &many([&bad, &a, &b, &over]));
}

/// Four letters as a word.
const LETTERS: u32 = u32::from_le_bytes(*b"aaaa");
const WITH_NAMES: [u16; 5] = [1, 2, 3, 6, 7];

fn names(t: &mut Tries) {
    for kind in WITH_NAMES {
        let mut name = |code: u64, name: &[u8]| {
            let what = format!("kind {kind}, name {:?}", name.escape_ascii().to_string());
            t.last(&what, code, kind, &[more(kind, name)]);
        };
        name(1, b"");
        name(1, &[b'a'; 65]);
        name(1, &[b'a'; 300]);
        let good: &[&[u8]] = &[b"A", b"!", b"~", b"a?", b"a?b", b"[", b"'", &[b'a'; 64]];
        for good in good {
            name(0, good);
        }
        for bad in [0, 9, 10, 31, 32, b'(', b')', 127, 128, 255] {
            name(1, &[bad]);
            name(1, &[bad, b'a']);
            name(1, &[b'a', bad]);
            name(1, &[b'a', bad, b'a']);
            name(1, &[&[b'a'; 63], &[bad][..]].concat());
        }
        name(1, b"?");
        name(1, b"?a");
        name(1, b"??");
        let twice = [more(kind, b"twice"), more(kind, b"twice")];
        t.form(&format!("kind {kind}, a name twice"), kind, &twice);
        let apart = [b"twice", b"other", b"twice"].map(|name| more(kind, name));
        t.form(&format!("kind {kind}, a name twice, apart"), kind, &apart);
        // A name that is another's beginning, or differs in its last byte.
        let alike: [&[u8]; 4] = [b"aaaaaaaaa", b"aaaaaaaab", b"aaaaaaaa", b"aaaaaaaaaa"];
        let alike = alike.map(|name| more(kind, name));
        t.good(&format!("kind {kind}, names alike"), kind, &alike);
    }
    t.form("a predicate's name again", 2, &[symbol(N, &[], b"nat")]);
    let again = symbol(PREDICATE, &[], b"z");
    t.form("a constructor's name again", 2, &[again]);
    let same = [
        sort(b"a"),
        symbol(PREDICATE, &[], b"a"),
        rule(&[], 0, &[0], b"a"),
        plain(4, &[0]),
        plain(5, &[0, 0]),
        named(6, 0, b"a"),
        named(7, 0, b"a"),
    ];
    t.at("one name in all kinds", 0, 0, &same);
}

fn symbols(t: &mut Tries) {
    for sort in [SORTS, V, PREDICATE - 1] {
        let what = format!("output sort {sort}");
        t.form(&what, 2, &[symbol(sort, &[], b"w")]);
    }
    for sort in [SORTS, V, PREDICATE - 1, PREDICATE] {
        for inputs in [&[sort][..], &[sort, N], &[N, M, sort]] {
            let what = format!("input sorts {inputs:?}");
            t.form(&what, 2, &[symbol(N, inputs, b"w")]);
        }
    }
    let body = &symbol(N, &[M], b"w")[6..];
    for bytes in 0..body.len() {
        let what = format!("{bytes} bytes of a symbol");
        t.form(&what, 2, &[record(2, &body[..bytes])]);
    }
}

fn rules(t: &mut Tries) {
    let good: &[(&str, &[u32], &[u32])] = &[
        ("variables of any sort, unused", &[M, N, M], &[NAT, V + 1]),
        ("a variable twice", &[N], &[EQ, V, V]),
        // A word too many is read as name bytes.
        ("a word of letters too many", &[], &[TRUE, LETTERS]),
    ];
    for &(what, variables, prefix) in good {
        t.good(what, 3, &[rule(variables, 0, prefix, b"r")]);
    }
    let bad: &[(&str, &[u32], &[u32])] = &[
        ("a variable of an unknown sort", &[SORTS], &[TRUE]),
        ("a variable of no sort", &[PREDICATE], &[TRUE]),
        ("a variable on top", &[N], &[V]),
        ("a constructor on top", &[], &[Z]),
        ("a predicate below", &[], &[NAT, TRUE]),
        ("an unknown variable", &[N], &[NAT, V + 1]),
        ("variable 2^31 - 1", &[N], &[NAT, u32::MAX]),
        ("a variable of another sort", &[M], &[NAT, V]),
        ("a symbol of another sort", &[], &[NAT, C]),
        ("an unknown symbol", &[], &[NAT, SYMBOLS]),
        ("an unknown symbol on top", &[], &[SYMBOLS]),
        ("symbol 2^31 - 1", &[], &[V - 1]),
        ("words that end too soon", &[], &[EQ, Z]),
        ("no words", &[N], &[]),
        ("a word too many", &[], &[TRUE, Z]),
    ];
    for &(what, variables, prefix) in bad {
        t.form(what, 3, &[rule(variables, 0, prefix, b"r")]);
    }
    t.form("no conclusion", 3, &[rule(&[], 1, &[TRUE], b"r")]);
    t.form("a bad premise", 3, &[rule(&[], 1, &[NAT, C, TRUE], b"r")]);
    let name_again = [
        rule(&[], 0, &[TRUE, LETTERS], b"r"),
        rule(&[], 0, &[TRUE], b"aaaar"),
    ];
    t.form("a name of such letters again", 3, &name_again);
}

fn nodes(t: &mut Tries) {
    let same = plain(4, &[EQ, NODE_Z, NODE_Z]);
    t.good("one node twice as argument", 4, &[same]);
    let round = [[EQ, NODE_Z, NODE_SZ], [EQ, NODE_SZ, NODE_Z]].map(|node| plain(4, &node));
    t.good("arguments the other way round", 4, &round);
    let over = [[S, NODE_SZ], [S, NODES]].map(|node| plain(4, &node));
    t.good("over the node just before", 4, &over);
    let bad: &[(&str, &[u32])] = &[
        ("a constant twice", &[Z]),
        ("a term twice", &[S, NODE_Z]),
        ("a judgment twice", &[NAT, NODE_Z]),
        ("the last node twice", &[NAT, NODE_SZ]),
        ("itself as argument", &[S, NODES]),
        ("a later node as argument", &[S, NODES + 1]),
        ("node 2^31 as argument", &[S, 1 << 31]),
        ("node 2^32 - 1 as argument", &[S, u32::MAX]),
        ("an argument of another sort", &[S, NODE_C]),
        ("a judgment as argument", &[S, NAT_Z]),
        ("a judgment as a judgment's argument", &[NAT, NAT_Z]),
        ("a bad last argument", &[EQ, NODE_Z, NODE_C]),
        ("a bad first argument", &[EQ, NODES, NODE_Z]),
        ("no argument of one", &[S]),
        ("one argument of two", &[EQ, NODE_Z]),
        ("an argument too many", &[S, NODE_SZ, NODE_Z]),
        ("an argument of a constant", &[TRUE, NODE_Z]),
        ("an unknown head", &[SYMBOLS]),
        ("a variable as head", &[V]),
        ("head 2^32 - 1", &[u32::MAX]),
    ];
    for &(what, node) in bad {
        t.form(what, 4, &[plain(4, node)]);
    }
    ragged(t, 4, &[S, NODE_SZ]);
    ragged(t, 4, &[TRUE]);
    t.at("a node and no symbol", 1, 0, &[plain(4, &[0])]);
}

/// This body of words is good; with a byte to a word more, or less, it is not.
fn ragged(t: &mut Tries, kind: u16, body: &[u32]) {
    let front_kind = kind.min(8);
    let what = format!("kind {kind}, exact");
    t.good(&what, front_kind, &[plain(kind, body)]);
    let bytes = words(body);
    for count in 1..=4 {
        let what = format!("kind {kind}, {count} bytes too few");
        let shorter = record(kind, &bytes[..bytes.len() - count]);
        t.form(&what, front_kind, &[shorter]);
        let what = format!("kind {kind}, {count} bytes too many");
        let longer = [&bytes[..], &vec![0; count]].concat();
        t.form(&what, front_kind, &[record(kind, &longer)]);
    }
}

fn steps(t: &mut Tries) {
    let good: &[(&str, &[u32])] = &[
        ("a step again", &[NZ, NAT_Z]),
        ("another judgment than the rule's", &[NZ, NAT_SZ]),
        ("the step just before as ref", &[NS, NAT_SZ, STEPS - 1]),
    ];
    for &(what, step) in good {
        t.good(what, 5, &[plain(5, step)]);
    }
    let bad: &[(&str, &[u32])] = &[
        ("an unknown rule", &[RULES, NAT_Z]),
        ("rule 2^32 - 1", &[u32::MAX, NAT_Z]),
        ("a term for a judgment", &[NZ, NODE_Z]),
        ("an unknown judgment", &[NZ, NODES]),
        ("judgment 2^32 - 1", &[NZ, u32::MAX]),
        ("itself as ref", &[NS, NAT_SZ, STEPS]),
        ("a later step as ref", &[NS, NAT_SZ, STEPS + 1]),
        ("ref 2^31", &[NS, NAT_SZ, 1 << 31]),
        ("ref 2^32 - 1", &[NS, NAT_SZ, u32::MAX]),
        ("a ref too few", &[NS, NAT_SZ]),
        ("a ref too many", &[NS, NAT_SZ, 0, 0]),
        ("a ref of a rule without premises", &[NZ, NAT_Z, 0]),
        ("no judgment", &[NZ]),
    ];
    for &(what, step) in bad {
        t.form(what, 5, &[plain(5, step)]);
    }
    ragged(t, 5, &[NZ, NAT_Z]);
    ragged(t, 5, &[NS, NAT_SZ, 0]);
    let sixteen = |refs: usize| {
        let step = [vec![RULES, NAT_Z], vec![0; refs]].concat();
        let rules = [front(3), vec![rule(&[], 16, &[TRUE; 17], b"r")]].concat();
        let below = front(5).split_off(front(3).len());
        [rules, below, vec![plain(5, &step)]].concat()
    };
    let last = sixteen(0).len() - 1;
    t.at("16 refs", 0, last, &sixteen(16));
    t.at("15 refs of 16", 1, last, &sixteen(15));
    t.at("17 refs of 16", 1, last, &sixteen(17));
    let first = plain(5, &[NS, NAT_SZ, 0]);
    t.form("a ref of the first step", 4, &[first]);
}

fn goals_and_results(t: &mut Tries) {
    t.good("a goal without result", 6, &[named(6, NAT_Z, b"h")]);
    t.good("two goals on one judgment", 6, &[named(6, NAT_SZ, b"h")]);
    let bad: &[(&str, u32)] = &[
        ("a goal on a term", NODE_Z),
        ("a goal on an unknown node", NODES),
        ("a goal on node 2^32 - 1", u32::MAX),
    ];
    for &(what, node) in bad {
        t.form(what, 6, &[named(6, node, b"h")]);
    }
    t.good("a result without goal", 7, &[named(7, 0, b"h")]);
    t.good("two results on one step", 7, &[named(7, 1, b"h")]);
    let bad: &[(&str, u32)] = &[
        ("a result of an unknown step", STEPS),
        ("a result of step 2^32 - 1", u32::MAX),
    ];
    for &(what, step) in bad {
        t.form(what, 7, &[named(7, step, b"h")]);
    }
    for kind in [6, 7] {
        for bytes in 0..=4 {
            let what = format!("kind {kind}, {bytes} bytes");
            let body = &words(&[1])[..bytes];
            t.form(&what, kind, &[record(kind, body)]);
        }
    }
}

fn cuts(t: &mut Tries) {
    let good: &[(&str, &[u32])] = &[
        ("no outputs", &[EQ]),
        ("all outputs", &[EQ, 0, 1]),
        ("outputs in any order, repeated", &[EQ, 1, 0, 1, 1]),
        ("a predicate without arguments", &[TRUE]),
    ];
    for &(what, cut) in good {
        t.good(what, 8, &[plain(8, cut)]);
    }
    let repeated = [vec![EQ], vec![1; 5000]].concat();
    t.good("5,000 outputs", 8, &[plain(8, &repeated)]);
    let bad: &[(&str, &[u32])] = &[
        ("a constructor cut", &[S]),
        ("a constant cut", &[Z]),
        ("an unknown symbol cut", &[SYMBOLS]),
        ("symbol 2^32 - 1 cut", &[u32::MAX]),
        ("a predicate cut twice", &[NAT]),
        ("cut again with an output", &[NAT, 0]),
        ("an output at the arity", &[EQ, 2]),
        ("an output at the arity, behind others", &[EQ, 0, 1, 2]),
        ("output 2^32 - 1", &[EQ, u32::MAX]),
        ("an output of a predicate without arguments", &[TRUE, 0]),
    ];
    for &(what, cut) in bad {
        t.form(what, 8, &[plain(8, cut)]);
    }
    let twice_apart = [plain(8, &[EQ]), plain(8, &[TRUE]), plain(8, &[EQ, 1])];
    t.form("cut twice, apart", 8, &twice_apart);
    for bytes in [0, 1, 2, 3, 5, 6, 7, 9, 10, 11] {
        let body = &words(&[EQ, 0, 0])[..bytes];
        t.form(&format!("a cut of {bytes} bytes"), 8, &[record(8, body)]);
    }
}

fn abstracts(t: &mut Tries) {
    ragged(t, 9, &[S, 0]);
    let bad: &[(&str, &[u32])] = &[
        ("abstract of a constant", &[Z, 0]),
        ("abstract of a predicate", &[NAT, 0]),
        ("abstract of an unknown symbol", &[SYMBOLS, 0]),
        ("abstract of symbol 2^32 - 1", &[u32::MAX, 0]),
        ("abstract at the arity", &[S, 1]),
        ("abstract at position 2^32 - 1", &[S, u32::MAX]),
        ("abstract without a position", &[S]),
    ];
    for &(what, body) in bad {
        t.form(what, 8, &[plain(9, body)]);
    }
    t.form("abstract again", 9, &[plain(9, &[S, 0])]);
    t.form("abstract again, bad", 9, &[plain(9, &[Z, 0])]);
    t.form("abstract again, empty", 9, &[record(9, &[])]);
}
