//! Packs of good form whose verdict is written from document 01's words (and
//! docs/DECISIONS.md, R11 and R19), so that neither the library nor certpack is trusted
//! with it.
use crate::read::{Answer, GOOD};
use crate::records::{named, plain, rule, sort, symbol};
use crate::tries::{EQ, N, NAT, S, SYMBOLS, TRUE, Tries, V, Z, front};
use certpack::pack::PREDICATE;

pub fn tries() -> Tries {
    let mut t = Tries::default();
    document(&mut t);
    conclusions(&mut t);
    premises(&mut t);
    variables(&mut t);
    most(&mut t);
    deep(&mut t);
    first_wrong(&mut t);
    goals(&mut t);
    t
}

/// A predicate of 16 arguments behind the front's symbols.
const WIDE: u32 = SYMBOLS;

// The nodes of every pack here, by number.
pub const ZERO: u32 = 0;
pub const ONE: u32 = 1;
pub const TWO: u32 = 2;
pub const NAT_0: u32 = 3;
pub const NAT_1: u32 = 4;
pub const NAT_2: u32 = 5;
pub const EQ_00: u32 = 6;
pub const EQ_01: u32 = 7;
pub const EQ_10: u32 = 8;
pub const EQ_11: u32 = 9;
pub const TRUTH: u32 = 10;
const NODES: [&[u32]; 11] = [
    &[Z],
    &[S, ZERO],
    &[S, ONE],
    &[NAT, ZERO],
    &[NAT, ONE],
    &[NAT, TWO],
    &[EQ, ZERO, ZERO],
    &[EQ, ZERO, ONE],
    &[EQ, ONE, ZERO],
    &[EQ, ONE, ONE],
    &[TRUE],
];

// Variables in a rule's words.
pub const X: u32 = V;
pub const Y: u32 = V + 1;

/// A rule: how many variables of sort N, how many premises, the words of all terms.
pub type Rule<'a> = (usize, u16, &'a [u32]);

/// nat(X) and eq(X, Y), whatever X and Y.
pub const ANY: Rule = (1, 0, &[NAT, X]);
pub const EQUAL: Rule = (2, 0, &[EQ, X, Y]);
/// nat(z), and nat(X) gives nat(s X).
pub const NUMBERS: [Rule; 2] = [(0, 0, &[NAT, Z]), (1, 1, &[NAT, X, NAT, S, X])];

/// What a pack has besides sorts, symbols and the nodes above. A step is its rule, its
/// judgment, its refs.
#[derive(Default, Clone, Copy)]
pub struct Parts<'a> {
    pub rules: &'a [Rule<'a>],
    pub nodes: &'a [&'a [u32]],
    pub steps: &'a [&'a [u32]],
    pub goals: &'a [(u32, &'a str)],
    pub results: &'a [(u32, &'a str)],
    pub behind: &'a [Vec<u8>],
}

impl Parts<'_> {
    pub fn records(&self) -> Vec<Vec<u8>> {
        let mut records = front(2);
        records.push(symbol(PREDICATE, &[N; 16], b"wide"));
        for (i, &(variables, premises, prefix)) in self.rules.iter().enumerate() {
            let name = format!("r{i}");
            records.push(rule(&vec![N; variables], premises, prefix, name.as_bytes()));
        }
        records.extend(NODES.iter().chain(self.nodes).map(|node| plain(4, node)));
        records.extend(self.steps.iter().map(|step| plain(5, step)));
        for (kind, list) in [(6, self.goals), (7, self.results)] {
            let named = list
                .iter()
                .map(|&(at, name)| named(kind, at, name.as_bytes()));
            records.extend(named);
        }
        records.extend_from_slice(self.behind);
        records
    }

    pub fn get(&self, t: &mut Tries, what: &str, wanted: Answer) {
        t.answer(what, wanted, &self.records());
    }
}

/// This step is the first that fails.
fn step(place: u64) -> Answer {
    Answer { code: 3, place }
}

/// All steps pass, and this goal is the first without its result.
pub fn goal(place: u64) -> Answer {
    Answer { code: 4, place }
}

/// Document 01's small packs, as far as check sees them.
fn document(t: &mut Tries) {
    t.answer("the empty pack", GOOD, &[]);
    t.answer("every kind", GOOD, &front(9));
    Parts {
        rules: &[(1, 0, &[EQ, X, X]), (1, 1, &[EQ, X, S, X, TRUE])],
        steps: &[&[0, EQ_00], &[1, TRUTH, 0]],
        ..Parts::default()
    }
    .get(t, "premise eq(X, s X) over a step from eq(X, X)", step(1));
    Parts {
        rules: &[(1, 0, &[NAT, S, X]), (0, 1, &[NAT, Z, TRUE])],
        steps: &[&[0, NAT_1], &[1, TRUTH, 0]],
        ..Parts::default()
    }
    .get(t, "premise nat(z) over nat(s z) from nat(s X)", step(1));
    Parts {
        rules: &NUMBERS,
        steps: &[&[0, NAT_0], &[0, NAT_0], &[1, NAT_1, 1]],
        ..Parts::default()
    }
    .get(t, "nat(z) twice, the second used", GOOD);
}

/// The one step of a rule without premises: the judgments it may have, of all there are.
fn conclusions(t: &mut Tries) {
    let rules: &[(&str, Rule, &[u32])] = &[
        ("nat(z)", (0, 0, &[NAT, Z]), &[NAT_0]),
        ("nat(X)", ANY, &[NAT_0, NAT_1, NAT_2]),
        ("nat(s X)", (1, 0, &[NAT, S, X]), &[NAT_1, NAT_2]),
        ("nat(s s X)", (1, 0, &[NAT, S, S, X]), &[NAT_2]),
        ("nat(s z)", (0, 0, &[NAT, S, Z]), &[NAT_1]),
        ("eq(X, X)", (1, 0, &[EQ, X, X]), &[EQ_00, EQ_11]),
        ("eq(X, Y)", EQUAL, &[EQ_00, EQ_01, EQ_10, EQ_11]),
        ("eq(X, s X)", (1, 0, &[EQ, X, S, X]), &[EQ_01]),
        ("eq(s X, X)", (1, 0, &[EQ, S, X, X]), &[EQ_10]),
        ("eq(z, X)", (1, 0, &[EQ, Z, X]), &[EQ_00, EQ_01]),
        ("eq(X, z)", (1, 0, &[EQ, X, Z]), &[EQ_00, EQ_10]),
        ("true", (0, 0, &[TRUE]), &[TRUTH]),
    ];
    for &(name, rule, right) in rules {
        for node in NAT_0..=TRUTH {
            let wanted = match right.contains(&node) {
                true => GOOD,
                false => step(0),
            };
            Parts {
                rules: &[rule],
                steps: &[&[0, node]],
                ..Parts::default()
            }
            .get(t, &format!("{name} concludes node {node}"), wanted);
        }
    }
}

/// The last step of four, over nat(z), nat(s z) and eq(z, s z).
fn premises(t: &mut Tries) {
    const WRONG: Answer = Answer { code: 3, place: 3 };
    let mut one = |what: &str, rule: Rule, tries: &[(Answer, u32, &[u32])]| {
        for &(wanted, judgment, refs) in tries {
            let last = [&[2, judgment], refs].concat();
            Parts {
                rules: &[ANY, EQUAL, rule],
                steps: &[&[0, NAT_0], &[0, NAT_1], &[1, EQ_01], &last],
                ..Parts::default()
            }
            .get(t, &format!("{what} {judgment}, refs {refs:?}"), wanted);
        }
    };
    let next = (1, 1, &[NAT, X, NAT, S, X][..]);
    let tries: [(_, _, &[u32]); 5] = [
        (GOOD, NAT_1, &[0]),
        (GOOD, NAT_2, &[1]),
        (WRONG, NAT_2, &[0]),
        (WRONG, NAT_0, &[0]),
        (WRONG, NAT_1, &[2]),
    ];
    one("nat(X) gives nat(s X)", next, &tries);
    let back = (1, 1, &[NAT, S, X, NAT, X][..]);
    let tries: [(_, _, &[u32]); 3] = [
        (GOOD, NAT_0, &[1]),
        (WRONG, NAT_0, &[0]),
        (WRONG, NAT_1, &[1]),
    ];
    one("nat(s X) gives nat(X)", back, &tries);
    let twice = (1, 2, &[NAT, X, NAT, X, TRUE][..]);
    let tries: [(_, _, &[u32]); 4] = [
        (GOOD, TRUTH, &[0, 0]),
        (GOOD, TRUTH, &[1, 1]),
        (WRONG, TRUTH, &[0, 1]),
        (WRONG, TRUTH, &[1, 0]),
    ];
    one("nat(X), nat(X) give true", twice, &tries);
    let two = (2, 2, &[NAT, X, NAT, Y, EQ, X, Y][..]);
    let tries: [(_, _, &[u32]); 5] = [
        (GOOD, EQ_01, &[0, 1]),
        (GOOD, EQ_10, &[1, 0]),
        (GOOD, EQ_11, &[1, 1]),
        (WRONG, EQ_01, &[1, 0]),
        (WRONG, EQ_00, &[0, 1]),
    ];
    one("nat(X), nat(Y) give eq(X, Y)", two, &tries);
    let order = (2, 2, &[NAT, X, EQ, X, Y, NAT, Y][..]);
    let tries: [(_, _, &[u32]); 4] = [
        (GOOD, NAT_1, &[0, 2]),
        (WRONG, NAT_0, &[0, 2]),
        (WRONG, NAT_1, &[2, 0]),
        (WRONG, NAT_1, &[1, 2]),
    ];
    one("nat(X), eq(X, Y) give nat(Y)", order, &tries);
    let three = (2, 3, &[NAT, X, NAT, Y, EQ, X, Y, EQ, Y, X][..]);
    let tries: [(_, _, &[u32]); 4] = [
        (GOOD, EQ_10, &[0, 1, 2]),
        (WRONG, EQ_01, &[0, 1, 2]),
        (WRONG, EQ_10, &[1, 0, 2]),
        (WRONG, EQ_10, &[0, 2, 1]),
    ];
    one("nat(X), nat(Y), eq(X, Y) give eq(Y, X)", three, &tries);
}

/// Variables in one place only, and declared ones that occur nowhere (R11).
fn variables(t: &mut Tries) {
    let mut one = |what: &str, rules: &[Rule], steps: &[&[u32]]| {
        Parts {
            rules,
            steps,
            ..Parts::default()
        }
        .get(t, what, GOOD);
    };
    for node in [NAT_0, NAT_1, NAT_2] {
        let rules: [Rule; 2] = [(0, 0, &[TRUE]), (1, 1, &[TRUE, NAT, X])];
        one(
            "in the conclusion only",
            &rules,
            &[&[0, TRUTH], &[1, node, 0]],
        );
        let rules: [Rule; 2] = [ANY, (1, 1, &[NAT, X, TRUE])];
        one("in a premise only", &rules, &[&[0, node], &[1, TRUTH, 0]]);
        let last: [Rule; 1] = [(64, 0, &[NAT, V + 63])];
        one("the last of 64 alone", &last, &[&[0, node]]);
    }
    let steps: [&[u32]; 3] = [&[0, EQ_01], &[0, EQ_10], &[0, EQ_00]];
    one("each step has its own assignment", &[EQUAL], &steps);
    // Sort 0 has no term at all.
    let none = [
        sort(b"none"),
        symbol(PREDICATE, &[], b"true"),
        rule(&[0; 64], 0, &[0], b"r"),
        plain(4, &[0]),
        plain(5, &[0, 0]),
    ];
    t.answer("unused ones of a sort without terms", GOOD, &none);
}

/// As many premises and variables as there may be.
fn most(t: &mut Tries) {
    // 15 premises nat(s X), then nat(X), which give eq(s X, X).
    let prefix = [&[NAT, S, X].repeat(15)[..], &[NAT, X, EQ, S, X, X]].concat();
    let mut sixteen = |what: &str, wanted: Answer, judgment: u32, refs: [u32; 16]| {
        let last = [&[1, judgment][..], &refs].concat();
        Parts {
            rules: &[ANY, (1, 16, &prefix)],
            steps: &[&[0, NAT_0], &[0, NAT_1], &last],
            ..Parts::default()
        }
        .get(t, what, wanted);
    };
    let mut refs = [1; 16];
    refs[15] = 0;
    sixteen("16 premises", GOOD, EQ_10, refs);
    sixteen("16 premises, another judgment", step(2), EQ_11, refs);
    for wrong in 0..16 {
        let mut refs = refs;
        refs[wrong] = 1 - refs[wrong];
        let what = format!("16 premises, ref {wrong} wrong");
        sixteen(&what, step(2), EQ_10, refs);
    }

    // The wide predicate over 16 of these.
    let wide = |arguments: &[u32]| [&[WIDE], arguments].concat();
    let zeros = wide(&[ZERO; 16]);
    let last_one = wide(&[&[ZERO; 15][..], &[ONE]].concat());
    let [zeros_at, last_one_at] = [0, 1].map(|i| NODES.len() as u32 + i);
    let mut over_wide = |what: &str, wanted: Answer, rules: &[Rule], steps: &[&[u32]]| {
        Parts {
            rules,
            nodes: &[&zeros, &last_one],
            steps,
            ..Parts::default()
        }
        .get(t, what, wanted);
    };
    // 64 variables in four premises; the conclusion has the last and the first.
    let all: Vec<u32> = (V..V + 64).collect();
    let any = wide(&all[..16]);
    let premises: Vec<u32> = all.chunks(16).flat_map(wide).collect();
    let prefix = [&premises[..], &[EQ, V + 63, V]].concat();
    let rules: [Rule; 2] = [(16, 0, &any), (64, 4, &prefix)];
    for judgment in [EQ_00, EQ_01, EQ_10, EQ_11] {
        let wanted = if judgment == EQ_10 { GOOD } else { step(2) };
        let last = [1, judgment, 0, 0, 0, 1];
        let steps: [&[u32]; 3] = [&[0, zeros_at], &[0, last_one_at], &last];
        over_wide("64 variables", wanted, &rules, &steps);
    }
    let same = wide(&[X; 16]);
    let steps: [&[u32]; 2] = [&[0, zeros_at], &[0, last_one_at]];
    over_wide("a variable 16 times", step(1), &[(1, 0, &same)], &steps);
}

fn deep(t: &mut Tries) {
    const DEEPEST: u32 = 5000;
    // The node of s applied n times to z, and of nat and eq over some of them.
    let number = |n: u32| if n > 2 { NODES.len() as u32 + n - 3 } else { n };
    let behind = number(DEEPEST) + 1;
    let [n252, n253, n254, n255, n4999, n5000, same, unlike] =
        [0, 1, 2, 3, 4, 5, 6, 7].map(|i| behind + i);
    let numbers = (3..=DEEPEST).map(|n| vec![S, number(n - 1)]);
    let nats = [252, 253, 254, 255, DEEPEST - 1, DEEPEST].map(|n| vec![NAT, number(n)]);
    let equals = [0, 1].map(|less| vec![EQ, number(DEEPEST), number(DEEPEST - less)]);
    let nodes: Vec<Vec<u32>> = numbers.chain(nats).chain(equals).collect();
    let nodes: Vec<&[u32]> = nodes.iter().map(|node| &node[..]).collect();
    let mut one = |what: &str, wanted: Answer, rules: &[Rule], steps: &[&[u32]]| {
        Parts {
            rules,
            nodes: &nodes,
            steps,
            ..Parts::default()
        }
        .get(t, what, wanted);
    };
    let words = |count: usize, last: u32| [vec![NAT], vec![S; count - 2], vec![last]].concat();
    let fact: &[Rule] = &[(0, 0, &words(256, Z))];
    one("256 words", GOOD, fact, &[&[0, n254]]);
    one("256 words, an s fewer", step(0), fact, &[&[0, n253]]);
    one("256 words, an s more", step(0), fact, &[&[0, n255]]);
    let open: &[Rule] = &[(1, 0, &words(256, X))];
    let steps: [&[u32]; 4] = [&[0, n254], &[0, n255], &[0, n5000], &[0, n253]];
    one("256 words with a variable", step(3), open, &steps);
    let premise: &[Rule] = &[ANY, (1, 1, &[words(253, X), vec![EQ, X, X]].concat())];
    let steps: [&[u32]; 3] = [&[0, n252], &[1, EQ_11, 0], &[1, EQ_00, 0]];
    one("a premise of 253 words", step(2), premise, &steps);
    let rules: &[Rule] = &[ANY, NUMBERS[1], (1, 0, &[EQ, X, X])];
    let steps: [&[u32]; 3] = [&[0, n4999], &[1, n5000, 0], &[2, same]];
    one("deep terms", GOOD, rules, &steps);
    one("deep, unlike", step(1), rules, &[&[2, same], &[2, unlike]]);
    let steps: [&[u32]; 2] = [&[0, n255], &[1, n5000, 0]];
    one("deep, over another", step(1), rules, &steps);
}

/// The first wrong step is named, ahead of any goal.
fn first_wrong(t: &mut Tries) {
    // Right ones at 0 and 1, wrong ones anywhere.
    let (a, b): (&[u32], &[u32]) = (&[0, NAT_0], &[1, NAT_1, 0]);
    let (w, v): (&[u32], &[u32]) = (&[0, NAT_2], &[1, NAT_0, 0]);
    let mut one = |what: &str, place: u64, steps: &[&[u32]], goals: &[(u32, &str)]| {
        Parts {
            rules: &NUMBERS,
            steps,
            goals,
            ..Parts::default()
        }
        .get(t, what, step(place));
    };
    one("two wrong steps", 1, &[a, w, v], &[]);
    one("two wrong steps, the other first", 1, &[a, v, w], &[]);
    one("a wrong step twice", 0, &[w, w], &[]);
    one("the last of three is wrong", 2, &[a, b, w], &[]);
    one(
        "a right step over a wrong one",
        0,
        &[w, &[1, NAT_2, 0]],
        &[],
    );
    let no_result = [(NAT_2, "g")];
    one("a wrong step and a goal", 1, &[a, w], &no_result);
    let many = [&vec![a; 999][..], &[v, w]].concat();
    one("step 999 is wrong", 999, &many, &no_result);

    // A step that no result needs is judged too (R19), and one of a cut predicate.
    let cut = [plain(8, &[NAT]), plain(9, &[S, 0])];
    let bad = [plain(8, &[Z])];
    let mut parts = Parts {
        rules: &NUMBERS,
        steps: &[a, b, w],
        goals: &[(NAT_1, "g")],
        results: &[(1, "g")],
        ..Parts::default()
    };
    parts.get(t, "a wrong step that no goal needs", step(2));
    parts.behind = &cut;
    parts.get(t, "a wrong step of a cut predicate", step(2));
    // A bad record is ahead of every step.
    parts.behind = &bad;
    let records = parts.records();
    let last = records.len() - 1;
    t.at("a wrong step ahead of a bad record", 1, last, &records);
}

fn goals(t: &mut Tries) {
    type List<'a> = &'a [(u32, &'a str)];
    let mut one = |what: &str, wanted: Answer, goals: List, results: List| {
        Parts {
            rules: &NUMBERS,
            steps: &[&[0, NAT_0], &[1, NAT_1, 0], &[1, NAT_2, 1], &[1, NAT_1, 0]],
            goals,
            results,
            ..Parts::default()
        }
        .get(t, what, wanted);
    };
    // Goals, their results, and results of their name with another judgment.
    let (g, h) = ((NAT_1, "g"), (NAT_2, "h"));
    let (of_g, of_h) = ((1, "g"), (2, "h"));
    let (no_g, no_h) = ((2, "g"), (1, "h"));
    one("no goal", GOOD, &[], &[]);
    one("a result without goal", GOOD, &[], &[of_g]);
    one("a goal with its result", GOOD, &[g], &[of_g]);
    one("its judgment's second step", GOOD, &[g], &[(3, "g")]);
    one("a goal without result", goal(0), &[g], &[]);
    one("a result of another name", goal(0), &[g], &[(1, "h")]);
    one("a result of a longer name", goal(0), &[g], &[(1, "gg")]);
    one("a result of another judgment", goal(0), &[g], &[no_g]);
    let both = [(NAT_1, "g"), (NAT_1, "h")];
    one("two goals on one step", GOOD, &both, &[of_g, no_h]);
    one("two goals", GOOD, &[g, h], &[of_g, of_h]);
    one("results in another order", GOOD, &[g, h], &[of_h, of_g]);
    one("each other's result", goal(0), &[g, h], &[no_g, no_h]);
    one("the second without result", goal(1), &[g, h], &[of_g]);
    one("the second with another", goal(1), &[g, h], &[of_g, no_h]);
    one("the first without result", goal(0), &[g, h], &[of_h]);
    one("both without result", goal(0), &[g, h], &[]);
    one("no result, then another", goal(0), &[g, h], &[no_h]);
    one("another, then no result", goal(0), &[g, h], &[no_g]);
    one(
        "more results than goals",
        GOOD,
        &[h],
        &[of_g, (0, "a"), of_h],
    );
    let name = "g".repeat(64);
    let long = [(NAT_1, &name[..])];
    one("a name of 64 bytes", GOOD, &long, &[(1, &name)]);
    one("64 bytes and 63", goal(0), &long, &[(1, &name[..63])]);
    // The results in falling order.
    let names: Vec<String> = (0..300).map(|i| format!("g{i}")).collect();
    let many: Vec<(u32, &str)> = names.iter().map(|name| (NAT_1, &name[..])).collect();
    let mut results: Vec<(u32, &str)> = many.iter().rev().map(|goal| (1, goal.1)).collect();
    one("300 goals", GOOD, &many, &results);
    results[0].0 = 2;
    one("300 goals, the last is bad", goal(299), &many, &results);
    results.remove(100);
    one("300 goals, 199 is bad too", goal(199), &many, &results);
    let behind = [plain(8, &[NAT]), plain(8, &[EQ, 0]), plain(9, &[S, 0])];
    let mut parts = Parts {
        rules: &NUMBERS,
        goals: &[g],
        ..Parts::default()
    };
    parts.get(t, "a goal and no step", goal(0));
    // Cut and abstract records make no difference.
    parts.behind = &behind;
    parts.get(t, "a goal of a cut predicate, no result", goal(0));
    parts.steps = &[&[0, NAT_0], &[1, NAT_1, 0]];
    parts.results = &[(1, "g")];
    parts.get(t, "a goal of a cut predicate", GOOD);
}
