//! Packs of good form with steps that don't follow or goals that aren't met, whose class
//! building is written from document 01's words (and docs/DECISIONS.md), so that neither
//! the library nor the plain builder is trusted with it.
use crate::read::{Answer, GOOD};
use crate::records::plain;
use crate::tries::{EQ, NAT, S, TRUE, Tries, Z};
use crate::verdicts::*;

/// The number of what a step's class, or a goal, is refused for; the place is the step's.
fn clash(place: u64) -> Answer {
    Answer { code: 5, place }
}

fn circle(place: u64) -> Answer {
    Answer { code: 6, place }
}

fn no_instance(place: u64) -> Answer {
    Answer { code: 7, place }
}

/// nat(z) by its rule, a result.
const ONE_STEP: Parts = Parts {
    rules: &NUMBERS,
    nodes: &[],
    steps: &[&[0, NAT_0]],
    goals: &[],
    results: &[(0, "r")],
    behind: &[],
};

/// That step, nat cut or not.
pub fn one_step_pack(cut: bool) -> Vec<u8> {
    let cuts = [plain(8, &[NAT])];
    let behind: &[Vec<u8>] = if cut { &cuts } else { &[] };
    Parts { behind, ..ONE_STEP }.records().concat()
}

/// That step, and a goal on its judgment: it is met if its name is the result's, `r`.
pub fn one_goal_pack(name: &str) -> Vec<u8> {
    let goals = &[(NAT_0, name)];
    Parts { goals, ..ONE_STEP }.records().concat()
}

pub fn tries() -> Tries {
    let mut t = Tries::default();
    one_step(&mut t);
    first_named(&mut t);
    first_of_class(&mut t);
    cuts(&mut t);
    goals(&mut t);
    t
}

// Facts and what rests on them: rules by number in `RULES`.
const NAT_Z: u32 = 0;
const NAT_SX: u32 = 1;
const NAT_X: u32 = 2;
const EQ_XX: u32 = 3;
const NEEDS_Z: u32 = 4;
const NEEDS_CIRCLE: u32 = 5;
const NEEDS_Z_Z: u32 = 6;
const NEEDS_CIRCLE_Z: u32 = 7;
const NEEDS_X_X: u32 = 8;
const NEXT: u32 = 9;
const RULES: [Rule; 10] = [
    (0, 0, &[NAT, Z]),
    (1, 0, &[NAT, S, X]),
    ANY,
    (1, 0, &[EQ, X, X]),
    (0, 1, &[NAT, Z, TRUE]),
    (1, 1, &[EQ, X, S, X, TRUE]),
    (0, 2, &[NAT, Z, NAT, Z, TRUE]),
    (1, 2, &[EQ, X, S, X, NAT, Z, TRUE]),
    (1, 2, &[NAT, X, NAT, X, TRUE]),
    NUMBERS[1],
];

/// These steps of `RULES`, the last of them a result's.
fn last(t: &mut Tries, what: &str, wanted: Answer, steps: &[&[u32]]) {
    let at = steps.len() as u32 - 1;
    Parts {
        rules: &RULES,
        steps,
        results: &[(at, "r")],
        ..Parts::default()
    }
    .get(t, what, wanted);
}

/// One class that can't be made, at the step that asks for it; 5 ahead of 6 ahead of 7.
fn one_step(t: &mut Tries) {
    let mut one = |what: &str, wanted: Answer, steps: &[&[u32]]| {
        last(t, what, wanted, steps);
    };
    // What is from nat(s X) clashes with nat(z); nat(s z) from nat(X) is no instance of it.
    let (document, other_head) = (&[NAT_SX, NAT_1][..], &[NAT_SX, NAT_2][..]);
    let wider = &[NAT_X, NAT_1][..];
    let (zero, same) = (&[NAT_Z, NAT_0][..], &[EQ_XX, EQ_00][..]);
    one(
        "premise nat(z) over nat(s X)",
        clash(1),
        &[document, &[NEEDS_Z, TRUTH, 0]],
    );
    one(
        "premise eq(X, s X) over eq(X, X)",
        circle(1),
        &[same, &[NEEDS_CIRCLE, TRUTH, 0]],
    );
    one(
        "premise nat(z) over nat(X)",
        no_instance(1),
        &[wider, &[NEEDS_Z, TRUTH, 0]],
    );
    one(
        "the second premise clashes",
        clash(2),
        &[zero, other_head, &[NEEDS_Z_Z, TRUTH, 0, 1]],
    );
    one(
        "a clash behind no instance",
        clash(2),
        &[wider, other_head, &[NEEDS_Z_Z, TRUTH, 0, 1]],
    );
    one(
        "a clash behind a circle",
        clash(2),
        &[same, other_head, &[NEEDS_CIRCLE_Z, TRUTH, 0, 1]],
    );
    one(
        "a circle ahead of no instance",
        circle(2),
        &[same, wider, &[NEEDS_CIRCLE_Z, TRUTH, 0, 1]],
    );
    one(
        "a circle, and its other premise met",
        circle(2),
        &[same, zero, &[NEEDS_CIRCLE_Z, TRUTH, 0, 1]],
    );
    // X is z and s z: a clash where the classes say so, no instance where the steps do.
    let one_sz = &[NEXT, NAT_1, 0][..];
    one(
        "X from nat(z) and nat(s z)",
        clash(2),
        &[zero, one_sz, &[NEEDS_X_X, TRUTH, 0, 1]],
    );
    one(
        "X from nat(z) and nat(Y), s z there",
        no_instance(2),
        &[zero, wider, &[NEEDS_X_X, TRUTH, 0, 1]],
    );
    one(
        "X from nat(X) twice, one judgment",
        GOOD,
        &[wider, &[NEEDS_X_X, TRUTH, 0, 0]],
    );
}

/// Of several such steps the first is named; a step that no result needs is not looked at.
fn first_named(t: &mut Tries) {
    let wider = &[NAT_X, NAT_1][..];
    let differs = &[NEEDS_Z, TRUTH, 0][..];
    // Its judgment is another than step 2's: a second step of one judgment is needed by none.
    let circles = &[NEEDS_CIRCLE, NAT_2, 1][..];
    let steps = [wider, &[EQ_XX, EQ_00], differs, circles];
    let mut one = |what: &str, wanted: Answer, results: &[(u32, &str)]| {
        Parts {
            rules: &RULES,
            steps: &steps,
            goals: &[(NAT_0, "g")],
            results,
            ..Parts::default()
        }
        .get(t, what, wanted);
    };
    one(
        "no instance, then a circle",
        no_instance(2),
        &[(2, "r"), (3, "s")],
    );
    one("a circle alone is needed", circle(3), &[(3, "s")]);
    one(
        "neither is needed, and a goal has no result",
        goal(0),
        &[(0, "r")],
    );
}

/// A class is made from its first step; a later step of its key adds to the count only.
fn first_of_class(t: &mut Tries) {
    let (zero, one, off) = (
        &[NAT_Z, NAT_0][..],
        &[NEXT, NAT_1, 0][..],
        &[NEXT, NAT_2, 0][..],
    );
    let mut all = |what: &str, wanted: Answer, steps: &[&[u32]]| {
        let names: Vec<String> = (0..steps.len()).map(|s| format!("r{s}")).collect();
        let results: Vec<(u32, &str)> = (0..).zip(names.iter().map(String::as_str)).collect();
        Parts {
            rules: &RULES,
            steps,
            results: &results,
            ..Parts::default()
        }
        .get(t, what, wanted);
    };
    all(
        "a later step against its class's conclusion",
        GOOD,
        &[zero, one, off],
    );
    all(
        "the first step against its own rule's conclusion",
        GOOD,
        &[&[NAT_Z, NAT_1]],
    );
    all(
        "a judgment of another predicate than its rule's",
        GOOD,
        &[&[NAT_Z, EQ_00]],
    );
    // A ref stands for its judgment's first step: nat(z) by nat(z), not by nat(s X).
    let again = &[NAT_SX, NAT_0][..];
    all(
        "a wrong step behind the first of its judgment",
        GOOD,
        &[zero, again, &[NEEDS_Z, TRUTH, 1]],
    );
    all(
        "a wrong step ahead of a right one",
        clash(2),
        &[again, zero, &[NEEDS_Z, TRUTH, 1]],
    );
}

/// A cut step's rule and refs are not looked at; its judgment is, by what rests on it.
fn cuts(t: &mut Tries) {
    let mut cut = |what: &str, wanted: Answer, steps: &[&[u32]]| {
        Parts {
            rules: &RULES,
            steps,
            results: &[(steps.len() as u32 - 1, "r")],
            behind: &[plain(8, &[NAT])],
            ..Parts::default()
        }
        .get(t, what, wanted);
    };
    let (zero, one) = (&[NAT_Z, NAT_0][..], &[NAT_Z, NAT_1][..]);
    cut("a wrong step of a cut predicate", GOOD, &[one]);
    cut(
        "a premise over a cut step",
        GOOD,
        &[zero, &[NEEDS_Z, TRUTH, 0]],
    );
    cut(
        "a premise nat(z) over a cut nat(s z)",
        no_instance(1),
        &[one, &[NEEDS_Z, TRUTH, 0]],
    );
    cut(
        "X from two cut steps",
        no_instance(2),
        &[zero, one, &[NEEDS_X_X, TRUTH, 0, 1]],
    );
    cut(
        "X from one cut step twice",
        GOOD,
        &[one, &[NEEDS_X_X, TRUTH, 0, 0]],
    );
}

/// Goals come behind all steps, ascending; 4 by the goal, 7 by the result's own step.
fn goals(t: &mut Tries) {
    type List<'a> = &'a [(u32, &'a str)];
    // Step 2 has the key of step 1, whose conclusion is nat(s z); step 3 has its judgment again.
    let steps: &[&[u32]] = &[
        &[NAT_Z, NAT_0],
        &[NEXT, NAT_1, 0],
        &[NEXT, NAT_2, 0],
        &[NAT_X, NAT_2],
        &[EQ_XX, EQ_00],
        &[NEEDS_CIRCLE, TRUTH, 4],
    ];
    let mut one = |what: &str, wanted: Answer, goals: List, results: List| {
        Parts {
            rules: &RULES,
            steps,
            goals,
            results,
            ..Parts::default()
        }
        .get(t, what, wanted);
    };
    let (right, off) = ((NAT_1, "a"), (NAT_2, "b"));
    let needed = (1, "n");
    one("a goal that is met", GOOD, &[right], &[(1, "a")]);
    one(
        "a goal against its class's conclusion",
        no_instance(2),
        &[off],
        &[(2, "b"), needed],
    );
    one(
        "the result is a later step of the judgment",
        no_instance(3),
        &[off],
        &[(3, "b"), needed],
    );
    one("no result", goal(0), &[right], &[needed]);
    one(
        "a result with another judgment",
        goal(0),
        &[right],
        &[(2, "a"), needed],
    );
    one("4 ahead of 7", goal(0), &[right, off], &[(2, "b"), needed]);
    one(
        "7 ahead of 4",
        no_instance(2),
        &[off, right],
        &[(2, "b"), needed],
    );
    one(
        "the second goal",
        no_instance(2),
        &[right, off],
        &[(1, "a"), (2, "b")],
    );
    one(
        "a step's class ahead of the goals",
        circle(5),
        &[right],
        &[(5, "c")],
    );
}
