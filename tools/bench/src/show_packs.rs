//! Packs with goals on deep terms and on shared ones, and the text of them, written from
//! document 01: in a general form, which steps make, and in a value, which nodes make.
use certpack::pack::{Named, PREDICATE, Pack, Rule, Step, Symbol, Term};
use certpack::shown::{AS_A_RULE, Budgets};

pub struct Large {
    pub name: &'static str,
    pub pack: Pack,
    /// At these budgets its text can be made.
    pub budgets: &'static [Budgets],
    /// The text, where it is known.
    pub text: fn(Budgets) -> Option<String>,
    /// At these it has none that fits a buffer.
    pub endless: &'static [Budgets],
}

pub fn all() -> [Large; 2] {
    [
        Large {
            name: "100,352 levels",
            pack: deep_pack(),
            budgets: &[AS_A_RULE, ALL_BUT_ONE, WHOLE],
            text: deep_text,
            endless: &[],
        },
        Large {
            name: "40 doublings",
            pack: shared_pack(),
            budgets: &[AS_A_RULE, AS_A_VALUE, LEFTMOST],
            text: shared_text,
            endless: &ENDLESS,
        },
    ]
}

/// A rule gives so many levels; two steps of as many give twice that, and so often.
const FIRST: u32 = 196;
const TWICE: u32 = 9;
const LEVELS: u32 = FIRST << TWICE;
const DOUBLINGS: u32 = 40;

const WHOLE: Budgets = Budgets {
    form: u64::MAX,
    value: u64::MAX,
};
/// The deep terms without the last node.
const ALL_BUT_ONE: Budgets = Budgets {
    form: LEVELS as u64 + 2,
    value: LEVELS as u64,
};
const AS_A_VALUE: Budgets = Budgets {
    form: 12,
    value: 60,
};
/// The shared terms as far as their leftmost leaf.
const LEFTMOST: Budgets = Budgets {
    form: DOUBLINGS as u64 + 2,
    value: DOUBLINGS as u64 + 1,
};

/// One of the shared terms, or both, as far as there are some million nodes.
const ENDLESS: [Budgets; 4] = [
    WHOLE,
    Budgets { form: 60, ..WHOLE },
    Budgets { value: 12, ..WHOLE },
    Budgets {
        form: 1 << 25,
        value: 0,
    },
];

// Symbols, by number: z, a constructor over z's sort, and the predicates of form and value.
const Z: u32 = 0;
const UP: u32 = 1;
const FORM: u32 = 2;
const VALUE: u32 = 3;

fn form<const N: usize>(args: [Term; N]) -> Term {
    Term::App(FORM, args.to_vec())
}

fn rule(name: &str, premises: &[Term], conclusion: Term) -> Rule {
    Rule {
        name: name.into(),
        vars: vec![0; 3],
        premises: premises.to_vec(),
        conclusion,
    }
}

/// Up with so many arguments, form with so many, value with one; node k has k levels of up,
/// as many as `top`. Rule 0 is value(X).
fn front(up: usize, form: usize, top: u32, rules: [Rule; 2]) -> Pack {
    let symbol = |name: &str, arity: usize, output: u32| Symbol {
        name: name.into(),
        inputs: vec![0; arity],
        output,
    };
    let value = rule("any", &[], Term::App(VALUE, vec![Term::Var(0)]));
    let mut nodes = vec![vec![Z]];
    nodes.extend((0..top).map(|below| [vec![UP], vec![below; up]].concat()));
    Pack {
        sorts: vec!["N".into()],
        symbols: vec![
            symbol("z", 0, 0),
            symbol("up", up, 0),
            symbol("form", form, PREDICATE),
            symbol("value", 1, PREDICATE),
        ],
        rules: [value].into_iter().chain(rules).collect(),
        nodes,
        ..Pack::default()
    }
}

/// A step to a judgment that no node has yet; its number.
fn step(pack: &mut Pack, rule: u32, judgment: Vec<u32>, refs: &[u32]) -> u32 {
    pack.nodes.push(judgment);
    pack.steps.push(Step {
        rule,
        judgment: pack.nodes.len() as u32 - 1,
        refs: refs.to_vec(),
    });
    pack.steps.len() as u32 - 1
}

/// Goal `form` on this step, whose rules make its form, and goal `value` on value of the node
/// of all levels.
fn with_goals(mut pack: Pack, at: u32, top: u32) -> Pack {
    let value = step(&mut pack, 0, vec![VALUE, top], &[]);
    for (name, at) in [("form", at), ("value", value)] {
        let named = |at: u32| Named {
            at,
            name: name.into(),
        };
        pack.goals.push(named(pack.steps[at as usize].judgment));
        pack.results.push(named(at));
    }
    pack
}

/// form(up .. up X, X), and from form(X, Y) and form(Y, Z) form(X, Z).
fn deep_pack() -> Pack {
    let [x, y, z] = [0, 1, 2].map(Term::Var);
    let first = (0..FIRST).fold(x.clone(), |below, _| Term::App(UP, vec![below]));
    let rules = [
        rule("first", &[], form([first, x.clone()])),
        rule(
            "joins",
            &[form([x.clone(), y.clone()]), form([y, z.clone()])],
            form([x, z]),
        ),
    ];
    let mut pack = front(1, 2, LEVELS, rules);
    let between = |k: u32, levels: u32| vec![FORM, (k + 1) * levels, k * levels];
    let mut steps: Vec<u32> = (0..1 << TWICE)
        .map(|k| step(&mut pack, 1, between(k, FIRST), &[]))
        .collect();
    let mut levels = FIRST;
    while steps.len() > 1 {
        levels *= 2;
        let pairs = (0..).zip(steps.chunks(2));
        steps = pairs
            .map(|(k, two)| step(&mut pack, 2, between(k, levels), &[two[1], two[0]]))
            .collect();
    }
    with_goals(pack, steps[0], LEVELS)
}

/// form(X), and from form(X) form(up X X).
fn shared_pack() -> Pack {
    let x = Term::Var(0);
    let up = Term::App(UP, vec![x.clone(); 2]);
    let rules = [
        rule("first", &[], form([x.clone()])),
        rule("doubles", &[form([x])], form([up])),
    ];
    let mut pack = front(2, 1, DOUBLINGS, rules);
    let mut last = step(&mut pack, 1, vec![FORM, 0], &[]);
    for k in 1..=DOUBLINGS {
        last = step(&mut pack, 2, vec![FORM, k], &[last]);
    }
    with_goals(pack, last, DOUBLINGS)
}

/// Both goals, by the two large terms.
fn goals(form: &str, value: &str) -> String {
    format!("form (form {form})\n?v0 : N 0 z\nvalue (value ?v0)\n?v0 : N 0 {value}\n")
}

fn deep_text(budgets: Budgets) -> Option<String> {
    // The predicate takes a unit, and both arguments are shown with what is left.
    let left = budgets.form.checked_sub(1)?;
    let last = match left > u64::from(LEVELS) + 1 {
        true => "?v0",
        false => "…",
    };
    let form = format!("{} {last}", deep("?v0", left));
    Some(goals(&form, &deep("z", budgets.value)))
}

/// The deep term with this leaf.
fn deep(leaf: &str, budget: u64) -> String {
    let (open, last) = match budget > u64::from(LEVELS) {
        true => (LEVELS as usize, leaf),
        false => (budget as usize, "…"),
    };
    format!("{}{last}{}", "(up ".repeat(open), ")".repeat(open))
}

/// At the budgets that just reach the leftmost leaf, all to the right of it is left out.
fn shared_text(budgets: Budgets) -> Option<String> {
    let leftmost = |leaf: &str| {
        let often = DOUBLINGS as usize;
        format!("{}{leaf}{}", "(up ".repeat(often), " …)".repeat(often))
    };
    (budgets == LEFTMOST).then(|| goals(&leftmost("?v0"), &leftmost("z")))
}
