//! The recorded vectors: the worked example is document 01's, judging finds a damaged
//! record, and no damage to a pack makes the reader panic.
use certpack::judge::{Run, judge};
use certpack::pack::decode;
use certpack::shown::Budgets;
use certpack::vectors::{Case, files, read};

const FOLDER: &str = concat!(env!("CARGO_MANIFEST_DIR"), "/../../tests/vectors");
const EXAMPLE: &str = concat!(env!("CARGO_MANIFEST_DIR"), "/../../examples");

fn cases() -> Vec<Case> {
    let files = files(FOLDER).expect("vector files");
    files
        .iter()
        .flat_map(|f| read(f).expect("a vector file"))
        .collect()
}

fn case(name: &str) -> Case {
    cases()
        .into_iter()
        .find(|c| c.name == name)
        .expect("the case")
}

#[test]
fn the_worked_example() {
    let nat = case("nat");
    let expected = std::fs::read_to_string(format!("{EXAMPLE}/nat.expected")).expect("the text");
    assert_eq!(format!("{}--\n{}", nat.proof, nat.goals), expected);
    let pack = std::fs::read(format!("{EXAMPLE}/nat.pack")).expect("the pack");
    assert_eq!(nat.pack, pack);
    assert_eq!(nat.figures, [2, 2, 6, 4, 1, 1, 0, 1, 1, 2, 0, 0, 0]);
}

/// Of the general form and of the value so many nodes are shown.
#[test]
fn budgets_of_the_worked_example() {
    let nat = case("nat");
    let pack = decode(&nat.pack).expect("a pack");
    let run = Run::read(&pack, &nat.class_words, &nat.pattern_words).expect("a run");
    let shown = |form: u64, value: u64, most: usize| {
        let budgets = Budgets { form, value };
        run.shown(budgets, most).expect("goals with results")
    };
    for (form, text) in [(0, "…"), (1, "(pos …)"), (2, "(pos (s …))")] {
        let wanted = format!("g {text}\n?v0 : Nat 1 …\n");
        assert_eq!(shown(form, 0, 100), Some(wanted));
    }
    let whole = "g (pos (s ?v0))\n?v0 : Nat 1 (s z)\n".to_owned();
    assert_eq!(shown(u64::MAX, 2, whole.len()), Some(whole.clone()));
    assert_eq!(shown(3, u64::MAX, whole.len() - 1), None);
    assert_eq!(nat.shown, whole);
    let cut = whole.replace("(s z)", "(s …)");
    assert_eq!(shown(3, 1, 100), Some(cut));
}

#[test]
fn every_case_is_written_as_it_is_read() {
    for path in files(FOLDER).expect("vector files") {
        let text = std::fs::read_to_string(&path).expect("text");
        let written: String = read(&path)
            .expect("cases")
            .iter()
            .map(Case::write)
            .collect();
        assert!(written == text, "{path}");
    }
}

/// A change of any recorded kind must be found.
#[test]
fn a_damaged_record_is_found() {
    let good = case("trees");
    assert_eq!(judge(&good), Ok(()));
    let damages: &[fn(&mut Case)] = &[
        |c| c.class_words[0] ^= 1,
        |c| *c.class_words.last_mut().expect("a mark") = 2,
        |c| c.pattern_words[2] = 1,
        |c| c.pattern_words[1] = 0,
        |c| c.figures[0] += 1,
        |c| c.figures[3] += 1,
        |c| c.figures[5] -= 1,
        |c| c.figures.swap(9, 10),
        |c| c.shown = c.shown.replacen("?v0", "?v1", 1),
        |c| c.shown.push('\n'),
        |c| c.emitted[0] = 0,
        |c| c.emitted[2] += 1,
        |c| c.proof = c.proof.replacen("(hyp 1", "(hyp 2", 1),
        |c| c.goals = c.goals.replacen("(goal g", "(goal h", 1),
        |c| c.more_pattern_words[0] = 1,
        |c| c.emit_used[1] = 1,
        |c| c.pack[40] ^= 1,
    ];
    found(&good, damages);
}

#[test]
fn a_damaged_open_variable_is_found() {
    let damages: &[fn(&mut Case)] = &[
        |c| c.open[0].push(7),
        |c| c.open[0].clear(),
        |c| c.open[0][0] += 1,
        |c| c.open.clear(),
    ];
    // Flexible variables are open, or those that record 9 opens.
    for name in ["trees", "abstract-below"] {
        let good = case(name);
        assert_eq!(judge(&good), Ok(()));
        found(&good, damages);
    }
}

/// Each damage is found by the judge.
fn found(good: &Case, damages: &[fn(&mut Case)]) {
    for (i, damage) in damages.iter().enumerate() {
        let mut bad = good.clone();
        damage(&mut bad);
        assert!(judge(&bad).is_err(), "damage {i} is not found");
    }
}

#[test]
fn damaged_packs_are_refused_or_read() {
    let small = cases().into_iter().filter(|c| c.pack.len() <= 512).take(60);
    for case in small {
        for cut in 0..case.pack.len() {
            if let Err(refusal) = decode(&case.pack[..cut]) {
                assert_eq!(refusal.number, 1);
                assert!(refusal.place < cut.max(1));
            }
        }
        for at in 0..case.pack.len() {
            for flip in [1, 128, 255] {
                let mut bytes = case.pack.clone();
                bytes[at] ^= flip;
                match decode(&bytes) {
                    Ok(pack) => assert_eq!(pack.encode(), bytes),
                    Err(refusal) => {
                        assert!(matches!(refusal.number, 1 | 2));
                        assert!(refusal.place < bytes.len());
                    }
                }
            }
        }
    }
}
