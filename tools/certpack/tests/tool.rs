//! The tool as a user calls it: faults with file and line, status, whole files only.
use std::path::{Path, PathBuf};
use std::process::{Command, Output};
use std::sync::atomic::{AtomicUsize, Ordering::Relaxed};

/// A new empty folder.
fn folder() -> PathBuf {
    static MADE: AtomicUsize = AtomicUsize::new(0);
    let name = format!("tool{}", MADE.fetch_add(1, Relaxed));
    let path = Path::new(env!("CARGO_TARGET_TMPDIR")).join(name);
    let _ = std::fs::remove_dir_all(&path);
    std::fs::create_dir_all(&path).expect("a folder");
    path
}

fn certpack(folder: &Path, args: &[&str]) -> Output {
    let mut command = Command::new(env!("CARGO_BIN_EXE_certpack"));
    command
        .args(args)
        .current_dir(folder)
        .output()
        .expect("a run")
}

fn said(out: &Output) -> String {
    String::from_utf8_lossy(&out.stderr).into_owned()
}

const THEORY: &str = "(sort N)\n(ctor z () N)\n(ctor s (N) N)\n(pred n (N))\n(rule nz () (n z))\n(rule ns ((n ?x)) (n (s ?x)))\n";

/// What the tool says of the theory and these lines, which begin on line 7.
fn fault(lines: &str) -> String {
    let folder = folder();
    std::fs::write(folder.join("a.horn"), format!("{THEORY}{lines}")).expect("a text");
    let out = certpack(&folder, &["make", "a.horn", "-o", "a.pack"]);
    assert_eq!(out.status.code(), Some(1), "{lines}");
    let left: Vec<_> = std::fs::read_dir(&folder).expect("a folder").collect();
    assert_eq!(left.len(), 1, "a file is left of {lines}");
    let said = said(&out);
    assert_eq!(said.lines().count(), 1, "{said}");
    said.trim_end().to_owned()
}

#[test]
fn faults_name_their_line() {
    let table = [
        ("(sort N)", "a.horn:7: sort N is declared twice"),
        ("\n(ctor z () N)", "a.horn:8: symbol z is declared twice"),
        ("(ctor w (M) N)", "a.horn:7: unknown sort M"),
        (
            "(pred ?p ())",
            "a.horn:7: a name with a leading question mark: ?p",
        ),
        (
            "(rule r () (n\n (s ?x ?y)))",
            "a.horn:8: s takes 1 arguments, not 2",
        ),
        ("(rule r () ?x)", "a.horn:7: ?x can't stand here"),
        (
            "(rule r () (n (n z)))",
            "a.horn:7: n is a predicate, below the top",
        ),
        ("(rule r () (s z))", "a.horn:7: s is no predicate"),
        ("(goal g (n (z)))", "a.horn:7: z is a constant: no brackets"),
        ("(goal g n)", "a.horn:7: a judgment is expected here, not n"),
        ("(goal g (n ?d))", "a.horn:7: ?d is not defined"),
        (
            "(goal g (n z))\n(goal g (n z))",
            "a.horn:8: goal g is declared twice",
        ),
        (
            "(step 1 nz () (n z))",
            "a.horn:7: step 0 is the next one, not 1",
        ),
        (
            "(step 0 nz (0) (n z))",
            "a.horn:7: 1 refs, where nz has 0 premises",
        ),
        (
            "(step 0 ns (0) (n z))",
            "a.horn:7: step 0, which is no earlier one",
        ),
        (
            "(step 0 nz () (n (s z)))",
            "a.horn:7: the judgment does not fit nz",
        ),
        (
            "(step 0 nz () (n z))\n(step 1 ns (0) (n z))",
            "a.horn:8: the judgment does not fit ns",
        ),
        ("(result g 0)", "a.horn:7: step 0, which there is not"),
        ("(cut z)", "a.horn:7: z is no predicate"),
        ("(cut n 1)", "a.horn:7: n has no position 1"),
        ("(cut n)\n(cut n)", "a.horn:8: n is cut twice"),
        ("(abstract n 0)", "a.horn:7: n is no constructor"),
        ("(abstract z 0)", "a.horn:7: z has no position 0"),
        ("(what)", "a.horn:7: what is no form of a pack's text"),
        ("(sort)", "a.horn:7: a sort form of 1 elements"),
        (
            "((sort N))",
            "a.horn:7: a name is expected here, not a list",
        ),
        ("()", "a.horn:7: an empty form"),
        ("N", "a.horn:7: a list is expected here, not N"),
        ("(cut n -1)", "a.horn:7: a number is expected here, not -1"),
        (
            "(cut n 99999999999)",
            "a.horn:7: a number is expected here, not 99999999999",
        ),
        (")", "a.horn:7: a closing bracket without an opening one"),
        ("\n(sort\n", "a.horn:8: a bracket that is never closed"),
        ("(sort \u{1})", "a.horn:7: byte 1, which no name can have"),
        ("(sort é)", "a.horn:7: byte 195, which no name can have"),
    ];
    for (lines, why) in table {
        assert_eq!(fault(lines), format!("certpack: {why}"));
    }
    let deep = format!("(goal g (n {}z{}))", "(s ".repeat(300), ")".repeat(300));
    assert_eq!(
        fault(&deep),
        "certpack: a.horn:7: brackets nested more than 256 deep (use def)"
    );
    let wide = format!("(rule w ({}) (n z))", "(n z) ".repeat(17));
    assert_eq!(fault(&wide), "certpack: a.horn:7: 17 premises, above 16");
    let long = format!("(rule w () (n {}z{}))", "(s ".repeat(250), ")".repeat(250));
    assert!(folder_of(&long).is_ok());
    let many: String = (0..256).map(|i| format!("(sort s{i})\n")).collect();
    assert_eq!(fault(&many), "certpack: a.horn:262: more than 256 sorts");
}

fn folder_of(lines: &str) -> Result<Vec<u8>, String> {
    let folder = folder();
    std::fs::write(folder.join("a.horn"), format!("{THEORY}{lines}")).expect("a text");
    let out = certpack(&folder, &["make", "a.horn", "-o", "a.pack"]);
    match out.status.code() {
        Some(0) => std::fs::read(folder.join("a.pack")).map_err(|e| e.to_string()),
        _ => Err(said(&out)),
    }
}

#[test]
fn bindings_and_abbreviations() {
    let stated = "(def ?a (s z))\n(step 0 nz () (n z))\n(step 1 ns (0) (n ?a))\n(result g 1)\n";
    let built = "(def ?a (s z))\n(step 0 nz ())\n(step 1 ns (0))\n(result g 1)\n";
    let bound = "(def ?a (s z))\n(step 0 nz ())\n(step 1 ns (0) (?x z))\n(result g 1)\n";
    let pack = folder_of(stated);
    assert!(pack.is_ok());
    assert_eq!(folder_of(built), pack);
    assert_eq!(folder_of(bound), pack);
    assert_eq!(
        fault("(step 0 nz ())\n(step 1 ns (0) (?x (s z)))"),
        "certpack: a.horn:8: ?x has two values"
    );
}

#[test]
fn several_texts_are_one() {
    let folder = folder();
    let write = |name: &str, text: &str| std::fs::write(folder.join(name), text).expect("a text");
    write("theory", THEORY);
    write("goals", "(goal g (n z))\n");
    write("proof", "(step 0 nz () (n z))\n(result g 0)\n");
    write("cuts", "(cut n)\n");
    let out = certpack(
        &folder,
        &["make", "theory", "goals", "proof", "cuts", "-o", "x.pack"],
    );
    assert_eq!(out.status.code(), Some(0), "{}", said(&out));
    let out = certpack(&folder, &["check", "x.pack"]);
    assert_eq!(out.status.code(), Some(0));
    assert_eq!(
        String::from_utf8_lossy(&out.stdout),
        "x.pack: every step follows and every goal has its result\n"
    );
    write("goals", "(goal g (n (s z)))\n");
    let out = certpack(
        &folder,
        &["make", "theory", "goals", "proof", "cuts", "-o", "x.pack"],
    );
    assert_eq!(out.status.code(), Some(0), "{}", said(&out));
    let out = certpack(&folder, &["check", "x.pack"]);
    assert_eq!(out.status.code(), Some(1));
    assert!(out.stdout.is_empty());
    assert_eq!(
        said(&out),
        "certpack: x.pack: refused, 4 at 0: goal 0 has no result with its judgment\n"
    );
    write("goals", "(goal g (n s))\n");
    let out = certpack(
        &folder,
        &["make", "theory", "goals", "proof", "-o", "y.pack"],
    );
    assert_eq!(
        said(&out),
        "certpack: goals:1: s takes 1 arguments, not 0\n"
    );
    assert!(!folder.join("y.pack").exists());
}

/// The second step's record, of 8 bytes and kind 5, is made to name the other rule.
#[test]
fn a_step_that_fails() {
    let folder = folder();
    let text = format!("{THEORY}(step 0 nz () (n z))\n(step 1 ny () (n (s z)))\n");
    let text = text.replace("(rule nz", "(rule ny () (n (s z)))\n(rule nz");
    std::fs::write(folder.join("steps"), text).expect("a text");
    let out = certpack(&folder, &["make", "steps", "-o", "z.pack"]);
    assert_eq!(out.status.code(), Some(0), "{}", said(&out));
    let mut pack = std::fs::read(folder.join("z.pack")).expect("a pack");
    let step = [8, 0, 0, 0, 5, 0, 0, 0, 0, 0];
    let at = pack.windows(10).position(|w| w == step).expect("a step");
    pack[at + 6] = 1;
    std::fs::write(folder.join("z.pack"), pack).expect("a pack");
    let out = certpack(&folder, &["check", "z.pack"]);
    assert_eq!(out.status.code(), Some(1));
    assert_eq!(
        said(&out),
        "certpack: z.pack: refused, 3 at 1: step 1 does not follow by its rule\n"
    );
}

#[test]
fn wrong_calls_and_bad_files() {
    let folder = folder();
    std::fs::write(folder.join("bad.pack"), [3, 0, 0, 0, 1, 0, 65]).expect("a pack");
    std::fs::write(folder.join("t.horn"), THEORY).expect("a text");
    std::fs::write(folder.join("t.bin"), [b'(', 255]).expect("a text");
    let table: &[(&[&str], i32, &str)] = &[
        (&[], 2, "a command is wanted; see certpack --help"),
        (&["make"], 2, "a text is wanted; see certpack --help"),
        (
            &["make", "t.horn"],
            2,
            "-o PACK is wanted; see certpack --help",
        ),
        (
            &["make", "t.horn", "-o"],
            2,
            "-o wants a file; see certpack --help",
        ),
        (
            &["make", "--quick"],
            2,
            "--quick: no such option; see certpack --help",
        ),
        (
            &["make", "none", "-o", "x"],
            1,
            "none: No such file or directory (os error 2)",
        ),
        (
            &["make", "t.bin", "-o", "x"],
            1,
            "t.bin:1: a byte that is no text",
        ),
        (
            &["make", "t.horn", "-o", "none/x"],
            1,
            "none/x: No such file or directory (os error 2)",
        ),
        (
            &["dump", "bad.pack"],
            1,
            "bad.pack: refused, 1 at 0: a body that is cut",
        ),
        (
            &["check", "bad.pack"],
            1,
            "bad.pack: refused, 1 at 0: a body that is cut",
        ),
        (&["judge", "."], 1, ".: no vector files"),
    ];
    for (args, status, why) in table {
        let out = certpack(&folder, args);
        assert_eq!(out.status.code(), Some(*status), "{args:?}");
        assert_eq!(said(&out), format!("certpack: {why}\n"));
    }
    let left = std::fs::read_dir(&folder).expect("a folder").count();
    assert_eq!(left, 3, "a part of a file is left");
    let out = certpack(&folder, &["--help"]);
    assert_eq!(out.status.code(), Some(0));
    assert!(String::from_utf8_lossy(&out.stdout).contains("certpack make TEXT... -o PACK"));
}
