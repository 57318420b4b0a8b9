//! bench: the library's archives timed beside the Rust original and by themselves, and
//! held against the recorded vectors and certpack. build.rs brings them in.
mod building;
mod check_pace;
mod checks;
mod class_answers;
mod classes;
#[cfg(feature = "original")]
mod classes_pace;
#[cfg(feature = "original")]
mod clock;
mod counts;
mod drawn_packs;
mod edits;
mod families;
mod forms;
#[cfg(feature = "original")]
mod intern;
#[cfg(feature = "original")]
mod joints;
#[cfg(feature = "original")]
mod keys;
mod kinds;
mod limits;
mod numbers;
mod ours;
mod pace;
mod plain;
mod printed;
mod read;
mod reads;
mod recorded;
mod records;
#[cfg(feature = "original")]
mod rounds;
mod search;
mod show;
#[cfg(feature = "original")]
mod show_pace;
mod show_packs;
mod showing;
mod single;
#[cfg(feature = "original")]
#[allow(dead_code)]
#[path = "../../oracle/src/stand_in/mod.rs"]
mod stand_in;
mod trial;
mod tries;
mod unify;
#[cfg(feature = "original")]
mod unify_pace;
mod verdicts;
mod walk;
#[cfg(feature = "original")]
mod walk_pace;
mod wrong;

// The names that the original's files call these by.
#[cfg(feature = "original")]
use stand_in::{lex, pipe, sexp};

#[cfg(feature = "original")]
include!(concat!(env!("OUT_DIR"), "/original.rs"));

use certpack::cli::{self, Fault};
use std::process::ExitCode;

const HELP: &str = "\
bench: the library beside the Rust original

  bench intern            time the interning of generated keys, up to 1,000,000 of
                          them, in the library and in the original
  bench intern --quick    up to 10,000 keys and fewer rounds, for tests
  bench vectors FOLDER    intern the pattern store of each recorded case of FOLDER
                          in the library, and check what comes back
  bench read              time the reading of generated packs, up to 10 MB, in the
                          library
  bench read --quick      up to 100 kB and fewer rounds, for tests
  bench reads FOLDER      read every recorded pack of FOLDER, its truncations and
                          edits, and packs at each limit in the library; check the
                          answers beside certpack's, and that work is cleared
  bench check             time the check of generated packs, up to 100,000 steps, in
                          the library
  bench check --quick     up to 10,000 steps and fewer rounds, for tests
  bench checks FOLDER     check the steps and goals of every recorded pack of FOLDER,
                          the same with wrong steps and goals, and written packs in
                          the library; check the answers beside the recorded ones,
                          certpack's and document 01's, and that work is cleared
  bench classes FOLDER    build the classes of every recorded pack of FOLDER in the library;
                          check every word and figure beside the recorded ones, in
                          buffers just long enough, longer, and a cell too short; its
                          steps without premises one by one, beside their rules; the
                          same with wrong steps and goals, drawn packs and written ones,
                          beside a plain builder and document 01
  bench classes --times   time class building of generated certificates, of up to 100,000
                          steps, in the library and in the original
  bench classes --times --quick
                          up to 10,000 steps and fewer rounds, for tests
  bench show FOLDER       show the goals of every recorded pack of FOLDER in the library;
                          check the text beside the recorded one and, at other budgets,
                          certpack's, in a buffer just long enough and a byte too
                          short; the same with wrong steps and goals, drawn packs, deep
                          and shared terms; all words as class building has them
  bench show --times      time the goals of the same certificates as bench classes, in
                          the library and in the original
  bench show --times --quick
                          up to 10,000 steps and fewer rounds, for tests
  bench search FOLDER     search for recorded judgments of FOLDER, as deep as that goes, and
                          by rules that go round in the library, on a thread with the
                          stack that README asks for; check the lines beside the
                          recorded ones
  bench unify             unify printed sets of terms and drawn pairs in the library; check
                          what comes back beside Robinson's algorithm or a plain
                          unifier, and beside the original where it is in the build
  bench unify --times     time the unification of generated terms, of up to 400,000
                          levels, in the library and in the original
  bench unify --times --quick
                          up to 4,000 levels and fewer rounds, for tests
  bench walk              copy written patterns and drawn ones and read them back in the
                          library; check what comes back beside a plain renumbering
  bench walk --times      time copying and reading back of generated patterns, in the
                          library and in the original
  bench walk --times --quick
                          smaller patterns and fewer rounds, for tests
  bench counts            count the instructions that unifying, copying and reading back take
                          in the library, by valgrind, on terms of one size and of four
                          times that
  bench --help            this page

`bench intern` and all `--times` want a build with the feature `original`.
Exit status: 0 done; 1 a difference, a fault in the input, a full `bench read` in which
reading a byte of a largest pack takes over 3 times as long as one of a smallest, a full
`bench check` or `bench classes --times` in which a step takes over 5 times as long, a full
`bench classes --times` in which the largest takes longer than in the original, a full
`bench show --times` in which goals take longer than in the original, a full
`bench unify --times` or `bench walk --times` in which four times the size takes over 5
times as long from each size to the next, a full `bench walk --times` in which a node of a
largest pattern takes over 5 times as long as one of a smallest, or `bench counts` in which
four times the size takes over 5 times as many instructions, said in one line on standard
error; 2 a wrong call.
";

fn main() -> ExitCode {
    cli::main("bench", run)
}

fn run(args: &[&str]) -> Result<String, Fault> {
    match args {
        ["--help" | "-h" | "help"] => Ok(HELP.into()),
        ["intern"] => beside("intern", false),
        ["intern", "--quick"] => beside("intern", true),
        ["vectors", folder] => Ok(recorded::check(folder)?),
        ["reads", folder] => Ok(reads::check(folder)?),
        ["read"] => Ok(pace::report(false)?),
        ["read", "--quick"] => Ok(pace::report(true)?),
        ["checks", folder] => Ok(checks::check(folder)?),
        ["check"] => Ok(check_pace::report(false)?),
        ["check", "--quick"] => Ok(check_pace::report(true)?),
        ["classes", "--times"] => beside("classes --times", false),
        ["classes", "--times", "--quick"] => beside("classes --times", true),
        ["classes", folder] => Ok(classes::check(folder)?),
        ["show", "--times"] => beside("show --times", false),
        ["show", "--times", "--quick"] => beside("show --times", true),
        ["show", folder] => Ok(show::check(folder)?),
        ["unify"] => Ok(unify::check()?),
        ["unify", "--times"] => beside("unify --times", false),
        ["unify", "--times", "--quick"] => beside("unify --times", true),
        ["search", folder] => Ok(search::check(folder)?),
        ["walk"] => Ok(walk::check()?),
        ["walk", "--times"] => beside("walk --times", false),
        ["walk", "--times", "--quick"] => beside("walk --times", true),
        ["counts"] => Ok(counts::report()?),
        ["counts", "--one", what, kind, numbers @ ..] => Ok(counts::one(what, kind, numbers)?),
        _ => Err(cli::unknown(args)),
    }
}

/// The times of `what` in the library and in the original.
#[cfg(feature = "original")]
fn beside(what: &str, quick: bool) -> Result<String, Fault> {
    let report = match what {
        "intern" => intern::report,
        "classes --times" => classes_pace::report,
        "show --times" => show_pace::report,
        "unify --times" => unify_pace::report,
        _ => walk_pace::report,
    };
    Ok(report(quick)?)
}

#[cfg(not(feature = "original"))]
fn beside(what: &str, _: bool) -> Result<String, Fault> {
    cli::call(format!(
        "{what}: the original is not in this build (feature `original`)"
    ))
}
