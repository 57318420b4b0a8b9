//! certpack: the host tool that makes, shows and checks packs.
use certpack::cli::{self, Fault};
use certpack::emissions::emissions;
use certpack::pack::{Pack, decode};
use certpack::vectors::{self, Case};
use certpack::{dump::dump, file, judge::judge, theorems::theorems, verdict::verdict};
use std::process::ExitCode;

const HELP: &str = "\
certpack: packs of certificate records

  certpack make TEXT... -o PACK   make a pack from theory, goals, proof, cuts and
                                  abstract, in one text file or several
  certpack dump PACK              write a pack as lines that a person can read
  certpack check PACK             test every step and goal: says that all pass, or is
                                  refused at the first that fails
  certpack judge FOLDER           judge the recorded vectors of a folder
  certpack theorems FOLDER N K    write every N-th recorded case, from the K-th on, as
                                  theorems of the definition
  certpack emissions FOLDER MOST N K
                                  the same of emission, for packs of at most MOST bytes
  certpack recorded FOLDER NAME   write what is recorded of one case: shown goals,
                                  proof lines, goal lines
  certpack --help                 this page

Forms of a text ( ; starts a comment):
  (sort NAME)   (ctor NAME (SORT...) SORT)   (pred NAME (SORT...))
  (rule NAME (PREMISE...) CONCLUSION)        variables are written ?x
  (goal NAME JUDGMENT)   (def ?NAME TERM)
  (step N RULE (REF...) ITEM...)             ITEM: the judgment, or (?x TERM)
  (result NAME STEP)
  (cut PREDICATE POSITION...)                positions, from 0, are outputs
  (abstract CONSTRUCTOR POSITION)

Exit status: 0 done; 1 a fault in the input, said in one line on standard
error with its file and line or its number and byte; 2 a wrong call.
An output file is written whole or not at all.
";

fn main() -> ExitCode {
    cli::main("certpack", run)
}

fn run(args: &[&str]) -> Result<String, Fault> {
    match args {
        ["--help" | "-h" | "help"] => Ok(HELP.into()),
        ["make", rest @ ..] => make(rest),
        ["dump", path] => Ok(dump(&read(path)?)),
        ["check", path] => check(path),
        ["judge", folder] => judge_all(folder),
        ["theorems", folder, n, k] => match (n.parse(), k.parse()) {
            (Ok(n @ 1..), Ok(k)) => Ok(theorems(&every(&cases(folder)?, n, k))?),
            _ => cli::call("N and K are numbers, and N is not 0"),
        },
        ["emissions", folder, most, n, k] => match (most.parse(), n.parse(), k.parse()) {
            (Ok(most), Ok(n @ 1..), Ok(k)) => Ok(emissions(&every(&cases(folder)?, n, k), most)?),
            _ => cli::call("MOST, N and K are numbers, and N is not 0"),
        },
        ["recorded", folder, name] => recorded(folder, name),
        _ => Err(cli::unknown(args)),
    }
}

fn make(args: &[&str]) -> Result<String, Fault> {
    let (forms, target) = cli::texts(args)?;
    let Some(target) = target else {
        return cli::call("-o PACK is wanted");
    };
    file::write(&target, &forms.pack()?.encode())?;
    Ok(String::new())
}

fn read(path: &str) -> Result<Pack, Fault> {
    let refused = |r| Fault::Input(format!("{path}: refused, {r}"));
    decode(&file::read(path)?).map_err(refused)
}

fn check(path: &str) -> Result<String, Fault> {
    match verdict(&read(path)?) {
        None => Ok(format!(
            "{path}: every step follows and every goal has its result\n"
        )),
        Some((number, place)) => {
            let why = match number {
                3 => format!("step {place} does not follow by its rule"),
                _ => format!("goal {place} has no result with its judgment"),
            };
            Err(Fault::Input(format!(
                "{path}: refused, {number} at {place}: {why}"
            )))
        }
    }
}

/// The recorded cases of a folder.
fn cases(folder: &str) -> Result<Vec<Case>, Fault> {
    let mut cases = Vec::new();
    for path in vectors::files(folder)? {
        cases.extend(vectors::read(&path)?);
    }
    Ok(cases)
}

/// Every n-th, from the k-th on.
fn every(cases: &[Case], n: usize, k: usize) -> Vec<&Case> {
    cases.iter().skip(k).step_by(n).collect()
}

fn recorded(folder: &str, name: &str) -> Result<String, Fault> {
    for path in vectors::files(folder)? {
        if let Some(c) = vectors::read(&path)?.into_iter().find(|c| c.name == name) {
            let text = format!("{}--\n{}--\n{}", c.shown, c.proof, c.goals);
            return Ok(match (c.classes.as_str(), c.emit.as_str()) {
                ("done", "done") => text,
                (classes, emit) => format!("classes: {classes}\nemit: {emit}\n{text}"),
            });
        }
    }
    Err(Fault::Input(format!("{folder}: no case {name}")))
}

/// The least that the recorded set must hold.
const LEAST_CASES: usize = 400;

fn judge_all(folder: &str) -> Result<String, Fault> {
    let mut cases = Vec::new();
    for path in vectors::files(folder)? {
        for case in vectors::read(&path)? {
            judge(&case).map_err(|why| format!("{path}: case {}: {why}", case.name))?;
            cases.push(case);
        }
    }
    let count = |holds: fn(&Case) -> bool| cases.iter().filter(|c| holds(c)).count();
    let small = count(|c| c.pack.len() <= 512);
    if cases.len() < LEAST_CASES || 3 * small < 2 * cases.len() {
        let why = format!(
            "{folder}: {} cases, {small} of them small: too few",
            cases.len()
        );
        return Err(Fault::Input(why));
    }
    Ok(format!(
        "{} recorded cases judged, {small} of at most 512 bytes\n\
         {} with a goal that stays open, {} with one that falls back to ground, {} with an induction\n\
         {} where the original refuses, {} where it panics, {} where it runs out of time\n",
        cases.len(),
        count(|c| c.emitted.first().is_some_and(|&n| n > 0)),
        count(|c| c.emitted.get(1).is_some_and(|&n| n > 0)),
        count(|c| c.emitted.get(3).is_some_and(|&n| n > 0)),
        count(|c| c.emit.starts_with("error")),
        count(|c| c.emit == "panic"),
        count(|c| c.emit == "out of time"),
    ))
}
