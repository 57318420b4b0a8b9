//! How many instructions the library takes to unify, copy and read back, on terms of one size and
//! of four times that: counted by valgrind, so the same in every run, whatever else the machine does.
use crate::families::FAMILIES;
use crate::kinds::KINDS;
use crate::unify::{self, JOINED, READ, UNIFY};
use crate::walk::{self, Asked, Store, VAR};
use std::fmt::Write as _;
use std::process::Command;

/// The lesser size of the terms to unify; each family of patterns has its own.
const SIZE: usize = 2_500;
/// Four times the size may take so many times as much.
const MOST_GROWTH: f64 = 5.0;
/// So many copies are counted together.
const COPIES: u64 = 4;

/// What is counted: a call less another that does all but that.
struct Counted {
    name: String,
    nodes: usize,
    instructions: f64,
}

pub fn report() -> Result<String, String> {
    let mut pairs = Vec::new();
    for kind in &KINDS {
        pairs.push(four_times(|times| unifying(kind.name, times * SIZE))?);
    }
    for family in &FAMILIES {
        let size = |times| times * family.size;
        pairs.push(four_times(|times| copying(family.name, size(times)))?);
        pairs.push(four_times(|times| reading(family.name, size(times)))?);
    }
    let mut out = String::from(
        "Instructions a node, by valgrind: a call less one that does all but what is named\n\n",
    );
    let _ = writeln!(
        out,
        "{:14} {:>7} {:>7} {:>7} {:>7} {:>7}",
        "what", "nodes", "each", "nodes", "each", "growth"
    );
    let mut grown = Vec::new();
    for [small, large] in &pairs {
        let growth = large.instructions / small.instructions;
        let each = |c: &Counted| c.instructions / c.nodes as f64;
        let _ = writeln!(
            out,
            "{:14} {:>7} {:>7.1} {:>7} {:>7.1} {growth:>7.2}",
            small.name,
            small.nodes,
            each(small),
            large.nodes,
            each(large)
        );
        if growth.is_nan() || growth > MOST_GROWTH {
            grown.push(format!("{} {growth:.2}", small.name));
        }
    }
    match grown.is_empty() {
        true => Ok(out),
        false => {
            print!("{out}");
            let grown = grown.join(", ");
            Err(format!(
                "four times the size takes more than {MOST_GROWTH} times as many instructions: {grown}"
            ))
        }
    }
}

/// One size and four times that.
fn four_times(count: impl Fn(usize) -> Result<Counted, String>) -> Result<[Counted; 2], String> {
    Ok([count(1)?, count(4)?])
}

fn unifying(kind: &str, size: usize) -> Result<Counted, String> {
    let call = |stage: u64| counted("unify_nodes", &["unify", kind], &[size as u64, stage]);
    Ok(Counted {
        name: format!("unify {kind}"),
        nodes: unify_terms(kind, size)?.0.len(),
        instructions: call(UNIFY)? - call(READ)?,
    })
}

fn walked(family: &str, size: usize, copies: u64, read: u64) -> Result<f64, String> {
    counted(
        "copy_pattern",
        &["walk", family],
        &[size as u64, copies, read],
    )
}

fn copying(family: &str, size: usize) -> Result<Counted, String> {
    let (some, none) = (
        walked(family, size, COPIES, 0)?,
        walked(family, size, 0, 0)?,
    );
    Ok(Counted {
        name: format!("copy {family}"),
        nodes: patterns(family, size)?.len(),
        instructions: (some - none) / COPIES as f64,
    })
}

fn reading(family: &str, size: usize) -> Result<Counted, String> {
    let (read, not) = (walked(family, size, 1, 1)?, walked(family, size, 1, 0)?);
    Ok(Counted {
        name: format!("read {family}"),
        nodes: patterns(family, size)?.len(),
        instructions: read - not,
    })
}

/// The instructions of a function in one call of this program.
fn counted(function: &str, what: &[&str], numbers: &[u64]) -> Result<f64, String> {
    let me = std::env::current_exe().map_err(|e| e.to_string())?;
    let mut valgrind = Command::new("valgrind");
    valgrind
        .args(["--tool=callgrind", "--callgrind-out-file=/dev/null"])
        .arg(format!("--toggle-collect={function}"))
        .arg(me)
        .args(["counts", "--one"])
        .args(what)
        .args(numbers.iter().map(u64::to_string));
    let ran = valgrind.output().map_err(|e| format!("valgrind: {e}"))?;
    let said = String::from_utf8_lossy(&ran.stderr);
    if !ran.status.success() {
        return Err(format!("valgrind: {said}"));
    }
    let count = said.lines().find_map(|line| {
        let (_, count) = line.split_once("Collected : ")?;
        count.trim().parse::<u64>().ok()
    });
    match count {
        Some(count @ 1..) => Ok(count as f64),
        _ => Err(format!("valgrind counts nothing in {function}: {said}")),
    }
}

/// The one call that is counted.
pub fn one(what: &str, kind: &str, numbers: &[&str]) -> Result<String, String> {
    let numbers: Option<Vec<u64>> = numbers.iter().map(|n| n.parse().ok()).collect();
    match (what, numbers.as_deref()) {
        ("unify", Some(&[size, stage])) => {
            let (nodes, x, y) = unify_terms(kind, size as usize)?;
            let list = unify::words(&nodes);
            let mut lent = unify::Buffers::new(unify::Lent::exact(&nodes));
            let answer = lent.call(&list, x.into(), y.into(), stage);
            said(answer.code == JOINED, format!("{answer:?}"))
        }
        ("walk", Some(&[size, copies, read])) => {
            let nodes = patterns(kind, size as usize)?;
            let p = nodes.len() as u32 - 1;
            let from = walk::words(&nodes);
            let flex = vec![0; nodes.iter().filter(|node| node[0] == VAR).count()];
            // The same buffers for every count, since a call clears what it was lent.
            let cells = COPIES as usize * Store::of(&nodes).cells(p);
            let mut lent = walk::Lent::new(0, from.len(), cells);
            let answer = lent.copy(&Asked::unpacked(&from, &flex, p, copies, read));
            said(answer.code == 0, format!("{answer:?}"))
        }
        _ => Err("a kind and numbers are wanted".into()),
    }
}

fn said(done: bool, answer: String) -> Result<String, String> {
    if done { Ok(String::new()) } else { Err(answer) }
}

fn unify_terms(kind: &str, size: usize) -> Result<(Vec<unify::Node>, u32, u32), String> {
    let kind = KINDS.iter().find(|k| k.name == kind);
    Ok((kind.ok_or("no such kind")?.make)(size))
}

fn patterns(family: &str, size: usize) -> Result<Vec<Vec<u32>>, String> {
    let family = FAMILIES.iter().find(|f| f.name == family);
    Ok((family.ok_or("no such family")?.make)(size))
}
