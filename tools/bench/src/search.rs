//! The proof search in the library, on a thread with no more stack than a host needs to give it:
//! as deep as it goes, beside the recorded lines, and by rules that go round.
use crate::ours::zeros;
use certpack::pack::{self, Pack};
use certpack::text::Forms;
use certpack::vectors::{self, Case};
use std::sync::mpsc;
use std::thread;
use std::time::Duration;

/// What a call says: 0 and 0 with the number of the judgment's line and one, or 0 for none, and how
/// many bytes its lines have; or a refusal's number and place.
#[repr(C)]
#[derive(Clone, Copy, Debug, PartialEq, Eq)]
struct Searched {
    code: u64,
    place: u64,
    line: u64,
    text: u64,
}

/// The bytes of stack that README asks of a host's thread.
const STACK: usize = 4 << 20;
/// The depth at which a judgment is tried last, from 0 on.
const LAST: u32 = 4096;
/// No search is timed; one that takes so long does not end.
const ENDLESS: Duration = Duration::from_secs(600);
/// Room for the longest text here.
const TEXT: usize = 1 << 18;
/// What buffers hold ahead of a call.
const JUNK: u32 = 0xdead_beef;

/// Refused: there are too few pattern words.
const SHORT: Searched = Searched {
    code: 8,
    place: 2,
    line: 0,
    text: 0,
};

unsafe extern "C" {
    fn prove_judgment(
        pack: *const u8,
        pack_len: usize,
        work: *mut u32,
        work_len: usize,
        patterns: *mut u32,
        patterns_len: usize,
        proof: *mut u8,
        proof_len: usize,
        node: u32,
        depth: u32,
        name: u32,
    ) -> Searched;
}

/// A judgment of a pack, by its node, from a depth on, with so many words for its patterns.
#[derive(Clone)]
struct Asked {
    pack: Vec<u8>,
    node: u32,
    depth: u32,
    patterns: usize,
}

impl Asked {
    /// The one call; the lines that it writes, and zeros behind them and elsewhere.
    fn call(&self) -> Result<(Searched, Vec<u8>), String> {
        let mut work = vec![JUNK; 16 * (self.patterns + self.pack.len()) + 1024];
        let mut patterns = vec![JUNK; self.patterns];
        let mut proof = vec![JUNK as u8; TEXT];
        // SAFETY: four slices of their own, each with its own length.
        let answer = unsafe {
            prove_judgment(
                self.pack.as_ptr(),
                self.pack.len(),
                work.as_mut_ptr(),
                work.len(),
                patterns.as_mut_ptr(),
                patterns.len(),
                proof.as_mut_ptr(),
                proof.len(),
                self.node,
                self.depth,
                0,
            )
        };
        zeros("proof", &proof[answer.text as usize..])?;
        zeros("patterns", &patterns)?;
        zeros("work", &work)?;
        proof.truncate(answer.text as usize);
        Ok((answer, proof))
    }

    /// The call on a thread of its own, and its answer.
    fn answers(&self, wanted: Searched, lines: &str) -> Result<(), String> {
        let (said, hears) = mpsc::channel();
        let asked = self.clone();
        thread::Builder::new()
            .name(format!("depth {}, {STACK} bytes of stack", self.depth))
            .stack_size(STACK)
            .spawn(move || said.send(asked.call()))
            .map_err(|e| e.to_string())?;
        let (answer, text) = hears.recv_timeout(ENDLESS).map_err(|e| e.to_string())??;
        if answer != wanted {
            return Err(format!("{answer:?}, not {wanted:?}"));
        }
        match text == lines.as_bytes() {
            true => Ok(()),
            false => Err("other lines".into()),
        }
    }

    /// That the judgment has these lines, each but the definitions a step, the last its own.
    fn proved(&self, lines: &str) -> Result<(), String> {
        let steps = lines.lines().filter(|line| line.starts_with("(step "));
        let wanted = Searched {
            code: 0,
            place: 0,
            line: steps.count() as u64,
            text: lines.len() as u64,
        };
        self.answers(wanted, lines)
    }

    /// That there is no proof of it.
    fn fails(&self) -> Result<(), String> {
        self.proved("")
    }
}

pub fn check(folder: &str) -> Result<String, String> {
    let cases = vectors::read(&format!("{folder}/hand.vectors"))?;
    let named = |name: &str| {
        let case = cases.iter().find(|case| case.name == name);
        case.ok_or(format!("{folder}: no case {name}"))
    };
    let deepest = deep(named("deep-4096")?, named("deep-4097")?)?;
    loops(named("loops")?)?;
    let met = round()?;
    Ok(format!(
        "{deepest} levels searched in {STACK} bytes of stack; \
         rules that go round, of {met} judgments too, end\n"
    ))
}

/// The last node of a pack that is a judgment of this predicate.
fn judgment(pack: &Pack, predicate: &str) -> Result<u32, String> {
    let is = |node: &Vec<u32>| pack.symbols[node[0] as usize].name == predicate;
    let node = pack.nodes.iter().rposition(is);
    Ok(node.ok_or(format!("no judgment of {predicate}"))? as u32)
}

/// The judgment of a recorded pack of this predicate.
fn recorded(case: &Case, predicate: &str) -> Result<Asked, String> {
    let pack = pack::decode(&case.pack).map_err(|refusal| refusal.to_string())?;
    Ok(Asked {
        pack: case.pack.clone(),
        node: judgment(&pack, predicate)?,
        depth: 0,
        patterns: 1 << 15,
    })
}

/// The cut judgment of `last` takes every level that there is: it is proved by the recorded lines
/// ahead of the one that rests on it, but not from depth 1. That of `behind` takes a level more.
fn deep(last: &Case, behind: &Case) -> Result<usize, String> {
    let lines = last.proof.split_inclusive('\n');
    let lines: String = lines.take_while(|line| !line.contains(" q (")).collect();
    let levels = lines.matches("(step ").count();
    if levels != LAST as usize + 1 {
        return Err(format!("{}: {levels} recorded steps", last.name));
    }
    let asked = recorded(last, "nat")?;
    let at = |what: &str, why: String| format!("{levels} levels{what}: {why}");
    asked.proved(&lines).map_err(|why| at("", why))?;
    let further = Asked { depth: 1, ..asked }.fails();
    further.map_err(|why| at(" from depth 1", why))?;
    let deeper = recorded(behind, "nat")?.fails();
    deeper.map_err(|why| at(" and one", why))?;
    Ok(levels)
}

/// Two rules give a judgment from itself: 2^4097 tries, were none remembered.
fn loops(case: &Case) -> Result<(), String> {
    for predicate in ["p", "q"] {
        let fails = recorded(case, predicate)?.fails();
        fails.map_err(|why| format!("{}: {predicate}: {why}", case.name))?;
    }
    Ok(())
}

/// A square of so many judgments a side, each of which is tried from its neighbours.
const SIDE: usize = 100;

/// A rule gives a judgment from itself; a search meets many such judgments, each at one depth.
fn round() -> Result<usize, String> {
    let corner = format!("{}z{}", "(s ".repeat(SIDE - 1), ")".repeat(SIDE - 1));
    let text = format!(
        "(sort N) (ctor z () N) (ctor s (N) N) (pred p (N N)) (pred t (N N))
         (rule round ((p ?x ?y)) (p ?x ?y))
         (rule here ((p ?x ?y)) (t ?x ?y))
         (rule left ((t ?x ?y)) (t (s ?x) ?y))
         (rule down ((t ?x ?y)) (t ?x (s ?y)))
         (goal g (t {corner} {corner}))"
    );
    let pack = Forms::read(&[("round".into(), text)])?.pack()?;
    // L takes four words, a node two and one an argument: z, the other numbers, what is met of p and t.
    let (met, numbers) = (SIDE * SIDE, SIDE - 1);
    let asked = Asked {
        pack: pack.encode(),
        node: judgment(&pack, "t")?,
        depth: 0,
        patterns: 4 + 2 + 3 * numbers + 2 * 4 * met,
    };
    let at = |why: String| format!("{met} judgments: {why}");
    asked.fails().map_err(at)?;
    // A word less is too short: so many are met, as they are with few levels left.
    let short = Asked {
        depth: LAST - 2 * SIDE as u32,
        patterns: asked.patterns - 1,
        ..asked
    };
    short.answers(SHORT, "").map_err(at)?;
    Ok(met)
}
