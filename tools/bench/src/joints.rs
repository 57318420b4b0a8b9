//! Certificates such as a dock writes, as text: counters that tick at each joint of a pipe,
//! what they say of the wall there, and pairs of neighbours to dig up. Numbers are cut.
use crate::numbers::Numbers;
use certpack::text::Forms;
use std::fmt::Write as _;
use std::ops::RangeInclusive;

/// The cut predicate.
pub const CUT: &str = "nat";
/// So many goals as a rule.
pub const GOALS: usize = 40;
/// Joints are numbered by so many digits.
const DIGITS: u32 = 4;

pub struct Certificate {
    pub theory: String,
    pub goals: String,
    pub proof: String,
    pub steps: usize,
}

impl Certificate {
    /// The pack of the text.
    pub fn pack(&self) -> Result<Vec<u8>, String> {
        let part = |name: &str, text: &str| (name.to_owned(), text.to_owned());
        let forms = Forms::read(&[
            part("theory", &self.theory),
            part("goals", &self.goals),
            part("proof", &self.proof),
            part("cuts", &format!("(cut {CUT})")),
        ])?;
        Ok(forms.pack()?.encode())
    }
}

const RULES: &str = "\
(rule nz () (nat z))
(rule ns ((nat ?n)) (nat (s ?n)))
(rule rest () (reading ?j z))
(rule tick ((reading ?j ?n)) (reading ?j (s ?n)))
(rule thins ((reading ?j ?n) (nat ?n)) (loss ?j (s ?n)))
(rule joins ((loss ?j ?n) (loss ?k ?m)) (near ?j ?k ?n ?m))
(rule digs ((near ?j ?k ?n ?m) (nat ?m)) (dig ?j ?k))
";

fn theory() -> String {
    let mut text = String::from("(sort Digit) (sort Joint) (sort Nat)\n");
    for d in 0..10 {
        let _ = writeln!(text, "(ctor d{d} () Digit)");
    }
    text += "(ctor joint (Digit Digit Digit Digit) Joint) (ctor z () Nat) (ctor s (Nat) Nat)\n";
    text += "(pred nat (Nat)) (pred reading (Joint Nat)) (pred loss (Joint Nat))\n";
    text += "(pred near (Joint Joint Nat Nat)) (pred dig (Joint Joint))\n";
    text + RULES
}

fn joint(number: usize) -> String {
    let mut text = String::from("(joint");
    for k in (0..DIGITS).rev() {
        let _ = write!(text, " d{}", number / 10_usize.pow(k) % 10);
    }
    text + ")"
}

fn number(n: usize) -> String {
    format!("{}z{}", "(s ".repeat(n), ")".repeat(n))
}

#[derive(Default)]
struct Proof {
    text: String,
    steps: usize,
    /// Results' judgments.
    results: Vec<String>,
}

impl Proof {
    fn step(&mut self, rule: &str, refs: &[usize], judgment: &str) -> usize {
        let refs: Vec<String> = refs.iter().map(usize::to_string).collect();
        let refs = refs.join(" ");
        let _ = writeln!(
            self.text,
            "(step {} {rule} ({refs}) {judgment})",
            self.steps
        );
        self.steps += 1;
        self.steps - 1
    }

    /// A result at the latest step.
    fn result(&mut self, judgment: String) {
        let (name, step) = (self.results.len(), self.steps - 1);
        let _ = writeln!(self.text, "(result g{name} {step})");
        self.results.push(judgment);
    }
}

/// A certificate of about so many steps and at most so many goals, as far as there are results;
/// each counter ticks a number of times from this range.
pub fn certificate(steps: usize, ticks: RangeInclusive<usize>, goals: usize) -> Certificate {
    let mut drawn = Numbers::default();
    let mut proof = Proof::default();
    // Step k is nat(k).
    proof.step("nz", &[], "(nat z)");
    for k in 1..=ticks.end() + 1 {
        proof.step("ns", &[k - 1], &format!("(nat {})", number(k)));
    }
    // The joint before: its name, its step of loss, how much.
    let mut before: Option<(String, usize, usize)> = None;
    for j in 0..10_usize.pow(DIGITS) {
        if proof.steps >= steps {
            break;
        }
        let (here, n) = (
            joint(j),
            ticks.start() + drawn.below(ticks.end() - ticks.start() + 1),
        );
        let mut read = proof.step("rest", &[], &format!("(reading {here} z)"));
        for k in 1..=n {
            read = proof.step("tick", &[read], &format!("(reading {here} {})", number(k)));
        }
        let much = number(n + 1);
        let loss = proof.step("thins", &[read, n], &format!("(loss {here} {much})"));
        if let Some((there, other, m)) = before {
            let near = format!("(near {here} {there} {much} {})", number(m));
            let joined = proof.step("joins", &[loss, other], &near);
            proof.result(near);
            let dig = format!("(dig {here} {there})");
            proof.step("digs", &[joined, m], &dig);
            proof.result(dig);
        }
        before = Some((here, loss, n + 1));
    }
    let apart = proof.results.len().div_ceil(goals).max(1) | 1;
    let mut asked = String::new();
    for (name, judgment) in proof.results.iter().enumerate().step_by(apart) {
        let _ = writeln!(asked, "(goal g{name} {judgment})");
    }
    Certificate {
        theory: theory(),
        goals: asked,
        proof: proof.text,
        steps: proof.steps,
    }
}
