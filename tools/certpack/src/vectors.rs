//! Recorded answers of the Rust original: their file format, read and written.
//! tests/vectors/README.md describes it for people.
use crate::file;
use std::fmt::Write as _;

/// A pack of more bytes than this stands in a file of its own.
pub const INLINE: usize = 1 << 15;

#[derive(Clone, Debug, Default, PartialEq, Eq)]
pub struct Case {
    pub name: String,
    pub pack: Vec<u8>,
    /// What the original's kernel says of the certificate.
    pub kernel: String,
    /// `done`, or how class building ended otherwise.
    pub classes: String,
    pub figures: Vec<u64>,
    pub class_words: Vec<u32>,
    pub pattern_words: Vec<u32>,
    /// Largest graph in cells, pairs taken by unification.
    pub classes_used: Vec<u64>,
    pub shown: String,
    /// Each goal's open variables.
    pub open: Vec<Vec<u32>>,
    /// `done`, or how emission ended otherwise.
    pub emit: String,
    pub emitted: Vec<u64>,
    /// Pattern words that emission added.
    pub more_pattern_words: Vec<u32>,
    /// Largest graph in cells, longest proof text, pairs taken.
    pub emit_used: Vec<u64>,
    pub proof: String,
    pub goals: String,
    /// What the original's checker of schematic proofs says of the text.
    pub schematic: String,
}

fn numbers<T: ToString>(xs: &[T]) -> String {
    let words: Vec<String> = xs.iter().map(T::to_string).collect();
    words.join(" ")
}

fn block(out: &mut String, key: &str, text: &str) {
    let _ = writeln!(out, "{key}");
    for line in text.split_terminator('\n') {
        let _ = writeln!(out, "| {line}");
    }
}

fn hex(bytes: &[u8]) -> String {
    bytes.iter().fold(String::new(), |mut s, b| {
        let _ = write!(s, "{b:02x}");
        s
    })
}

fn unhex(text: &str) -> Option<Vec<u8>> {
    if !text.is_ascii() || text.len() % 2 == 1 {
        return None;
    }
    let byte = |i| u8::from_str_radix(&text[i..i + 2], 16).ok();
    (0..text.len()).step_by(2).map(byte).collect()
}

impl Case {
    /// The file of its own that a large pack has.
    pub fn pack_file(&self) -> Option<String> {
        (self.pack.len() > INLINE).then(|| format!("{}.pack", self.name))
    }

    pub fn write(&self) -> String {
        let mut out = String::new();
        let _ = writeln!(out, "case {}", self.name);
        let _ = match self.pack_file() {
            Some(file) => writeln!(out, "pack-file {file}"),
            None => writeln!(out, "pack {}", hex(&self.pack)),
        };
        let _ = writeln!(out, "kernel {}", self.kernel);
        let _ = writeln!(out, "classes {}", self.classes);
        if self.classes == "done" {
            let _ = writeln!(out, "figures {}", numbers(&self.figures));
            let _ = writeln!(out, "class-words {}", numbers(&self.class_words));
            let _ = writeln!(out, "pattern-words {}", numbers(&self.pattern_words));
            let _ = writeln!(out, "classes-used {}", numbers(&self.classes_used));
            block(&mut out, "shown", &self.shown);
            for variables in &self.open {
                let _ = writeln!(out, "open {}", numbers(variables));
            }
        }
        let _ = writeln!(out, "emit {}", self.emit);
        if self.emit == "done" {
            let _ = writeln!(out, "emitted {}", numbers(&self.emitted));
            let _ = writeln!(
                out,
                "more-pattern-words {}",
                numbers(&self.more_pattern_words)
            );
            let _ = writeln!(out, "emit-used {}", numbers(&self.emit_used));
            block(&mut out, "proof", &self.proof);
            block(&mut out, "goals", &self.goals);
            let _ = writeln!(out, "schematic {}", self.schematic);
        }
        out.push_str("end\n");
        out
    }
}

/// The cases of a file, its large packs read from beside it.
pub fn read(path: &str) -> Result<Vec<Case>, String> {
    let text = file::read_text(path)?;
    let folder = path.rfind('/').map_or("", |i| &path[..=i]);
    let mut cases = Vec::new();
    let mut case = Case::default();
    let mut inside = false;
    let mut open_block: Option<&str> = None;
    for (i, line) in text.lines().enumerate() {
        let bad = |why: &str| format!("{path}:{}: {why}", i + 1);
        if let Some(text) = line.strip_prefix("| ").or((line == "|").then_some("")) {
            let target = match open_block {
                Some("shown") => &mut case.shown,
                Some("proof") => &mut case.proof,
                Some("goals") => &mut case.goals,
                _ => return Err(bad("a line of text outside a text")),
            };
            target.push_str(text);
            target.push('\n');
            continue;
        }
        let (key, rest) = line.split_once(' ').unwrap_or((line, ""));
        if inside != (key != "case") {
            return Err(bad(
                "a case begins here that is not ended, or none is begun",
            ));
        }
        open_block = Some(key);
        match key {
            "case" => {
                inside = true;
                case.name = rest.to_owned();
            }
            "pack" => case.pack = unhex(rest).ok_or_else(|| bad("bytes in hexadecimal"))?,
            "pack-file" => case.pack = file::read(&format!("{folder}{rest}"))?,
            "kernel" => case.kernel = rest.to_owned(),
            "classes" => case.classes = rest.to_owned(),
            "figures" => case.figures = words(rest).ok_or_else(|| bad("numbers"))?,
            "class-words" => case.class_words = words(rest).ok_or_else(|| bad("numbers"))?,
            "pattern-words" => case.pattern_words = words(rest).ok_or_else(|| bad("numbers"))?,
            "classes-used" => case.classes_used = words(rest).ok_or_else(|| bad("numbers"))?,
            "shown" | "proof" | "goals" => {}
            "open" => case.open.push(words(rest).ok_or_else(|| bad("numbers"))?),
            "emit" => case.emit = rest.to_owned(),
            "emitted" => case.emitted = words(rest).ok_or_else(|| bad("numbers"))?,
            "more-pattern-words" => {
                case.more_pattern_words = words(rest).ok_or_else(|| bad("numbers"))?;
            }
            "emit-used" => case.emit_used = words(rest).ok_or_else(|| bad("numbers"))?,
            "schematic" => case.schematic = rest.to_owned(),
            "end" => {
                inside = false;
                cases.push(std::mem::take(&mut case));
            }
            _ => return Err(bad("a line of no known kind")),
        }
    }
    match inside {
        true => Err(format!("{path}: the last case has no end")),
        false => Ok(cases),
    }
}

fn words<T: std::str::FromStr>(text: &str) -> Option<Vec<T>> {
    text.split_ascii_whitespace()
        .map(|w| w.parse().ok())
        .collect()
}

/// The vector files of a folder, in order of their names.
pub fn files(folder: &str) -> Result<Vec<String>, String> {
    let entries = std::fs::read_dir(folder).map_err(|e| format!("{folder}: {e}"))?;
    let names = entries.filter_map(|e| e.ok()?.file_name().into_string().ok());
    let mut paths: Vec<String> = names
        .filter(|n| n.ends_with(".vectors"))
        .map(|n| format!("{folder}/{n}"))
        .collect();
    paths.sort();
    match paths.is_empty() {
        true => Err(format!("{folder}: no vector files")),
        false => Ok(paths),
    }
}
