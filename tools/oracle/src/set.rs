//! The set of recorded vectors: hand-made cases from texts, then generated ones.
use crate::generate::{Size, certificate, deep, ladder};
use crate::record::record;
use certpack::file;
use certpack::pack::Pack;
use certpack::text::Forms;
use certpack::vectors::Case;

const SMALL: usize = 300;
const MEDIUM: usize = 120;
const SMALL_BYTES: usize = 512;

fn forms(name: &str, text: String) -> Result<Forms, String> {
    Forms::read(&[(name.to_owned(), text)])
}

/// The text of a generated certificate, by the name of its size.
pub fn generated(size: &str, seed: u64) -> Option<String> {
    match size {
        "small" => Some(small(seed)),
        "medium" => Some(medium(seed)),
        "large" => Some(large(seed)),
        _ => None,
    }
}

/// The first certificate from the seed on that can be read and fits.
fn first(seed: u64, size: impl Fn(u64) -> Size, fits: impl Fn(&Pack) -> bool) -> String {
    let mut tries = 0;
    loop {
        let text = certificate(seed * 1_000 + tries, size(tries));
        let packed = forms("text", text.clone()).and_then(|f| f.pack());
        if packed.is_ok_and(|p| p.steps.len() > 1 && fits(&p)) {
            return text;
        }
        tries += 1;
    }
}

fn small(seed: u64) -> String {
    let size = |tries| Size {
        blocks: 1 + (seed % 3 / 2) as usize,
        uses: 1 + (seed % 3) as usize,
        steps: (3 + (seed + tries) % 8) as usize,
        results: 1 + (seed / 2 % 2) as usize,
        term: 7,
    };
    first(seed, size, |p| {
        let asked = !p.goals.is_empty() || seed.is_multiple_of(16);
        asked && p.encode().len() <= SMALL_BYTES
    })
}

/// A certificate whose pack is no small one.
fn readable(seed: u64, size: Size) -> String {
    first(seed, |_| size, |p| p.encode().len() > SMALL_BYTES)
}

fn medium(seed: u64) -> String {
    let size = Size {
        blocks: 2 + (seed % 4) as usize,
        uses: 2 + (seed % 5) as usize,
        steps: 12 + (seed * 7 % 90) as usize,
        results: 1 + (seed % 6) as usize,
        term: 12,
    };
    readable(500_000 + seed, size)
}

fn large(seed: u64) -> String {
    let size = Size {
        blocks: 6,
        uses: 10,
        steps: 500 * (1 + seed as usize),
        results: 60,
        term: 14,
    };
    readable(900_000 + seed, size)
}

/// Record all cases into the folder, the hand-made ones from their texts; answers a summary.
pub fn write(folder: &str, texts: &[&str]) -> Result<String, String> {
    let mut hand = Vec::new();
    for path in texts {
        let stem = std::path::Path::new(path)
            .file_stem()
            .and_then(|s| s.to_str());
        let read = Forms::read(&[((*path).to_owned(), file::read_text(path)?)])?;
        hand.push(record(stem.unwrap_or(path), &read)?);
    }
    let recorded = |name: String, text: String| record(&name, &forms(&name, text)?);
    for depth in [4096, 4097] {
        hand.push(recorded(format!("deep-{depth}"), deep(depth))?);
    }
    let all = |kind: &str, count: usize| -> Result<Vec<Case>, String> {
        let cases = (0..count).map(|i| {
            let text = generated(kind, i as u64).ok_or("no such size")?;
            recorded(format!("{kind}-{i:03}"), text)
        });
        cases.collect()
    };
    let small = all("small", SMALL)?;
    let medium = all("medium", MEDIUM)?;
    let mut large = all("large", 4)?;
    large.push(recorded("ladder".into(), ladder(20_000))?);
    let files = [
        ("hand", hand),
        ("small", small),
        ("medium", medium),
        ("large", large),
    ];
    let mut summary = String::new();
    for (name, cases) in &files {
        let text: String = cases.iter().map(Case::write).collect();
        for case in cases {
            if let Some(own) = case.pack_file() {
                file::write(&format!("{folder}/{own}"), &case.pack)?;
            }
        }
        file::write(&format!("{folder}/{name}.vectors"), text.as_bytes())?;
        summary += &format!("{name}: {} cases\n", cases.len());
    }
    Ok(summary)
}
