//! Recorded packs with one thing changed: a field, a name's byte, a body's length, a record.
use crate::trial::Trial;
use certpack::pack::{self, Pack, VARIABLE};
use std::ops::Range;

/// Edits for each case: so many bytes read in all, but no fewer than LEAST nor more than MOST.
const BYTES: usize = 1 << 18;
const LEAST: usize = 4;
const MOST: usize = 200;
/// Of a larger pack so many records, drawn, are edited.
const RECORDS: usize = 100;

/// A record in a good pack: where it stands, and how many bytes of it are its name.
pub struct Record {
    pub at: Range<usize>,
    pub name: usize,
}

#[derive(Clone, Copy, Debug)]
pub enum Edit {
    /// The field at this place, of so many bytes, gets this value.
    Field {
        place: usize,
        width: usize,
        value: u32,
    },
    /// The record with this number, from 0, loses its body's last byte.
    Shorter {
        record: usize,
    },
    /// It gets a further byte.
    Longer {
        record: usize,
        byte: u8,
    },
    Twice {
        record: usize,
    },
    Gone {
        record: usize,
    },
    /// It stands behind the next one.
    Later {
        record: usize,
    },
}

pub fn check(trial: &mut Trial, bytes: &[u8]) -> Result<usize, String> {
    let pack = pack::decode(bytes).map_err(|refusal| refusal.to_string())?;
    let records = records(bytes, &pack);
    let mut edits = Vec::new();
    for i in 0..records.len().min(RECORDS) {
        let record = match records.len() > RECORDS {
            true => trial.drawn.below(records.len()),
            false => i,
        };
        fields(trial, bytes, &records[record], &mut edits);
        let byte = [b'a', 0, 32][trial.drawn.below(3)];
        edits.extend([
            Edit::Shorter { record },
            Edit::Longer { record, byte },
            Edit::Twice { record },
            Edit::Gone { record },
        ]);
        if record + 1 < records.len() {
            edits.push(Edit::Later { record });
        }
    }
    let count = (BYTES / bytes.len().max(1))
        .clamp(LEAST, MOST)
        .min(edits.len());
    for i in 0..count {
        let drawn = i + trial.drawn.below(edits.len() - i);
        edits.swap(i, drawn);
        let edited = edits[i].apply(bytes, &records);
        trial
            .agrees(&edited)
            .map_err(|why| format!("{:?}: {why}", edits[i]))?;
    }
    Ok(count)
}

/// The records of a good pack.
pub fn records(bytes: &[u8], pack: &Pack) -> Vec<Record> {
    let sorts = pack.sorts.iter().map(String::len);
    let symbols = pack.symbols.iter().map(|symbol| symbol.name.len());
    let rules = pack.rules.iter().map(|rule| rule.name.len());
    let nameless = vec![0; pack.nodes.len() + pack.steps.len()];
    let goals = pack.goals.iter().map(|goal| goal.name.len());
    let results = pack.results.iter().map(|result| result.name.len());
    let first = sorts.chain(symbols).chain(rules).chain(nameless);
    let mut names = first.chain(goals).chain(results);
    let mut start = 0;
    let mut out = Vec::new();
    while start < bytes.len() {
        let end = start + 6 + get(bytes, start, 4) as usize;
        // Cuts and the abstract record come last and have no name.
        let name = names.next().unwrap_or(0);
        out.push(Record {
            at: start..end,
            name,
        });
        start = end;
    }
    out
}

/// The field at a place, of 1, 2 or 4 bytes.
pub fn get(bytes: &[u8], place: usize, width: usize) -> u32 {
    let field = bytes[place..place + width].iter().rev();
    field.fold(0, |value, &byte| value << 8 | u32::from(byte))
}

/// Each field of a record with each of its new values.
fn fields(trial: &mut Trial, bytes: &[u8], record: &Record, edits: &mut Vec<Edit>) {
    let Range { start, end } = record.at;
    let kind = get(bytes, start + 4, 2);
    for value in (0..=10).chain([256 + kind]).filter(|&value| value != kind) {
        edits.push(Edit::Field {
            place: start + 4,
            width: 2,
            value,
        });
    }
    new_values(trial, bytes, start, 4, edits);
    let mut place = start + 6;
    // The widths of the fields that open the body; the others are words.
    let first: &[usize] = match kind {
        2 => &[4, 2],
        3 => &[2, 2],
        _ => &[],
    };
    for &width in first {
        new_values(trial, bytes, place, width, edits);
        place += width;
    }
    while place < end - record.name {
        new_values(trial, bytes, place, 4, edits);
        place += 4;
    }
    for place in place..end {
        new_values(trial, bytes, place, 1, edits);
    }
}

/// Values for a field of 2 or 4 bytes, and for a name's byte.
const WORDS: [u32; 7] = [0, 1, 255, 256, 257, VARIABLE, u32::MAX];
const LETTERS: [u32; 10] = [0, 1, 32, 33, 40, 41, 63, 126, 127, 255];

/// Each of these values, the old one's neighbours, and some that are drawn.
fn new_values(trial: &mut Trial, bytes: &[u8], place: usize, width: usize, edits: &mut Vec<Edit>) {
    let old = get(bytes, place, width);
    let small = trial.drawn.below(40) as u32;
    let mut values = vec![old.wrapping_sub(1), old.wrapping_add(1), old ^ VARIABLE];
    values.extend([trial.drawn.below(1 << 32) as u32, small, VARIABLE + small]);
    values.extend_from_slice(if width == 1 { &LETTERS } else { &WORDS });
    let mask = u32::MAX >> (32 - 8 * width);
    values.iter_mut().for_each(|value| *value &= mask);
    values.sort();
    values.dedup();
    values.retain(|&value| value != old);
    edits.extend(values.into_iter().map(|value| Edit::Field {
        place,
        width,
        value,
    }));
}

impl Edit {
    pub fn apply(self, bytes: &[u8], records: &[Record]) -> Vec<u8> {
        let at = |record: usize| records[record].at.clone();
        let mut out = bytes.to_vec();
        match self {
            Edit::Field {
                place,
                width,
                value,
            } => out[place..place + width].copy_from_slice(&value.to_le_bytes()[..width]),
            Edit::Shorter { record } => {
                let Range { start, end } = at(record);
                out.remove(end - 1);
                resize(&mut out, start, end - start - 7);
            }
            Edit::Longer { record, byte } => {
                let Range { start, end } = at(record);
                out.insert(end, byte);
                resize(&mut out, start, end - start - 5);
            }
            Edit::Twice { record } => {
                out.splice(at(record).end..at(record).end, bytes[at(record)].to_vec());
            }
            Edit::Gone { record } => {
                out.drain(at(record));
            }
            Edit::Later { record } => {
                let next = bytes[at(record + 1)].to_vec();
                out.drain(at(record + 1));
                out.splice(at(record).start..at(record).start, next);
            }
        }
        out
    }
}

/// The record that starts there says that its body has so many bytes.
fn resize(bytes: &mut [u8], start: usize, length: usize) {
    bytes[start..start + 4].copy_from_slice(&(length as u32).to_le_bytes());
}
