//! Packs with a written answer: a small pack with every kind in it, then what is tried.
use crate::read::{Answer, GOOD};
use crate::records::{named, plain, rule, sort, symbol};
use certpack::pack::{PREDICATE, VARIABLE};

pub struct Try {
    pub what: String,
    pub pack: Vec<u8>,
    pub wanted: Answer,
}

#[derive(Default)]
pub struct Tries(pub Vec<Try>);

impl Tries {
    /// These records get this answer.
    pub fn answer(&mut self, what: &str, wanted: Answer, records: &[Vec<u8>]) {
        self.0.push(Try {
            what: what.into(),
            pack: records.concat(),
            wanted,
        });
    }

    /// These records; the one with this number gets the code.
    pub fn at(&mut self, what: &str, code: u64, number: usize, records: &[Vec<u8>]) {
        let place: usize = records[..number].iter().map(Vec::len).sum();
        let place = place as u64;
        let wanted = match code {
            0 => GOOD,
            _ => Answer { code, place },
        };
        self.answer(what, wanted, records);
    }

    /// The front up to a kind, then these; the last gets the code.
    pub fn last(&mut self, what: &str, code: u64, kind: u16, records: &[Vec<u8>]) {
        let records = [front(kind), records.to_vec()].concat();
        self.at(what, code, records.len() - 1, &records);
    }

    pub fn good(&mut self, what: &str, kind: u16, records: &[Vec<u8>]) {
        self.last(what, 0, kind, records);
    }

    /// The last is against its form.
    pub fn form(&mut self, what: &str, kind: u16, records: &[Vec<u8>]) {
        self.last(what, 1, kind, records);
    }

    /// The last is over a limit.
    pub fn limit(&mut self, what: &str, kind: u16, records: &[Vec<u8>]) {
        self.last(what, 2, kind, records);
    }
}

// The front: numbers of its sorts, symbols, rules, nodes.
pub const N: u32 = 0;
pub const M: u32 = 1;
pub const SORTS: u32 = 2;
pub const Z: u32 = 0;
pub const S: u32 = 1;
pub const C: u32 = 2;
pub const NAT: u32 = 3;
pub const EQ: u32 = 4;
pub const TRUE: u32 = 5;
pub const SYMBOLS: u32 = 6;
pub const NZ: u32 = 0;
pub const NS: u32 = 1;
pub const RULES: u32 = 2;
pub const NODE_Z: u32 = 0;
pub const NAT_Z: u32 = 1;
pub const NODE_SZ: u32 = 2;
pub const NODE_C: u32 = 3;
pub const NAT_SZ: u32 = 4;
pub const NODES: u32 = 5;
pub const STEPS: u32 = 2;
/// Added to a variable's number.
pub const V: u32 = VARIABLE;

/// A pack of 21 records with every kind in it, up to this kind.
pub fn front(kind: u16) -> Vec<Vec<u8>> {
    let mut records = vec![
        sort(b"N"),
        sort(b"M"),
        symbol(N, &[], b"z"),
        symbol(N, &[N], b"s"),
        symbol(M, &[], b"c"),
        symbol(PREDICATE, &[N], b"nat"),
        symbol(PREDICATE, &[N, N], b"eq"),
        symbol(PREDICATE, &[], b"true"),
        rule(&[], 0, &[NAT, Z], b"nz"),
        rule(&[N], 1, &[NAT, V, NAT, S, V], b"ns"),
        plain(4, &[Z]),
        plain(4, &[NAT, NODE_Z]),
        plain(4, &[S, NODE_Z]),
        plain(4, &[C]),
        plain(4, &[NAT, NODE_SZ]),
        plain(5, &[NZ, NAT_Z]),
        plain(5, &[NS, NAT_SZ, 0]),
        named(6, NAT_SZ, b"g"),
        named(7, 1, b"g"),
        plain(8, &[NAT]),
        plain(9, &[S, 0]),
    ];
    records.retain(|record| u16::from(record[4]) <= kind);
    records
}

/// One more good record of this kind behind the front; for kinds with names, of this name.
pub fn more(kind: u16, name: &[u8]) -> Vec<u8> {
    match kind {
        1 => sort(name),
        2 => symbol(N, &[N], name),
        3 => rule(&[], 0, &[NAT, Z], name),
        4 => plain(4, &[S, NODE_SZ]),
        5 => plain(5, &[NZ, NAT_Z]),
        6 => named(6, NAT_Z, name),
        7 => named(7, 0, name),
        8 => plain(8, &[EQ, 1]),
        _ => plain(9, &[S, 0]),
    }
}
