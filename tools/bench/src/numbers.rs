//! Drawn numbers, the same in every run; the middle one of several; what a report of times comes to.

/// Xorshift numbers.
pub struct Numbers(u64);

impl Default for Numbers {
    fn default() -> Self {
        Numbers(0x2545_f491_4f6c_dd1d)
    }
}

impl Numbers {
    /// A number below `end`, which is not 0.
    pub fn below(&mut self, end: usize) -> usize {
        self.0 ^= self.0 << 13;
        self.0 ^= self.0 >> 7;
        self.0 ^= self.0 << 17;
        ((u128::from(self.0) * end as u128) >> 64) as usize
    }
}

/// The middle one of an odd number of times.
pub fn median(mut times: Vec<f64>) -> f64 {
    times.sort_by(f64::total_cmp);
    times[times.len() / 2]
}

/// A report; or what grew too fast in it, behind the report itself, unless it was a quick one.
pub fn judged(report: String, quick: bool, grown: Option<String>) -> Result<String, String> {
    match grown {
        Some(what) if !quick => {
            print!("{report}");
            Err(what)
        }
        _ => Ok(report),
    }
}
