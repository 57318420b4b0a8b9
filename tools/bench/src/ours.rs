//! The library's C face, and the buffers lent to it.
use std::fmt::Display;
use std::ops::BitOr;

/// What a call says: 0 done, 2 lengths, 8 short; and how many distinct nodes there are.
#[repr(C)]
#[derive(Clone, Copy, Debug, PartialEq, Eq)]
pub struct Tried {
    pub code: u64,
    pub nodes: u64,
}

pub const DONE: u64 = 0;
pub const SHORT: u64 = 8;

unsafe extern "C" {
    fn intern_all(
        from: *const u32,
        from_len: usize,
        index: *mut u32,
        index_len: usize,
        words: *mut u32,
        words_len: usize,
        numbers: *mut u32,
        numbers_len: usize,
    ) -> Tried;
}

fn call(from: &[u32], index: &mut [u32], words: &mut [u32], numbers: &mut [u32]) -> Tried {
    // SAFETY: four slices, each with its own length; as references they can't overlap.
    unsafe {
        intern_all(
            from.as_ptr(),
            from.len(),
            index.as_mut_ptr(),
            index.len(),
            words.as_mut_ptr(),
            words.len(),
            numbers.as_mut_ptr(),
            numbers.len(),
        )
    }
}

/// The buffers of one call.
pub struct Lent {
    pub index: Vec<u32>,
    pub words: Vec<u32>,
    pub numbers: Vec<u32>,
}

impl Lent {
    /// Room for `words` words of nodes and `numbers` numbers, each place filled.
    pub fn new(words: usize, numbers: usize, fill: fn(usize) -> u32) -> Self {
        let filled = |n| (0..n).map(fill).collect();
        Lent {
            index: filled(4 * (words / 2) + 1),
            words: filled(words),
            numbers: filled(numbers),
        }
    }

    /// Intern the nodes of `from`: for each the count of its arguments, its head, its arguments.
    pub fn intern(&mut self, from: &[u32]) -> Tried {
        call(from, &mut self.index, &mut self.words, &mut self.numbers)
    }

    /// Intern nothing, over the same index and words.
    #[cfg(feature = "original")]
    pub fn intern_nothing(&mut self) -> Tried {
        call(&[], &mut self.index, &mut self.words, &mut [])
    }

    /// Check the buffers behind a call that answered `tried`, which must be `done` with
    /// these nodes' words and these numbers.
    pub fn check(
        &self,
        tried: Tried,
        nodes: usize,
        words: &[u32],
        numbers: &[u32],
    ) -> Result<(), String> {
        if tried.code != DONE {
            return Err(format!("code {}, not {DONE}", tried.code));
        }
        if let Some(i) = differ(&self.numbers, numbers) {
            return Err(format!(
                "key {i} has number {}, not {}",
                self.numbers[i], numbers[i]
            ));
        }
        if tried.nodes != nodes as u64 {
            return Err(format!("{} nodes, not {nodes}", tried.nodes));
        }
        let (kept, rest) = self.words.split_at(words.len());
        if let Some(i) = differ(kept, words) {
            return Err(format!("word {i} is {}, not {}", kept[i], words[i]));
        }
        zeros("words behind the store", rest)?;
        zeros("index", &self.index)
    }

    /// Check the buffers behind a call that answered `tried`, which must be `short`.
    pub fn check_short(&self, tried: Tried) -> Result<(), String> {
        if tried.code != SHORT {
            return Err(format!("code {}, not {SHORT}", tried.code));
        }
        zeros("index", &self.index)?;
        zeros("words", &self.words)?;
        zeros("numbers", &self.numbers)
    }
}

/// Where two slices of one length differ first.
fn differ(a: &[u32], b: &[u32]) -> Option<usize> {
    a.iter().zip(b).position(|(x, y)| x != y)
}

/// That words or bytes are all 0.
pub fn zeros<T>(name: &str, buffer: &[T]) -> Result<(), String>
where
    T: BitOr<Output = T> + Copy + Default + Display + PartialEq,
{
    // Without a way out in the loop it is several words at a time.
    if buffer.iter().fold(T::default(), |seen, &w| seen | w) == T::default() {
        return Ok(());
    }
    let i = buffer.iter().position(|&w| w != T::default()).unwrap_or(0);
    Err(format!("{name}: place {i} holds {}, not 0", buffer[i]))
}
