//! The C face of the library's class building, and the buffers lent to it.
use crate::ours::zeros;
use std::fmt::Display;
use std::ops::BitOr;

/// How many figures a call returns.
pub const FIGURES: usize = 13;
/// The longest class, pattern or graph buffer.
pub const MOST_CELLS: usize = 1 << 24;
/// Where buffers start that are lent longer behind each 8.
const FEW_CELLS: usize = 64;
/// What buffers hold ahead of a call.
const JUNK: u32 = 0xdead_beef;

/// What a call returns: document 01's number and place, and the figures in their order.
#[repr(C)]
#[derive(Clone, Copy, Debug, PartialEq, Eq)]
pub struct Returned {
    pub code: u64,
    pub place: u64,
    pub figures: [u64; FIGURES],
}

unsafe extern "C" {
    fn cert_classes(
        pack: *const u8,
        pack_len: usize,
        class: *mut u32,
        class_len: usize,
        pattern: *mut u32,
        pattern_len: usize,
        graph: *mut u32,
        graph_len: usize,
        work: *mut u32,
        work_len: usize,
    ) -> Returned;
}

/// Lengths of buffers 1 to 4: class, pattern, graph and work.
pub type Lengths = [usize; 4];

/// The least work for a pack of so many bytes and these lengths.
fn work_for(pack: usize, pattern: usize, graph: usize) -> usize {
    16 * (pack + pattern + graph) + 1024
}

/// Lengths with the least work.
pub fn least(pack: usize, [class, pattern, graph]: [usize; 3]) -> Lengths {
    [class, pattern, graph, work_for(pack, pattern, graph)]
}

/// Buffers 1 to 4.
pub struct Lent(pub [Vec<u32>; 4]);

impl Lent {
    pub fn new(lengths: Lengths) -> Lent {
        Lent(lengths.map(|length| vec![JUNK; length]))
    }

    pub fn lengths(&self) -> Lengths {
        self.0.each_ref().map(Vec::len)
    }

    pub fn call(&mut self, pack: &[u8]) -> Returned {
        let [class, pattern, graph, work] = &mut self.0;
        classes(pack, [class, pattern, graph, work])
    }

    /// The class and pattern words behind an answer of 0, of a pack with so many steps,
    /// without the zeros.
    pub fn words(&self, steps: usize, returned: Returned) -> Result<[&[u32]; 2], String> {
        let [class, pattern, ..] = &self.0;
        let [_, classes, _, nodes, ..] = returned.figures;
        let (mut rows, mut end) = (steps, 0);
        for _ in 0..classes {
            rows += 3 + *class.get(rows + 2).ok_or("too few class words")? as usize;
        }
        for _ in 0..nodes {
            end += 2 + *pattern.get(end).ok_or("too few pattern words")? as usize;
        }
        let class = class.get(..rows).ok_or("too few class words")?;
        let pattern = pattern.get(..end).ok_or("too few pattern words")?;
        Ok([class, pattern])
    }

    /// That buffer `i` holds these words and zeros behind them.
    pub fn holds(&self, i: usize, words: &[u32]) -> Result<(), String> {
        holds(&self.0[i], words).map_err(|why| format!("buffer {}: {why}", i + 1))
    }

    /// That a refusal has no figures and left zeros only.
    pub fn refused(&self, returned: Returned) -> Result<(), String> {
        if returned.figures != [0; FIGURES] {
            return Err(format!("figures of a refusal: {:?}", returned.figures));
        }
        (0..4).try_for_each(|i| self.holds(i, &[]))
    }

    /// Buffers that are lent longer behind each 8 until there is none, as a host would do;
    /// each 8 must leave zeros.
    pub fn grown(pack: &[u8]) -> Result<(Lent, Returned), String> {
        let mut cells = [FEW_CELLS; 3];
        loop {
            let mut lent = Lent::new(least(pack.len(), cells));
            let returned = lent.call(pack);
            if returned.code != 8 {
                return Ok((lent, returned));
            }
            lent.refused(returned)?;
            match cells.get_mut((returned.place as usize).wrapping_sub(1)) {
                Some(short) if *short < MOST_CELLS => *short *= 2,
                _ => return Err(format!("8 at {} with cells {cells:?}", returned.place)),
            }
        }
    }
}

/// That a buffer holds these cells and zeros behind them.
pub fn holds<T>(buffer: &[T], cells: &[T]) -> Result<(), String>
where
    T: BitOr<Output = T> + Copy + Default + Display + PartialEq,
{
    let Some((front, behind)) = buffer.split_at_checked(cells.len()) else {
        return Err(format!("{} cells for {}", buffer.len(), cells.len()));
    };
    match front.iter().zip(cells).position(|(a, b)| a != b) {
        Some(k) => Err(format!("cell {k} is {}, not {}", front[k], cells[k])),
        None => zeros("what stands behind them", behind),
    }
}

/// Build the classes of a pack in these buffers.
pub fn classes(pack: &[u8], [class, pattern, graph, work]: [&mut [u32]; 4]) -> Returned {
    // SAFETY: five slices, each with its own length; as references they can't overlap.
    unsafe {
        cert_classes(
            pack.as_ptr(),
            pack.len(),
            class.as_mut_ptr(),
            class.len(),
            pattern.as_mut_ptr(),
            pattern.len(),
            graph.as_mut_ptr(),
            graph.len(),
            work.as_mut_ptr(),
            work.len(),
        )
    }
}
