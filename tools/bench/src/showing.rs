//! The C face of the library's show call, and the buffers lent to it.
use crate::building::{FIGURES, Lengths, Lent, Returned, holds};
use certpack::shown::Budgets;

/// What the text's bytes are ahead of a call.
const JUNK: u8 = 0xa5;

/// What a call returns: document 01's number and place, the bytes of the text, the figures.
#[repr(C)]
#[derive(Clone, Copy, Debug, PartialEq, Eq)]
pub struct Shown {
    pub code: u64,
    pub place: u64,
    pub text_len: u64,
    pub figures: [u64; FIGURES],
}

impl Shown {
    /// What `cert_classes` has of it.
    pub fn returned(self) -> Returned {
        Returned {
            code: self.code,
            place: self.place,
            figures: self.figures,
        }
    }
}

unsafe extern "C" {
    fn cert_show(
        pack: *const u8,
        pack_len: usize,
        budget: u64,
        value_budget: u64,
        class: *mut u32,
        class_len: usize,
        pattern: *mut u32,
        pattern_len: usize,
        graph: *mut u32,
        graph_len: usize,
        work: *mut u32,
        work_len: usize,
        text: *mut u8,
        text_len: usize,
    ) -> Shown;
}

/// Buffers 1 to 4, and text.
pub struct Page {
    pub words: Lent,
    pub text: Vec<u8>,
}

impl Page {
    pub fn new(lengths: Lengths, text: usize) -> Page {
        Page {
            words: Lent::new(lengths),
            text: vec![JUNK; text],
        }
    }

    /// Show the goals of a pack in these buffers.
    pub fn call(&mut self, pack: &[u8], budgets: Budgets) -> Shown {
        let [class, pattern, graph, work] = &mut self.words.0;
        let text = &mut self.text;
        // SAFETY: six slices, each with its own length; as references they can't overlap.
        unsafe {
            cert_show(
                pack.as_ptr(),
                pack.len(),
                budgets.form,
                budgets.value,
                class.as_mut_ptr(),
                class.len(),
                pattern.as_mut_ptr(),
                pattern.len(),
                graph.as_mut_ptr(),
                graph.len(),
                work.as_mut_ptr(),
                work.len(),
                text.as_mut_ptr(),
                text.len(),
            )
        }
    }

    /// That the text is this one, with zeros behind it.
    pub fn holds(&self, shown: Shown, text: &str) -> Result<(), String> {
        if shown.text_len != text.len() as u64 {
            let front = front(text.as_bytes());
            return Err(format!(
                "a text of {} bytes, not {}: {front}",
                shown.text_len,
                text.len()
            ));
        }
        holds(&self.text, text.as_bytes()).map_err(|why| {
            let (written, wanted) = (front(&self.text), front(text.as_bytes()));
            format!("text: {why}; {written}, not {wanted}")
        })
    }

    /// That a refusal has no text and no figures, and left zeros only.
    pub fn refused(&self, shown: Shown) -> Result<(), String> {
        self.words.refused(shown.returned())?;
        self.holds(shown, "")
    }
}

/// The beginning of a text, on one line.
fn front(text: &[u8]) -> String {
    let front = &text[..text.len().min(200)];
    format!("{:?}", String::from_utf8_lossy(front))
}
