//! Calls of the library on packs, each answer beside certpack's or one that is written.
use crate::numbers::Numbers;
use crate::ours::zeros;
use crate::read::{Answer, GOOD, LONG, SHORT, work_for};
use crate::tries::Tries;
use certpack::pack::MOST_BYTES;

/// A call of the library, what certpack says in its place, the buffer of all calls, and
/// the numbers drawn for them.
pub struct Trial {
    library: fn(&[u8], &mut [u32]) -> Answer,
    certpack: fn(&[u8]) -> Answer,
    work: Vec<u32>,
    pub drawn: Numbers,
}

impl Trial {
    pub fn new(library: fn(&[u8], &mut [u32]) -> Answer, certpack: fn(&[u8]) -> Answer) -> Trial {
        Trial {
            library,
            certpack,
            work: Vec::new(),
            drawn: Numbers::default(),
        }
    }

    /// A call with so many words of work, full of junk. All must be zero behind it, and
    /// the word after them as it was.
    fn call(&mut self, pack: &[u8], words: usize) -> Result<Answer, String> {
        if self.work.len() <= words {
            self.work.resize(words + 1, 0);
        }
        let start = self.drawn.below(1 << 32) as u32;
        let junk = |i: usize| start.wrapping_add(i as u32).wrapping_mul(0x9e37_79b9);
        for (i, word) in self.work[..=words].iter_mut().enumerate() {
            *word = junk(i);
        }
        let answer = (self.library)(pack, &mut self.work[..words]);
        zeros("work", &self.work[..words])?;
        match self.work[words] == junk(words) {
            true => Ok(answer),
            false => Err("the word behind work is written".into()),
        }
    }

    /// The library's answer must be the one wanted.
    pub fn wants(
        &mut self,
        pack: &[u8],
        words: usize,
        who: &str,
        wanted: Answer,
    ) -> Result<(), String> {
        let why = match self.call(pack, words) {
            Ok(answer) if answer == wanted => return Ok(()),
            Ok(answer) => format!("the library says {answer}, {who} {wanted}"),
            Err(why) => format!("{why} ({who} says {wanted})"),
        };
        Err(format!("{why}; {words} words of work, {}", kept(pack)))
    }

    /// The library, with just enough work, and certpack must agree; their answer.
    pub fn agrees(&mut self, pack: &[u8]) -> Result<Answer, String> {
        let answer = (self.certpack)(pack);
        self.wants(pack, work_for(pack.len()), "certpack", answer)?;
        Ok(answer)
    }

    /// This answer with just enough work and with more; short with a word less.
    pub fn whole(&mut self, pack: &[u8], who: &str, wanted: Answer) -> Result<(), String> {
        let enough = work_for(pack.len());
        self.wants(pack, enough, who, wanted)?;
        self.wants(pack, enough + 777, who, wanted)?;
        self.wants(pack, enough - 1, "document 01", SHORT)
    }

    /// Packs with a written answer, which certpack must give too.
    pub fn tries(&mut self, tries: &Tries) -> Result<usize, String> {
        for one in &tries.0 {
            let at = |why: String| format!("{}: {why}", one.what);
            let certpack = (self.certpack)(&one.pack);
            if certpack != one.wanted {
                let kept = kept(&one.pack);
                let why = format!(
                    "certpack says {certpack}, document 01 {}; {kept}",
                    one.wanted
                );
                return Err(at(why));
            }
            let words = work_for(one.pack.len());
            self.wants(&one.pack, words, "document 01", one.wanted)
                .map_err(at)?;
        }
        Ok(tries.0.len())
    }

    /// Lengths, which are judged ahead of the pack.
    pub fn lengths(&mut self) -> Result<usize, String> {
        let longest = vec![0; MOST_BYTES];
        let longer = vec![0; MOST_BYTES + 1];
        let cut = Answer { code: 1, place: 0 };
        let tries: [(&[u8], usize, Answer); 12] = [
            (&[], 1024, GOOD),
            (&[], 5000, GOOD),
            (&[], 1023, SHORT),
            (&[], 1, SHORT),
            (&[], 0, SHORT),
            (&[0], 1040, cut),
            (&[0], 1039, SHORT),
            (&[0], 0, SHORT),
            (&longest, 0, SHORT),
            (&longest, 1024, SHORT),
            (&longer, 0, LONG),
            (&longer, 1024, LONG),
        ];
        for (pack, words, wanted) in tries {
            self.wants(pack, words, "document 01", wanted)
                .map_err(|why| format!("a pack of {} bytes: {why}", pack.len()))?;
        }
        Ok(tries.len())
    }
}

/// Keeps a pack for inspection, and says where.
pub fn kept(pack: &[u8]) -> String {
    let name = format!("bench-{}.pack", std::process::id());
    let path = std::env::temp_dir().join(name);
    match std::fs::write(&path, pack) {
        Ok(()) => format!("the pack is in {}", path.display()),
        Err(e) => format!("the pack could not be kept: {}: {e}", path.display()),
    }
}
