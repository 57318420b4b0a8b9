//! The C faces of the library's reader of packs and of its step check.
use certpack::pack::Refusal;

/// What a call says: 0 at 0 of a good pack, else document 01's number and place.
#[repr(C)]
#[derive(Clone, Copy, Debug, PartialEq, Eq)]
pub struct Answer {
    pub code: u64,
    pub place: u64,
}

pub const GOOD: Answer = Answer { code: 0, place: 0 };
/// Work is short.
pub const SHORT: Answer = Answer { code: 8, place: 4 };
/// A lent length is over its limit.
pub const LONG: Answer = Answer { code: 2, place: 0 };

impl std::fmt::Display for Answer {
    fn fmt(&self, f: &mut std::fmt::Formatter) -> std::fmt::Result {
        write!(f, "{} at {}", self.code, self.place)
    }
}

impl From<Refusal> for Answer {
    fn from(refusal: Refusal) -> Self {
        Answer {
            code: refusal.number.into(),
            place: refusal.place as u64,
        }
    }
}

unsafe extern "C" {
    fn parse_pack(pack: *const u8, pack_len: usize, work: *mut u32, work_len: usize) -> Answer;
    fn cert_check(pack: *const u8, pack_len: usize, work: *mut u32, work_len: usize) -> Answer;
}

/// Read a pack and forget it. Work is all zeros behind the call.
pub fn parse(pack: &[u8], work: &mut [u32]) -> Answer {
    // SAFETY: two slices, each with its own length; as references they can't overlap.
    unsafe { parse_pack(pack.as_ptr(), pack.len(), work.as_mut_ptr(), work.len()) }
}

/// Read a pack and judge its steps and goals. Work is all zeros behind the call.
pub fn check(pack: &[u8], work: &mut [u32]) -> Answer {
    // SAFETY: as above.
    unsafe { cert_check(pack.as_ptr(), pack.len(), work.as_mut_ptr(), work.len()) }
}

/// The least words of work for a pack of so many bytes.
pub fn work_for(bytes: usize) -> usize {
    16 * bytes + 1024
}
