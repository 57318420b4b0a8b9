//! The times at which a run of the original passed the places that build.rs marks.
use std::sync::Mutex;
use std::time::Instant;

static LAPS: Mutex<Vec<Instant>> = Mutex::new(Vec::new());

fn laps() -> std::sync::MutexGuard<'static, Vec<Instant>> {
    LAPS.lock().unwrap_or_else(|e| e.into_inner())
}

pub fn lap() {
    laps().push(Instant::now());
}

/// The times since the last call.
pub fn take() -> Vec<Instant> {
    std::mem::take(&mut *laps())
}
