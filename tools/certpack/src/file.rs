//! Files read whole and written whole: an output file is complete or absent.
use std::fs;
use std::path::Path;

pub fn read(path: &str) -> Result<Vec<u8>, String> {
    fs::read(path).map_err(|e| format!("{path}: {e}"))
}

pub fn read_text(path: &str) -> Result<String, String> {
    String::from_utf8(read(path)?).map_err(|e| {
        let line = 1 + e.as_bytes()[..e.utf8_error().valid_up_to()]
            .iter()
            .filter(|b| **b == b'\n')
            .count();
        format!("{path}:{line}: a byte that is no text")
    })
}

/// Write beside the target, then rename onto it.
pub fn write(path: &str, bytes: &[u8]) -> Result<(), String> {
    let target = Path::new(path);
    let Some(name) = target.file_name() else {
        return Err(format!("{path}: no file name"));
    };
    let mut beside = name.to_os_string();
    beside.push(format!(".part{}", std::process::id()));
    let beside = target.with_file_name(beside);
    let done = fs::write(&beside, bytes).and_then(|()| fs::rename(&beside, target));
    done.map_err(|e| {
        let _ = fs::remove_file(&beside);
        format!("{path}: {e}")
    })
}
