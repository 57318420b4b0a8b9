//! Links the library's archives from the folder that RATTLE_LIB names. With the feature
//! `original` the original's published files are modules where they stand, in the
//! folder that HORN_SRC names. Of the one that has the graph it is a copy, with a module
//! more behind it, `door`, for the test of unification, and with three looks at the clock
//! in `run`, outside its loops: so all run at their own speed.
#[path = "../beside.rs"]
mod beside;

use beside::Where::{self, Ahead, Behind};
use beside::put_beside;
use std::path::{Path, PathBuf};
use std::{env, fs, process};

/// Lines of `run` behind or ahead of which the clock is looked at.
const LAPS: [(Where, &str); 3] = [
    (
        Behind,
        "    let truth = read_truth(spec, &mut ground, proof)?;",
    ),
    (Ahead, "    let mut roots = Vec::new();"),
    (Ahead, "    let emitted = match out {"),
];
const LAP: &str = "    crate::clock::lap();";

/// One line, which fails the build.
fn fail(why: String) -> ! {
    println!("cargo::error={why}");
    process::exit(0)
}

/// The files of a folder that a variable names; each must be there.
fn named(variable: &str, what: &str, files: &[&str]) -> Vec<PathBuf> {
    println!("cargo::rerun-if-env-changed={variable}");
    let Some(folder) = env::var_os(variable).filter(|folder| !folder.is_empty()) else {
        fail(format!("{variable} must name the folder of {what}"))
    };
    let folder = fs::canonicalize(&folder)
        .unwrap_or_else(|e| fail(format!("{variable}: {}: {e}", Path::new(&folder).display())));
    let paths: Vec<PathBuf> = files.iter().map(|file| folder.join(file)).collect();
    for path in &paths {
        if !path.is_file() {
            fail(format!("{variable}: no file {}", path.display()));
        }
        println!("cargo::rerun-if-changed={}", path.display());
    }
    paths
}

fn main() {
    let archives = named(
        "RATTLE_LIB",
        "the library's archives (it has libdock.a, libhost_store.a, libhost_read.a, libhost_unify.a, libhost_walk.a and libhost_search.a)",
        &[
            "libdock.a",
            "libhost_store.a",
            "libhost_read.a",
            "libhost_unify.a",
            "libhost_walk.a",
            "libhost_search.a",
        ],
    );
    if let Some(folder) = archives.first().and_then(|archive| archive.parent()) {
        println!("cargo::rustc-link-search=native={}", folder.display());
    }
    for archive in [
        "dock",
        "host_store",
        "host_read",
        "host_unify",
        "host_walk",
        "host_search",
    ] {
        println!("cargo::rustc-link-lib=static={archive}");
    }

    if env::var_os("CARGO_FEATURE_ORIGINAL").is_none() {
        return;
    }
    let out = env::var_os("OUT_DIR").unwrap_or_else(|| fail("OUT_DIR is not set".into()));
    let write = |file: &str, text: &str| {
        let path = Path::new(&out).join(file);
        fs::write(&path, text).unwrap_or_else(|e| fail(format!("{}: {e}", path.display())));
        path
    };
    let mut modules = String::new();
    for mut path in named(
        "HORN_SRC",
        "the original's source (it has src/generalize.rs)",
        &[
            "src/generalize.rs",
            "src/oracle.rs",
            "src/kernel.rs",
            "src/schematic.rs",
        ],
    ) {
        if path.ends_with("generalize.rs") {
            let text = fs::read_to_string(&path)
                .unwrap_or_else(|e| fail(format!("{}: {e}", path.display())));
            let root = env::var_os("CARGO_MANIFEST_DIR")
                .unwrap_or_else(|| fail("CARGO_MANIFEST_DIR is not set".into()));
            let door = Path::new(&root).join("src/door.rs");
            let laps = LAPS.iter().map(|(place, anchor)| (place, *anchor, LAP));
            let clocked =
                put_beside(&text, laps).unwrap_or_else(|why| fail(format!("generalize.rs: {why}")));
            path = write(
                "generalize.rs",
                &format!("{clocked}\n#[path = {door:?}]\npub(crate) mod door;\n"),
            );
        }
        let name = path.file_stem().unwrap_or_default().display();
        modules += &format!("#[allow(dead_code, clippy::all)]\n#[path = {path:?}]\nmod {name};\n");
    }
    write("original.rs", &modules);
}
