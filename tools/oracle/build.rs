//! Takes the original's published source from the folder that HORN_SRC names and
//! adds hooks to it, each a line beside one of its own.
#[path = "../beside.rs"]
mod beside;

use beside::Where::{self, Ahead, Behind};
use beside::put_beside;
use std::path::Path;
use std::{env, fs, process};

/// File, the line beside which the hook goes, and the hook.
const HOOKS: &[(&str, Where, &str, &str)] = &[
    // What the original read, for the export of a pack.
    (
        "generalize.rs",
        Behind,
        "    let truth = read_truth(spec, &mut ground, proof)?;",
        "    crate::hook::read(spec, &ground, &goals, &truth, cut, abstract_at);",
    ),
    // Classes and patterns as they stand ahead of emission.
    (
        "generalize.rs",
        Ahead,
        "    let emitted = match out {",
        "    crate::hook::classes(&class_of, classes.iter().map(|c| (c.conclusion, &c.flex[..])), &instances, &an.pat);",
    ),
    // The goals' open variables.
    (
        "generalize.rs",
        Ahead,
        "            Some(emit(",
        "            crate::hook::open(input.open.iter().map(|o| o.iter().copied().collect()));",
    ),
    // Patterns behind emission.
    (
        "generalize.rs",
        Ahead,
        "    Ok((stats, emitted))",
        "    crate::hook::patterns(&an.pat);",
    ),
    // Graph cells, pairs taken, longest text.
    (
        "generalize.rs",
        Behind,
        "    fn push(&mut self, head: u32, sort: u32, args: &[u32]) -> u32 {",
        "        crate::hook::cells(self.head.len() + 1 + self.kids.len() + args.len());",
    ),
    (
        "generalize.rs",
        Behind,
        "        while let Some((a, b)) = work.pop() {",
        "            crate::hook::pair();",
    ),
    (
        "generalize.rs",
        Ahead,
        "        self.out.truncate(s.out);",
        "        crate::hook::text(self.out.len());",
    ),
    (
        "generalize.rs",
        Behind,
        "    em.out.push_str(&results);",
        "    crate::hook::text(em.out.len());",
    ),
    // Turns of what can go on without end, so that "out of time" is a count and not a clock.
    (
        "generalize.rs",
        Behind,
        "    fn prove(&mut self, j: u32, depth: usize) -> Result<u32> {",
        "        crate::hook::turn();",
    ),
    (
        "generalize.rs",
        Behind,
        "    fn bind(&self, p: u32, g: u32, out: &mut Map<u32, u32>) {",
        "        crate::hook::turn();",
    ),
    (
        "generalize.rs",
        Behind,
        "    fn mentions(&self, p: u32, x: u32) -> bool {",
        "        crate::hook::turn();",
    ),
    (
        "generalize.rs",
        Behind,
        "fn replace(store: &mut Store, p: u32, from: u32, to: u32) -> u32 {",
        "    crate::hook::turn();",
    ),
    (
        "generalize.rs",
        Behind,
        "    fn at(&self, p: u32, ctor: u32, pos: usize, out: &mut Set<u32>) {",
        "        crate::hook::turn();",
    ),
    (
        "generalize.rs",
        Behind,
        "    fn show(&self, p: u32, budget: &mut usize, var: &dyn Fn(u32) -> String) -> String {",
        "        crate::hook::turn();",
    ),
];

fn fail(why: String) -> ! {
    println!("cargo::error={why}");
    process::exit(1)
}

fn write(path: &Path, text: &str) {
    fs::write(path, text).unwrap_or_else(|e| fail(format!("{}: {e}", path.display())));
}

fn main() {
    println!("cargo::rerun-if-env-changed=HORN_SRC");
    let Ok(folder) = env::var("HORN_SRC") else {
        fail(
            "HORN_SRC must name the folder of the original's source (it has src/generalize.rs)"
                .into(),
        )
    };
    let out = env::var("OUT_DIR").unwrap_or_else(|_| fail("OUT_DIR is not set".into()));
    let mut modules = String::new();
    for file in ["generalize.rs", "oracle.rs", "kernel.rs", "schematic.rs"] {
        let path = Path::new(&folder).join("src").join(file);
        println!("cargo::rerun-if-changed={}", path.display());
        let source =
            fs::read_to_string(&path).unwrap_or_else(|e| fail(format!("{}: {e}", path.display())));
        let hooks = HOOKS.iter().filter(|hook| hook.0 == file);
        let hooks = hooks.map(|(_, place, anchor, hook)| (place, *anchor, *hook));
        let text = put_beside(&source, hooks).unwrap_or_else(|why| fail(format!("{file}: {why}")));
        let target = Path::new(&out).join(file);
        write(&target, &text);
        let name = file.trim_end_matches(".rs");
        modules += &format!("#[allow(dead_code)]\n#[path = {target:?}]\nmod {name};\n");
    }
    write(&Path::new(&out).join("original.rs"), &modules);
}
