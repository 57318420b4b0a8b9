//! oracle: the Rust original as an outside judge. It is built from the published
//! source by build.rs; everything else here drives it.
mod generate;
mod hook;
mod record;
mod set;
mod stand_in;

// The names that the original's files call these by.
use stand_in::{lex, pipe, sexp};

include!(concat!(env!("OUT_DIR"), "/original.rs"));

use certpack::cli::{self, Fault};
use certpack::file;
use std::process::ExitCode;

const HELP: &str = "\
oracle: the Rust original's answers

  oracle export TEXT... -o PACK     the pack of what the original reads
  oracle record TEXT... [-o FILE]   its answers on one certificate
  oracle generate SIZE SEED         the text of a random certificate
                                    (SIZE: small, medium or large)
  oracle vectors FOLDER TEXT...     record the whole set of vectors into FOLDER:
                                    each TEXT, then the generated certificates
  oracle --help                     this page

TEXT is as certpack --help describes. Exit status: 0 done; 1 a fault in the
input, said in one line on standard error; 2 a wrong call. An output file is
written whole or not at all.
";

fn main() -> ExitCode {
    // The original's panics are an answer here, not a message.
    std::panic::set_hook(Box::new(|_| {}));
    cli::main("oracle", run)
}

fn run(args: &[&str]) -> Result<String, Fault> {
    match args {
        ["--help" | "-h" | "help"] => Ok(HELP.into()),
        ["export", rest @ ..] => {
            let (forms, target) = cli::texts(rest)?;
            let Some(target) = target else {
                return cli::call("-o PACK is wanted");
            };
            let case = record::record("the text", &forms)?;
            file::write(&target, &case.pack)?;
            Ok(String::new())
        }
        ["record", rest @ ..] => {
            let (forms, target) = cli::texts(rest)?;
            let text = record::record("case", &forms)?.write();
            let Some(path) = target else {
                return Ok(text);
            };
            file::write(&path, text.as_bytes())?;
            Ok(String::new())
        }
        ["generate", size, seed] => {
            let Ok(seed) = seed.parse() else {
                return cli::call(format!("{seed} is no number"));
            };
            set::generated(size, seed).ok_or(Fault::Call(format!("{size} is no size")))
        }
        ["vectors", folder, texts @ ..] => Ok(set::write(folder, texts)?),
        _ => Err(cli::unknown(args)),
    }
}
