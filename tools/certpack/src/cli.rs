//! What the command-line tools share: arguments, faults and exit status.
use crate::file;
use crate::text::Forms;
use std::io::Write as _;
use std::process::ExitCode;

pub enum Fault {
    /// The call is wrong: status 2.
    Call(String),
    /// The input is: status 1.
    Input(String),
}

impl From<String> for Fault {
    fn from(why: String) -> Self {
        Fault::Input(why)
    }
}

pub fn call<T>(why: impl Into<String>) -> Result<T, Fault> {
    Err(Fault::Call(why.into()))
}

/// Run a tool: its text to standard output, its fault as one line to standard error.
pub fn main(tool: &str, run: impl FnOnce(&[&str]) -> Result<String, Fault>) -> ExitCode {
    let args = std::env::args_os().skip(1).map(|a| a.into_string());
    let args: Vec<String> = match args.collect() {
        Ok(args) => args,
        Err(_) => {
            eprintln!("{tool}: an argument that is no text");
            return ExitCode::from(2);
        }
    };
    let args: Vec<&str> = args.iter().map(String::as_str).collect();
    match run(&args) {
        Ok(text) => match std::io::stdout().write_all(text.as_bytes()) {
            Ok(()) => ExitCode::SUCCESS,
            Err(e) => {
                eprintln!("{tool}: standard output: {e}");
                ExitCode::FAILURE
            }
        },
        Err(Fault::Input(why)) => {
            eprintln!("{tool}: {why}");
            ExitCode::FAILURE
        }
        Err(Fault::Call(why)) => {
            eprintln!("{tool}: {why}; see {tool} --help");
            ExitCode::from(2)
        }
    }
}

/// A call of no known command.
pub fn unknown(args: &[&str]) -> Fault {
    Fault::Call(match args {
        [] => "a command is wanted".into(),
        [other, ..] => format!("{other}: no such command, or not with these arguments"),
    })
}

/// The forms of the texts named, and the file behind `-o`.
pub fn texts(args: &[&str]) -> Result<(Forms, Option<String>), Fault> {
    let mut texts = Vec::new();
    let mut target = None;
    let mut rest = args.iter();
    while let Some(&arg) = rest.next() {
        if arg == "-o" {
            let Some(&path) = rest.next() else {
                return call("-o wants a file");
            };
            if target.replace(path.to_owned()).is_some() {
                return call("-o is given twice");
            }
        } else if arg.starts_with('-') && arg != "-" {
            return call(format!("{arg}: no such option"));
        } else {
            texts.push((arg.to_owned(), file::read_text(arg)?));
        }
    }
    match texts.is_empty() {
        true => call("a text is wanted"),
        false => Ok((Forms::read(&texts)?, target)),
    }
}
