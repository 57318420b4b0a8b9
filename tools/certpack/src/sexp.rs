//! S-expressions with the line where each begins. An atom is bytes 33 to 126 but
//! round brackets; `;` where an atom would begin starts a comment to the line's end.
pub const MOST_NESTED: usize = 256;

#[derive(Clone, Debug)]
pub struct Sexp {
    pub line: usize,
    pub body: Body,
}

#[derive(Clone, Debug)]
pub enum Body {
    Atom(String),
    List(Vec<Sexp>),
}

/// A fault in a text: its line and what is wrong.
#[derive(Clone, Debug, PartialEq, Eq)]
pub struct Fault {
    pub line: usize,
    pub why: String,
}

pub fn fault<T>(line: usize, why: impl Into<String>) -> Result<T, Fault> {
    Err(Fault {
        line,
        why: why.into(),
    })
}

impl Sexp {
    pub fn atom(&self) -> Result<&str, Fault> {
        match &self.body {
            Body::Atom(a) => Ok(a),
            Body::List(_) => fault(self.line, "a name is expected here, not a list"),
        }
    }

    pub fn list(&self) -> Result<&[Sexp], Fault> {
        match &self.body {
            Body::List(xs) => Ok(xs),
            Body::Atom(a) => fault(self.line, format!("a list is expected here, not {a}")),
        }
    }
}

impl std::fmt::Display for Sexp {
    fn fmt(&self, f: &mut std::fmt::Formatter) -> std::fmt::Result {
        match &self.body {
            Body::Atom(a) => f.write_str(a),
            Body::List(xs) => {
                f.write_str("(")?;
                for (i, x) in xs.iter().enumerate() {
                    f.write_str(if i == 0 { "" } else { " " })?;
                    x.fmt(f)?;
                }
                f.write_str(")")
            }
        }
    }
}

/// All forms of a text.
pub fn parse(source: &str) -> Result<Vec<Sexp>, Fault> {
    let bytes = source.as_bytes();
    let mut open: Vec<(usize, Vec<Sexp>)> = Vec::new();
    let mut forms = Vec::new();
    let (mut line, mut i) = (1, 0);
    while let Some(&b) = bytes.get(i) {
        match b {
            b'\n' => {
                line += 1;
                i += 1;
            }
            b' ' | b'\t' | b'\r' => i += 1,
            b';' => i += bytes[i..].iter().take_while(|b| **b != b'\n').count(),
            b'(' if open.len() == MOST_NESTED => {
                return fault(line, "brackets nested more than 256 deep (use def)");
            }
            b'(' => {
                open.push((line, Vec::new()));
                i += 1;
            }
            b')' => {
                let Some((begun, xs)) = open.pop() else {
                    return fault(line, "a closing bracket without an opening one");
                };
                let form = Sexp {
                    line: begun,
                    body: Body::List(xs),
                };
                open.last_mut().map_or(&mut forms, |(_, xs)| xs).push(form);
                i += 1;
            }
            33..=126 => {
                let rest = &bytes[i..];
                let n = rest
                    .iter()
                    .take_while(|b| (33..=126).contains(*b) && !matches!(b, b'(' | b')'))
                    .count();
                let atom = Sexp {
                    line,
                    body: Body::Atom(source[i..i + n].to_owned()),
                };
                open.last_mut().map_or(&mut forms, |(_, xs)| xs).push(atom);
                i += n;
            }
            _ => return fault(line, format!("byte {b}, which no name can have")),
        }
    }
    match open.first() {
        Some((begun, _)) => fault(*begun, "a bracket that is never closed"),
        None => Ok(forms),
    }
}
