//! S-expressions over the lexer.
use super::lex::{Lexer, Token};
use std::io::BufRead;

pub type Result<T> = std::result::Result<T, String>;

pub const MAX_DEPTH: usize = 256;

#[derive(Clone, Debug)]
pub enum Sexp {
    Atom(String),
    List(Vec<Sexp>),
}

impl Sexp {
    pub fn atom(&self) -> Result<&str> {
        match self {
            Sexp::Atom(a) => Ok(a),
            Sexp::List(_) => Err("expected an atom".into()),
        }
    }

    pub fn list(&self) -> Result<&[Sexp]> {
        match self {
            Sexp::List(xs) => Ok(xs),
            Sexp::Atom(_) => Err("expected a list".into()),
        }
    }
}

impl std::fmt::Display for Sexp {
    fn fmt(&self, f: &mut std::fmt::Formatter) -> std::fmt::Result {
        match self {
            Sexp::Atom(a) => f.write_str(a),
            Sexp::List(xs) => {
                f.write_str("(")?;
                for (i, x) in xs.iter().enumerate() {
                    let blank = if i == 0 { "" } else { " " };
                    write!(f, "{blank}{x}")?;
                }
                f.write_str(")")
            }
        }
    }
}

/// One form, whose brackets may nest `MAX_DEPTH` deep.
pub fn read<R: BufRead>(lexer: &mut Lexer<R>, depth: usize) -> Result<Sexp> {
    if depth > MAX_DEPTH {
        return Err("S-expression nesting exceeds 256".into());
    }
    match lexer.token()?.ok_or("unexpected end of input")? {
        Token::Atom(a) => Ok(Sexp::Atom(a.to_owned())),
        Token::Close => Err("unexpected closing parenthesis".into()),
        Token::Open => {
            let mut xs = Vec::new();
            while lexer.peek()? != Some(super::lex::Kind::Close) {
                xs.push(read(lexer, depth + 1)?);
            }
            lexer.token()?;
            Ok(Sexp::List(xs))
        }
    }
}

/// All forms of a text.
pub fn parse(source: &str) -> Result<Vec<Sexp>> {
    let lexer = &mut Lexer::new(source.as_bytes());
    let mut forms = Vec::new();
    while lexer.peek()?.is_some() {
        forms.push(read(lexer, 0)?);
    }
    Ok(forms)
}
