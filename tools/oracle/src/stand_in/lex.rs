//! A lexer of brackets and atoms over a buffered reader.
use super::sexp::Result;
use std::io::BufRead;

#[derive(Clone, Copy, Debug, PartialEq, Eq)]
pub enum Kind {
    Open,
    Close,
    Atom,
}

pub enum Token<'a> {
    Open,
    Close,
    Atom(&'a str),
}

pub struct Lexer<R> {
    input: R,
    bytes: u64,
    ahead: Option<Kind>,
    /// The atom that `ahead` or the last token stands for.
    atom: String,
}

impl<R: BufRead> Lexer<R> {
    pub fn new(input: R) -> Self {
        Lexer {
            input,
            bytes: 0,
            ahead: None,
            atom: String::new(),
        }
    }

    /// How many bytes were read.
    pub fn bytes(&self) -> u64 {
        self.bytes
    }

    fn byte(&mut self) -> Result<Option<u8>> {
        let buffer = self.input.fill_buf().map_err(|e| e.to_string())?;
        Ok(buffer.first().copied())
    }

    fn skip(&mut self) {
        self.input.consume(1);
        self.bytes += 1;
    }

    pub fn peek(&mut self) -> Result<Option<Kind>> {
        if self.ahead.is_some() {
            return Ok(self.ahead);
        }
        while let Some(b) = self.byte()? {
            match b {
                b' ' | b'\t' | b'\r' | b'\n' => self.skip(),
                b';' => {
                    while self.byte()?.is_some_and(|b| b != b'\n') {
                        self.skip();
                    }
                }
                b'(' | b')' => {
                    self.skip();
                    self.ahead = Some(if b == b'(' { Kind::Open } else { Kind::Close });
                    return Ok(self.ahead);
                }
                _ => {
                    self.read_atom()?;
                    self.ahead = Some(Kind::Atom);
                    return Ok(self.ahead);
                }
            }
        }
        Ok(None)
    }

    fn read_atom(&mut self) -> Result<()> {
        self.atom.clear();
        while let Some(b) = self.byte()? {
            match b {
                33..=126 if !matches!(b, b'(' | b')') => {
                    self.atom.push(char::from(b));
                    self.skip();
                }
                b' ' | b'\t' | b'\r' | b'\n' | b'(' | b')' => break,
                _ => return Err(format!("unexpected byte {b}")),
            }
        }
        Ok(())
    }

    pub fn token(&mut self) -> Result<Option<Token<'_>>> {
        self.peek()?;
        Ok(self.ahead.take().map(|kind| match kind {
            Kind::Open => Token::Open,
            Kind::Close => Token::Close,
            Kind::Atom => Token::Atom(&self.atom),
        }))
    }
}
