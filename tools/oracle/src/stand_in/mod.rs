//! Stand-ins for the original's modules that were not published with it: the lexer,
//! the S-expressions and the pipe. Only what the published files call is here.
pub mod lex;
pub mod pipe;
pub mod sexp;
