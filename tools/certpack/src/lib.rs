//! Host-side handling of packs: the format, the text it is made from, its dump,
//! the verdict on its steps, which of them are needed, its goals as shown, and the recorded
//! answers of the Rust original.
//! Written from document 01 alone, so that it can judge the library from outside.
pub mod cli;
pub mod dump;
pub mod emissions;
pub mod file;
pub mod judge;
pub mod needed;
pub mod pack;
pub mod sexp;
pub mod shown;
pub mod text;
pub mod theorems;
pub mod vectors;
pub mod verdict;
