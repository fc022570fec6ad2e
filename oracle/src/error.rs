//! What lexer.rs and ast.rs answer on failure, as in the Rust's lib.rs. They are built without that file, here and in bench/driver.

#[derive(Debug, Clone, PartialEq, Eq)]
pub enum Error {
    InvalidDate(String),
    UnrecognizedToken(String),
    ParseError,
}
