//! The oracle: one line `NOW|PHRASE` in, one line `LEXEMES|TREE|TAKEN|MOMENT` out, by the Rust's own lexer.rs and ast.rs.
//! A line ends at the stage that answers an error or panics, with `error` or `panic` in that stage's field.

#[allow(dead_code)]
mod ast;
mod error;
#[allow(dead_code)]
mod lexer;
mod lines;

pub use error::Error;
use std::io::{self, BufRead, BufWriter, Write};

fn main() -> io::Result<()> {
    // a panic is an answer here, and is not printed besides
    std::panic::set_hook(Box::new(|_| {}));
    let mut out = BufWriter::new(io::stdout().lock());

    for line in io::stdin().lock().split(b'\n') {
        writeln!(out, "{}", lines::answer(&line?))?;
    }
    out.flush()
}
