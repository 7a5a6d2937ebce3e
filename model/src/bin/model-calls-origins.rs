//! The calls program of the model, in the form with origins: records on standard
//! input, lines out.

use std::io::{self, Read, Write};

fn main() -> io::Result<()> {
    let mut input = Vec::new();
    io::stdin().lock().read_to_end(&mut input)?;
    let output = model::origins::program::run(&input);
    io::stdout().lock().write_all(&output)
}
