//! The samples program of the model: lines on standard input, answered.

use std::io::{self, Read, Write};

fn main() -> io::Result<()> {
    let mut text = Vec::new();
    io::stdin().lock().read_to_end(&mut text)?;
    io::stdout()
        .lock()
        .write_all(&model::samples::answered(&text))
}
