//! Reads question lines, and prints an answer line for each.

use std::io::{self, BufWriter, Write};

use reference::line::Line;

fn main() -> io::Result<()> {
    let mut out = BufWriter::new(io::stdout().lock());
    for line in io::stdin().lines() {
        let line = line?;
        let Some(question) = Line::parse(&line) else {
            return Err(io::Error::other(format!("not a question: {line}")));
        };
        writeln!(out, "{}", question.answer())?;
    }
    out.flush()
}
