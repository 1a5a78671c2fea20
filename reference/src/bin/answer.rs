//! Answers the case lines on standard input, one line for each.

#[path = "common/answers.rs"]
mod answers;

use std::io::{stdin, stdout, BufRead, BufWriter, Result, Write};

fn main() -> Result<()> {
    let mut input = stdin().lock();
    let mut output = BufWriter::new(stdout().lock());
    let mut line = Vec::new();
    while input.read_until(b'\n', &mut line)? > 0 {
        let asked = line.strip_suffix(b"\n").unwrap_or(&line);
        writeln!(output, "{}", answers::answer(asked))?;
        line.clear();
    }
    output.flush()
}
