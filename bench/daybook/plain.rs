// The day book as a filter, in plain Rust.
#[allow(dead_code)]
mod book;
mod text;

use book::Program;
use std::io::{BufRead, BufReader, Write};

fn main() -> std::io::Result<()> {
    let mut input = BufReader::new(std::io::stdin().lock());
    let mut output = std::io::stdout().lock();
    let mut program = Program::default();
    let mut piece = Vec::new();
    let mut out = Vec::new();
    loop {
        let chunk = input.fill_buf()?;
        let length = chunk.len();
        if length == 0 {
            break;
        }
        for part in chunk.split_inclusive(|b| *b == b'\n') {
            let whole = part.ends_with(b"\n");
            if whole && piece.is_empty() {
                text::answer(&mut program, part, &mut out);
                continue;
            }
            // A byte past the longest line is kept, and shows it to be faulty.
            let room = text::LONGEST + 1 - piece.len();
            piece.extend_from_slice(&part[..part.len().min(room)]);
            if whole {
                text::answer(&mut program, &piece, &mut out);
                piece.clear();
            }
        }
        input.consume(length);
        output.write_all(&out)?;
        out.clear();
    }
    if !piece.is_empty() {
        text::answer(&mut program, &piece, &mut out);
        output.write_all(&out)?;
    }
    output.flush()
}
