//! `second`: the bench program. `second vectors`: answers test vectors.

use second::{description, transcript, vectors};
use std::io::{self, BufRead, BufWriter, Read, Write};

fn main() -> io::Result<()> {
    let arguments: Vec<String> = std::env::args().skip(1).collect();
    let arguments: Vec<&str> = arguments.iter().map(String::as_str).collect();
    match arguments[..] {
        [] => bench_program(),
        ["vectors"] => answer_vectors(),
        _ => {
            eprintln!("usage: second [vectors]");
            std::process::exit(2)
        }
    }
}

fn bench_program() -> io::Result<()> {
    // One byte more than allowed is enough to see that there is too much.
    let most = description::INPUT_MAX as u64 + 1;
    let mut input = Vec::new();
    io::stdin().lock().take(most).read_to_end(&mut input)?;
    io::stdout().lock().write_all(transcript::print(&input).as_bytes())
}

fn answer_vectors() -> io::Result<()> {
    let mut out = BufWriter::new(io::stdout().lock());
    for line in io::stdin().lock().lines() {
        out.write_all(vectors::answer(&line?).as_bytes())?;
    }
    out.flush()
}
