//! Answers requests by an image that a stranger wrote: filter IMG < REQUESTS
//! Each line of standard input is a request, and standard output takes a line for each.
use geyserpan::{Image, Terms};
use std::io::{self, BufRead, Write};

fn main() -> Result<(), Box<dyn std::error::Error>> {
    let path = std::env::args().nth(1).ok_or("usage: filter IMG < REQUESTS")?;
    let image = Image::open(&std::fs::read(path)?, &Terms::new().turns(100_000).output(4096))?;
    let (mut line, mut out) = (Vec::new(), io::BufWriter::new(io::stdout().lock()));
    for request in io::stdin().lock().split(b'\n') {
        line.clear();
        image.run_into(&request?, &mut line)?;
        line.push(b'\n');
        out.write_all(&line)?;
    }
    Ok(out.flush()?)
}
