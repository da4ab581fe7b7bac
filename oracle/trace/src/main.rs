//! The program `trace`: a trace on standard input, its answers on standard output.

use std::io::{self, BufWriter};

fn main() -> io::Result<()> {
    trace::run(io::stdin().lock(), &mut BufWriter::new(io::stdout().lock()))
}
