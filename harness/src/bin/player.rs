//! The bench of the harness: a run script on standard input, lines on standard output.

use harness::script::{check::MOST_BYTES, run};
use std::io::{self, BufWriter, Read, Write};

fn main() -> io::Result<()> {
    // One byte over the limit is enough to refuse with 16.
    let mut bytes = Vec::new();
    io::stdin().lock().take(MOST_BYTES as u64 + 1).read_to_end(&mut bytes)?;
    let mut out = BufWriter::with_capacity(1 << 16, io::stdout().lock());
    run(&bytes, &mut out)?;
    out.flush()
}
