//! Reads symbols, one per line, and prints the declaration of each, or the symbol itself if it has none.

use std::io::{self, BufRead, Write};

fn main() -> io::Result<()> {
    let mut demangler = cosvigle::Demangler::new();
    let mut output = io::BufWriter::new(io::stdout().lock());
    for line in io::stdin().lock().split(b'\n') {
        let line = line?;
        match demangler.try_demangle(&line).map_err(io::Error::other)? {
            Some(text) => output.write_all(text.as_bytes())?,
            None => output.write_all(&line)?,
        }
        output.write_all(b"\n")?;
    }
    output.flush()
}
